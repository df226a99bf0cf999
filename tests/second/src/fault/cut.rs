//! Wrong selections of a cut-down log, and wrong refusals of the call that gives them.

macro_rules! faults_of_cut {
    ([$($rest:ident)*] { $($listed:tt)* }) => { joined! { [$($rest)*] { $($listed)*
    [CUT]
    /// One pass is made.
    CutOnePass,
    /// Two passes are made at most.
    CutTwoPasses,
    /// Three passes are made at most.
    CutThreePasses,
    /// Six passes are made at most.
    CutSixPasses,
    /// Each pass goes from the last record to the first.
    CutLastToFirst,
    /// Every second pass goes from the last record to the first.
    CutTurnsBack,
    /// After each removal the pass starts again from the first record.
    CutRestarts,
    /// After a removal the next record is not tried in this pass.
    CutSkipsNext,
    /// A pass ends at the first record that stays.
    CutEndsAtNeeded,
    /// The first record of a selection is not tried.
    CutFirstKept,
    /// The last record of a selection is not tried.
    CutLastKept,
    /// Records after the first one that differs are not tried.
    CutRestKept,
    /// Each record is left out of all records, once, and those left out go together.
    CutTriesOriginal,
    /// Each record is left out of what the pass began with, and those left out go together.
    CutTriesPassStart,
    /// Two records that follow each other are left out too.
    CutPairsToo,
    /// All records stay.
    CutKeepsAll,
    /// The first record that differs stays alone.
    CutDifferingOnly,
    /// The records up to the first one that differs stay.
    CutUpToDiffering,
    /// A selection differs only if the same record does as in the log.
    CutSameRecord,
    /// A selection that is refused first counts as differing.
    CutRefusalDiffers,
    /// A selection that is refused with 10 first counts as differing.
    CutTenDiffers,
    /// A selection that is refused with 9 first counts as differing.
    CutNineDiffers,
    /// A refused record of a selection is passed over.
    CutRefusalPassedOver,
    /// A refused record differs if it says a wait or a quota.
    CutRefusedAnswerDiffers,
    /// A selection of records that agrees counts as differing.
    CutAgreesDiffers,
    /// The empty selection counts as differing.
    CutEmptyDiffers,
    /// Wait ticks are not compared.
    CutWaitsIgnored,
    /// Answers are not compared.
    CutAnswersIgnored,
    /// It is only compared whether a request is opened.
    CutOpenedOrHeld,
    /// A done always agrees.
    CutDoneAgrees,
    /// The wait tick of a done is not compared.
    CutDoneWaitIgnored,
    /// A done with a row other than 0 differs.
    CutDoneRowDiffers,
    /// A run begins with the state that the run before it left.
    CutKeepsState,
    /// A run begins with the filter counters of the run before it.
    CutKeepsFilters,
    /// A run begins with the history of the run before it.
    CutKeepsHistory,
    /// A run begins with the index counters of the run before it.
    CutKeepsIndex,
    /// A run begins with the counts in flight of the run before it.
    CutKeepsInFlight,
    /// A run begins with the head of the run before it.
    CutKeepsHead,
    /// A run begins with the last tick of the run before it.
    CutKeepsLastTick,
    /// A run begins with the banks' last activations of the run before it.
    CutKeepsBanks,
    /// A run begins with the rank's last activations of the run before it.
    CutKeepsRank,
    /// Record i is bit 63 - i.
    CutBitsReversed,
    /// Record i of n is bit n - 1 - i.
    CutBitsReversedInLog,
    /// Record i is bit i + 1.
    CutBitOneUp,
    /// A record's bit is its place in its block.
    CutBitsOfBlock,
    /// The selection is cut to 32 bits.
    CutMask32,
    /// Bit 63 is lost.
    CutBit63Lost,
    /// The complement of the selection, in 64 bits, is written.
    CutComplement,
    /// The records that are left out are written.
    CutLeftOutWritten,
    /// Nothing is written.
    CutNotWritten,
    /// The selection is added to the bits that out has.
    CutOred,
    [CUT_REFUSALS]
    /// 64 records are refused with 20.
    CutTwentyAt64,
    /// 65 records are taken.
    CutTwentyAbove65,
    /// More than three blocks of records are refused with 20.
    CutTwentyAbove60,
    /// Up to four blocks of records are taken.
    CutTwentyAbove80,
    /// 20 is not tested.
    CutTwentyLeftOut,
    /// More than 64 records are refused with 21.
    CutTwentyIs21,
    /// More than 64 records are refused with 13.
    CutTwentyIs13,
    /// 20 is tested before all else.
    CutTwentyFirst,
    /// 20 is tested after block 0 and before its setting.
    CutTwentyBeforeSetting,
    /// 20 is tested before the blocks of records.
    CutTwentyBeforeBlocks,
    /// 20 is given at the block with the 65th record, before later blocks are tested.
    CutTwentyWhenCounted,
    /// 21 is tested before 20.
    CutTwentyOneBeforeTwenty,
    /// Records that agree are answered, all of them staying.
    CutAgreesTaken,
    /// Records that are refused first are cut down.
    CutRefusedTaken,
    /// No records at all are answered with 0.
    CutNoneTaken,
    /// No records at all are refused with 11.
    CutNoneIs11,
    /// No records at all are refused with 13.
    CutNoneIs13,
    /// Records that do not differ are refused with 20.
    CutSameIs20,
    /// Records that are refused first are refused with the model's number.
    CutRefusedHasItsNumber,
    /// Blocks after the one with the first differing record are not tested.
    CutBlocksUntilDiffering,
    /// Blocks after the one with a first refused record are not tested.
    CutBlocksUntilRefused,
    /// Blocks after block 1 are not tested.
    CutFirstBlocksOnly,
    /// A block that is cut off is refused with 12.
    CutElevenIs12,
    /// A block that is cut off is refused with 13.
    CutElevenIs13,
    /// A log that ends within a block is refused with 11 before all else.
    CutElevenFirst,
    /// What follows the last whole block is ignored.
    CutElevenLeftOut,
    /// An empty log is refused with 21.
    CutEmptyIs21,
    /// A wrong sum is refused with 11.
    CutTwelveIs11,
    /// A wrong sum is refused with 13.
    CutTwelveIs13,
    /// The sums are not tested.
    CutTwelveLeftOut,
    /// The first sum is not tested.
    CutPlainSumFree,
    /// The second sum is not tested.
    CutWeightedSumFree,
    /// The sums of block 0 are not tested.
    CutSumsOfFirstFree,
    /// The sums of the blocks of records are not tested.
    CutSumsOfLaterFree,
    /// Wrong contents are refused with 12.
    CutThirteenIs12,
    /// Wrong contents are refused with 11.
    CutThirteenIs11,
    /// Contents are tested before the sums.
    CutThirteenBeforeTwelve,
    /// The block number is not tested.
    CutNumberFree,
    /// The record count of block 0 is not tested.
    CutFirstCountFree,
    /// A block of no records is taken.
    CutCountZeroFree,
    /// A count above 20 is taken as 20.
    CutCountAbove20Free,
    /// Bytes 5 to 7 are not tested.
    CutZerosFree,
    /// A kind above 1 is taken as a done.
    CutKindFree,
    /// An answer above 4 is taken as 4.
    CutAnswerFree,
    /// The last two bytes of a record are not tested.
    CutRecordZerosFree,
    /// What follows the records of a block is not tested.
    CutRestFree,
    /// A block after one of fewer than 20 records is taken.
    CutShortBlockFree,
    /// The setting is tested before block 0.
    CutSettingFirst,
    /// The setting is tested after all blocks.
    CutSettingAfterBlocks,
    /// The setting is tested after 20.
    CutSettingAfterTwenty,
    /// A refused setting is refused with 13.
    CutSettingIs13,
    /// A refused setting is refused with 21.
    CutSettingIs21,
    /// A refusal for a block writes 0.
    CutBlockWrites,
    /// A refusal for the setting writes 0.
    CutSettingWrites,
    /// 20 writes 0.
    CutTwentyWrites,
    /// 21 writes 0.
    CutTwentyOneWrites,
    /// 21 writes all records.
    CutTwentyOneWritesAll,
    } } };
}
