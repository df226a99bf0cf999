//! Wrong fits of two probes, and wrong refusals of the call that gives them.

macro_rules! faults_of_probes {
    ([$($rest:ident)*] { $($listed:tt)* }) => { joined! { [$($rest)*] { $($listed)*
    [PROBES]
    /// The greatest d that fits is given.
    ProbesGreatest,
    /// The d that fits and is nearest to 0 is given.
    ProbesNearestZero,
    /// The middle of the least and the greatest d that fit is given.
    ProbesMiddle,
    /// The difference of the first pair is the only d that is tried.
    ProbesOffsetOfFirst,
    /// A difference of d + j is not within j of d.
    ProbesStrictAbove,
    /// A difference of d - j is not within j of d.
    ProbesStrictBelow,
    /// The jitter is taken as 0.
    ProbesJitterIgnored,
    /// The jitter is taken as 1 more.
    ProbesJitterOneMore,
    /// The jitter is taken twice.
    ProbesJitterDoubled,
    /// The jitter is taken as the whole width, half of it on each side.
    ProbesJitterHalved,
    /// A difference may be any number below d.
    ProbesAboveOnly,
    /// A difference may be any number above d.
    ProbesBelowOnly,
    /// The difference is the first tick minus the second.
    ProbesFirstMinusSecond,
    /// The sign of the difference is dropped.
    ProbesAbsoluteDifference,
    /// A difference below 0 is taken as 0.
    ProbesDifferenceNotNegative,
    /// A second tick before the first one never fits.
    ProbesSecondEarlierUnfit,
    /// A difference below -1,000 or above 1,000 never fits.
    ProbesDifferenceInRange,
    /// The difference is cut to 32 bits with a sign.
    ProbesDifferenceCut32,
    /// The ticks are cut to 32 bits.
    ProbesTicksCut32,
    /// The ticks are rounded to floating-point numbers of 64 bits.
    ProbesTicksRounded,
    /// The lengths are not compared, and the shorter list decides.
    ProbesLengthsIgnored,
    /// The first list may be longer, and the second decides.
    ProbesFirstMayBeLonger,
    /// The second list may be longer, and the first decides.
    ProbesSecondMayBeLonger,
    /// The lengths may differ by one.
    ProbesOneMoreMayBe,
    /// An empty list fits every other.
    ProbesEmptyFitsAll,
    /// The lengths of the lists are those of their ticks' buffers.
    ProbesLengthsOfBuffers,
    /// What lies behind the counts is looked at, as far as both buffers of a list go.
    ProbesRestOfBuffers,
    /// The bank is not compared.
    ProbesBankIgnored,
    /// The row is not compared.
    ProbesRowIgnored,
    /// Neither bank nor row is compared.
    ProbesWordsIgnored,
    /// The bank is cut to 4 bits.
    ProbesBankCut,
    /// The highest bit of a row's word is not compared.
    ProbesHighestBitIgnored,
    /// The lowest bit of a row's word is not compared.
    ProbesLowestBitIgnored,
    /// The rows may stand in any order.
    ProbesRowsInAnyOrder,
    /// Each list is put in the order of its ticks first.
    ProbesSortedByTick,
    /// Only the first pair is looked at.
    ProbesFirstPairOnly,
    /// Only the last pair is looked at.
    ProbesLastPairOnly,
    /// The first pair is not looked at.
    ProbesFirstPairLeftOut,
    /// The last pair is not looked at.
    ProbesLastPairLeftOut,
    /// The rows of the first pair alone are compared.
    ProbesRowsOfFirstOnly,
    /// The rows of the last pair are not compared.
    ProbesRowsOfLastLeftOut,
    /// The ticks of the first pair alone decide.
    ProbesTicksOfFirstOnly,
    /// The ticks of the last pair play no part.
    ProbesTicksOfLastLeftOut,
    /// The ticks of the first and the last pair alone decide.
    ProbesTicksOfEndsOnly,
    /// A further pair with the difference 0 is added.
    ProbesZeroPair,
    /// The counts are cut to 8 bits once they are tested.
    ProbesCountCut8,
    /// The counts are cut to 16 bits once they are tested.
    ProbesCountCut16,
    /// d is from -999 on.
    ProbesFromMinus999,
    /// d is from -1,001 on.
    ProbesFromMinus1001,
    /// d is up to 999.
    ProbesTo999,
    /// d is up to 1,001.
    ProbesTo1001,
    /// d may be below -1,000.
    ProbesBelowRange,
    /// d may be above 1,000.
    ProbesAboveRange,
    /// d is not below 0.
    ProbesFromZero,
    /// d is not above 0.
    ProbesToZero,
    /// -1,000 is given where only a d below it fits.
    ProbesClippedBelow,
    /// 1,000 is given where only a d above it fits.
    ProbesClippedAbove,
    /// Two empty lists fit with -999.
    ProbesEmptyMinus999,
    /// Two empty lists fit with 0.
    ProbesEmptyZero,
    /// Two empty lists fit with 1,000.
    ProbesEmptyGreatest,
    /// Two empty lists do not fit.
    ProbesEmptyUnfit,
    /// Where the lists do not fit, nothing is written.
    ProbesUnfitNotWritten,
    /// Where they do not fit, the first word alone is written.
    ProbesUnfitOffsetKept,
    /// Where they do not fit, the least d that is not too small for any pair is written.
    ProbesUnfitWritesOffset,
    /// Where they do not fit, -1,000 is written.
    ProbesUnfitWritesLeast,
    /// Lists that do not fit are refused with 18.
    ProbesUnfitRefused,
    /// Lists that differ in length are refused with 6.
    ProbesLengthsRefused,
    /// The two words are exchanged.
    ProbesWordsExchanged,
    /// Where they fit, the first word is not written.
    ProbesFitNotWritten,
    /// Where they fit, d is not written.
    ProbesOffsetNotWritten,
    /// The first word is 0 where they fit and 1 where they do not.
    ProbesFitInverted,
    /// d + 1,000 is written.
    ProbesOffsetBiased,
    /// d is written as a number of 32 bits.
    ProbesOffsetCut32,
    /// d is written without its sign.
    ProbesOffsetAbsolute,
    /// d is written with the other sign.
    ProbesOffsetNegated,
    [PROBES_REFUSALS]
    /// The tick 2^62 is taken.
    ProbesTickLimitTaken,
    /// The tick 2^62 - 1 is refused.
    ProbesTickLimitEarly,
    /// The limit of the ticks is 2^63.
    ProbesTickLimit63,
    /// The ticks are compared as numbers with a sign.
    ProbesTickSigned,
    /// No tick is tested.
    ProbesTicksUntested,
    /// The ticks of the first list are not tested.
    ProbesFirstTicksUntested,
    /// The ticks of the second list are not tested.
    ProbesSecondTicksUntested,
    /// The ticks of pairs alone are tested.
    ProbesPairedTicksOnly,
    /// The ticks of the first list that have no partner are not tested.
    ProbesFirstRestUntested,
    /// The ticks of the second list that have no partner are not tested.
    ProbesSecondRestUntested,
    /// The first tick of each list alone is tested.
    ProbesFirstTickOnly,
    /// The last tick of each list alone is tested, as if they rose.
    ProbesLastTickOnly,
    /// The first tick of each list is not tested.
    ProbesFirstTickUntested,
    /// The last tick of each list is not tested.
    ProbesLastTickUntested,
    /// The ticks behind the counts are tested too.
    ProbesTicksBehindTested,
    /// No tick is tested where the lengths differ.
    ProbesTicksAfterLengths,
    /// No tick is tested where a bank or row differs.
    ProbesTicksAfterRows,
    /// The ticks behind the first pair whose bank or row differs are not tested.
    ProbesTicksUntilRow,
    /// A tick is refused with 9.
    ProbesTickIsNine,
    /// The jitter 1,000 is refused.
    ProbesJitterMostRefused,
    /// The jitter 1,001 is taken.
    ProbesJitterOneAboveTaken,
    /// The jitter is not tested.
    ProbesJitterUntested,
    /// The jitter 0 is refused.
    ProbesJitterZeroRefused,
    /// The jitter is cut to 32 bits.
    ProbesJitterCut32,
    /// A jitter above 1,000 is taken as 1,000.
    ProbesJitterClipped,
    /// The jitter is compared as a number with a sign.
    ProbesJitterSigned,
    /// The jitter is not tested where the lengths differ.
    ProbesJitterAfterLengths,
    /// The jitter is not tested where a bank or row differs.
    ProbesJitterAfterRows,
    /// The jitter is not tested where both lists are empty.
    ProbesJitterOfEmptyFree,
    /// The jitter is refused with 1.
    ProbesJitterIsOne,
    /// The count of the first list is not compared with its ticks.
    ProbesSixFirstTicksFree,
    /// The count of the first list is not compared with its rows.
    ProbesSixFirstRowsFree,
    /// The count of the second list is not compared with its ticks.
    ProbesSixSecondTicksFree,
    /// The count of the second list is not compared with its rows.
    ProbesSixSecondRowsFree,
    /// A count of the first list that is the length of its ticks is refused.
    ProbesSixFirstTicksAt,
    /// A count of the first list that is the length of its rows is refused.
    ProbesSixFirstRowsAt,
    /// A count of the second list that is the length of its ticks is refused.
    ProbesSixSecondTicksAt,
    /// A count of the second list that is the length of its rows is refused.
    ProbesSixSecondRowsAt,
    /// A count of the first list that is one above the length of its ticks is taken.
    ProbesSixFirstTicksAbove,
    /// A count of the first list that is one above the length of its rows is taken.
    ProbesSixFirstRowsAbove,
    /// A count of the second list that is one above the length of its ticks is taken.
    ProbesSixSecondTicksAbove,
    /// A count of the second list that is one above the length of its rows is taken.
    ProbesSixSecondRowsAbove,
    /// The counts are compared with the ticks alone.
    ProbesSixByTicksOnly,
    /// The counts are compared with the rows alone.
    ProbesSixByRowsOnly,
    /// The count of the first list alone is compared.
    ProbesSixFirstOnly,
    /// The count of the second list alone is compared.
    ProbesSixSecondOnly,
    /// No count is compared.
    ProbesSixUntested,
    /// Every buffer has to hold the greater of the counts.
    ProbesSixByGreater,
    /// Every buffer has to hold the lesser of the counts.
    ProbesSixByLesser,
    /// The counts are cut to 32 bits before they are tested.
    ProbesCountCut32,
    /// The counts are compared as numbers with a sign.
    ProbesCountSigned,
    /// The jitter is tested before the counts.
    ProbesJitterBeforeSix,
    /// The ticks, as far as there are any, are tested before the counts.
    ProbesTicksBeforeSix,
    /// A count is refused with 18.
    ProbesSixIsEighteen,
    /// Lists with a count that is too great do not fit.
    ProbesSixUnfit,
    /// Lists with a jitter or a tick that is too great do not fit.
    ProbesEighteenUnfit,
    /// The refusal 6 writes two zeros.
    ProbesSixWrites,
    /// The refusal 18 writes two zeros.
    ProbesEighteenWrites,
    /// The refusal 18 writes the verdict.
    ProbesEighteenAndVerdict,
    } } };
}
