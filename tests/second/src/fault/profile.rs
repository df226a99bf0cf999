//! Wrong readings of the profile mark: in the four calls, in a log that is read or
//! written, and in the planner.

macro_rules! faults_of_profile {
    ([$($rest:ident)*] { $($listed:tt)* }) => { joined! { [$($rest)*] { $($listed)*
    [PROFILE]
    /// 16 is tested before 2.
    ProfileBeforeTwo,
    /// 16 is tested before 4.
    ProfileBeforeFour,
    /// 16 is tested before 5.
    ProfileBeforeFive,
    /// 16 is tested after 6.
    ProfileAfterSix,
    /// 16 is tested after 7.
    ProfileAfterSeven,
    /// 16 is tested after 9.
    ProfileAfterNine,
    /// The small profile refuses 1,024 history places.
    ProfileFullHistoryRefused,
    /// The small profile compares 4 * floor(tD/tFAW).
    ProfileHistoryRoundsDown,
    /// The small profile refuses four banks.
    ProfileFourBanksRefused,
    /// The small profile takes five banks.
    ProfileFiveBanksTaken,
    /// The small profile looks at the banks only.
    ProfileBanksOnly,
    /// The small profile looks at the history only.
    ProfileHistoryOnly,
    /// The small profile refuses only what has too many of both.
    ProfileNeedsBoth,
    /// The mark is not looked at: every setting is of the large profile.
    ProfileMarkIgnored,
    /// A mark above 1 is taken as large.
    ProfileMarkAboveIsLarge,
    /// A mark above 1 is taken as small.
    ProfileMarkAboveIsSmall,
    /// The mark is cut to one bit.
    ProfileMarkLowestBit,
    /// The mark is cut to 8 bits.
    ProfileMarkCutToByte,
    /// The mark is cut to 32 bits.
    ProfileMarkCutTo32Bits,
    /// A mark above 1 is refused with 16, in the place of 16.
    ProfileMarkIsSixteen,
    /// A mark above 1 is refused with 1, after 5.
    ProfileMarkAfterFive,
    /// Mark 1 is taken as large.
    ProfileNeverSmall,
    /// Mark 0 is taken as small.
    ProfileAlwaysSmall,
    /// Mark 0 is taken as small and mark 1 as large.
    ProfilesExchanged,
    /// The small profile refuses a long history with 4, in the place of 4.
    ProfileHistoryIsFour,
    /// The small profile refuses five banks with 1, in the place of 1.
    ProfileBanksAreOne,
    /// 16 is tested in set-up only.
    ProfileInSetupOnly,
    /// 16 is not tested in set-up.
    ProfileNotInSetup,
    /// 16 is not tested in a request.
    ProfileNotInRequest,
    /// 16 is not tested in a done.
    ProfileNotInDone,
    /// 16 is not tested in an index reading.
    ProfileNotInIndex,
    /// A set-up that is refused with 16 clears the head.
    ProfileRefusalClears,
    [SMALL]
    /// The small profile has a threshold greater by one.
    SmallOtherThreshold,
    /// The small profile has half of Q.
    SmallOtherQuota,
    /// The small profile has a delay longer by one tick.
    SmallOtherDelay,
    /// The small profile has 1,024 history places, whatever H is.
    SmallFullHistory,
    /// The small profile has four banks, whatever the setting has.
    SmallFourBanks,
    [CHECKER]
    /// The mark is read from byte 171.
    LogMarkAt171,
    /// The mark is read from byte 173, and byte 172 is a zero.
    LogMarkAt173,
    /// Byte 172 has to be zero.
    LogMarkIsZero,
    /// Byte 173 may be anything.
    LogByte173Free,
    /// Byte 507 may be anything.
    LogByte507Free,
    /// Byte 172 may be anything and is not used.
    LogMarkIgnored,
    /// Mark 1 is judged as large.
    LogMarkNotUsed,
    /// A mark above 1 is taken as large.
    LogMarkAboveIsLarge,
    /// A mark above 1 is taken as small.
    LogMarkAboveIsSmall,
    /// A mark above 1 is refused with 1, with the setting.
    LogMarkIsOne,
    /// A mark above 1 is refused with 13 after the refusals of the setting.
    LogMarkAfterSetting,
    /// A setting above the small profile is refused with 13.
    LogProfileIs13,
    /// A setting above the small profile is refused at the first record.
    LogProfileAtRecords,
    [WRITER]
    /// The mark is not written.
    WriterMarkLost,
    /// The mark is written to byte 173.
    WriterMarkAt173,
    /// The mark is written as a tenth number of 32 bits, before the seeds.
    WriterMarkAsNumber,
    /// The mark is written after the sums were made.
    WriterMarkAfterSums,
    /// A mark above 1 is taken and cut to a byte.
    WriterMarkNotTested,
    /// The mark is cut to a byte and then tested.
    WriterMarkCutToByte,
    /// A mark above 1 is refused with 13.
    WriterMarkIs13,
    /// A setting above the small profile is refused with 16.
    WriterTestsProfile,
    /// A refusal for the mark clears the block.
    WriterRefusalClears,
    [PLANNER]
    /// 4 is given for 16.
    PlanFourForSixteen,
    /// The small profile's limit of banks is not looked at.
    PlanBanksIgnored,
    /// The small profile's limit of the history is not looked at.
    PlanHistoryIgnored,
    /// A delay with 1,024 history places is left out of the small profile.
    PlanFullHistoryLeftOut,
    /// Where the small profile has delays those of the large one are given.
    PlanDelaysOfLarge,
    /// 16 is given where the large profile has no delay either.
    PlanSixteenAlways,
    /// Where the small profile has no delay, the number is that of the smallest
    /// delay with B <= L under it.
    PlanOfSmallestDelay,
    /// The limits of the small profile hold for mark 0 too.
    PlanAlwaysSmall,
    /// A mark above 1 is taken as large.
    PlanMarkAboveIsLarge,
    /// A mark above 1 is taken as small.
    PlanMarkAboveIsSmall,
    /// The delays of the large profile are written where 16 is given.
    PlanRefusalWrites,
    } } };
}
