//! Wrong behaviours of the four calls: of the rules and of the refusals.

macro_rules! faults_of_calls {
    ([$($rest:ident)*] { $($listed:tt)* }) => { joined! { [$($rest)*] { $($listed)*
    [CALLS]
    /// The filter cleared at the last epoch turn is tested.
    TestsClearedFilter,
    /// A waiting request is counted in the filters.
    CountsWaits,
    /// A request held by the quota is counted in the filters.
    CountsQuota,
    /// A request refused for its tick is counted in the filters.
    CountsRefused,
    /// A counter named by two hash functions gains 1 for each.
    AddsTwiceToShared,
    /// The wait tick leaves out the epoch turns.
    DelayAloneAsWait,
    /// Requests in flight are forgotten at an epoch turn.
    DropsInFlightAtTurn,
    /// An epoch turn clears the called bank only.
    ClearsCalledBankOnly,
    /// A done refused with 10 moves the clock.
    RefusedDoneMovesClock,
    /// The rank rule looks at the third last activation.
    RankThirdLast,
    /// The row rule takes tRC for tD.
    RowDelayIsTrc,
    /// A filter counter standing at N still gains 1.
    CountsAtThreshold,
    /// The history place moves to 0 from H, not from H - 1.
    PlaceWrapsAtH,
    /// Filter 0 counts an activation twice, filter 1 never.
    FilterZeroTwice,
    /// The last tick of the head is kept instead of the call's tick.
    ClockStands,
    /// An activation is kept with the last tick before the call.
    StampsLastTick,
    /// The history length is ceil(4 * tD / tFAW).
    HistoryPaperLength,
    /// The row bound has N where 2N belongs.
    BoundCountsN,
    /// An empty history place matches row 0 of bank 0.
    EmptyPlaceMatches,
    /// Kept ticks are stored as they are.
    StoresWithoutPlusOne,
    /// The bank rule asks for more than tRC ticks.
    BankGapStrict,
    /// The wait tick regards only the rule that names the cause.
    WaitForNamedCause,
    /// The rank rule looks at the least of the four kept ticks.
    RankLeastOfFour,
    /// The index answers c clipped to D.
    IndexClipped,
    /// The quota is rounded down, as document 01 has it.
    QuotaRoundsDown,
    /// The quota is rounded up.
    QuotaRoundsUp,
    /// The quota is rounded to the nearest, an exact half up.
    QuotaHalfUp,
    /// The quota is rounded to the nearest, an exact half down.
    QuotaHalfDown,
    /// The quota is rounded to the nearest, an exact half to the odd one.
    QuotaHalfToOdd,
    /// The quota is 0 only where c is D or more, else at least 1.
    QuotaKeepsOne,
    /// A request is held by the quota rounded down; the index answers it right.
    RequestRoundsDown,
    /// The index answers the quota rounded down; a request is held by the right
    /// one.
    IndexRoundsDown,
    /// Refusal 7 also compares the oldest history tick with the newest.
    WrapPairIsRise,
    /// Refusal 7 takes two equal history ticks for a rise.
    EqualIsRise,
    /// Refusal 7 misses a rise from place H - 1 to place 0.
    WrapPairMissed,
    /// Refusal 7 misses a rise from one block of 64 places to the next.
    BlockEndMissed,
    /// Refusal 7 misses a rise of more than 2^63.
    LargeRiseMissed,
    /// Refusal 7 takes a gap of 2^58 ticks or more for a rise.
    LargeGapIsRise,
    /// Refusal 7 looks at kept ticks of banks outside the setting.
    LooksAtForeignBanks,
    /// A bad bank or thread is reported before bad memory.
    EightBeforeSeven,
    /// A stored tick is compared with the last tick without taking the 1 off.
    KeptTickOffByOne,
    /// A row is blacklisted only above N.
    BlacklistedAboveN,
    /// The estimate is the greatest of the four counters.
    EstimateGreatest,
    /// A tick at a boundary belongs to the old epoch.
    BoundaryInOldEpoch,
    /// Two or more epochs passed clear one filter only.
    TwoEpochsClearOne,
    /// An epoch turn leaves the index counters standing.
    KeepsIndexAtTurn,
    /// Only the index counter in test gains.
    IndexOfTestedOnly,
    /// Blacklisted is judged after the activation was counted.
    BlacklistedAfterCounting,
    /// Every activation raises the index.
    IndexCountsAll,
    /// The history compares the row and forgets the bank.
    HistoryForgetsBank,
    /// In flight is the named bank's own count, as document 01 has it.
    InFlightOfBank,
    /// In flight is taken over all threads of the named bank.
    InFlightOfAllThreads,
    /// In flight is taken over the banks up to the named one.
    InFlightUpToBank,
    /// In flight is taken over the banks from the named one on.
    InFlightFromBank,
    /// In flight is taken over all banks but the named one.
    InFlightOfOtherBanks,
    /// In flight is taken over all banks but the last.
    InFlightWithoutLast,
    /// In flight is taken over eight banks at most.
    InFlightOfEightBanks,
    /// In flight is taken from cells that lie thread by thread.
    InFlightThreadByThread,
    /// In flight is taken modulo 2^32.
    InFlightWraps,
    /// An activation adds to in flight of bank 0.
    FliesInBankZero,
    /// A done is refused with 10 only if the thread has none in any bank.
    DoneRefusedByTotal,
    /// A done takes nothing from in flight.
    DoneTakesNothing,
    /// A done takes from in flight of bank 0.
    DoneTakesFromBankZero,
    /// A done takes from the first bank that has some of the thread's requests.
    DoneTakesFromFirst,
    /// The quota comes from the counter of bank 0.
    QuotaOfBankZero,
    /// A request is held by the quota of bank 0; the index answers it right.
    RequestOfBankZero,
    /// The quota comes from the thread's greatest counter over the banks.
    QuotaOfGreatest,
    /// The quota holds only when in flight is above it.
    QuotaStrict,
    /// The bank, rank and row rules come before the quota.
    QuotaLast,
    /// The rank rule asks for more than tFAW ticks.
    RankGapStrict,
    /// An activation tD ticks old still holds the row.
    DelayInclusive,
    /// A waiting request does not move the clock.
    WaitKeepsClock,
    /// Reading the index does not move the clock.
    IndexKeepsClock,
    /// A tick equal to the last one is refused.
    EqualTickRefused,
    /// The tick 2^62 is taken.
    TickLimitTaken,
    /// The seeds are read from the highest bit of the row down.
    SeedsReversed,
    } } };
}
