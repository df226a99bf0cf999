//! Wrong behaviours of the change-over.

macro_rules! faults_of_change {
    ([$($rest:ident)*] { $($listed:tt)* }) => { joined! { [$($rest)*] { $($listed)*
    [CHANGE]
    /// N up to 2^20 is taken.
    ChangeNewThreshold,
    /// Up to 32,768 history places are taken.
    ChangeNewHistory,
    /// N 32,768 is refused.
    ChangeThresholdExcluded,
    /// 4,096 history places are refused.
    ChangeHistoryExcluded,
    /// The seeds are not looked at.
    ChangeSeedsLeftOut,
    /// 16 is not tested.
    ChangeSixteenLeftOut,
    /// 16 is tested after 6.
    ChangeSixteenAfterSix,
    /// 16 is tested after 7.
    ChangeSixteenAfterSeven,
    /// 6 does not look at the old counters; what is there is taken over.
    ChangeOldLengthLeftOut,
    /// 6 does not look at the new counters; as many as fit are written.
    ChangeNewLengthLeftOut,
    /// 6 does not look at the history ticks.
    ChangeTicksLengthLeftOut,
    /// 6 does not look at the history rows.
    ChangeRowsLengthLeftOut,
    /// 6 does not look at the thread counters.
    ChangeThreadsLengthLeftOut,
    /// 6 asks for twice as many new counters.
    ChangeNewLengthDoubled,
    /// 6 refuses new counters that are longer than needed.
    ChangeNewRestRefused,
    /// 6 refuses any buffer that is longer than needed.
    ChangeRestRefused,
    /// 7 is not tested.
    ChangeSevenLeftOut,
    /// 7 does not look at the next history place.
    ChangePlaceLeftOut,
    /// 7 does not look at kept ticks after the last tick.
    ChangeKeptLeftOut,
    /// 7 does not look for stored history ticks that rise.
    ChangeRiseLeftOut,
    /// 7 looks at kept ticks of banks outside the setting.
    ChangeForeignBanks,
    /// 7 is tested before 6.
    ChangeSevenBeforeSix,
    /// 7 is given for a counter above N.
    ChangeAboveRefused,
    /// A last tick of 2^62 or more is refused with 9.
    ChangeLateTickRefused,
    /// The counters of bank 0 alone are taken over.
    ChangeFirstBankOnly,
    /// The counters of all banks but the last are taken over.
    ChangeLastBankLeftOut,
    /// The counters of filter 0 alone are taken over.
    ChangeFilterZeroOnly,
    /// The counters of the tested filter alone are taken over, the others cleared.
    ChangeTestedOnly,
    /// The filters are exchanged.
    ChangeFiltersExchanged,
    /// The banks are taken over in the opposite order.
    ChangeBanksBackwards,
    /// The last counter is not taken over.
    ChangeLastLeftOut,
    /// The first counter is not taken over.
    ChangeFirstLeftOut,
    /// Each counter is that of the place before.
    ChangeShifted,
    /// The new counters become 0.
    ChangeZeroes,
    /// The new counters are left as they are.
    ChangeNothingWritten,
    /// The counters are scaled to the greater threshold, by 32.
    ChangeRescales,
    /// Two old counters are packed into each of the first new ones.
    ChangePacks,
    /// A counter of 32,768 or more is taken for a negative number of 16 bits.
    ChangeSigned,
    /// A counter above N becomes N.
    ChangeClipped,
    /// A counter is cut to 8 bits.
    ChangeCutToByte,
    /// The old counters are added to what the new ones hold.
    ChangeAdds,
    /// Only the low halves of the new counters are written.
    ChangeHighHalfKept,
    /// The first cell after the used new counters is written.
    ChangeOneMore,
    /// The rest of the new counters is cleared.
    ChangeClearsRest,
    /// The rest of the old counters is taken over too.
    ChangeCopiesRest,
    /// The old counters are cleared.
    ChangeClearsOld,
    /// The last tick moves on by one.
    ChangeMovesClock,
    /// The last tick becomes 0.
    ChangeResetsClock,
    /// The next history place becomes 0.
    ChangeClearsPlace,
    /// The kept ticks of the head are cleared.
    ChangeClearsKept,
    /// The head cells of banks outside the setting are cleared.
    ChangeClearsForeign,
    /// The history ticks are cleared.
    ChangeClearsTicks,
    /// The history rows are cleared.
    ChangeClearsRows,
    /// The thread counters are cleared.
    ChangeClearsThreads,
    /// Requests in flight are forgotten.
    ChangeDropsInFlight,
    /// A change-over that is refused with 7 writes the new counters.
    ChangeWritesOnSeven,
    /// A change-over that is refused clears the new counters.
    ChangeClearsOnRefusal,
    /// A change-over that is refused clears the head.
    ChangeHeadOnRefusal,
    /// A change-over that is refused clears new counters that are in use.
    ChangeClearsInUse,
    /// A change-over that is refused writes the old counters to new ones that are in
    /// use.
    ChangeWritesInUse,
    /// A change-over that is refused clears the head where the new counters are in use.
    ChangeHeadInUse,
    /// A change-over is answered where the new counters are in use and hold the old
    /// ones.
    ChangeAnswersInUse,
    } } };
}
