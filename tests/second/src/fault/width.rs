//! Wrong behaviours of the two widths: of the limits, counters and histories of the
//! new one, of the rules in one of them alone, and of the limits that the planner and
//! the log checker take.

macro_rules! faults_of_width {
    ([$($rest:ident)*] { $($listed:tt)* }) => { joined! { [$($rest)*] { $($listed)*
    [WIDE]
    /// The new width refuses N above 32,768.
    WideOldThreshold,
    /// The new width refuses more than 4,096 history places.
    WideOldHistory,
    /// Set-up of the new width refuses N above 32,768.
    WideSetupOldThreshold,
    /// Set-up of the new width refuses more than 4,096 history places.
    WideSetupOldHistory,
    /// A request of the new width refuses N above 32,768.
    WideRequestOldThreshold,
    /// A request of the new width refuses more than 4,096 history places.
    WideRequestOldHistory,
    /// A done of the new width refuses N above 32,768.
    WideDoneOldThreshold,
    /// A done of the new width refuses more than 4,096 history places.
    WideDoneOldHistory,
    /// An index reading of the new width refuses N above 32,768.
    WideIndexOldThreshold,
    /// An index reading of the new width refuses more than 4,096 history places.
    WideIndexOldHistory,
    /// The new width refuses N 2^20.
    WideThresholdExcluded,
    /// The new width takes N 2^20 + 1.
    WideThresholdOneMore,
    /// The new width refuses 32,768 history places.
    WideHistoryExcluded,
    /// The new width takes 32,772 history places.
    WideHistoryOneMore,
    /// The small profile of the new width has 8,192 history places.
    WideSmallScaled,
    /// The new width does not test 16.
    WideSixteenLeftOut,
    /// A counter of the new width is read modulo 65,536.
    WideReadsLowHalf,
    /// A counter of the new width is written modulo 65,536.
    WideWritesLowHalf,
    /// A counter of the new width stops at 65,535.
    WideStopsAt65535,
    /// A counter of the new width stops at 32,768.
    WideStopsAt32768,
    /// N is cut to 16 bits in the new width.
    WideThresholdCut,
    /// Openings left are cut to 16 bits in the new width.
    WideLeftCut,
    /// The counters of a bank start at bank x 1,024 in the new width.
    WideBanksOverlap,
    /// Set-up of the new width clears as many bytes of the counters as the old.
    WideSetupClearsHalf,
    /// Set-up of the new width clears 4,096 history places at most.
    WideSetupClearsFew,
    /// An epoch turn of the new width clears as many bytes of a filter as the old.
    WideTurnClearsHalf,
    /// The next history place moves from 4,095 to 0 in the new width.
    WidePlaceWraps,
    /// The row rule of the new width looks at 4,096 history places at most.
    WideSearchStops,
    /// Refusal 7 of the new width looks at the ticks of 4,096 places at most.
    WideTestStops,
    /// Refusal 7 of the new width takes a next place of 4,096 or more for bad.
    WidePlaceRefused,
    /// The quota is rounded down in the new width.
    WideRoundsDown,
    /// In flight is the named bank's own count in the new width.
    WideInFlightOfBank,
    /// Openings left come from the estimate before the activation in the new width.
    WideLeftBeforeOpening,
    /// A counter named by two hash functions gains 1 for each in the new width.
    WideAddsTwice,
    [OLD_WIDTH]
    /// The old width takes N up to 2^20.
    OldNewThreshold,
    /// The old width takes up to 32,768 history places.
    OldNewHistory,
    /// The old width takes N up to 2^20 in all calls but set-up.
    OldNewThresholdAfterSetup,
    /// The old width takes up to 32,768 history places in all calls but set-up.
    OldNewHistoryAfterSetup,
    /// The quota is rounded down in the old width.
    OldRoundsDown,
    /// In flight is the named bank's own count in the old width.
    OldInFlightOfBank,
    /// Openings left come from the estimate before the activation in the old width.
    OldLeftBeforeOpening,
    /// A counter named by two hash functions gains 1 for each in the old width.
    OldAddsTwice,
    [PLAN_LIMITS]
    /// The planner of the old width takes N up to 2^20.
    PlanOldNewThreshold,
    /// The planner of the old width takes up to 32,768 history places.
    PlanOldNewHistory,
    /// The planner of the new width refuses N above 32,768.
    PlanWideOldThreshold,
    /// The planner of the new width takes up to 4,096 history places.
    PlanWideOldHistory,
    /// The planner of the new width refuses N 2^20.
    PlanWideThresholdExcluded,
    /// The planner of the new width takes N 2^20 + 1.
    PlanWideThresholdOneMore,
    /// The planner of the new width leaves out 32,768 history places.
    PlanWideHistoryExcluded,
    /// The planner of the new width takes 32,772 history places.
    PlanWideHistoryOneMore,
    /// The small profile has 8,192 history places in the planner of the new width.
    PlanWideSmallScaled,
    /// The planner of the new width gives 16 only where the old width has a delay.
    PlanWideSixteenByOld,
    [LOG_LIMITS]
    /// The checker takes N up to 2^20.
    LogNewThreshold,
    /// The checker takes up to 32,768 history places.
    LogNewHistory,
    /// The checker has both limits of the new width.
    LogNewLimits,
    } } };
}
