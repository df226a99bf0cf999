//! Wrong bounds of a span of ticks, wrong refusals of the call that gives them, wrong
//! hashes by the seed rule, and filters whose contents depend on the order of the
//! activations.

macro_rules! faults_of_span {
    ([$($rest:ident)*] { $($listed:tt)* }) => { joined! { [$($rest)*] { $($listed)*
    [SPAN]
    /// F is N for every span.
    SpanFreeIsN,
    /// F is 2N for every span, as it is for W.
    SpanFreeIsTwoN,
    /// F is N times m, as if every epoch had activations of its own that are free.
    SpanFreeOfAllEpochs,
    /// m lacks the 1 that is added.
    SpanMWithoutOne,
    /// m rounds down.
    SpanMRoundsDown,
    /// m is made of X, not of X - 1, and so is floor((X - 1)/E) + 2.
    SpanMOfX,
    /// m is halved rounding down.
    SpanHalfRoundsDown,
    /// The epoch is W.
    SpanEpochIsWindow,
    /// The case is decided by X, not by X - 1.
    SpanCaseOfX,
    /// The first form is made of X, not of X - 1.
    SpanFirstOfX,
    /// The second form is made of X, not of X - 1.
    SpanSecondOfX,
    /// The first form is taken for every span; what is below 0 is 0.
    SpanFirstAlways,
    /// The second form is taken for every span.
    SpanSecondAlways,
    /// The first form lacks its 1.
    SpanFirstWithoutOne,
    /// The second form lacks its 1.
    SpanSecondWithoutOne,
    /// The first form rounds up.
    SpanFirstRoundsUp,
    /// The second form rounds up.
    SpanSecondRoundsUp,
    /// The second form divides by tD.
    SpanSecondByDelay,
    /// tRC and tD are exchanged.
    SpanGapsExchanged,
    /// The first form does not take the free activations' ticks off.
    SpanNothingTaken,
    /// The first form takes F * tD off; what is below 0 is 0.
    SpanDelaysTaken,
    /// The row bound B is given for every span.
    SpanBoundOfWindow,
    /// B is given for each window that a span needs.
    SpanBoundOfWindows,
    /// L is given for every span.
    SpanLimit,
    /// The bound is never above L.
    SpanAtMostLimit,
    /// One tick has no activation.
    SpanNoneInOneTick,
    /// X is cut to 32 bits, 0 being 2^32.
    SpanCutTo32Bits,
    /// X is cut to 63 bits, 0 being 2^63.
    SpanCutTo63Bits,
    /// N * ceil(m/2) wraps at 32 bits.
    SpanFreeWraps,
    /// F * tRC wraps at 32 bits.
    SpanProductWraps,
    /// ceil((X - 1)/E) is floor((X - 1 + E - 1)/E) with a sum that wraps at 64 bits.
    SpanSumWraps,
    /// The bound is cut to 32 bits.
    SpanBoundCut,
    [SPAN_REFUSALS]
    /// X 0 is answered with 0.
    SpanZeroAnswered,
    /// X 0 is answered as X 1.
    SpanZeroIsOne,
    /// X 0 is refused after the refusals of the setting.
    SpanZeroLast,
    /// X 0 is refused with 9, as a tick that is not taken.
    SpanZeroIsNine,
    /// X above W is refused with 1.
    SpanAboveWindowRefused,
    /// X of 2^62 or more is refused with 1.
    SpanGreatRefused,
    /// X 0 is refused and 0 is written.
    SpanZeroWrites,
    /// A setting that is refused for another reason than 1 has its bound written.
    SpanRefusalWrites,
    /// N above 32,768 is refused.
    SpanOldThreshold,
    /// More than 4,096 history places are refused.
    SpanOldHistory,
    /// N 2^20 is refused.
    SpanThresholdExcluded,
    /// N 2^20 + 1 is taken.
    SpanThresholdOneMore,
    /// 32,768 history places are refused.
    SpanHistoryExcluded,
    /// 32,772 history places are taken.
    SpanHistoryOneMore,
    /// The small profile has 8,192 history places.
    SpanSmallScaled,
    /// A mark above 1 is taken as large.
    SpanMarkAboveIsLarge,
    /// A mark above 1 is taken as small.
    SpanMarkAboveIsSmall,
    /// Q and the threads, which the bound does not use, may be anything.
    SpanUnusedFree,
    /// 2 is not tested.
    SpanTwoLeftOut,
    /// 3 is not tested.
    SpanThreeLeftOut,
    /// 4 is not tested.
    SpanFourLeftOut,
    /// 5 is not tested.
    SpanFiveLeftOut,
    /// 16 is not tested.
    SpanSixteenLeftOut,
    /// 3 is tested before 2.
    SpanThreeBeforeTwo,
    /// 5 is tested before 4.
    SpanFiveBeforeFour,
    /// 16 is tested before 2.
    SpanSixteenBeforeTwo,
    /// 16 is tested before 5.
    SpanSixteenBeforeFive,
    /// The refusals are those of the planner, for which the delay plays no part.
    SpanRefusesAsPlanner,
    [SEEDS]
    /// The seeds of a row's bits are joined by or.
    SeedsOred,
    /// They are added modulo 1,024.
    SeedsAdded,
    /// The seed of the highest bit alone is taken.
    SeedsHighestOnly,
    /// The exclusive or starts with 1 and not with 0.
    SeedsStartAtOne,
    /// What is joined so far is turned by one bit before each seed.
    SeedsTurned,
    [ORDER]
    /// Only the counters that are the least of the four gain 1.
    OrderLeastOnly,
    /// Only the first of the least counters gains 1.
    OrderFirstLeastOnly,
    /// The counters become 1 more than the greatest of the four, up to N.
    OrderGreatestPlusOne,
    /// A row that was activated just before is not counted again.
    OrderRepeatLeftOut,
    /// A row that was activated just before is counted twice.
    OrderRepeatTwice,
    /// Nothing is counted where one of the four counters stands at N or above.
    OrderStopsWithOne,
    /// A row that is blacklisted is not counted.
    OrderBlacklistedLeftOut,
    /// Each activation is counted in one filter, by its history place in turn.
    OrderFiltersInTurn,
    /// The row that leaves the history has 1 taken from its counters.
    OrderForgetsOldest,
    } } };
}
