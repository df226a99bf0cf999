//! Wrong openings left of a request.

macro_rules! faults_of_left {
    ([$($rest:ident)*] { $($listed:tt)* }) => { joined! { [$($rest)*] { $($listed)*
    [LEFT]
    /// Openings left come from the estimate before the activation.
    LeftBeforeOpening,
    /// Openings left come from the estimate before the clock is moved, with 1
    /// taken off for the activation.
    LeftBeforeTurn,
    /// Openings left come from the filter that was tested at the last tick
    /// before the call.
    LeftOfFormerEpoch,
    /// Openings left come from the filter that is not tested.
    LeftOfOtherFilter,
    /// Openings left come from filter 0 in every epoch.
    LeftOfFilterZero,
    /// Openings left come from the counters of bank 0.
    LeftOfBankZero,
    /// Openings left come from the counter of function 0 alone.
    LeftOfFirstPlace,
    /// Openings left come from the counters of functions 0 to 2.
    LeftOfThreePlaces,
    /// Openings left come from the greatest of the four counters.
    LeftOfGreatest,
    /// Openings left come from the number of the row's activations in the
    /// history.
    LeftOfHistory,
    /// Openings left are the estimate itself.
    LeftIsEstimate,
    /// Openings left are L minus the estimate.
    LeftOfLimit,
    /// Openings left are 1 where there are more.
    LeftAtMostOne,
    /// Openings left are cut to 8 bits.
    LeftCutToByte,
    /// Openings left pass below 0 in 64 bits.
    LeftWraps,
    /// Openings left have 1 more taken off than the estimate.
    LeftOneLess,
    /// A wait carries N minus the estimate as openings left.
    LeftOnWait,
    /// A quota answer carries N minus the estimate as openings left.
    LeftOnQuota,
    /// A wait does not write openings left.
    LeftKeptOnWait,
    /// A quota answer does not write openings left.
    LeftKeptOnQuota,
    /// A refusal writes openings left.
    LeftWrittenOnRefusal,
    } } };
}
