//! Plausible wrong behaviours of the throttle, the log checker, the log writer, the
//! planner's calls, the fit of two probes and the cut-down log. A test campaign switches
//! on one of them and asks whether it would notice. `Fault::None` is the plain
//! specification.
//!
//! - `CALLS`: of the four calls, but for the lists from `LEFT` to `SMALL`
//! - `LEFT`: of the openings left that a request reports
//! - `TABLE`: of the hash by bytes, shown under the house seeds only
//! - `HOUSE`: of the decision that seeds are the house seeds, shown under others
//! - `PROFILE`: of the profile mark in the four calls, and of refusal 16
//! - `SMALL`: of the decisions of the small profile
//! - `CHECKER`: of the profile mark in a log that is read
//! - `WRITER`: of the profile mark in a log that is written
//! - `PLANNER`: of the profile mark in the planner
//! - `WIDE`: of the four calls of the new width, shown by them alone
//! - `OLD_WIDTH`: of the four calls of the old width, shown by them alone
//! - `PLAN_LIMITS`: of the limits of a width in the planner
//! - `LOG_LIMITS`: of the limits in the log checker
//! - `CHANGE`: of the change-over
//! - `SPAN`: of the bound of a span of ticks
//! - `SPAN_REFUSALS`: of the refusals of the call that gives it
//! - `SEEDS`: of the hash by the seed rule, shown under other than the house seeds
//! - `ORDER`: of the filters, which depend on the order of the activations
//! - `PROBES`: of the fit of two probes
//! - `PROBES_REFUSALS`: of the refusals of the call that gives it
//! - `CUT`: of the selection that a log is cut down to
//! - `CUT_REFUSALS`: of the refusals of the call that gives it
//!
//! The listings are in files of their own, and `listing` makes the enum from them.

#[macro_use]
mod calls;
#[macro_use]
mod left;
#[macro_use]
mod hash;
#[macro_use]
mod profile;
#[macro_use]
mod width;
#[macro_use]
mod change;
#[macro_use]
mod span;
#[macro_use]
mod probes;
#[macro_use]
mod cut;

joined! {
    [
        faults_of_calls faults_of_left faults_of_hash faults_of_profile faults_of_width
        faults_of_change faults_of_span faults_of_probes faults_of_cut
    ]
    {}
}
