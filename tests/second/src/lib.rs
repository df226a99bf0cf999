//! A second implementation of the BlockHammer throttle for one rank of DRAM,
//! written sentence by sentence after the specification. It is meant for
//! comparison: every rule is spelled out the slow way, so that a reader can
//! hold it against the text.
//!
//! - `limits`: the two widths and what a setting may have at most in each
//! - `setting`: the setting, its derived numbers and refusals 1 to 5 and 16
//! - `profile`: the profile mark and what a profile has at most
//! - `state`: the lent memory and refusals 6 and 7
//! - `clock`: epochs and the clearing at an epoch turn
//! - `filter`: the counting Bloom filters and the estimate they report
//! - `by_order`: wrong filters, which depend on the order of the activations
//! - `table`: the hash by bytes, under the house seeds
//! - `decision`: the rules about a request and what an activation writes
//! - `left`: the openings left that a request reports
//! - `quota`: the quota rule, the thread's total in flight and what a done takes
//! - `model`: the four calls (set-up, request, done, index)
//! - `change`: the change-over, which takes a saved state to the new width
//! - `log`: the log checker
//! - `write`: the log writer and an encoder for logs
//! - `plan`: the planner, that is the delays with which a setting is accepted
//! - `span`: the most activations of a row in a span of any length
//! - `probes`, `probe_refusals`: whether the lists of two probes fit, and how far their
//!   clocks are apart
//! - `cut`, `cut_judge`, `cut_blocks`: the records of a log that still differ, how a
//!   selection of them is judged, and the refusals of a log
//! - `cut_logs`, `cut_damage`: logs that are cut down, and logs that are refused, with what
//!   comes of them
//! - `fault`: wrong behaviours that can be switched on, one at a time, made by
//!   `listing` from the lists under `fault`

#[macro_use]
mod listing;

mod by_order;
pub mod change;
mod clock;
pub mod cut;
mod cut_blocks;
pub mod cut_damage;
pub mod cut_judge;
pub mod cut_logs;
pub mod decision;
pub mod fault;
pub mod filter;
mod left;
pub mod limits;
pub mod log;
pub mod model;
pub mod plan;
mod probe_refusals;
pub mod probes;
pub mod profile;
pub mod quota;
pub mod setting;
pub mod span;
pub mod state;
pub mod table;
pub mod write;

pub use change::change_over;
pub use cut::cut_down;
pub use fault::Fault;
pub use limits::{Limits, NEW, OLD};
pub use model::{done, index, request, setup};
pub use probes::fit_probes;
pub use setting::{Config, Setting};
pub use span::span_bound;
pub use state::State;
