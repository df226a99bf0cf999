//! Tests of the compiled library from outside. It is compared, call by call,
//! with the second implementation, which was written from the specification
//! alone; and it is attacked by programs that try to activate a row more often
//! than the setting allows. Block 0 of the log writer, the planner's calls, the fit of two
//! probes and the cut-down log are compared too.
//!
//! The throttle is compared in both widths, and so are the change-over and what a
//! state that was taken over answers.
//!
//! - `library`, `memory`: the calls of the archives, on guarded memory
//! - `side`: library and second implementation behind one face
//! - `pair`: one call made to both, and the comparison
//! - `settings`, `wide`, `profiles`: settings of both widths, of the new one only,
//!   and near the limits of the small profile
//! - `lent`, `contents`, `walk`: memory, what it holds, and calls
//! - `campaign`, `tally`, `mark_tally`, `width_tally`: numbered runs in a width, and
//!   what they reached
//! - `edges`: settings at the bounds of both widths, for every call
//! - `change_refusals`: the refusals of the change-over and their order
//! - `crossing`: lists of calls with a change-over in the middle
//! - `late`: change-overs that are refused among calls of the new width
//! - `beside`: a state that was taken over beside one that was not
//! - `rings`: histories at the edges of refusal 7
//! - `far`: history places that only the new width has
//! - `levels`: counters around N, for the openings left
//! - `hashes`, `near_house`: the house seeds, seeds next to them and others
//! - `twins`: one setting under both profiles
//! - `writer`, `planner`: block 0 of logs, and the delays of settings
//! - `spans`: the bound of spans of every length
//! - `probes`, `probe_lists`, `probe_tally`: the fit of two probes, listed lists and what
//!   lists reached
//! - `cuts`, `cut_runs`, `cut_tally`: the cut-down log, logs at random and what logs
//!   reached
//! - `orders`: groups of activations in several orders, and what the filters hold
//!   after them
//! - `adversary`, `crossed`, `reached`: rows hammered as often as the answers allow,
//!   also across a change-over, and the most activations in spans of every length

pub mod adversary;
pub mod beside;
pub mod call;
pub mod campaign;
pub mod change_refusals;
mod contents;
pub mod crossed;
pub mod crossing;
mod cut_runs;
pub mod cut_tally;
pub mod cuts;
pub mod edges;
pub mod far;
pub mod hashes;
pub mod late;
pub mod lent;
pub mod levels;
mod library;
mod mark_tally;
mod memory;
mod near_house;
pub mod numbers;
pub mod orders;
pub mod pair;
pub mod planner;
mod probe_lists;
pub mod probe_tally;
pub mod probes;
mod profiles;
pub mod reached;
pub mod rings;
pub mod settings;
pub mod side;
pub mod spans;
pub mod tally;
pub mod twins;
mod walk;
pub mod wide;
mod width_tally;
pub mod writer;
