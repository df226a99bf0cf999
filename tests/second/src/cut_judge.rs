//! How a selection of a log's records ends: it is run from set-up up to its first event,
//! by the checker's judgement of records and without any blocks.

use crate::decision::OPENED;
use crate::fault::Fault;
use crate::log::{Record, Run};
use crate::state::{State, BANK, IN_FLIGHT, LAST, RANK};

/// The first event of a selection. A record is named by its place in the log, from 0.
#[derive(Clone, Copy, Debug, PartialEq, Eq)]
pub enum Verdict {
    /// There is none.
    Agrees,
    /// This record has another answer or wait tick than the rules give.
    Differs(usize),
    /// This record is refused, with this number.
    Refused(usize, u32),
}

/// The records of a log, and block 0, whose setting they are run under.
pub struct Judge<'a> {
    first: &'a [u8],
    pub records: Vec<Record>,
    pub fault: Fault,
    /// The state after the run before, for faults.
    before: Option<State>,
}

impl<'a> Judge<'a> {
    /// Block 0 has to be whole and its setting accepted.
    pub fn new(first: &'a [u8], records: Vec<Record>, fault: Fault) -> Self {
        Judge {
            first,
            records,
            fault,
            before: None,
        }
    }

    /// Every record of the log.
    pub fn all(&self) -> Vec<usize> {
        (0..self.records.len()).collect()
    }

    /// Runs these records, in their order, on a state that is set up anew.
    pub fn verdict(&mut self, selection: &[usize]) -> Verdict {
        let mut run = Run::start(self.first, self.fault).expect("an accepted setting");
        if let Some(before) = &self.before {
            keep(before, &mut run.state, self.fault);
        }
        let verdict = self.first_event(&mut run, selection);
        self.before = Some(run.state);
        verdict
    }

    fn first_event(&self, run: &mut Run, selection: &[usize]) -> Verdict {
        for &place in selection {
            let record = &self.records[place];
            match run.answer(record) {
                Err(_) if self.fault == Fault::CutRefusalPassedOver => {}
                Err(_) if self.is_refused_answer(record) => return Verdict::Differs(place),
                Err(number) => return Verdict::Refused(place, number),
                Ok(found) if !is_as_said(record, found, self.fault) => {
                    return Verdict::Differs(place)
                }
                Ok(_) => {}
            }
        }
        Verdict::Agrees
    }

    /// Does a refused record differ (only as a fault)?
    fn is_refused_answer(&self, record: &Record) -> bool {
        self.fault == Fault::CutRefusedAnswerDiffers && u64::from(record.answer) != OPENED
    }
}

/// Are the answer and the wait tick of the rules those of the record?
fn is_as_said(record: &Record, found: [u64; 2], fault: Fault) -> bool {
    let ([answer, wait], is_done) = (record.says(), record.kind == 1);
    match fault {
        Fault::CutWaitsIgnored => found[0] == answer,
        Fault::CutAnswersIgnored => found[1] == wait,
        Fault::CutOpenedOrHeld => (found[0] == OPENED) == (answer == OPENED),
        Fault::CutDoneAgrees if is_done => true,
        Fault::CutDoneWaitIgnored if is_done => found[0] == answer,
        Fault::CutDoneRowDiffers if is_done => record.row == 0 && found == [answer, wait],
        _ => found == [answer, wait],
    }
}

/// What a run has of the state that the run before it left: nothing, but for faults.
fn keep(before: &State, state: &mut State, fault: Fault) {
    match fault {
        Fault::CutKeepsState => state.clone_from(before),
        Fault::CutKeepsFilters => state.counters.clone_from(&before.counters),
        Fault::CutKeepsHistory => {
            state.ticks.clone_from(&before.ticks);
            state.rows.clone_from(&before.rows);
        }
        Fault::CutKeepsIndex => keep_threads(before, state, |k| k != IN_FLIGHT),
        Fault::CutKeepsInFlight => keep_threads(before, state, |k| k == IN_FLIGHT),
        Fault::CutKeepsHead => state.head = before.head,
        Fault::CutKeepsLastTick => state.head[LAST] = before.head[LAST],
        Fault::CutKeepsBanks => state.head[BANK..RANK].copy_from_slice(&before.head[BANK..RANK]),
        Fault::CutKeepsRank => state.head[RANK..].copy_from_slice(&before.head[RANK..]),
        _ => {}
    }
}

/// Keeps some of the three counters of each thread in each bank.
fn keep_threads(before: &State, state: &mut State, is_kept: fn(usize) -> bool) {
    for (cell, &kept) in before.threads.iter().enumerate() {
        if is_kept(cell % 3) {
            state.threads[cell] = kept;
        }
    }
}
