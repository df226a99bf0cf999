//! What a campaign of the new width has reached beyond the old one: its limits,
//! counters of more than 16 bits, and history places from 4,096 on.

use crate::call::{Answer, Call};
use crate::pair::Pair;
use crate::settings::{history, MARK, N, TD};
use crate::tally::{Counters, LEAST};
use second::{Setting, NEW};
use std::fmt;

/// Names of the events that are counted.
const EVENTS: [&str; 13] = [
    "answers with N above 32,768",
    "answers with N 2^20",
    "answers with more than 4,096 history places",
    "answers with 32,768 history places",
    "1 for N 2^20 + 1",
    "4 for 32,772 history places",
    "7 with more than 4,096 history places",
    "16 with N above 32,768",
    "requests opened with a counter moved from 65,535 to 65,536",
    "requests opened with a counter at an N above 65,536",
    "requests opened with a counter above N and 65,535",
    "activations kept at a place of 4,096 or more",
    "row waits by an activation at a place of 4,096 or more",
];

/// How often each event has come.
#[derive(Default)]
pub struct WidthTally {
    wide: bool,
    events: [u64; 13],
}

impl WidthTally {
    /// Counts a call by the number that it returned.
    pub fn note(&mut self, pair: &Pair, number: u32) {
        self.wide |= *pair.limits() == NEW;
        let setting = pair.setting();
        let places = history(pair.limits(), setting);
        let happened = [
            number == 0 && setting[N] > 32_768,
            number == 0 && setting[N] == 1 << 20,
            number == 0 && places > 4_096,
            number == 0 && places == 32_768,
            number == 1 && setting[N] == (1 << 20) + 1,
            number == 4 && quarter(setting) == Some(8_193),
            number == 7 && places > 4_096,
            number == 16 && setting[MARK] == 1 && setting[N] > 32_768,
        ];
        for (event, happened) in self.events.iter_mut().zip(happened) {
            *event += u64::from(happened);
        }
    }

    /// Counts a request that was answered. `place` is the next history place before
    /// it, the counters are those after it.
    pub fn note_request(
        &mut self,
        pair: &Pair,
        call: &Call,
        answer: &Answer,
        place: u64,
        counters: &Counters,
    ) {
        let setting = pair.setting();
        let n = setting[N];
        let any = |wanted: &dyn Fn(u64) -> bool| {
            let mut all = counters.filters.iter().flatten();
            answer.out[0] == 0 && all.any(|&counter| wanted(counter))
        };
        let happened = [
            n > 65_536 && any(&|counter| counter == 65_536),
            n > 65_536 && any(&|counter| counter == n),
            any(&|counter| counter > n && counter > 65_535),
            answer.out[0] == 0 && place >= 4_096,
            answer.out[0] == 3 && kept_far(pair, call),
        ];
        for (event, happened) in self.events[8..].iter_mut().zip(happened) {
            *event += u64::from(happened);
        }
    }

    /// What was reached too seldom; the old width has none of it.
    pub fn missed(&self) -> Vec<String> {
        let seldom = |(_, &count): &(&&str, &u64)| self.wide && count < LEAST;
        let missed = EVENTS.iter().zip(&self.events).filter(seldom);
        missed.map(|(name, _)| name.to_string()).collect()
    }
}

/// ceil(tD/tFAW), a quarter of the history places.
fn quarter(setting: &Setting) -> Option<u64> {
    (setting[2] > 0).then(|| setting[TD].div_ceil(setting[2]))
}

/// Is the newest activation of the request's row kept at a place of 4,096 or more?
fn kept_far(pair: &Pair, call: &Call) -> bool {
    let memory = pair.memory();
    let word = call.bank as u32 * 65_536 + u32::from(call.row);
    let places = memory.ticks.cells().iter().zip(memory.rows.cells());
    let used = places.take(history(pair.limits(), pair.setting()));
    let of_row = used.enumerate().filter(|(_, (_, &row))| row == word);
    let newest = of_row.max_by_key(|(_, (&tick, _))| tick);
    newest.is_some_and(|(place, _)| place >= 4_096)
}

impl fmt::Display for WidthTally {
    fn fmt(&self, f: &mut fmt::Formatter) -> fmt::Result {
        for (name, count) in EVENTS.iter().zip(self.events).filter(|_| self.wide) {
            write!(f, "\n  {name}: {count}")?;
        }
        Ok(())
    }
}
