//! What a campaign has reached with the profile mark: where 16 stands among the
//! other refusals, and both sides of the small profile's limits.

use crate::settings::{history, BANKS, MARK};
use crate::tally::LEAST;
use second::{Limits, Setting};
use std::fmt;

/// Names of the events that are counted.
const EVENTS: [&str; 19] = [
    "16 where mark 0 is answered",
    "16 where mark 0 gets 6",
    "16 where mark 0 gets 7",
    "16 where mark 0 gets 8",
    "16 where mark 0 gets 9",
    "16 where mark 0 gets 10",
    "1 with mark 1, above the small profile",
    "2 with mark 1, above the small profile",
    "3 with mark 1, above the small profile",
    "4 with mark 1, above the small profile",
    "5 with mark 1, above the small profile",
    "16 with five banks and 1,024 places or fewer",
    "16 with four banks or fewer and 1,028 places",
    "16 with five banks and 1,028 places",
    "answers with mark 1 and four banks",
    "answers with mark 1 and 1,024 places",
    "answers with mark 0, above the small profile",
    "1 for a mark of no profile, where mark 0 is answered",
    "1 for a mark of no profile, where mark 0 gets 2 to 5",
];

/// How often each event has come.
#[derive(Default)]
pub struct MarkTally {
    events: [u64; 19],
}

impl MarkTally {
    /// Counts a call by the number that it returned; `with_mark_0` gives the
    /// number that it would get with mark 0.
    pub fn note(
        &mut self,
        limits: &Limits,
        setting: &Setting,
        number: u32,
        with_mark_0: impl Fn() -> u32,
    ) {
        let places = history(limits, setting);
        let above = setting[BANKS] > 4 || places > 1_024;
        match (setting[MARK], number) {
            (1, 16) => {
                self.note_16(setting[BANKS], places);
                match with_mark_0() {
                    0 => self.events[0] += 1,
                    number @ 6..=10 => self.events[number as usize - 5] += 1,
                    number => panic!("16 where mark 0 gets {number}: {setting:?}"),
                }
            }
            (1, 1..=5) if above => self.events[number as usize + 5] += 1,
            (1, 0) => {
                self.events[14] += u64::from(setting[BANKS] == 4);
                self.events[15] += u64::from(places == 1_024);
            }
            (0, 0) => self.events[16] += u64::from(above),
            (2.., 1) => match with_mark_0() {
                0 => self.events[17] += 1,
                2..=5 => self.events[18] += 1,
                _ => {}
            },
            _ => {}
        }
    }

    /// Counts a call refused with 16 by what is too many, at the limits.
    fn note_16(&mut self, banks: u64, places: usize) {
        self.events[11] += u64::from(banks == 5 && places <= 1_024);
        self.events[12] += u64::from(banks <= 4 && places == 1_028);
        self.events[13] += u64::from(banks == 5 && places == 1_028);
    }

    /// What was reached too seldom.
    pub fn missed(&self) -> Vec<String> {
        let seldom = |(_, &count): &(&&str, &u64)| count < LEAST;
        let missed = EVENTS.iter().zip(&self.events).filter(seldom);
        missed.map(|(name, _)| name.to_string()).collect()
    }
}

impl fmt::Display for MarkTally {
    fn fmt(&self, f: &mut fmt::Formatter) -> fmt::Result {
        for (name, count) in EVENTS.iter().zip(self.events) {
            write!(f, "\n  {name}: {count}")?;
        }
        Ok(())
    }
}
