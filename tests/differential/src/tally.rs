//! What a campaign has reached: calls, refusals, answers, and some events
//! that are easy to miss.

use crate::call::{Answer, Call, Kind};
use crate::mark_tally::MarkTally;
use crate::settings::{L, N, Q, W};
use crate::width_tally::WidthTally;
use second::Setting;
use std::cmp::Ordering;
use std::fmt;

/// Names of the events that are counted.
const EVENTS: [&str; 26] = [
    "moves over one epoch turn",
    "moves over two or more epoch turns",
    "history place moved from H - 1 to 0",
    "row waits that end at an epoch turn",
    "wait ticks of 2^62 or more",
    "index answers with c above D",
    "requests held by a quota rounded down from below a half",
    "requests held by a quota rounded down from a half",
    "requests not held by a quota rounded up from a half",
    "requests not held by a quota rounded up from above a half",
    "requests held by the total and not by the named bank's count",
    "requests held by a total that is below the quota in 32 bits",
    "requests not held, with some in flight in other banks",
    "dones refused with 10, with some in flight in other banks",
    "dones answered, with some in flight in other banks",
    "requests opened with 0 left",
    "requests opened with 1 left",
    "requests opened with 2 or more left",
    "requests opened with 256 or more left",
    "requests opened with 0 left and an estimate above N",
    "requests opened with some left, for rows whose four places are one",
    "requests opened with other left than the filter not tested gives",
    "requests opened with other left than the filter of the last tick gives",
    "requests opened with other left than the greatest counter gives",
    "requests that wait, for rows with an estimate below N",
    "requests held by the quota, for rows with an estimate below N",
];
/// The first event of `note_left`.
const LEFT: usize = 15;

/// Least number of times that each refusal, answer and event is reached.
pub const LEAST: u64 = 20;

#[derive(Default)]
pub struct Tally {
    pub scenarios: u64,
    pub calls: u64,
    /// By call and number returned.
    numbers: [[u64; 17]; 4],
    /// Requests by answer.
    answers: [u64; 5],
    events: [u64; 26],
    pub marks: MarkTally,
    pub widths: WidthTally,
}

/// What a call's thread has before the call.
pub struct Standing {
    /// Its three cells in the named bank.
    pub cells: [u64; 3],
    /// Its requests in flight in all banks.
    pub total: u64,
}

/// The counters of a request's row after the request.
pub struct Counters {
    /// The four of filter 0 and of filter 1.
    pub filters: [[u64; 4]; 2],
    /// The filter tested.
    pub tested: usize,
    /// Do the four hash functions name one place?
    pub one_place: bool,
}

impl Tally {
    /// Counts a call. The head cells are the first two, last tick and next
    /// history place, before and after it.
    pub fn note(
        &mut self,
        setting: &Setting,
        call: &Call,
        answer: &Answer,
        before: [u64; 2],
        after: [u64; 2],
        thread: &Standing,
    ) {
        self.calls += 1;
        self.numbers[call.kind as usize][answer.number as usize] += 1;
        if call.kind == Kind::Done {
            self.note_done(answer.number, thread);
        }
        if answer.number != 0 || call.kind == Kind::Setup {
            return;
        }
        let epoch = setting[W] / 2;
        let turns = after[0] / epoch - before[0] / epoch;
        let [out, wait, _] = answer.out;
        let request = call.kind == Kind::Request;
        if request {
            self.answers[out as usize] += 1;
        }
        // At a turn the counter in test may be another than before the call.
        if request && turns == 0 {
            let c = thread.cells[(after[0] / epoch % 2) as usize];
            self.note_quota(setting, c, thread, out == 4);
        }
        let happened = [
            turns == 1,
            turns > 1,
            request && out == 0 && after[1] == 0,
            request && out == 3 && wait % epoch == 0,
            request && wait >= 1 << 62,
            call.kind == Kind::Index && out > wait,
        ];
        // The events after these are counted by the methods below.
        for (event, happened) in self.events.iter_mut().zip(happened) {
            *event += u64::from(happened);
        }
    }

    /// Counts a request that the rounding of the quota decides, with as many in
    /// flight as the whole number below Q x (D - min(c, D))/D, so that the quota
    /// holds the request where it is rounded down and not where it is rounded up;
    /// and one that the total over the banks decides.
    fn note_quota(&mut self, setting: &Setting, c: u64, thread: &Standing, held: bool) {
        let d = setting[L] - setting[N];
        let share = setting[Q] * (d - c.min(d));
        let (whole, rest) = (share / d, share % d);
        let (event, down) = match (2 * rest).cmp(&d) {
            Ordering::Less => (6, true),
            Ordering::Equal if whole % 2 == 0 => (7, true),
            Ordering::Equal => (8, false),
            Ordering::Greater => (9, false),
        };
        let decides = rest != 0 && thread.total == whole;
        self.events[event] += u64::from(decides && held == down);
        let quota = whole + u64::from(!down);
        let own = thread.cells[2];
        self.events[10] += u64::from(held && own < quota);
        self.events[11] += u64::from(held && thread.total % (1 << 32) < quota);
        self.events[12] += u64::from(!held && own < thread.total);
    }

    /// Counts a done of a thread that has requests in flight in other banks.
    fn note_done(&mut self, number: u32, thread: &Standing) {
        if thread.total > thread.cells[2] {
            self.events[13] += u64::from(number == 10);
            self.events[14] += u64::from(number == 0);
        }
    }

    /// Counts an answered request by its openings left, and where a wrong way to
    /// find them shows. `last` is the last tick before the request.
    pub fn note_left(
        &mut self,
        setting: &Setting,
        answer: &Answer,
        last: u64,
        counters: &Counters,
    ) {
        let [said, _, left] = answer.out;
        let least = counters.filters.map(|four| four.into_iter().min());
        let least = least.map(Option::unwrap_or_default);
        let greatest = counters.filters[counters.tested].into_iter().max();
        let estimate = least[counters.tested];
        let former = (last / (setting[W] / 2) % 2) as usize;
        let n = setting[N];
        let opened = said == 0;
        let other = |estimate: u64| opened && left != n.saturating_sub(estimate);
        let happened = [
            opened && left == 0,
            opened && left == 1,
            opened && left >= 2,
            opened && left >= 256,
            opened && left == 0 && estimate > n,
            opened && left > 0 && counters.one_place,
            other(least[1 - counters.tested]),
            other(least[former]),
            other(greatest.unwrap_or_default()),
            (1..=3).contains(&said) && estimate < n,
            said == 4 && estimate < n,
        ];
        for (event, happened) in self.events[LEFT..].iter_mut().zip(happened) {
            *event += u64::from(happened);
        }
    }

    /// What was reached too seldom.
    pub fn missed(&self) -> Vec<String> {
        let mut missed = Vec::new();
        for kind in Kind::ALL {
            for &number in kind.numbers() {
                if self.numbers[kind as usize][number] < LEAST {
                    missed.push(format!("{kind:?} returning {number}"));
                }
            }
        }
        for (answer, &count) in self.answers.iter().enumerate() {
            if count < LEAST {
                missed.push(format!("answer {answer}"));
            }
        }
        for (name, &count) in EVENTS.iter().zip(&self.events) {
            if count < LEAST {
                missed.push(name.to_string());
            }
        }
        missed.extend(self.marks.missed());
        missed.extend(self.widths.missed());
        missed
    }
}

impl fmt::Display for Tally {
    fn fmt(&self, f: &mut fmt::Formatter) -> fmt::Result {
        writeln!(f, "  {} calls in {} runs", self.calls, self.scenarios)?;
        write!(f, "  returned ")?;
        for number in Kind::Done.numbers() {
            write!(f, "{number:>8}")?;
        }
        for kind in Kind::ALL {
            write!(f, "\n  {:<9}", format!("{kind:?}").to_lowercase())?;
            for &number in Kind::Done.numbers() {
                write!(f, "{:>8}", self.numbers[kind as usize][number])?;
            }
        }
        write!(f, "\n  answers ")?;
        for (name, count) in ["opened", "bank", "rank", "row", "quota"]
            .iter()
            .zip(self.answers)
        {
            write!(f, " {name} {count}")?;
        }
        for (name, count) in EVENTS.iter().zip(self.events) {
            write!(f, "\n  {name}: {count}")?;
        }
        write!(f, "{}{}", self.marks, self.widths)
    }
}
