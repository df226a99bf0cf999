//! What lists of two probes reached: why they were refused or did not fit, and how
//! closely they did or did not.

use crate::probe_lists::{Case, Probe, LATE, MOST_JITTER};

/// How many pairs of lists were of each kind.
#[derive(Debug, Default)]
pub struct Told {
    pub lists: u64,
    /// Refused with 6 for one buffer alone: the first list's ticks, its rows, the
    /// second's ticks, its rows.
    short: [u64; 4],
    /// Refused with 6 where the jitter is too great, and where a tick is.
    six_first: [u64; 2],
    /// Refused with 18 for the jitter alone, and among them lists that do not fit.
    jitter: [u64; 2],
    /// Refused with 18 for ticks in pairs alone, of the first list or of the second.
    late: [u64; 2],
    /// Refused with 18 for ticks without a partner alone, of the first or of the second.
    late_rest: [u64; 2],
    /// Answered with records behind a count, and with a tick of 2^62 or more there.
    rest: [u64; 2],
    /// Answered with a tick of 2^62 - 1.
    last_tick: u64,
    /// Two empty lists; one, the first or the second.
    empty: u64,
    one_empty: [u64; 2],
    /// One record more, in the first list or in the second.
    one_more: [u64; 2],
    /// Banks alone differ, rows alone do; of several pairs the last alone differs.
    words: [u64; 2],
    last_word: u64,
    /// Differences more than twice the jitter apart, and among them by one more.
    apart: [u64; 2],
    /// Offsets below the range alone would do, and among them -1,001.
    below: [u64; 2],
    /// Offsets above the range alone would do, and among them 1,001.
    above: [u64; 2],
    /// They do not fit, and would without the last pair.
    last_pair: u64,
    /// They fit with one offset, with two, and with more.
    offsets: [u64; 3],
    /// They fit with differences that are twice the jitter apart, which is above 0.
    tight: u64,
    /// The offset is -1,000, below 0, above 0, 1,000.
    at: [u64; 4],
    /// The offset is -1,000, and lesser ones would do but for the range.
    raised: u64,
}

impl Told {
    /// How often the kind was met that was met least often.
    pub fn fewest(&self) -> u64 {
        let Told {
            lists,
            short,
            six_first,
            jitter,
            late,
            late_rest,
            rest,
            last_tick,
            empty,
            one_empty,
            one_more,
            words,
            last_word,
            apart,
            below,
            above,
            last_pair,
            offsets,
            tight,
            at,
            raised,
        } = *self;
        let single = [lists, last_tick, empty, last_word, last_pair, tight, raised];
        let refused = [six_first, jitter, late, late_rest];
        let answered = [rest, one_empty, one_more, words, apart, below, above];
        let pairs = [&refused[..], &answered].concat().concat();
        let all = [&single[..], &short, &pairs, &offsets, &at].concat();
        all.into_iter().min().unwrap_or(0)
    }

    /// How many fit, of those that have records.
    pub fn fitting(&self) -> u64 {
        self.offsets.iter().sum()
    }

    /// How many do not fit for their ticks.
    pub fn unfit(&self) -> u64 {
        self.apart[0] + self.below[0] + self.above[0]
    }

    /// Counts two lists, with the number that was returned and what was written.
    pub fn note(&mut self, case: &Case, number: u32, out: [u64; 2]) {
        self.lists += 1;
        match number {
            6 => self.note_six(case),
            18 => self.note_eighteen(case),
            _ => self.note_answer(case, out),
        }
    }

    fn note_six(&mut self, case: &Case) {
        let [first, second] = &case.lists;
        let buffers = [
            (first.count, first.ticks.len()),
            (first.count, first.rows.len()),
            (second.count, second.ticks.len()),
            (second.count, second.rows.len()),
        ];
        let is_short = |k: &usize| buffers[*k].0 > buffers[*k].1 as u64;
        if let [sole] = (0..4).filter(is_short).collect::<Vec<_>>()[..] {
            self.short[sole] += 1;
        }
        let late = is_late(first.recorded()) || is_late(second.recorded());
        self.six_first[0] += u64::from(case.jitter > MOST_JITTER);
        self.six_first[1] += u64::from(late);
    }

    fn note_eighteen(&mut self, case: &Case) {
        let [first, second] = &case.lists;
        let ticks = [first.recorded(), second.recorded()];
        let paired = ticks[0].len().min(ticks[1].len());
        let in_pairs = ticks.map(|ticks| is_late(&ticks[..paired]));
        let alone = ticks.map(|ticks| is_late(&ticks[paired..]));
        match (in_pairs, alone, case.jitter > MOST_JITTER) {
            ([false, false], [false, false], _) => {
                self.jitter[0] += 1;
                self.jitter[1] += u64::from(first.words() != second.words());
            }
            ([true, false], [false, false], false) => self.late[0] += 1,
            ([false, true], [false, false], false) => self.late[1] += 1,
            ([false, false], [true, false], false) => self.late_rest[0] += 1,
            ([false, false], [false, true], false) => self.late_rest[1] += 1,
            _ => {}
        }
    }

    fn note_answer(&mut self, case: &Case, out: [u64; 2]) {
        let [first, second] = &case.lists;
        let any = |test: fn(&Probe) -> bool| u64::from(test(first) || test(second));
        self.rest[0] += any(|list| !list.rest().is_empty());
        self.rest[1] += any(|list| is_late(list.rest()));
        self.last_tick += any(|list| list.recorded().contains(&(LATE - 1)));
        match (first.count, second.count) {
            (0, 0) => self.empty += 1,
            (0, _) => self.one_empty[0] += 1,
            (_, 0) => self.one_empty[1] += 1,
            (one, two) if one != two => {
                self.one_more[0] += u64::from(one == two + 1);
                self.one_more[1] += u64::from(one + 1 == two);
            }
            _ if first.words() != second.words() => self.note_words(first, second),
            _ if out[0] == 1 => self.note_fit(case, out[1] as i64),
            _ => self.note_unfit(case),
        }
    }

    fn note_words(&mut self, first: &Probe, second: &Probe) {
        let pairs = first.words().iter().zip(second.words());
        let others: Vec<u32> = pairs.map(|(one, two)| one ^ two).collect();
        let all = others.iter().fold(0, |all, other| all | other);
        self.words[0] += u64::from(all % 65_536 == 0);
        self.words[1] += u64::from(all / 65_536 == 0);
        let places = others.iter().position(|&other| other != 0);
        self.last_word += u64::from(places == Some(others.len() - 1) && others.len() > 1);
    }

    fn note_fit(&mut self, case: &Case, d: i64) {
        let (low, high, j) = (low(case), high(case), case.jitter as i64);
        let greatest = (low + j).min(1_000);
        self.offsets[(greatest - d).clamp(0, 2) as usize] += 1;
        self.tight += u64::from(high - low == 2 * j && j > 0);
        self.at[0] += u64::from(d == -1_000);
        self.at[1] += u64::from(d < 0);
        self.at[2] += u64::from(d > 0);
        self.at[3] += u64::from(d == 1_000);
        self.raised += u64::from(high - j < -1_000);
    }

    fn note_unfit(&mut self, case: &Case) {
        let j = case.jitter as i64;
        let (least, greatest) = (high(case) - j, low(case) + j);
        let (kind, nearly) = if least > greatest {
            (&mut self.apart, least == greatest + 1)
        } else if greatest < -1_000 {
            (&mut self.below, greatest == -1_001)
        } else {
            (&mut self.above, least == 1_001)
        };
        kind[0] += 1;
        kind[1] += u64::from(nearly);
        let mut shorter = case.clone();
        shorter.lists.iter_mut().for_each(|list| list.count -= 1);
        if shorter.lists[0].count > 0 {
            let (least, greatest) = (high(&shorter) - j, low(&shorter) + j);
            self.last_pair += u64::from(least.max(-1_000) <= greatest.min(1_000));
        }
    }
}

fn is_late(ticks: &[u64]) -> bool {
    ticks.iter().any(|&tick| tick >= LATE)
}

/// The differences of pairs of ticks that are not too great.
fn differences(case: &Case) -> impl Iterator<Item = i64> + '_ {
    let [first, second] = &case.lists;
    let pairs = first.recorded().iter().zip(second.recorded());
    pairs.map(|(&one, &two)| two as i64 - one as i64)
}

/// The least difference, and the greatest, of lists that are not empty.
fn low(case: &Case) -> i64 {
    differences(case).min().unwrap_or(0)
}

fn high(case: &Case) -> i64 {
    differences(case).max().unwrap_or(0)
}
