//! The calls of a run, chosen one by one from the library's own memory: ticks
//! next to epoch turns, to the ends of gaps, to wait ticks and to 2^62, banks
//! and threads in and outside the setting.

use crate::call::{Answer, Call, Kind};
use crate::numbers::Numbers;
use crate::pair::Pair;
use crate::settings::{history, BANKS, N, TD, TFAW, THREADS, TRC, W};
use second::filter::hash;
use second::state::{BANK, LAST, RANK};
use second::Setting;

/// The second implementation tries wait ticks one by one. Where the delay is
/// longer than this, a request comes near the end of its row's delay.
const LONG_DELAY: u64 = 4_096;
/// What a few requests may stand before the end of their row's delay.
const FAR_DELAY: u64 = 70_000;

pub struct Walk {
    pub numbers: Numbers,
    /// Rows that are asked for often.
    pub rows: Vec<u16>,
    /// Calls still to be made.
    pub calls: usize,
    /// One in this many calls is a set-up.
    pub setups: u64,
    /// The last wait tick answered.
    wait: u64,
}

impl Walk {
    pub fn new(mut numbers: Numbers, calls: usize, setups: u64) -> Self {
        let any = [numbers.word() as u16, numbers.word() as u16];
        let rows = numbers.pick(&[
            [0, 1, 2, 3],
            [5, 5, 5, 5],
            [0, 65_535, any[0], any[1]],
            [any[0], any[0], any[1], 0],
        ]);
        Walk {
            numbers,
            rows: rows.to_vec(),
            calls,
            setups,
            wait: 0,
        }
    }

    /// Takes note of an answer.
    pub fn note(&mut self, call: &Call, answer: &Answer) {
        if call.kind == Kind::Request && answer.number == 0 && answer.out[1] != 0 {
            self.wait = answer.out[1];
        }
    }

    /// The next call.
    pub fn next_call(&mut self, pair: &Pair) -> Call {
        let setting = *pair.setting();
        let kind = match self.numbers.within(0, 9) {
            _ if self.numbers.one_in(self.setups) => Kind::Setup,
            0 | 1 => Kind::Done,
            2 => Kind::Index,
            _ => Kind::Request,
        };
        let mut call = Call {
            kind,
            tick: self.tick(&setting, pair),
            bank: self.below(setting[BANKS]),
            thread: self.below(setting[THREADS]),
            row: self.numbers.pick(&self.rows),
        };
        if self.numbers.one_in(20) {
            call.row = self.numbers.word() as u16;
        }
        if kind == Kind::Done && !self.numbers.one_in(4) {
            self.aim_at_in_flight(&setting, pair, &mut call);
        }
        if kind == Kind::Request && setting[TD] > LONG_DELAY {
            self.shorten(&setting, pair, &mut call);
        }
        call
    }

    /// A bank or thread below the number of them, rarely not.
    fn below(&mut self, many: u64) -> u64 {
        let inside = self.numbers.within(0, many.clamp(1, 32) - 1);
        if !self.numbers.one_in(40) {
            return inside;
        }
        let outside = [
            many,
            many.saturating_add(1),
            1 << 32,
            (1 << 32) + inside,
            u64::MAX,
        ];
        self.numbers.pick(&outside)
    }

    /// A tick that is mostly at or soon after the last one.
    fn tick(&mut self, setting: &Setting, pair: &Pair) -> u64 {
        let head = pair.memory().head.cells();
        let last = head[LAST];
        let near = self.numbers.within(0, 2);
        let epoch = (setting[W] / 2).clamp(1, 1 << 30);
        let ahead = match self.numbers.within(0, 31) {
            0..=8 => 0,
            9..=15 => 1,
            16 | 17 => self.numbers.within(1, setting[TD].clamp(1, 1 << 30)),
            18 | 19 => return self.wait.saturating_sub(near / 2).max(last),
            20 | 21 => {
                let turns = self.numbers.within(1, 3) * epoch;
                (turns - last % epoch + near).saturating_sub(1)
            }
            22 | 23 => return self.end_of_gap(setting, head, near).max(last),
            24 => setting[TD].min(1 << 30).saturating_sub(near),
            25 => self.numbers.within(0, 5),
            26 => return last.saturating_sub(near),
            27 if self.numbers.one_in(4) => return self.extreme(),
            _ => 0,
        };
        last.saturating_add(ahead)
    }

    /// A tick at or next to the end of a bank's or the rank's gap.
    fn end_of_gap(&mut self, setting: &Setting, head: &[u64], near: u64) -> u64 {
        let (cell, gap) = if self.numbers.one_in(2) {
            (RANK + 3, setting[TFAW])
        } else {
            let bank = self.numbers.within(0, setting[BANKS].clamp(1, 16) - 1);
            (BANK + bank as usize, setting[TRC])
        };
        let end = head[cell].saturating_add(gap.min(1 << 30) + near);
        end.saturating_sub(2)
    }

    /// A tick around 2^62 or far above.
    fn extreme(&mut self) -> u64 {
        let near = self.numbers.within(0, 3);
        let limit = 1 << 62;
        self.numbers.pick(&[
            limit - near,
            limit + near,
            limit,
            1 << 63,
            u64::MAX - near,
            u64::MAX,
        ])
    }

    /// Aims a done at a thread that has something in flight, if a few tries
    /// find one.
    fn aim_at_in_flight(&mut self, setting: &Setting, pair: &Pair, call: &mut Call) {
        let threads = pair.memory().threads.cells();
        for _ in 0..8 {
            let bank = self.numbers.within(0, setting[BANKS].clamp(1, 16) - 1);
            let thread = self.numbers.within(0, setting[THREADS].clamp(1, 32) - 1);
            let place = (bank * setting[THREADS].min(32) + thread) * 3 + 2;
            if threads.get(place as usize).is_some_and(|&count| count > 0) {
                (call.bank, call.thread) = (bank, thread);
                return;
            }
        }
    }

    /// Moves a request near the end of its row's delay, or near an epoch turn
    /// that ends the wait, if it stands far before both.
    fn shorten(&mut self, setting: &Setting, pair: &Pair, call: &mut Call) {
        let memory = pair.memory();
        let word = (call.bank % 65_536) as u32 * 65_536 + u32::from(call.row);
        let places = memory.ticks.cells().iter().zip(memory.rows.cells());
        let newest = places
            .take(history(pair.limits(), setting))
            .filter(|(_, &row)| row == word)
            .map(|(&stored, _)| stored)
            .max();
        let end = newest.unwrap_or(0).saturating_add(setting[TD].min(1 << 30));
        let far = self.numbers.one_in(64);
        let most = if far { FAR_DELAY } else { LONG_DELAY };
        if end > call.tick.saturating_add(most) {
            let near = end - self.numbers.within(0, LONG_DELAY);
            call.tick = self.before_turn(setting, pair, call).unwrap_or(near);
        }
    }

    /// In one of two cases a tick shortly before the next epoch turn, if the
    /// row isn't blacklisted after it.
    fn before_turn(&mut self, setting: &Setting, pair: &Pair, call: &Call) -> Option<u64> {
        let memory = pair.memory();
        let (last, epoch) = (memory.head.cells()[LAST], setting[W] / 2);
        let seeds = memory.seeds.cells();
        if seeds.len() != 64 || epoch == 0 || last >= 1 << 62 || self.numbers.one_in(2) {
            return None;
        }
        let next = last / epoch + 1;
        let filter = call.bank as usize % 16 * 2_048 + (next % 2) as usize * 1_024;
        let places = hash(seeds, call.row).map(|place| filter + place % 1_024);
        let least = places.map(|place| memory.counters.get(place).unwrap_or(0));
        let tick = next * epoch - self.numbers.within(1, 2_000).min(epoch);
        let free = least.iter().any(|&counter| u64::from(counter) < setting[N]);
        (free && tick >= last).then_some(tick)
    }
}
