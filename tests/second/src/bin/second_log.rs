//! Writes a faithful log to standard output: requests and dones run through
//! the rules, each with the answer and the wait tick that they give.
//!
//! Arguments: STYLE SEED RECORDS START KEYS W TRC TFAW N TD L Q BANKS THREADS,
//! then the profile mark, which is 0 if it is left out, and, for a rule of
//! document 01 in place of the present one, `down` for the quota rounded down or
//! `bank` for in flight of the named bank alone.
//! STYLE is `random` for requests and dones at random ticks around those that
//! matter, or `controller` for threads that wait as told, of which thread 0
//! asks for two rows of bank 0 in turn. START is the tick of the first record.
//! The seeds of the hash functions are the house seeds if KEYS is 0, else drawn
//! at random below KEYS: with few keys many rows share their counters.

use second::decision::{OPENED, QUOTA};
use second::log::Record;
use second::setting::{accept, house_seeds};
use second::write::encode;
use second::{done, request, Config, Fault, Setting, State};
use std::cmp::Reverse;
use std::collections::BinaryHeap;
use std::io::{self, Write};

/// Pseudo-random numbers (splitmix64), the same for the same seed.
struct Numbers(u64);

impl Numbers {
    fn word(&mut self) -> u64 {
        self.0 = self.0.wrapping_add(0x9E37_79B9_7F4A_7C15);
        let mut word = self.0;
        word = (word ^ (word >> 30)).wrapping_mul(0xBF58_476D_1CE4_E5B9);
        word = (word ^ (word >> 27)).wrapping_mul(0x94D0_49BB_1331_11EB);
        word ^ (word >> 31)
    }

    /// A number below `bound`.
    fn below(&mut self, bound: u64) -> u64 {
        self.word() % bound
    }
}

/// A throttle with the log of what it was asked.
struct Logger {
    setting: Setting,
    seeds: Vec<u16>,
    /// A rule of document 01 in place of the present one, or none.
    fault: Fault,
    state: State,
    records: Vec<Record>,
}

impl Logger {
    fn new(setting: Setting, seeds: Vec<u16>, fault: Fault) -> Self {
        let rules = accept(&Config::new(setting, &seeds)).expect("the setting is accepted");
        let state = State::cleared(&rules);
        Logger {
            setting,
            seeds,
            fault,
            state,
            records: Vec::new(),
        }
    }

    /// Requests a row and notes the answer and the wait tick, which it returns.
    fn request(&mut self, tick: u64, (bank, thread): (u64, u64), row: u16) -> [u64; 2] {
        let config = Config::new(self.setting, &self.seeds).with(self.fault);
        let mut out = [0; 3];
        let refusal = request(&config, &mut self.state, tick, bank, thread, row, &mut out);
        assert_eq!(refusal, 0, "a request at tick {tick}");
        let [answer, wait, _] = out;
        self.note(tick, [answer, wait], row, (bank, thread), 0);
        [answer, wait]
    }

    /// Reports a done, whose row is of no meaning.
    fn done(&mut self, tick: u64, (bank, thread): (u64, u64), row: u16) {
        let config = Config::new(self.setting, &self.seeds).with(self.fault);
        let refusal = done(&config, &mut self.state, tick, bank, thread);
        assert_eq!(refusal, 0, "a done at tick {tick}");
        self.note(tick, [0, 0], row, (bank, thread), 1);
    }

    fn note(&mut self, tick: u64, out: [u64; 2], row: u16, who: (u64, u64), kind: u8) {
        self.records.push(Record {
            tick,
            wait: out[1],
            row,
            bank: who.0 as u8,
            thread: who.1 as u8,
            kind,
            answer: out[0] as u8,
        });
    }
}

/// Requests and dones at random. Most requests are for one of three rows; the
/// next tick is mostly near one at which an answer may change.
fn random(logger: &mut Logger, numbers: &mut Numbers, records: u64, start: u64) {
    let [w, trc, tfaw, _, td, _, _, banks, threads, _] = logger.setting;
    let gaps = [0, 0, 0, 1, 1, 2, trc, tfaw, td, w / 2, w];
    let mut flying: Vec<(u64, u64)> = Vec::new();
    let (mut tick, mut wait) = (start, 0);
    for k in 0..records {
        if k > 0 {
            let gap = gaps[numbers.below(gaps.len() as u64) as usize];
            let from = if numbers.below(3) == 0 { wait } else { tick };
            let near = (from.max(tick) + gap).saturating_sub(numbers.below(2));
            tick = near.max(tick).min((1 << 62) - 1);
        }
        if !flying.is_empty() && numbers.below(100) < 45 {
            let who = flying.swap_remove(numbers.below(flying.len() as u64) as usize);
            logger.done(tick, who, numbers.word() as u16);
            continue;
        }
        let who = (numbers.below(banks), numbers.below(threads));
        let row = match numbers.below(8) {
            0 => numbers.word() as u16,
            hot => [0, 5, 0xFFFF][hot as usize % 3],
        };
        let [answer, until] = logger.request(tick, who, row);
        wait = until;
        if answer == OPENED {
            flying.push(who);
        }
    }
}

/// A thread of the controller: the request that it makes next.
#[derive(Clone, Copy)]
struct Pending {
    tick: u64,
    bank: u64,
    row: u16,
}

/// The request that a thread makes after one that was opened: thread 0 for its
/// other row as soon as the bank may be free, the others for random rows, most
/// of them at once.
fn following(setting: Setting, numbers: &mut Numbers, thread: u64, before: Pending) -> Pending {
    let [_, trc, .., banks, _, _] = setting;
    let row = match thread {
        0 => before.row ^ 2,
        _ => numbers.word() as u16,
    };
    let bank = match thread {
        0 => 0,
        _ => numbers.below(banks),
    };
    let pause = match (thread, numbers.below(3)) {
        (0, _) => trc,
        (_, 0) => numbers.below(16_000),
        _ => 0,
    };
    Pending {
        tick: before.tick + pause,
        bank,
        row,
    }
}

/// Threads that keep asking and wait as they are told; of several that ask at
/// one tick, thread 0 comes last. An activation ends 400 ticks after it began,
/// one of thread 0 after up to 1,200.
fn controller(logger: &mut Logger, numbers: &mut Numbers, records: u64, start: u64) {
    let [w, .., threads, _] = logger.setting;
    let first = Pending {
        tick: start,
        bank: 0,
        row: 1000,
    };
    let mut pending = vec![first; threads as usize];
    // Tick, bank and thread of each activation's end, the earliest on top.
    let mut ends: BinaryHeap<Reverse<(u64, u64, u64)>> = BinaryHeap::new();
    for _ in 0..records {
        let earliest = |&thread: &u64| (pending[thread as usize].tick, Reverse(thread));
        let thread = (0..threads).min_by_key(earliest).unwrap_or(0);
        let ask = pending[thread as usize];
        let end = ends.peek().map(|&Reverse(end)| end);
        if let Some((tick, bank, by)) = end.filter(|end| end.0 <= ask.tick) {
            ends.pop();
            logger.done(tick, (bank, by), 0);
            continue;
        }
        let [answer, wait] = logger.request(ask.tick, (ask.bank, thread), ask.row);
        let next = &mut pending[thread as usize];
        match answer {
            OPENED => {
                let held = 400 + if thread == 0 { numbers.below(800) } else { 0 };
                ends.push(Reverse((ask.tick + held, ask.bank, thread)));
                *next = following(logger.setting, numbers, thread, ask);
            }
            QUOTA => next.tick = end.map_or((ask.tick / (w / 2) + 1) * (w / 2), |end| end.0),
            _ => next.tick = wait,
        }
    }
}

/// Takes the rule of document 01 that the last argument names, if it names one.
fn old_rule(arguments: &mut Vec<String>) -> Fault {
    let fault = match arguments.last().map(String::as_str) {
        Some("down") => Fault::QuotaRoundsDown,
        Some("bank") => Fault::InFlightOfBank,
        _ => return Fault::None,
    };
    arguments.pop();
    fault
}

/// The ten words of a setting from its nine numbers and the mark, if it is given.
fn with_mark(words: &[u64]) -> Setting {
    let mut words = words.to_vec();
    if words.len() == 9 {
        words.push(0);
    }
    words
        .try_into()
        .expect("the nine numbers of a setting, and its mark")
}

fn main() -> io::Result<()> {
    let mut arguments: Vec<String> = std::env::args().skip(1).collect();
    let fault = old_rule(&mut arguments);
    let words: Vec<u64> = arguments
        .iter()
        .skip(1)
        .map(|word| word.parse().expect("a number"))
        .collect();
    let [seed, records, start, keys, setting @ ..] = words.as_slice() else {
        panic!("STYLE SEED RECORDS START KEYS, the nine numbers of a setting and, if it is not 0, its mark");
    };
    let setting = with_mark(setting);
    let mut numbers = Numbers(*seed);
    let seeds = match keys {
        0 => house_seeds(),
        keys => (0..64).map(|_| numbers.below(*keys) as u16).collect(),
    };
    let mut logger = Logger::new(setting, seeds, fault);
    match arguments[0].as_str() {
        "random" => random(&mut logger, &mut numbers, *records, *start),
        "controller" => controller(&mut logger, &mut numbers, *records, *start),
        style => panic!("no style {style}"),
    }
    io::stdout().write_all(&encode(&setting, &logger.seeds, &logger.records))
}
