//! What the tests share: the setting S of the sample runs, a throttle with its
//! own memory, random numbers, and logs made with a rule of document 01; in
//! `runs` settings, memory and calls at random, in `wide` those that only the
//! new width takes, and in `probes` the lists of two probes.
#![allow(dead_code)]

pub mod probes;
pub mod runs;
pub mod wide;

use second::log::{check, Record, Report};
use second::setting::{accept, house_seeds};
use second::write::encode;
use second::{done, index, request, setup, Config, Fault, Limits, Setting, State, NEW, OLD};

/// W 40, tRC 1, tFAW 4, N 2, tD 6, L 10, Q 4, one bank, one thread, large.
pub const S: Setting = [40, 1, 4, 2, 6, 10, 4, 1, 1, 0];

/// A field of the setting by its place.
pub const W: usize = 0;
pub const TRC: usize = 1;
pub const TFAW: usize = 2;
pub const N: usize = 3;
pub const TD: usize = 4;
pub const L: usize = 5;
pub const Q: usize = 6;
pub const BANKS: usize = 7;
pub const THREADS: usize = 8;
pub const MARK: usize = 9;

/// Answer and wait tick of a request, unless it is refused.
pub const OPENED: Result<[u64; 2], u32> = Ok([0, 0]);
pub const QUOTA: Result<[u64; 2], u32> = Ok([4, 0]);

pub fn wait_row(until: u64) -> Result<[u64; 2], u32> {
    Ok([3, until])
}

/// The setting S with some fields changed.
pub fn s_with(changes: &[(usize, u64)]) -> Setting {
    with(S, changes)
}

/// A setting with some fields changed.
pub fn with(mut setting: Setting, changes: &[(usize, u64)]) -> Setting {
    for &(field, value) in changes {
        setting[field] = value;
    }
    setting
}

/// The refusal of a setting, 0 if it is accepted.
pub fn refusal(setting: Setting, seeds: &[u16]) -> u32 {
    refusal_within(OLD, setting, seeds)
}

/// The same in a width.
pub fn refusal_within(limits: Limits, setting: Setting, seeds: &[u16]) -> u32 {
    let config = Config::new(setting, seeds).within(limits);
    accept(&config).err().unwrap_or(0)
}

/// Xorshift numbers, the same on every run.
pub struct Numbers(u64);

impl Numbers {
    pub fn new(seed: u64) -> Self {
        Numbers(seed.wrapping_mul(0x9E37_79B9_7F4A_7C15) | 1)
    }

    /// A number from low to high.
    pub fn within(&mut self, low: u64, high: u64) -> u64 {
        self.0 ^= self.0 << 13;
        self.0 ^= self.0 >> 7;
        self.0 ^= self.0 << 17;
        low + (self.0 >> 11) % (high - low + 1)
    }

    pub fn one_in(&mut self, many: u64) -> bool {
        self.within(1, many) == 1
    }
}

/// A throttle set up on memory of its own.
#[derive(Clone)]
pub struct Throttle {
    pub setting: Setting,
    pub seeds: Vec<u16>,
    pub limits: Limits,
    /// A wrong behaviour, or none.
    pub fault: Fault,
    pub state: State,
}

impl Throttle {
    /// Of the old width.
    pub fn new(setting: Setting) -> Self {
        Throttle::within(OLD, setting)
    }

    /// Of the new width.
    pub fn wide(setting: Setting) -> Self {
        Throttle::within(NEW, setting)
    }

    pub fn within(limits: Limits, setting: Setting) -> Self {
        let seeds = house_seeds();
        let config = Config::new(setting, &seeds).within(limits);
        let mut state = State::cleared(&accept(&config).unwrap());
        assert_eq!(setup(&config, &mut state), 0);
        Throttle {
            setting,
            seeds,
            limits,
            fault: Fault::None,
            state,
        }
    }

    /// The same throttle with a fault switched on.
    pub fn with(self, fault: Fault) -> Self {
        Throttle { fault, ..self }
    }

    pub fn setup(&mut self) -> u32 {
        let Throttle {
            setting, limits, ..
        } = *self;
        let config = Config::new(setting, &self.seeds).within(limits);
        setup(&config, &mut self.state)
    }

    /// A request: the refusal, or answer, wait tick and openings left.
    pub fn ask(&mut self, tick: u64, bank: u64, thread: u64, row: u16) -> Result<[u64; 3], u32> {
        let config = Config::new(self.setting, &self.seeds)
            .within(self.limits)
            .with(self.fault);
        let mut out = [77, 78, 79];
        match request(&config, &mut self.state, tick, bank, thread, row, &mut out) {
            0 => Ok(out),
            number => {
                assert_eq!(out, [77, 78, 79]);
                Err(number)
            }
        }
    }

    /// A request: the refusal, or answer and wait tick.
    pub fn at(&mut self, tick: u64, bank: u64, thread: u64, row: u16) -> Result<[u64; 2], u32> {
        let out = self.ask(tick, bank, thread, row);
        out.map(|[answer, wait, _]| [answer, wait])
    }

    /// A request of row 5 by thread 0 in bank 0.
    pub fn five(&mut self, tick: u64) -> Result<[u64; 2], u32> {
        self.at(tick, 0, 0, 5)
    }

    pub fn done(&mut self, tick: u64, bank: u64, thread: u64) -> u32 {
        let config = Config::new(self.setting, &self.seeds)
            .within(self.limits)
            .with(self.fault);
        done(&config, &mut self.state, tick, bank, thread)
    }

    /// An index reading: the refusal, or c, D and the quota.
    pub fn index(&mut self, tick: u64, bank: u64, thread: u64) -> Result<[u64; 3], u32> {
        let config = Config::new(self.setting, &self.seeds)
            .within(self.limits)
            .with(self.fault);
        let mut out = [77, 78, 79];
        match index(&config, &mut self.state, tick, bank, thread, &mut out) {
            0 => Ok(out),
            number => {
                assert_eq!(out, [77, 78, 79]);
                Err(number)
            }
        }
    }

    /// The call of a record: the refusal, or answer and wait tick.
    pub fn make(&mut self, record: &Record) -> Result<[u64; 2], u32> {
        let (bank, thread) = (u64::from(record.bank), u64::from(record.thread));
        match record.kind {
            0 => self.at(record.tick, bank, thread, record.row),
            _ => match self.done(record.tick, bank, thread) {
                0 => Ok([0, 0]),
                number => Err(number),
            },
        }
    }

    /// Asserts that a request, a done and an index reading are refused with
    /// this number and change nothing.
    pub fn all_refused(&mut self, number: u32, tick: u64, bank: u64, thread: u64) {
        let before = self.state.clone();
        assert_eq!(self.at(tick, bank, thread, 5), Err(number));
        assert_eq!(self.done(tick, bank, thread), number);
        assert_eq!(self.index(tick, bank, thread), Err(number));
        assert_eq!(self.state, before);
    }
}

/// Thirty requests and dones at random ticks, banks and threads, each with the
/// answer that a throttle gives. Three in four requests are for row 5; where a
/// done is refused a request stands.
pub fn logged(mut throttle: Throttle, seed: u64) -> Vec<Record> {
    let numbers = &mut Numbers::new(seed + 1);
    let [.., banks, threads, _] = throttle.setting;
    let mut tick = 0;
    let mut note = || {
        tick += numbers.within(0, 3);
        let mut record = Record {
            tick,
            row: if numbers.one_in(4) { 6 } else { 5 },
            bank: numbers.within(0, banks - 1) as u8,
            thread: numbers.within(0, threads - 1) as u8,
            kind: u8::from(numbers.one_in(8)),
            ..Record::default()
        };
        let answer = throttle.make(&record).or_else(|_| {
            record.kind = 0;
            throttle.make(&record)
        });
        let [answer, wait] = answer.unwrap();
        (record.answer, record.wait) = (answer as u8, wait);
        record
    };
    (0..30).map(|_| note()).collect()
}

/// The first of these records that an old rule and the present rules decide
/// differently, on the state that both have come to, and its two answers, the
/// old one first.
fn first_other(setting: Setting, old: Fault, records: &[Record]) -> Option<(usize, [u64; 2])> {
    let mut throttle = Throttle::new(setting);
    for (place, record) in records.iter().enumerate() {
        let before = throttle.clone().with(old).make(record).unwrap();
        let now = throttle.make(record).unwrap();
        if before != now {
            return Some((place, [before[0], now[0]]));
        }
    }
    None
}

/// Logs made with an old rule agree under it. Under the present rules each
/// differs at the first record that the two decide differently, and agrees if
/// there is none; both happen. Returns the two answers to each such record, the
/// old one first.
pub fn where_old_logs_differ(setting: Setting, old: Fault) -> Vec<[u64; 2]> {
    let mut agree = 0;
    let mut others = Vec::new();
    for seed in 0..300 {
        let records = logged(Throttle::new(setting).with(old), seed);
        let log = encode(&setting, &house_seeds(), &records);
        let differs = |fault| match check(&log, fault) {
            Report::Judged { differs, .. } => differs,
            refused => panic!("{refused}"),
        };
        let place = |k: usize| (1 + k as u64 / 20, 1 + k as u64 % 20);
        let other = first_other(setting, old, &records);
        assert_eq!(differs(old), None);
        assert_eq!(differs(Fault::None), other.map(|(k, _)| place(k)));
        match other {
            None => agree += 1,
            Some((_, answers)) => others.push(answers),
        }
    }
    assert!(agree > 20 && others.len() > 20, "{agree} of 300 agree");
    others
}
