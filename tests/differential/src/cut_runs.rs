//! Logs at random for the cut-down log: requests and dones with the answers of the rules,
//! of which some are changed. Most changed records differ alone, so that nothing else
//! stays; more stay where a log has opened requests and dones only, one request being
//! opened although the rules hold it, and where a quota that holds no longer is said to.

use crate::numbers::Numbers;
use crate::settings::{accepted, large, medium, seeds, small, BANKS, BASES, Q, THREADS, TRC, W};
use second::log::{Record, Run};
use second::write::encode;
use second::{Fault, Setting, OLD};

/// Answers of a record.
const OPENED: u8 = 0;
const QUOTA: u8 = 4;

/// A setting, its seeds, the run so far, and what was logged of it.
struct Maker<'a> {
    numbers: &'a mut Numbers,
    setting: Setting,
    seeds: Vec<u16>,
    run: Run,
    tick: u64,
    /// The requests in flight, as bank and thread.
    flying: Vec<(u8, u8)>,
    records: Vec<Record>,
}

/// A log of about so many records, on a small setting or on one of medium size.
pub fn short(numbers: &mut Numbers, many: u64) -> Vec<u8> {
    let setting = match numbers.within(0, 9) {
        0 => medium(numbers),
        _ => small(numbers),
    };
    any(numbers, setting, many)
}

/// The same on a large setting.
pub fn great(numbers: &mut Numbers, many: u64) -> Vec<u8> {
    let setting = large(numbers);
    any(numbers, setting, many)
}

fn any(numbers: &mut Numbers, setting: Setting, many: u64) -> Vec<u8> {
    let mut maker = Maker::new(numbers, setting);
    match maker.numbers.within(0, 4) {
        0 | 1 => maker.all_logged(many),
        2 | 3 => maker.opened_logged(many),
        _ => maker.quota_said(many),
    }
    if maker.numbers.one_in(3) {
        maker.change();
    }
    encode(&maker.setting, &maker.seeds, &maker.records)
}

impl<'a> Maker<'a> {
    /// With few requests in flight in half of the cases. A setting that is not accepted
    /// is exchanged for another.
    fn new(numbers: &'a mut Numbers, mut setting: Setting) -> Self {
        if numbers.one_in(2) {
            setting[Q] = numbers.within(1, 4);
        }
        if !accepted(&OLD, &setting) {
            setting = BASES[0];
        }
        let seeds = seeds(numbers);
        let first = encode(&setting, &seeds, &[]);
        let run = Run::start(&first, Fault::None).expect("an accepted setting");
        Maker {
            numbers,
            setting,
            seeds,
            run,
            tick: 0,
            flying: Vec::new(),
            records: Vec::new(),
        }
    }

    /// A request or a done at a later tick, without its answer. A done is of a request in
    /// flight, but for few.
    fn next(&mut self) -> Record {
        let numbers = &mut *self.numbers;
        self.tick += match numbers.within(0, 19) {
            0..=5 => 0,
            6..=12 => self.setting[TRC],
            13..=16 => numbers.within(1, 3),
            17 | 18 => numbers.within(1, 40),
            _ => self.setting[W] / 2,
        };
        let thread = numbers.within(0, self.setting[THREADS] - 1) as u8;
        let mut record = Record {
            tick: self.tick,
            row: numbers.pick(&[5, 5, 5, 6, 7, 0, 65_535]),
            bank: numbers.within(0, self.setting[BANKS] - 1) as u8,
            thread: if numbers.one_in(4) { thread } else { 0 },
            ..Record::default()
        };
        if !self.flying.is_empty() && numbers.one_in(3) || numbers.one_in(60) {
            record.kind = 1;
            if !self.flying.is_empty() {
                (record.bank, record.thread) = numbers.pick(&self.flying);
            }
        }
        record
    }

    /// The record with the answer of the rules, in whose run it is taken; none if it is
    /// refused.
    fn answered(&mut self, mut record: Record) -> Option<Record> {
        let [answer, wait] = self.run.answer(&record).ok()?;
        (record.answer, record.wait) = (answer as u8, wait);
        let place = (record.bank, record.thread);
        match record.kind {
            0 if record.answer == OPENED => self.flying.push(place),
            1 => {
                let at = self.flying.iter().position(|&one| one == place);
                self.flying.swap_remove(at.expect("a request in flight"));
            }
            _ => {}
        }
        Some(record)
    }

    /// All records with their answers, refused ones with any, and one to three changes.
    fn all_logged(&mut self, many: u64) {
        for _ in 0..many {
            let record = self.next();
            let answered = self.answered(record);
            self.records.push(answered.unwrap_or(record));
        }
        for _ in 0..self.numbers.within(1, 3) {
            self.change();
        }
    }

    /// Opened requests and dones only, at the end a request that is opened although the
    /// rules hold it, or a done with an answer.
    fn opened_logged(&mut self, many: u64) {
        for _ in 0..100 * many {
            if self.records.len() as u64 + 1 >= many {
                break;
            }
            let record = self.next();
            self.log_opened(record);
        }
        for _ in 0..200 {
            let mut record = self.next();
            record.tick = self.tick;
            match self.answered(record) {
                Some(found) if found.kind == 1 => {
                    let said = (self.numbers.within(0, 1) as u8, 1);
                    (record.answer, record.wait) = said;
                    return self.records.push(record);
                }
                Some(found) if found.answer != OPENED => return self.records.push(record),
                Some(found) if (self.records.len() as u64) + 1 < many => self.records.push(found),
                _ => {}
            }
        }
    }

    /// The same, at the end a request that a quota is said to hold.
    fn quota_said(&mut self, many: u64) {
        for _ in 0..20 * many {
            if self.records.len() as u64 + 1 >= many {
                break;
            }
            let record = self.next();
            self.log_opened(record);
        }
        let record = Record {
            kind: 0,
            answer: QUOTA,
            ..self.next()
        };
        self.records.push(record);
    }

    /// Logs a record if it is a done or is opened.
    fn log_opened(&mut self, record: Record) {
        if let Some(found) = self.answered(record).filter(|found| found.answer == OPENED) {
            self.records.push(found);
        }
    }

    /// Changes one record in one of its fields; in half of the cases one that is held, if
    /// there is such.
    fn change(&mut self) {
        let is_held = |place: &usize| self.records[*place].answer != OPENED;
        let held: Vec<usize> = (0..self.records.len()).filter(is_held).collect();
        let place = match self.records.len().checked_sub(1) {
            None => return,
            Some(_) if !held.is_empty() && self.numbers.one_in(2) => self.numbers.pick(&held),
            Some(last) => self.numbers.within(0, last as u64) as usize,
        };
        let [.., banks, threads, _] = self.setting;
        let numbers = &mut *self.numbers;
        let record = &mut self.records[place];
        match numbers.within(0, 11) {
            0..=2 => record.answer = numbers.within(0, 4) as u8,
            3 => record.wait = record.wait.wrapping_add(1),
            4 => record.wait = numbers.pick(&[0, 1, record.tick, u64::MAX]),
            5 => record.tick = record.tick.saturating_add(numbers.within(1, 30)),
            6 => record.tick = record.tick.saturating_sub(numbers.within(1, 30)),
            7 => record.tick = numbers.pick(&[(1 << 62) - 1, 1 << 62, u64::MAX]),
            8 => record.bank = numbers.pick(&[0, banks as u8 - 1, banks as u8, 255]),
            9 => record.thread = numbers.pick(&[0, threads as u8 - 1, threads as u8, 255]),
            10 => record.row ^= 1 << numbers.within(0, 15),
            _ => record.kind = 1 - record.kind,
        }
    }
}
