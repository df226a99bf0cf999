//! The log checker: reads a log of 512-byte blocks, runs its records through
//! the throttle of the old width and reports whether the log agrees with the rules.

use crate::decision::OPENED;
use crate::fault::Fault;
use crate::limits::of_checker;
use crate::model::{done, request, setup};
use crate::profile::{LARGE, SMALL};
use crate::setting::{accept, Config, Setting, MARK};
use crate::state::State;
use std::fmt;

/// Bytes of a block.
pub const BLOCK: usize = 512;
/// Most records of a block.
pub const RECORDS: usize = 20;
/// Bytes of a record.
const RECORD: usize = 24;
/// First byte of the body.
pub const BODY: usize = 8;
/// First byte of the seeds, after nine numbers of 32 bits.
pub const SEEDS: usize = BODY + 9 * 4;
/// Byte of the profile mark, the first one after the 64 seeds.
pub const MARK_BYTE: usize = SEEDS + 64 * 2;
/// First byte of the two sums.
pub const SUMS: usize = 508;

/// What the checker prints.
#[derive(Clone, Copy, Debug, PartialEq, Eq)]
pub enum Report {
    /// Refusal number and whole blocks before the one at fault.
    Refused { number: u32, blocks: u64 },
    /// Records judged, records opened by the rules, and the block and record
    /// place of a difference.
    Judged {
        records: u64,
        opened: u64,
        differs: Option<(u64, u64)>,
    },
}

impl fmt::Display for Report {
    fn fmt(&self, f: &mut fmt::Formatter<'_>) -> fmt::Result {
        match self {
            Report::Refused { number, blocks } => writeln!(f, "refused {number} {blocks}"),
            Report::Judged {
                records,
                opened,
                differs,
            } => {
                writeln!(f, "records {records}")?;
                writeln!(f, "opened {opened}")?;
                match differs {
                    None => writeln!(f, "agrees"),
                    Some((block, record)) => writeln!(f, "differs {block} {record}"),
                }
            }
        }
    }
}

/// One record of the log.
#[derive(Clone, Copy, Debug, Default, PartialEq, Eq)]
pub struct Record {
    pub tick: u64,
    pub wait: u64,
    pub row: u16,
    pub bank: u8,
    pub thread: u8,
    /// 0 request, 1 done.
    pub kind: u8,
    /// 0 opened or done, 1 bank, 2 rank, 3 row, 4 quota.
    pub answer: u8,
}

impl Record {
    pub fn read(bytes: &[u8]) -> Self {
        Record {
            tick: number(&bytes[0..8]),
            wait: number(&bytes[8..16]),
            row: number(&bytes[16..18]) as u16,
            bank: bytes[18],
            thread: bytes[19],
            kind: bytes[20],
            answer: bytes[21],
        }
    }

    /// The answer and the wait tick that it has.
    pub fn says(&self) -> [u64; 2] {
        [u64::from(self.answer), self.wait]
    }

    pub fn write(&self) -> [u8; RECORD] {
        let mut bytes = [0; RECORD];
        bytes[0..8].copy_from_slice(&self.tick.to_le_bytes());
        bytes[8..16].copy_from_slice(&self.wait.to_le_bytes());
        bytes[16..18].copy_from_slice(&self.row.to_le_bytes());
        bytes[18..22].copy_from_slice(&[self.bank, self.thread, self.kind, self.answer]);
        bytes
    }
}

/// A little-endian number of up to eight bytes.
fn number(bytes: &[u8]) -> u64 {
    bytes
        .iter()
        .rev()
        .fold(0, |value, &byte| value << 8 | u64::from(byte))
}

/// The two sums over bytes 0 to 507, modulo 65,521.
pub fn sums(block: &[u8]) -> [u64; 2] {
    let mut sums = [0, 0];
    for (place, &byte) in block[..SUMS].iter().enumerate() {
        sums[0] += u64::from(byte);
        sums[1] += (place as u64 + 1) * u64::from(byte);
    }
    sums.map(|sum| sum % 65_521)
}

/// Refusals 11, 12 and 13 of a whole block; `previous` is the record count of
/// the block before it.
pub fn sound(block: &[u8], index: u64, previous: usize, fault: Fault) -> Result<(), u32> {
    if block.len() < BLOCK {
        return Err(11);
    }
    if [number(&block[508..510]), number(&block[510..512])] != sums(block) {
        return Err(12);
    }
    let laid_out = number(&block[0..4]) == index
        && zeros(&block[5..8])
        && if index == 0 {
            sound_setting(block, fault)
        } else {
            sound_records(block)
        };
    let after_short = index > 1 && previous < RECORDS;
    if !laid_out || after_short {
        return Err(13);
    }
    Ok(())
}

/// Block 0: count 0, a mark of 0 or 1 after the nine numbers and 64 seeds, and
/// zeros after it.
fn sound_setting(block: &[u8], fault: Fault) -> bool {
    let place = mark_place(fault);
    let rest = match fault {
        Fault::LogByte173Free => place + 2..SUMS,
        Fault::LogByte507Free => place + 1..SUMS - 1,
        _ => place + 1..SUMS,
    };
    let before = MARK_BYTE.min(place)..place;
    block[4] == 0 && sound_mark(block[place], fault) && zeros(&block[before]) && zeros(&block[rest])
}

/// The byte of the mark. Only a fault looks for it elsewhere.
fn mark_place(fault: Fault) -> usize {
    match fault {
        Fault::LogMarkAt171 => MARK_BYTE - 1,
        Fault::LogMarkAt173 => MARK_BYTE + 1,
        _ => MARK_BYTE,
    }
}

/// Is the mark that of a profile, as far as the layout is tested for it?
fn sound_mark(mark: u8, fault: Fault) -> bool {
    match fault {
        Fault::LogMarkIsZero => mark == 0,
        Fault::LogMarkIgnored
        | Fault::LogMarkAboveIsLarge
        | Fault::LogMarkAboveIsSmall
        | Fault::LogMarkIsOne
        | Fault::LogMarkAfterSetting => true,
        _ => mark <= 1,
    }
}

/// Later blocks: 1 to 20 sound records, and zeros after.
fn sound_records(block: &[u8]) -> bool {
    let count = usize::from(block[4]);
    (1..=RECORDS).contains(&count)
        && records(block).all(|bytes| bytes[20] <= 1 && bytes[21] <= 4 && zeros(&bytes[22..24]))
        && zeros(&block[BODY + count * RECORD..SUMS])
}

fn zeros(bytes: &[u8]) -> bool {
    bytes.iter().all(|&byte| byte == 0)
}

/// The records of a block, as many as its count says and as there are places.
pub fn records(block: &[u8]) -> impl Iterator<Item = &[u8]> {
    block[BODY..SUMS]
        .chunks_exact(RECORD)
        .take(usize::from(block[4]))
}

/// The ten words of the setting that block 0 has.
fn read_setting(block: &[u8], fault: Fault) -> Setting {
    let mark = u64::from(block[mark_place(fault)]);
    std::array::from_fn(|k| match (k, fault) {
        (MARK, Fault::LogMarkIgnored | Fault::LogMarkNotUsed) => LARGE,
        (MARK, Fault::LogMarkAboveIsLarge) if mark > SMALL => LARGE,
        (MARK, Fault::LogMarkAboveIsSmall) if mark > SMALL => SMALL,
        (MARK, _) => mark,
        _ => number(&block[BODY + 4 * k..BODY + 4 * k + 4]),
    })
}

/// The setting that set-up gets. Only a fault leaves a mark out.
fn at_start(mut setting: Setting, fault: Fault) -> Setting {
    match fault {
        Fault::LogProfileAtRecords => setting[MARK] = LARGE,
        Fault::LogMarkAfterSetting if setting[MARK] > SMALL => setting[MARK] = LARGE,
        _ => {}
    }
    setting
}

/// The number that is reported of a refused setting. Only a fault changes it.
fn told(number: u32, fault: Fault) -> u32 {
    match number {
        16 if fault == Fault::LogProfileIs13 => 13,
        _ => number,
    }
}

/// The run of a log: the setting, the throttle's memory, and the counts.
pub struct Run {
    setting: Setting,
    seeds: Vec<u16>,
    fault: Fault,
    pub state: State,
    records: u64,
    opened: u64,
}

impl Run {
    /// Reads the setting of block 0 and sets the throttle up.
    pub fn start(block: &[u8], fault: Fault) -> Result<Self, u32> {
        let setting = read_setting(block, fault);
        let words = block[SEEDS..].chunks_exact(2).take(64);
        let seeds: Vec<u16> = words.map(|word| number(word) as u16).collect();
        let config = Config {
            setting: at_start(setting, fault),
            seeds: &seeds,
            limits: of_checker(fault),
            fault,
        };
        let mut state = State::cleared(&accept(&config).map_err(|number| told(number, fault))?);
        match setup(&config, &mut state) {
            0 if fault == Fault::LogMarkAfterSetting && setting[MARK] > SMALL => Err(13),
            0 => Ok(Run {
                setting,
                seeds,
                fault,
                state,
                records: 0,
                opened: 0,
            }),
            number => Err(number),
        }
    }

    /// The answer and the wait tick that the rules give to a record, both 0 for a
    /// done. A record has no openings left.
    pub fn answer(&mut self, record: &Record) -> Result<[u64; 2], u32> {
        let config = Config {
            setting: self.setting,
            seeds: &self.seeds,
            limits: of_checker(self.fault),
            fault: self.fault,
        };
        let (bank, thread) = (u64::from(record.bank), u64::from(record.thread));
        let mut out = [0; 3];
        let refusal = match record.kind {
            0 => {
                let row = record.row;
                request(
                    &config,
                    &mut self.state,
                    record.tick,
                    bank,
                    thread,
                    row,
                    &mut out,
                )
            }
            _ => done(&config, &mut self.state, record.tick, bank, thread),
        };
        if refusal != 0 {
            return Err(refusal);
        }
        Ok([out[0], out[1]])
    }

    /// Runs one record; true if the rules answer as it says.
    fn judge(&mut self, record: &Record) -> Result<bool, u32> {
        let found = self.answer(record)?;
        self.records += 1;
        if record.kind == 0 && found[0] == OPENED {
            self.opened += 1;
        }
        Ok(found == record.says())
    }

    /// Runs a block's records up to the first that differs; its place from 1.
    fn judge_block(&mut self, block: &[u8]) -> Result<Option<u64>, u32> {
        for (place, bytes) in (1..).zip(records(block)) {
            if !self.judge(&Record::read(bytes))? {
                return Ok(Some(place));
            }
        }
        Ok(None)
    }

    fn report(&self, differs: Option<(u64, u64)>) -> Report {
        Report::Judged {
            records: self.records,
            opened: self.opened,
            differs,
        }
    }
}

/// Checks a log, block after block, up to the first event.
pub fn check(log: &[u8], fault: Fault) -> Report {
    let refused = |number, blocks| Report::Refused { number, blocks };
    let mut blocks = (0..).zip(log.chunks(BLOCK));
    let Some((_, first)) = blocks.next() else {
        return refused(11, 0);
    };
    let started = sound(first, 0, 0, fault).and_then(|()| Run::start(first, fault));
    let mut run = match started {
        Ok(run) => run,
        Err(number) => return refused(number, 0),
    };
    let mut previous = 0;
    for (index, block) in blocks {
        match sound(block, index, previous, fault).and_then(|()| run.judge_block(block)) {
            Err(number) => return refused(number, index),
            Ok(Some(place)) => return run.report(Some((index, place))),
            Ok(None) => previous = usize::from(block[4]),
        }
    }
    run.report(None)
}
