//! Writes logs: block 0 as the log writer for C does it, with its refusal, and
//! whole logs.

use crate::fault::Fault;
use crate::log::{sums, Record, BLOCK, BODY, MARK_BYTE, RECORDS, SEEDS, SUMS};
use crate::profile::{above_small, SMALL};
use crate::setting::{Config, Setting, MARK};

/// Numbers of the setting in block 0.
const NUMBERS: usize = 9;

/// Writes block 0 and returns 0. A number of more than 32 bits, a mark above 1
/// and other than 64 seeds are refused with 1; the block is then as it was.
/// Whether the setting is accepted is not asked.
pub fn start(config: &Config, block: &mut [u8; BLOCK]) -> u32 {
    let wide = |&word: &u64| word > u64::from(u32::MAX);
    if config.setting[..NUMBERS].iter().any(wide) || config.seeds.len() != 64 {
        return 1;
    }
    let number = mark_refusal(config);
    if number == 0 {
        *block = first_block(&config.setting, config.seeds, config.fault);
    } else if config.fault == Fault::WriterRefusalClears {
        block.fill(0);
    }
    number
}

/// The refusal for the mark: 1 if it is above 1.
fn mark_refusal(config: &Config) -> u32 {
    let mark = config.setting[MARK];
    match config.fault {
        Fault::WriterMarkNotTested => 0,
        Fault::WriterMarkCutToByte => u32::from(mark % 256 > SMALL),
        Fault::WriterMarkIs13 if mark > SMALL => 13,
        Fault::WriterTestsProfile if above_small(config) => 16,
        _ => u32::from(mark > SMALL),
    }
}

/// Block 0 with nine numbers cut to 32 bits, up to 64 seeds and the mark cut to
/// a byte.
fn first_block(setting: &Setting, seeds: &[u16], fault: Fault) -> [u8; BLOCK] {
    let mut block = [0; BLOCK];
    for (place, &word) in (BODY..).step_by(4).zip(&setting[..NUMBERS]) {
        block[place..place + 4].copy_from_slice(&(word as u32).to_le_bytes());
    }
    let first = match fault {
        Fault::WriterMarkAsNumber => SEEDS + 4,
        _ => SEEDS,
    };
    for (place, &seed) in (first..).step_by(2).zip(seeds.iter().take(64)) {
        block[place..place + 2].copy_from_slice(&seed.to_le_bytes());
    }
    seal(&mut block);
    let mark = setting[MARK] as u8;
    match fault {
        Fault::WriterMarkLost => {}
        Fault::WriterMarkAt173 => block[MARK_BYTE + 1] = mark,
        Fault::WriterMarkAsNumber => block[SEEDS] = mark,
        _ => block[MARK_BYTE] = mark,
    }
    if fault != Fault::WriterMarkAfterSums {
        seal(&mut block);
    }
    block
}

/// Writes the two sums of a block.
pub fn seal(block: &mut [u8]) {
    let [plain, weighted] = sums(block).map(|sum| (sum as u16).to_le_bytes());
    block[SUMS..SUMS + 2].copy_from_slice(&plain);
    block[SUMS + 2..BLOCK].copy_from_slice(&weighted);
}

/// A sealed block of records with this number.
fn block(index: u32, records: &[Record]) -> [u8; BLOCK] {
    let mut block = [0; BLOCK];
    block[0..4].copy_from_slice(&index.to_le_bytes());
    block[4] = records.len() as u8;
    let body: Vec<u8> = records.iter().flat_map(Record::write).collect();
    block[BODY..BODY + body.len()].copy_from_slice(&body);
    seal(&mut block);
    block
}

/// A log of this setting, its numbers cut to 32 bits and its mark to a byte,
/// with up to 64 seeds and these records.
pub fn encode(setting: &Setting, seeds: &[u16], records: &[Record]) -> Vec<u8> {
    let mut log = first_block(setting, seeds, Fault::None).to_vec();
    for (index, chunk) in (1..).zip(records.chunks(RECORDS)) {
        log.extend(block(index, chunk));
    }
    log
}
