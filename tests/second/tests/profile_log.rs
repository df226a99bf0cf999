//! The profile mark in logs: byte 172 of block 0, read by the checker and written
//! by the log writer.

mod common;

use common::*;
use second::log::{check, Record, BLOCK};
use second::setting::house_seeds;
use second::write::{encode, seal, start};
use second::{Config, Fault, Setting};

/// The byte of the mark: 8, nine numbers of 4 bytes and 64 seeds of 2.
const BYTE: usize = 172;

/// The four requests of the sample runs; the third waits until a tick, which is 7
/// under the rules.
fn four(wait: u64) -> Vec<Record> {
    let request = |tick, answer, wait| Record {
        tick,
        wait,
        row: 5,
        answer,
        ..Record::default()
    };
    vec![
        request(0, 0, 0),
        request(1, 0, 0),
        request(2, 3, wait),
        request(7, 0, 0),
    ]
}

/// A log of S with some fields changed and the four requests.
fn log(changes: &[(usize, u64)]) -> Vec<u8> {
    encode(&s_with(changes), &house_seeds(), &four(7))
}

/// The same with one byte of block 0 changed and its sums written anew.
fn tampered(changes: &[(usize, u64)], place: usize, byte: u8) -> Vec<u8> {
    let mut bytes = log(changes);
    bytes[place] = byte;
    seal(&mut bytes[..BLOCK]);
    bytes
}

const AGREES: &str = "records 4\nopened 3\nagrees\n";
const SMALL: (usize, u64) = (MARK, 1);
/// 1,024, 1,028 and 4,100 history places.
const LONG: [(usize, u64); 3] = [(W, 4_000), (TD, 1_024), SMALL];
const LONGER: [(usize, u64); 3] = [(W, 4_000), (TD, 1_025), SMALL];
const LONGEST: [(usize, u64); 4] = [(W, 4_000), (TD, 1_025), (TFAW, 1), SMALL];

/// Logs with marks and settings, and their reports.
fn marked() -> Vec<(Vec<u8>, &'static str)> {
    let block_0 = |changes: &[(usize, u64)]| log(changes)[..BLOCK].to_vec();
    let empty = "records 0\nopened 0\nagrees\n";
    let differs = encode(&s_with(&[SMALL]), &house_seeds(), &four(8));
    let mut logs = vec![
        (log(&[]), AGREES),
        (log(&[SMALL]), AGREES),
        (differs, "records 3\nopened 2\ndiffers 1 3\n"),
        (log(&[(BANKS, 4), SMALL]), AGREES),
        (log(&[(BANKS, 5)]), AGREES),
        (log(&[(BANKS, 5), SMALL]), "refused 16 0\n"),
        (block_0(&[(BANKS, 5), SMALL]), "refused 16 0\n"),
        (block_0(&LONG), empty),
        (block_0(&LONGER), "refused 16 0\n"),
        (log(&LONGER), "refused 16 0\n"),
        (block_0(&LONGEST), "refused 4 0\n"),
        (log(&[(BANKS, 5), (L, 9), SMALL]), "refused 5 0\n"),
        (log(&[(BANKS, 17), SMALL]), "refused 1 0\n"),
        (log(&[(BANKS, 5), (L, 9), (MARK, 2)]), "refused 13 0\n"),
        (log(&[(BANKS, 5), (W, 41), (MARK, 3)]), "refused 13 0\n"),
    ];
    for mark in [2, 3, 127, 128, 254, 255] {
        logs.push((log(&[(MARK, mark)]), "refused 13 0\n"));
        logs.push((block_0(&[(MARK, mark)]), "refused 13 0\n"));
    }
    logs
}

/// Logs with a byte changed near the mark or at the end of the zeros, or with a
/// mark that the sums do not know, and their reports.
fn damaged() -> Vec<(Vec<u8>, &'static str)> {
    let mut logs = vec![
        (tampered(&[(BANKS, 5), SMALL], 173, 1), "refused 13 0\n"),
        (tampered(&[(L, 9), SMALL], 507, 1), "refused 13 0\n"),
        // seed 63 has its high byte at 171
        (tampered(&[SMALL], 171, 4), "refused 1 0\n"),
        (tampered(&[(BANKS, 5), SMALL], 171, 4), "refused 1 0\n"),
        (tampered(&[SMALL], 171, 1), AGREES),
        (tampered(&[SMALL], 171, 0), AGREES),
        (tampered(&[], 171, 1), AGREES),
    ];
    for place in [173, 174, 175, 300, 506, 507] {
        for byte in [1, 2, 255] {
            logs.push((tampered(&[], place, byte), "refused 13 0\n"));
            logs.push((tampered(&[SMALL], place, byte), "refused 13 0\n"));
        }
    }
    for mark in [1, 2] {
        let mut unsealed = log(&[]);
        unsealed[BYTE] = mark;
        logs.push((unsealed[..500].to_vec(), "refused 11 0\n"));
        logs.push((unsealed, "refused 12 0\n"));
    }
    logs
}

#[test]
fn logs_with_a_mark() {
    assert_eq!(log(&[SMALL])[BYTE], 1);
    for (log, report) in marked().into_iter().chain(damaged()) {
        let found = check(&log, Fault::None).to_string();
        assert_eq!(found, report, "{:?}", &log[..BLOCK.min(log.len())]);
    }
}

#[test]
fn wrong_readings_of_the_mark() {
    assert!(Fault::CHECKER.len() >= 13);
    for &fault in Fault::CHECKER {
        let shows = |(log, report): (Vec<u8>, &str)| check(&log, fault).to_string() != report;
        let mut logs = marked().into_iter().chain(damaged());
        assert!(logs.any(shows), "{fault:?} does not show");
    }
}

/// Logs of random calls have one report under both marks.
#[test]
fn a_log_of_the_small_profile_is_judged_as_one_of_the_large() {
    let large = s_with(&[(BANKS, 3), (THREADS, 2)]);
    let small = with(large, &[SMALL]);
    for seed in 0..100 {
        let mut records = logged(Throttle::new(large), seed);
        assert_eq!(records, logged(Throttle::new(small), seed));
        if seed % 2 == 1 {
            records[seed as usize % 30].wait += 1;
        }
        let [one, two] = [large, small].map(|setting| {
            let log = encode(&setting, &house_seeds(), &records);
            check(&log, Fault::None).to_string()
        });
        assert_eq!(one, two);
        assert_eq!(one.contains("agrees"), seed % 2 == 0, "{one}");
    }
}

/// What the block holds before a log is started.
const BEFORE: [u8; BLOCK] = [0xA5; BLOCK];

/// The number that starting a log returns, and the block after it.
fn started(setting: Setting, seeds: &[u16], fault: Fault) -> (u32, [u8; BLOCK]) {
    let mut block = BEFORE;
    let number = start(&Config::new(setting, seeds).with(fault), &mut block);
    (number, block)
}

/// What it has to be: the parts of block 0 one after the other, or 1.
fn wanted(setting: Setting, seeds: &[u16]) -> (u32, [u8; BLOCK]) {
    let [numbers @ .., mark] = setting;
    if numbers.iter().any(|&number| number >> 32 != 0) || mark > 1 || seeds.len() != 64 {
        return (1, BEFORE);
    }
    let mut bytes = vec![0; 8];
    bytes.extend(numbers.iter().flat_map(|&word| (word as u32).to_le_bytes()));
    bytes.extend(seeds.iter().flat_map(|seed| seed.to_le_bytes()));
    bytes.push(mark as u8);
    bytes.resize(508, 0);
    let weighted = (1..).zip(&bytes).map(|(k, &byte)| k * u32::from(byte));
    let sums = [
        bytes.iter().map(|&byte| u32::from(byte)).sum::<u32>(),
        weighted.sum(),
    ];
    for sum in sums {
        bytes.extend(&(sum % 65_521).to_le_bytes()[..2]);
    }
    (0, bytes.try_into().unwrap())
}

/// Settings that the writer takes, accepted or not, and ones that it refuses.
fn written() -> Vec<Setting> {
    let marks = [0, 1, 2, 3, 255, 256, 257, 1 << 32, (1 << 32) + 1, u64::MAX];
    let mut settings: Vec<Setting> = marks.iter().map(|&mark| s_with(&[(MARK, mark)])).collect();
    settings.extend([
        s_with(&LONG),
        s_with(&LONGER),
        s_with(&[(BANKS, 5), SMALL]),
        s_with(&[(BANKS, 16), (L, 9), SMALL]),
        s_with(&[(BANKS, 17)]),
        [0; 10],
        [u64::from(u32::MAX); 10],
        with([u64::from(u32::MAX); 10], &[SMALL]),
    ]);
    settings.extend((0..9).map(|field| s_with(&[(field, 1 << 32), SMALL])));
    settings.extend((0..9).map(|field| s_with(&[(field, (1 << 32) + 1)])));
    settings
}

#[test]
fn block_0_as_the_writer_leaves_it() {
    let house = house_seeds();
    for setting in written() {
        let found = started(setting, &house, Fault::None);
        assert_eq!(found, wanted(setting, &house), "{setting:?}");
        if found.0 == 0 {
            assert_eq!(found.1.to_vec(), encode(&setting, &house, &[]));
        }
    }
    let (more, wide) = ([7; 65], [65_535; 64]);
    for seeds in [&house[..0], &house[..63], &more[..], &wide[..]] {
        for mark in [0, 1, 2] {
            let setting = s_with(&[(MARK, mark)]);
            let found = started(setting, seeds, Fault::None);
            assert_eq!(found, wanted(setting, seeds), "{} seeds", seeds.len());
        }
    }
}

#[test]
fn wrong_writings_of_the_mark() {
    assert!(Fault::WRITER.len() >= 9);
    let house = house_seeds();
    for &fault in Fault::WRITER {
        let shows = |&setting: &Setting| started(setting, &house, fault) != wanted(setting, &house);
        assert!(written().iter().any(shows), "{fault:?} does not show");
    }
}
