//! The checker on the sample logs of the specification and on faulty logs.

mod common;

use common::*;
use second::log::{check, Record, BLOCK};
use second::setting::house_seeds;
use second::write::{encode, seal};
use second::Fault;

fn request(tick: u64, answer: u8, wait: u64) -> Record {
    Record {
        tick,
        wait,
        row: 5,
        answer,
        ..Record::default()
    }
}

fn done(tick: u64) -> Record {
    Record {
        tick,
        kind: 1,
        row: 999,
        ..Record::default()
    }
}

fn four() -> [Record; 4] {
    [
        request(0, 0, 0),
        request(1, 0, 0),
        request(2, 3, 7),
        request(7, 0, 0),
    ]
}

/// The four records and a request at tick 8.
fn five(answer: u8, wait: u64) -> Vec<Record> {
    let mut records = four().to_vec();
    records.push(request(8, answer, wait));
    records
}

fn log(records: &[Record]) -> Vec<u8> {
    encode(&S, &house_seeds(), records)
}

fn report(log: &[u8]) -> String {
    check(log, Fault::None).to_string()
}

/// Changes one byte of a block and writes its sums anew.
fn tamper(log: &mut [u8], block: usize, place: usize, byte: u8) {
    let block = &mut log[block * BLOCK..(block + 1) * BLOCK];
    block[place] = byte;
    seal(block);
}

/// Agreeing records, two for each hundred ticks: row 5 opened and done.
fn long(count: usize) -> Vec<Record> {
    let pair = |k: u64| [request(100 * k, 0, 0), done(100 * k)];
    (0..).flat_map(pair).take(count).collect()
}

#[test]
fn sample_logs() {
    assert_eq!(report(&log(&four())), "records 4\nopened 3\nagrees\n");
    assert_eq!(report(&log(&[])), "records 0\nopened 0\nagrees\n");
    let mut records = four();
    records[2].wait = 8;
    assert_eq!(report(&log(&records)), "records 3\nopened 2\ndiffers 1 3\n");
    assert_eq!(report(&[]), "refused 11 0\n");
}

#[test]
fn logs_of_several_blocks() {
    assert_eq!(report(&log(&long(47))), "records 47\nopened 24\nagrees\n");
    let mut records = long(47);
    records[44].answer = 4;
    assert_eq!(
        report(&log(&records)),
        "records 45\nopened 23\ndiffers 3 5\n"
    );
    let whole = log(&long(47));
    for (length, expected) in [(1, 0), (511, 0), (513, 1), (2047, 3)] {
        assert_eq!(report(&whole[..length]), format!("refused 11 {expected}\n"));
    }
}

#[test]
fn wrong_sums() {
    for place in [0, 4, 6, 8, 300, 507, 508, 509, 510, 511] {
        for block in 0..3 {
            let mut bytes = log(&long(25));
            bytes[block * BLOCK + place] ^= 1;
            assert_eq!(report(&bytes), format!("refused 12 {block}\n"));
        }
    }
}

#[test]
fn faulty_layout() {
    let faults = [
        (0, 0, 1),
        (0, 4, 1),
        (0, 7, 1),
        (0, 172, 2),
        (0, 173, 1),
        (0, 507, 1),
        (1, 0, 2),
        (1, 3, 1),
        (1, 4, 0),
        (1, 4, 3),
        (1, 4, 21),
        (1, 4, 255),
        (1, 5, 1),
        (1, 28, 2),
        (1, 29, 5),
        (1, 30, 1),
        (1, 31, 1),
        (1, 104, 1),
        (1, 488, 1),
        (1, 507, 1),
    ];
    for (block, place, byte) in faults {
        let mut bytes = log(&four());
        tamper(&mut bytes, block, place, byte);
        assert_eq!(
            report(&bytes),
            format!("refused 13 {block}\n"),
            "byte {place}"
        );
    }
}

#[test]
fn layout_comes_before_records_and_setting() {
    let mut records = long(20);
    records[0].answer = 1;
    let mut bytes = log(&records);
    assert_eq!(report(&bytes), "records 1\nopened 1\ndiffers 1 1\n");
    tamper(&mut bytes, 1, 8 + 19 * 24 + 20, 2);
    assert_eq!(report(&bytes), "refused 13 1\n");
    let mut bytes = encode(&s_with(&[(L, 9)]), &house_seeds(), &four());
    assert_eq!(report(&bytes), "refused 5 0\n");
    tamper(&mut bytes, 0, 200, 1);
    assert_eq!(report(&bytes), "refused 13 0\n");
    bytes[0] = 9;
    assert_eq!(report(&bytes), "refused 12 0\n");
    assert_eq!(report(&bytes[..500]), "refused 11 0\n");
}

#[test]
fn seeds_out_of_range() {
    let mut seeds = house_seeds();
    seeds[63] = 1024;
    assert_eq!(report(&encode(&S, &seeds, &[])), "refused 1 0\n");
}

/// A log whose block 1 is short and is followed by a block 2.
fn after_short(first: &[Record]) -> Vec<u8> {
    let mut bytes = log(first);
    let mut second = log(&long(1))[BLOCK..].to_vec();
    tamper(&mut second, 0, 0, 2);
    bytes.extend(second);
    bytes
}

#[test]
fn a_block_after_a_short_one() {
    let mut bytes = after_short(&long(19));
    assert_eq!(report(&bytes), "refused 13 2\n");
    assert_eq!(report(&bytes[..1030]), "refused 11 2\n");
    bytes[1100] ^= 1;
    assert_eq!(report(&bytes), "refused 12 2\n");
    let mut records = long(19);
    records[18].wait = 1;
    assert_eq!(
        report(&after_short(&records)),
        "records 19\nopened 10\ndiffers 1 19\n"
    );
}

#[test]
fn opened_counts_what_the_rules_open() {
    let records = [request(0, 1, 1)];
    assert_eq!(report(&log(&records)), "records 1\nopened 1\ndiffers 1 1\n");
}

#[test]
fn the_request_at_8_waits_for_the_row() {
    let agrees = "records 5\nopened 3\nagrees\n";
    let differs = "records 5\nopened 3\ndiffers 1 5\n";
    let (new, old) = (log(&five(3, 13)), log(&five(4, 0)));
    assert_eq!(
        (report(&new).as_str(), report(&old).as_str()),
        (agrees, differs)
    );
    let down = |log: &[u8]| check(log, Fault::QuotaRoundsDown).to_string();
    assert_eq!(
        (down(&new).as_str(), down(&old).as_str()),
        (differs, agrees)
    );
}

#[test]
fn dones_and_quota() {
    let with_q_3 = |records: &[Record]| encode(&s_with(&[(Q, 3)]), &house_seeds(), records);
    let mut records = five(4, 0);
    records.extend([done(9), request(9, 3, 13)]);
    let log_3 = with_q_3(&records);
    assert_eq!(report(&log_3), "records 7\nopened 3\nagrees\n");
    records[4].wait = 13;
    let log_3 = with_q_3(&records);
    assert_eq!(report(&log_3), "records 5\nopened 3\ndiffers 1 5\n");
    for (answer, wait) in [(1, 0), (4, 0), (0, 1)] {
        let done = Record {
            answer,
            wait,
            ..done(0)
        };
        let records = [request(0, 0, 0), done];
        assert_eq!(report(&log(&records)), "records 2\nopened 1\ndiffers 1 2\n");
    }
}

#[test]
fn refused_records() {
    let refused = |record: Record| {
        let mut records = long(20);
        records.push(record);
        report(&log(&records))
    };
    assert_eq!(refused(request(0, 3, 5)), "refused 9 2\n");
    assert_eq!(refused(request(1 << 62, 0, 0)), "refused 9 2\n");
    assert_eq!(
        refused(Record {
            bank: 1,
            ..request(2000, 0, 0)
        }),
        "refused 8 2\n"
    );
    assert_eq!(
        refused(Record {
            thread: 1,
            ..request(0, 0, 0)
        }),
        "refused 8 2\n"
    );
    assert_eq!(
        refused(Record {
            answer: 2,
            wait: 3,
            ..done(2000)
        }),
        "refused 10 2\n"
    );
}
