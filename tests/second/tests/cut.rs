//! A cut-down log: logs whose selection and whose refusal is worked out by hand from the
//! sentences of document 02, and every selection of small logs at random.

mod common;

use common::*;
use second::cut::{cut_down, passes};
use second::cut_logs::{self, Known};
use second::log::{check, Record, Report, BLOCK};
use second::setting::house_seeds;
use second::write::encode;
use second::{cut_damage, Fault, Setting};

/// What out holds before a call.
const BEFORE: u64 = 0x1111_2222_3333_4444;

/// What the call returns and writes.
fn found(log: &[u8]) -> (u32, u64) {
    found_with(log, Fault::None)
}

/// The same with a fault.
fn found_with(log: &[u8], fault: Fault) -> (u32, u64) {
    let mut out = [BEFORE];
    (cut_down(log, fault, &mut out), out[0])
}

/// The number with these bits.
fn word(places: &[usize]) -> u64 {
    places.iter().fold(0, |word, &place| word | 1 << place)
}

/// The first pass keeps records 0 and 2, the second record 2, and the third leaves out
/// none; of three requests one goes at a time, or one with a done.
#[test]
fn what_each_pass_leaves() {
    let example = cut_logs::example().log();
    let left = [vec![0, 2], vec![2], vec![2]];
    assert_eq!(passes(&example), Ok(left.to_vec()));
    assert_eq!(found(&example), (0, 0b100));
    let chain = cut_logs::chain(3).log();
    let left = [
        vec![0, 1, 2, 3, 5],
        vec![0, 2, 3, 5],
        vec![2, 5],
        vec![5],
        vec![5],
    ];
    assert_eq!(passes(&chain), Ok(left.to_vec()));
    assert_eq!(found(&chain), (0, 0b10_0000));
}

/// Logs whose selection is known, without those of 24 to 62 records or of all banks, which
/// take longest; the comparison with the library has all.
fn known() -> impl Iterator<Item = Known> {
    let all = cut_logs::all().into_iter();
    all.filter(|known| !(24..=62).contains(&known.records.len()) && known.setting[BANKS] < 16)
}

#[test]
fn known_selections() {
    for known in known() {
        let Known { left, passes, .. } = &known;
        let made = second::cut::passes(&known.log()).unwrap();
        assert_eq!(
            (made.last(), made.len()),
            (Some(left), *passes),
            "{known:?}"
        );
        assert_eq!(found(&known.log()), (0, word(left)), "{known:?}");
    }
}

/// 64 records that all stay, and of which the last one stays.
#[test]
fn all_64_bits() {
    assert_eq!(found(&cut_logs::by_quota(63).log()), (0, u64::MAX));
    let mut records = cut_damage::records(64, cut_damage::End::Agrees);
    records[63] = cut_logs::held(5_000, 2, 3, 5_001);
    let log = encode(&cut_logs::WIDE, &house_seeds(), &records);
    assert_eq!(found(&log), (0, 1 << 63));
}

#[test]
fn refusals_in_their_order() {
    for refused in cut_damage::all() {
        let (number, out) = found(&refused.log);
        assert_eq!(number, refused.number, "before {}", refused.behind);
        assert!(number == 0 || out == BEFORE);
    }
}

/// A small log at random: requests and dones with the answers of the rules, some of which
/// are changed, and some ticks and banks outside.
fn small(numbers: &mut Numbers) -> (Setting, Vec<Record>) {
    let setting = s_with(&[
        (Q, numbers.within(1, 3)),
        (BANKS, 2),
        (N, numbers.within(1, 2)),
    ]);
    let mut throttle = Throttle::new(setting);
    let mut tick = 0;
    let mut records = Vec::new();
    for _ in 0..numbers.within(1, 8) {
        tick += numbers.within(0, 4);
        let mut record = Record {
            tick,
            row: 5,
            bank: numbers.within(0, 1) as u8,
            kind: u8::from(numbers.one_in(3)),
            ..Record::default()
        };
        match numbers.within(0, 24) {
            0 => record.bank = 2,
            1 => record.tick = 1 << 62,
            _ => {}
        }
        let answer = throttle.make(&record).or_else(|_| {
            record.kind = 0;
            throttle.make(&record)
        });
        if let Ok([answer, wait]) = answer {
            (record.answer, record.wait) = (answer as u8, wait);
        }
        if numbers.one_in(4) {
            (record.answer, record.wait) = (numbers.within(0, 4) as u8, 0);
        }
        records.push(record);
    }
    (setting, records)
}

/// Does the checker say that these records differ?
fn differs(setting: &Setting, records: &[Record], selection: usize) -> bool {
    let places = (0..records.len()).filter(|place| selection >> place & 1 == 1);
    let chosen: Vec<Record> = places.map(|place| records[place]).collect();
    let report = check(&encode(setting, &house_seeds(), &chosen), Fault::None);
    matches!(
        report,
        Report::Judged {
            differs: Some(_),
            ..
        }
    )
}

/// The checker's word on every selection of small logs: where it says `differs` of all
/// records, it does of the result and of no result without one record. The passes, made on
/// the table of these words, come to the same. Some results are not the smallest.
#[test]
fn every_selection_of_small_logs() {
    let numbers = &mut Numbers::new(7);
    let (mut cut, mut same, mut smaller) = (0, 0, 0);
    for _ in 0..250 {
        let (setting, records) = small(numbers);
        let many = records.len();
        let table: Vec<bool> = (0..1 << many)
            .map(|selection| differs(&setting, &records, selection))
            .collect();
        let (number, out) = found(&encode(&setting, &house_seeds(), &records));
        if !table[(1 << many) - 1] {
            assert_eq!((number, out), (21, BEFORE));
            same += 1;
            continue;
        }
        let result = out as usize;
        assert!(number == 0 && table[result], "{records:?}");
        let bits = (0..many).filter(|bit| result >> bit & 1 == 1);
        for bit in bits {
            assert!(!table[result & !(1 << bit)], "{bit} of {records:?}");
        }
        assert_eq!(result, by_table(&table, many), "{records:?}");
        let least = (0..1usize << many).filter(|&one| table[one]);
        let least = least.map(usize::count_ones).min();
        smaller += u32::from(least < Some(result.count_ones()));
        cut += 1;
    }
    assert!(
        cut > 100 && same > 50 && smaller > 2,
        "{cut} {same} {smaller}"
    );
}

/// The passes on a table of what differs.
fn by_table(table: &[bool], many: usize) -> usize {
    let mut current = (1 << many) - 1;
    loop {
        let before = current;
        for bit in 0..many {
            let rest = current & !(1 << bit);
            if rest != current && table[rest] {
                current = rest;
            }
        }
        if current == before {
            return current;
        }
    }
}

/// The faults among these that do not show in any of these logs.
fn hidden(faults: &[Fault], logs: &[Vec<u8>]) -> Vec<Fault> {
    let right: Vec<_> = logs.iter().map(|log| found(log)).collect();
    let shows = |fault: &Fault| {
        let mut pairs = logs.iter().zip(&right);
        pairs.any(|(log, right)| found_with(log, *fault) != *right)
    };
    let all = faults.iter().copied();
    all.filter(|fault| !shows(fault)).collect()
}

/// Each wrong selection shows in a log that is known, or in a small one at random.
#[test]
fn every_wrong_selection_shows() {
    let numbers = &mut Numbers::new(8);
    let short = known().filter(|known| known.records.len() < 13);
    let mut logs: Vec<Vec<u8>> = short.map(|known| known.log()).collect();
    logs.extend((0..1_500).map(|_| {
        let (setting, records) = small(numbers);
        encode(&setting, &house_seeds(), &records)
    }));
    logs.push(cut_logs::by_row(32).log());
    logs.push(cut_logs::by_quota(63).log());
    assert!(Fault::CUT.len() > 45);
    assert_eq!(hidden(Fault::CUT, &logs), []);
}

/// Each wrong refusal shows in a damaged log, of which the short ones and every third of
/// the others are taken.
#[test]
fn every_wrong_refusal_shows() {
    let all = cut_damage::all().into_iter().map(|refused| refused.log);
    let taken = (0..)
        .zip(all)
        .filter(|(k, log)| k % 3 == 0 || log.len() <= 2 * BLOCK);
    let logs: Vec<Vec<u8>> = taken.map(|(_, log)| log).collect();
    assert!(Fault::CUT_REFUSALS.len() > 50);
    assert_eq!(hidden(Fault::CUT_REFUSALS, &logs), []);
}
