//! Two probes on one channel: offsets worked out by hand from the sentences of document
//! 02, both ends of the range, lists that differ in length, bank or row, the refusals
//! and their order; lists at random against what the differences bound; and wrong fits,
//! each of which shows.

mod common;

use common::probes::{any, found, Case, Probe, BEFORE, BY_HAND, LATE};
use common::Numbers;
use second::Fault;

/// What is expected where the lists fit with d, or do not.
fn told(offset: Option<i64>) -> (u32, [u64; 2]) {
    match offset {
        Some(d) => (0, [1, d as u64]),
        None => (0, [0, 0]),
    }
}

/// Asserts the offset, also with more behind the counts.
fn fits(case: &Case, offset: Option<i64>, what: &str) {
    assert_eq!(found(case, Fault::None), told(offset), "{what}");
    let longer = case.with_rest();
    assert_eq!(found(&longer, Fault::None), told(offset), "{what}, longer");
}

/// Asserts a refusal, which writes nothing.
fn refused(case: &Case, number: u32, what: &str) {
    assert_eq!(found(case, Fault::None), (number, BEFORE), "{what}");
}

#[test]
fn offsets_by_hand() {
    for (differences, jitter, offset) in BY_HAND {
        let what = format!("{differences:?} with jitter {jitter}");
        fits(&Case::new(differences, *jitter), *offset, &what);
    }
    // Every offset with jitter 0, and no other.
    for d in -1_003..=1_003 {
        let offset = Some(d).filter(|d: &i64| d.abs() <= 1_000);
        fits(&Case::new(&[d, d], 0), offset, &d.to_string());
    }
}

#[test]
fn two_empty_lists() {
    for jitter in [0, 1, 999, 1_000] {
        fits(&Case::new(&[], jitter), Some(-1_000), "empty");
    }
}

/// The shorter list would fit by itself.
#[test]
fn lengths_that_differ() {
    for (longer, shorter) in [(1, 0), (2, 0), (2, 1), (3, 2), (4, 2), (9, 8)] {
        let mut case = Case::new(&vec![3; longer], 5);
        case.1.count = shorter;
        fits(&case, None, "the first is longer");
        fits(&case.exchanged(), None, "the second is longer");
    }
}

/// A pair with another bank or another row, in each bit of the word.
#[test]
fn banks_and_rows() {
    for bit in 0..32 {
        for place in 0..3 {
            let mut case = Case::new(&[3, 4, 3], 5);
            fits(&case, Some(-1), "the same");
            case.0.rows[place] ^= 1 << bit;
            fits(&case, None, "another");
            fits(&case.exchanged(), None, "another, in the second");
        }
    }
}

/// The records are paired as they stand, whatever their ticks.
#[test]
fn recorded_order() {
    // 200, 100 and 203, 101: the differences are 3 and 1.
    let mut case = Case(Probe::new(&[200, 100]), Probe::new(&[203, 101]), 1);
    fits(&case, Some(2), "ticks that fall");
    case.1.ticks.swap(0, 1); // -99 and 103
    fits(&case, None, "ticks exchanged");
    case.1.ticks.swap(0, 1);
    case.1.rows.swap(0, 1);
    fits(&case, None, "rows exchanged");
}

#[test]
fn great_ticks() {
    let last = LATE - 1;
    let at =
        |first: u64, second: u64, jitter| Case(Probe::new(&[first]), Probe::new(&[second]), jitter);
    fits(&at(last, last, 0), Some(0), "both");
    fits(&at(last, last - 1, 0), Some(-1), "one less");
    fits(&at(last - 1_001, last, 0), None, "1,001 less");
    fits(&at(last - 1_001, last, 1), Some(1_000), "with jitter");
    fits(&at(0, last, 1_000), None, "all ticks");
    fits(&at(last, 0, 1_000), None, "all ticks back");
    for far in [1 << 31, 1 << 32, (1 << 32) + 1, 1 << 61] {
        fits(&at(0, far, 1_000), None, "far");
        fits(&at(far, 0, 1_000), None, "far back");
    }
    fits(&at((1 << 32) - 1, 1 << 32, 0), Some(1), "across 32 bits");
}

/// Each of the four buffers shorter than its count; 6 stands before 18.
#[test]
fn counts_above_lengths() {
    for jitter in [5, 1_001] {
        for tick in [1, LATE] {
            let mut good = Case::new(&[3, 4, 3], jitter);
            good.0.ticks[0] = tick;
            let mut shorter = [(); 4].map(|()| good.clone());
            shorter[0].0.ticks.truncate(2);
            shorter[1].0.rows.truncate(2);
            shorter[2].1.ticks.truncate(2);
            shorter[3].1.rows.truncate(2);
            shorter.iter().for_each(|case| refused(case, 6, "3 of 2"));
            for count in [4, 1 << 32, (1 << 32) + 3, 1 << 63, u64::MAX] {
                let mut more = good.clone();
                more.0.count = count;
                refused(&more, 6, "more in the first");
                refused(&more.exchanged(), 6, "more in the second");
            }
        }
    }
    let mut none = Case::new(&[], 0);
    none.1.count = 1;
    refused(&none, 6, "1 of 0");
    refused(&none.exchanged(), 6, "1 of 0");
}

#[test]
fn late_ticks_and_great_jitters() {
    for (first, second) in [(1, 1), (3, 3), (3, 2), (2, 0)] {
        let mut good = Case::new(&vec![3; first], 5);
        good.1.count = second;
        for late in [LATE, LATE + 1, 1 << 63, u64::MAX] {
            for place in 0..first {
                let mut case = good.clone();
                case.0.ticks[place] = late;
                refused(&case, 18, "a late tick");
                refused(&case.exchanged(), 18, "a late tick of the second");
                case.0.rows[0] ^= 1;
                refused(&case, 18, "also where a row differs");
            }
        }
        for jitter in [1_001, 1_002, 1 << 32, (1 << 32) + 5, 1 << 63, u64::MAX] {
            good.2 = jitter;
            refused(&good, 18, "a great jitter");
            refused(&good.exchanged(), 18, "a great jitter");
        }
    }
    refused(&Case::new(&[], 1_001), 18, "two empty lists");
    let mut differ = Case::new(&[3], 1_001);
    differ.0.rows[0] ^= 1;
    refused(&differ, 18, "another row");
}

/// The least d is what the greatest difference and the range leave, if the least
/// difference and the range leave it too. With the lists exchanged, least and greatest
/// d are exchanged, with the other sign.
#[test]
fn what_the_differences_bound() {
    let numbers = &mut Numbers::new(3);
    let mut fitting = [0; 2];
    for _ in 0..1_500 {
        let (differences, jitter) = any(numbers);
        let (case, j) = (Case::new(&differences, jitter), jitter as i64);
        let least = (differences.iter().max().unwrap() - j).max(-1_000);
        let greatest = (differences.iter().min().unwrap() + j).min(1_000);
        let offset = Some(least).filter(|&d| d <= greatest);
        let what = format!("{differences:?} with jitter {jitter}");
        assert_eq!(found(&case, Fault::None), told(offset), "{what}");
        let back = found(&case.exchanged(), Fault::ProbesGreatest);
        assert_eq!(back, told(offset.map(|d| -d)), "{what}, exchanged");
        fitting[usize::from(offset.is_some())] += 1;
    }
    assert!(fitting.iter().all(|&count| count > 300), "{fitting:?}");
}

/// Pairs with the differences worked out by hand and others at random.
fn of_differences() -> Vec<Case> {
    let listed = BY_HAND.iter();
    let mut cases: Vec<Case> = listed
        .map(|(differences, jitter, _)| Case::new(differences, *jitter))
        .collect();
    let numbers = &mut Numbers::new(9);
    for _ in 0..60 {
        let (differences, jitter) = any(numbers);
        cases.push(Case::new(&differences, jitter));
    }
    cases
}

/// Lists that differ in a bit of a word, in their lengths or in the order of their rows,
/// and such as lie at or across 2^32 or near 2^62.
fn of_other_lists() -> Vec<Case> {
    let mut cases = Vec::new();
    for bit in [0, 15, 16, 19, 20, 31] {
        for place in 0..3 {
            let mut case = Case::new(&[3, 4, 3], 5);
            case.0.rows[place] ^= 1 << bit;
            cases.push(case);
        }
    }
    for (first, second) in [(0, 0), (1, 0), (2, 0), (2, 1), (4, 2)] {
        let mut case = Case::new(&vec![3; first], 5);
        case.1.count = second as u64;
        cases.extend([case.clone(), case.exchanged()]);
        case.1.ticks.truncate(second);
        case.1.rows.truncate(second);
        cases.extend([case.clone(), case.exchanged()]);
    }
    for far in [1 << 31, 1 << 32, (1 << 32) + 1] {
        let later = Probe::new(&[100 + far, 200 + far]);
        cases.push(Case(Probe::new(&[100, 200]), later, 5));
    }
    for tick in [(1 << 32) - 1, LATE - 600] {
        let ticks = [tick, tick - 900, tick + 40];
        let later = Probe::new(&ticks.map(|tick| tick + 3));
        let mut case = Case(Probe::new(&ticks), later, 5);
        cases.push(case.clone());
        case.0.rows.swap(0, 1);
        cases.push(case);
    }
    cases
}

/// So many pairs that 8 or 16 bits do not hold their count, the last one as the others
/// or not.
fn long_lists() -> Vec<Case> {
    let mut cases = Vec::new();
    for many in [256, 259, 65_538] {
        let mut differences = vec![3; many];
        cases.push(Case::new(&differences, 0));
        differences[many - 1] = 4;
        cases.push(Case::new(&differences, 0));
    }
    cases
}

/// Late ticks and great jitters, in lists that fit but for them and in others.
fn refused_with_18(good: &Case) -> Vec<Case> {
    let mut cases = Vec::new();
    for late in [LATE - 1, LATE, 1 << 63] {
        for place in 0..good.0.count as usize {
            let mut case = good.clone();
            case.0.ticks[place] = late;
            case.1.ticks[place] = LATE - 1;
            cases.push(case.clone());
            case.0.rows[0] ^= 1;
            cases.push(case);
        }
    }
    for jitter in [0, 1_000, 1_001, 1_002, 1 << 32, 1 << 63] {
        let mut case = Case(good.0.clone(), good.1.clone(), jitter);
        cases.push(case.clone());
        case.0.rows.iter_mut().for_each(|word| *word ^= 1);
        cases.push(case);
    }
    cases
}

/// Counts of the first list around the lengths of its ticks, of its rows and of both,
/// with a reason for 18 and without.
fn refused_with_6(good: &Case) -> Vec<Case> {
    let mut cases = Vec::new();
    for count in [0, 1, 2, 3, 4, 1 << 32, 1 << 63] {
        for (jitter, tick) in [(5, 9), (1_001, 9), (5, LATE)] {
            let mut both = good.clone();
            (both.0.count, both.2) = (count, jitter);
            both.0.ticks.fill(tick);
            let (mut ticks, mut rows) = (both.clone(), both.clone());
            rows.0.ticks.extend([tick; 5]);
            ticks.0.rows.extend([5; 5]);
            cases.extend([both, ticks, rows]);
        }
    }
    cases
}

/// Each wrong fit and each wrong refusal shows.
#[test]
fn wrong_fits() {
    assert!(Fault::PROBES.len() >= 75 && Fault::PROBES_REFUSALS.len() >= 59);
    let mut cases = [of_differences(), of_other_lists()].concat();
    for (first, second) in [(0, 0), (3, 3), (3, 2), (2, 0)] {
        let mut good = Case::new(&vec![3; first], 5);
        good.1.count = second;
        let refused = [refused_with_18(&good), refused_with_6(&good)].concat();
        cases.extend(refused.iter().map(Case::exchanged));
        cases.extend(refused);
    }
    let longer: Vec<Case> = cases.iter().map(Case::with_rest).collect();
    cases.extend(longer);
    cases.extend(long_lists());
    let plain: Vec<_> = cases.iter().map(|case| found(case, Fault::None)).collect();
    for &fault in [Fault::PROBES, Fault::PROBES_REFUSALS].concat().iter() {
        let mut both = cases.iter().zip(&plain);
        let seen = both.any(|(case, plain)| found(case, fault) != *plain);
        assert!(seen, "{fault:?} does not show");
    }
}
