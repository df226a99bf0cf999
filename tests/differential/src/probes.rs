//! The fit of two probes compared with the second implementation: listed lists, lists at
//! random that fit, just fit or just do not, lists that are refused, and a few lists of
//! thousands of records.

use crate::library;
use crate::memory::Guarded;
use crate::numbers::Numbers;
use crate::probe_lists::{self, Case, Probe, GREAT_JITTERS, LATE};
use crate::probe_tally::Told;
use second::{fit_probes, Fault};

/// Pairs of short lists and of long ones that are tried.
const SHORT: u64 = 120_000;
const LONG: u64 = 200;
/// What `out` holds before a call.
const OUT: [u64; 2] = [0x1111_2222_3333_4444, 0x5555_6666_7777_8888];

/// Fits the listed lists on both sides, the second implementation with a fault or
/// without, and stops at the first difference.
pub fn listed(fault: Fault) -> Result<Told, String> {
    compare(probe_lists::listed(), fault)
}

/// The same with short lists at random.
pub fn short(seed: u64, fault: Fault) -> Result<Told, String> {
    let mut numbers = Numbers::new(seed);
    let cases = (0..SHORT).map(move |_| {
        let many = match numbers.within(0, 9) {
            0 => 0,
            1..=6 => numbers.within(1, 4),
            7 | 8 => numbers.within(1, 12),
            _ => numbers.within(13, 60),
        };
        let mut case = any(&mut numbers, many);
        spoil(&mut numbers, &mut case);
        case
    });
    compare(cases, fault)
}

/// The same with lists of thousands of records.
pub fn long(seed: u64, fault: Fault) -> Result<Told, String> {
    let mut numbers = Numbers::new(seed);
    let cases = (0..LONG).map(move |_| {
        let many = numbers.within(1_000, 6_000);
        let mut case = any(&mut numbers, many);
        spoil(&mut numbers, &mut case);
        case
    });
    compare(cases, fault)
}

fn compare(cases: impl Iterator<Item = Case>, fault: Fault) -> Result<Told, String> {
    let mut told = Told::default();
    for case in cases {
        let (number, out) = one(&case, fault)?;
        told.note(&case, number, out);
    }
    Ok(told)
}

/// Fits two lists on both sides and compares; the number and what is written.
fn one(case: &Case, fault: Fault) -> Result<(u32, [u64; 2]), String> {
    let lists = case.lists.each_ref();
    let lent = lists.map(|list| {
        let (ticks, rows) = (Guarded::new(&list.ticks), Guarded::new(&list.rows));
        (ticks, rows, list.count)
    });
    let mut out = Guarded::new(&OUT);
    let number = library::fit_probes(&lent, case.jitter, &mut out);
    let mut expected = OUT;
    let [first, second] = lists.map(Probe::lent);
    let wanted = fit_probes(&first, &second, case.jitter, fault, &mut expected);
    let found = [out.cells()[0], out.cells()[1]];
    if (number, found) != (wanted, expected) {
        return Err(format!(
            "{number} {found:?}, expected {wanted} {expected:?}: {case}"
        ));
    }
    let is_kept = |(list, (ticks, rows, _)): (&Probe, &library::Recorded)| {
        let intact = ticks.intact() && rows.intact();
        intact && ticks.cells() == list.ticks && rows.cells() == list.rows
    };
    if !case.lists.iter().zip(&lent).all(is_kept) || !out.intact() {
        return Err(format!("lists or guard cells changed: {case}"));
    }
    Ok((number, found))
}

/// So many pairs of records, in half of the cases with others behind them.
fn any(numbers: &mut Numbers, many: u64) -> Case {
    let jitter = match numbers.within(0, 3) {
        0 => numbers.within(0, 3),
        1 => numbers.within(998, 1_000),
        2 => numbers.within(0, 40),
        _ => numbers.within(0, 1_000),
    };
    let differences = differences(numbers, many, jitter as i64);
    let ticks = ticks(numbers, &differences);
    let rows = (0..many).map(|_| match numbers.within(0, 2) {
        0 => numbers.word() as u32,
        1 => numbers.pick(&[0, 1, 15, 16, 65_535]) * 65_536 + numbers.pick(&[0, 7, 65_535]),
        _ => 5,
    });
    let mut case = Case::new(ticks, rows.collect(), &differences, jitter);
    if numbers.one_in(2) {
        let near = case.lists[0].ticks.first().copied().unwrap_or(9);
        for list in &mut case.lists {
            let many = numbers.within(0, 4) as usize;
            list.add_rest(&[0, near, LATE, u64::MAX][..many]);
        }
    }
    case
}

/// Differences within a jitter of one offset, which is often at an end of the range or
/// next to it. In two of three cases two of them are as far apart as they may be, and at
/// times by one more.
fn differences(numbers: &mut Numbers, many: u64, j: i64) -> Vec<i64> {
    let d = match numbers.within(0, 3) {
        0 => numbers.within(0, 6) as i64 - 1_003,
        1 => numbers.within(0, 6) as i64 + 997,
        _ => numbers.within(0, 2_000) as i64 - 1_000,
    };
    let mut within = |_| d - j + numbers.within(0, 2 * j as u64) as i64;
    let mut all: Vec<i64> = (0..many).map(&mut within).collect();
    if many > 0 && !numbers.one_in(3) {
        let [low, high] = [(); 2].map(|()| numbers.within(0, many - 1) as usize);
        let (below, above) = numbers.pick(&[(0, 0), (0, 0), (0, 0), (1, 0), (0, 1), (1, 1)]);
        all[low] = d - j - below;
        all[high] = d + j + above;
    }
    all
}

/// Ticks of a first list, such that no tick of the second is below 0. They rise or fall;
/// in some cases the greatest of both lists is 2^62 - 1 or 2^62, or 32 bits do not hold
/// them.
fn ticks(numbers: &mut Numbers, differences: &[i64]) -> Vec<u64> {
    let mut tick = numbers.within(3_000, 3_050);
    let mut next = || {
        tick += numbers.within(0, 40);
        tick
    };
    let mut ticks: Vec<u64> = differences.iter().map(|_| next()).collect();
    if numbers.one_in(8) {
        ticks.reverse();
    }
    let later = ticks.iter().zip(differences);
    let greatest = later.map(|(tick, &difference)| tick.wrapping_add_signed(difference.max(0)));
    let before = LATE - greatest.max().unwrap_or(LATE);
    let shift = match numbers.within(0, 9) {
        0 | 1 => before.saturating_sub(1),
        2 => before,
        3 => (1 << 32) - numbers.within(3_000, 5_000),
        4 => numbers.within(0, 1 << 61),
        _ => 0,
    };
    ticks.iter().map(|tick| tick + shift).collect()
}

/// In some cases makes two lists differ in a word, in length or by far in their ticks, or
/// be refused for a buffer, a tick, the jitter, or several of them.
fn spoil(numbers: &mut Numbers, case: &mut Case) {
    if numbers.one_in(12) {
        case.jitter = numbers.pick(&GREAT_JITTERS);
    }
    let [first, second] = &mut case.lists;
    let (list, other) = match numbers.within(0, 1) {
        0 => (first, second),
        _ => (second, first),
    };
    match numbers.within(0, 27) {
        0 | 1 => change_word(numbers, list),
        2 => exchange_words(numbers, list),
        3 | 4 => drop_last(numbers, list),
        5 => list.count = 0,
        6 | 7 => delay_tick(numbers, list),
        8 => {
            delay_tick(numbers, list);
            drop_last(numbers, other);
        }
        9 | 10 => shorten(numbers, list),
        11 => {
            delay_tick(numbers, list);
            shorten(numbers, list);
        }
        12 => list.ticks.iter_mut().for_each(|tick| *tick |= 1 << 32),
        _ => {}
    }
}

/// A place of a list that is not empty, in half of the cases or more the last.
fn place(numbers: &mut Numbers, list: &Probe) -> Option<usize> {
    let last = list.count.checked_sub(1)?;
    let any = numbers.within(0, last);
    Some(numbers.pick(&[any, last]) as usize)
}

/// Changes a bit of a word.
fn change_word(numbers: &mut Numbers, list: &mut Probe) {
    if let Some(place) = place(numbers, list) {
        list.rows[place] ^= 1 << numbers.within(0, 31);
    }
}

/// Exchanges the words of two records.
fn exchange_words(numbers: &mut Numbers, list: &mut Probe) {
    if let Some(place) = place(numbers, list) {
        list.rows.swap(0, place);
    }
}

/// Takes the last record off, in half of the cases with its cells and what lies behind.
fn drop_last(numbers: &mut Numbers, list: &mut Probe) {
    list.count = list.count.saturating_sub(1);
    if numbers.one_in(2) {
        list.ticks.truncate(list.count as usize);
        list.rows.truncate(list.count as usize);
    }
}

/// Makes a tick 2^62 or more.
fn delay_tick(numbers: &mut Numbers, list: &mut Probe) {
    if let Some(place) = place(numbers, list) {
        list.ticks[place] = numbers.pick(&[LATE, LATE + 1, 1 << 63, u64::MAX]);
    }
}

/// Makes a list's count greater than one of its buffers or both.
fn shorten(numbers: &mut Numbers, list: &mut Probe) {
    let less = numbers.within(0, list.count.max(1) - 1) as usize;
    match numbers.within(0, 2) {
        0 if list.count > 0 => list.ticks.truncate(less),
        1 if list.count > 0 => list.rows.truncate(less),
        _ => {
            let more = numbers.pick(&[1, 1, 2, 1 << 32, 1 << 63]);
            list.count = list.ticks.len().max(list.rows.len()) as u64 + more;
        }
    }
}
