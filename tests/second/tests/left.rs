//! Openings left: an opened answer carries N minus the row's estimate after the
//! activation, never below 0; every other answer carries 0, and a refusal
//! leaves the word as it was.

mod common;

use common::*;
use second::filter::hash;
use second::log::check;
use second::setting::house_seeds;
use second::write::encode;
use second::{request, Config, Fault};
use std::cmp::Ordering::{Equal, Greater, Less};
use std::collections::{BTreeSet, HashMap};

/// What an opened request answers.
fn opened(left: u64) -> Result<[u64; 3], u32> {
    Ok([0, 0, left])
}

/// S with another N and as many in flight as may be.
fn s_with_n(n: u64) -> Throttle {
    Throttle::new(s_with(&[(N, n), (L, 60), (Q, 255)]))
}

/// One bank with any N up to the greatest.
fn with_any_n(n: u64) -> Throttle {
    Throttle::new([1 << 20, 1, 64, n, 64, 1 << 24, 255, 1, 1, 0])
}

/// Writes a row's four counters in one filter of a bank.
fn write(throttle: &mut Throttle, bank: usize, filter: usize, row: u16, four: [u32; 4]) {
    for (place, counter) in hash(&throttle.seeds, row).into_iter().zip(four) {
        throttle.state.counters[bank * 2048 + filter * 1024 + place] = counter;
    }
}

/// The least of a row's four counters in one filter of a bank.
fn least(throttle: &Throttle, bank: u64, filter: u64, row: u16) -> u64 {
    let first = (bank * 2048 + filter * 1024) as usize;
    let counter = |place: &usize| throttle.state.counters[first + place];
    let places = hash(&throttle.seeds, row);
    places.iter().map(counter).min().map_or(0, u64::from)
}

#[test]
fn row_5_of_s() {
    let mut throttle = Throttle::new(S);
    let mut five = |tick| throttle.ask(tick, 0, 0, 5);
    assert_eq!(five(0), opened(1));
    assert_eq!(five(1), opened(0));
    assert_eq!(five(2), Ok([3, 7, 0]));
    assert_eq!(five(7), opened(0));
    assert_eq!(five(8), Ok([3, 13, 0]));
}

#[test]
fn row_0_whose_four_places_are_one() {
    let mut throttle = s_with_n(4);
    let mut twice = throttle.clone().with(Fault::AddsTwiceToShared);
    for (tick, left) in [(0, 3), (1, 2), (2, 1), (3, 0)] {
        assert_eq!(throttle.ask(tick, 0, 0, 0), opened(left));
    }
    assert_eq!(throttle.ask(4, 0, 0, 0), Ok([3, 9, 0]));
    assert_eq!(twice.ask(0, 0, 0, 0), opened(0));
}

/// An opening that leaves k is followed by k others before the row is held.
#[test]
fn as_many_openings_pass_as_are_left() {
    for n in 1..=9 {
        let mut throttle = s_with_n(n);
        for k in 0..n {
            assert_eq!(throttle.ask(k, 0, 0, 5), opened(n - 1 - k));
        }
        assert_eq!(throttle.ask(n, 0, 0, 5), Ok([3, n + 5, 0]));
    }
}

/// With seeds of 0 every row has the one counter, so that a row's first opening
/// leaves fewer than N - 1.
#[test]
fn rows_that_share_all_counters() {
    let mut throttle = s_with_n(4);
    throttle.seeds = vec![0; 64];
    for (tick, row, left) in [(0, 5, 3), (1, 6, 2), (2, 5, 1), (3, 60_000, 0)] {
        assert_eq!(throttle.ask(tick, 0, 0, row), opened(left));
    }
    assert_eq!(throttle.ask(4, 0, 0, 7), opened(0));
}

/// Row 3 lies on the counters of rows 1 and 2 together: two each, by the seeds
/// of bits 0 and 1.
#[test]
fn a_row_covered_by_two_others() {
    let mut throttle = s_with_n(4);
    let seeds = &mut throttle.seeds;
    seeds.fill(0);
    (seeds[0], seeds[1]) = (1, 0);
    (seeds[16], seeds[17]) = (2, 0);
    (seeds[32], seeds[33]) = (0, 3);
    (seeds[48], seeds[49]) = (0, 4);
    assert_eq!(hash(seeds, 1), [1, 2, 0, 0]);
    assert_eq!(hash(seeds, 2), [0, 0, 3, 4]);
    assert_eq!(hash(seeds, 3), [1, 2, 3, 4]);
    for (tick, row, left) in [(0, 1, 3), (1, 1, 2), (2, 2, 3), (3, 3, 2), (4, 2, 1)] {
        assert_eq!(throttle.ask(tick, 0, 0, row), opened(left), "tick {tick}");
    }
}

/// Functions 0 to 2 give all rows one place, function 3 tells them apart.
#[test]
fn rows_that_share_three_counters() {
    let mut throttle = s_with_n(4);
    throttle.seeds.fill(0);
    (throttle.seeds[48], throttle.seeds[49]) = (1, 2);
    for (tick, left) in [(0, 3), (1, 2), (2, 1)] {
        assert_eq!(throttle.ask(tick, 0, 0, 1), opened(left));
    }
    for (fault, left) in [
        (Fault::LeftOfFirstPlace, 0),
        (Fault::LeftOfThreePlaces, 0),
        (Fault::LeftOfGreatest, 0),
        (Fault::None, 3),
    ] {
        let mut throttle = throttle.clone().with(fault);
        assert_eq!(throttle.ask(3, 0, 0, 2), opened(left), "{fault:?}");
    }
}

#[test]
fn the_first_request_after_set_up_leaves_n_minus_1() {
    let numbers = &mut Numbers::new(7);
    for n in [1, 2, 3, 255, 256, 257, 4_096, 32_767, 32_768] {
        for _ in 0..10 {
            let mut throttle = with_any_n(n);
            throttle.seeds.fill_with(|| numbers.within(0, 1_023) as u16);
            throttle
                .state
                .counters
                .fill(numbers.within(0, 65_535) as u32);
            assert_eq!(throttle.setup(), 0);
            let tick = numbers.within(0, (1 << 62) - 1);
            let row = numbers.within(0, 65_535) as u16;
            assert_eq!(throttle.ask(tick, 0, 0, row), opened(n - 1));
        }
    }
}

#[test]
fn counters_around_n_and_the_greatest() {
    for n in [1, 2, 3, 1_000, 32_767, 32_768] {
        for counter in [0, 1, n - n.min(2), n - 1, n, n + 1, 65_535] {
            let mut throttle = with_any_n(n);
            throttle.state.counters.fill(counter as u32);
            let left = n.saturating_sub(counter + 1);
            assert_eq!(throttle.ask(3, 0, 0, 5), opened(left), "{n} {counter}");
        }
    }
    let mut cut = with_any_n(1_000).with(Fault::LeftCutToByte);
    assert_eq!(cut.ask(3, 0, 0, 5), opened(999 % 256));
}

/// Both filters count in epoch 0, so that filter 1 has three at tick 20. Filter
/// 0, cleared then, has one at tick 40. At tick 100 both are cleared.
#[test]
fn epoch_turns_in_between() {
    let ticks = [16, 17, 18, 20, 40, 100];
    let faults = [
        (Fault::None, [3, 2, 1, 0, 2, 3]),
        (Fault::LeftBeforeOpening, [4, 3, 2, 1, 3, 4]),
        (Fault::LeftBeforeTurn, [3, 2, 1, 0, 0, 1]),
        (Fault::LeftOfFormerEpoch, [3, 2, 1, 3, 3, 3]),
        (Fault::LeftOfOtherFilter, [3, 2, 1, 3, 3, 3]),
        (Fault::LeftOfFilterZero, [3, 2, 1, 3, 2, 3]),
        (Fault::LeftOfHistory, [3, 2, 1, 0, 0, 0]),
        (Fault::LeftIsEstimate, [1, 2, 3, 4, 2, 1]),
        (Fault::LeftOfLimit, [59, 58, 57, 56, 58, 59]),
        (Fault::LeftAtMostOne, [1, 1, 1, 0, 1, 1]),
        (Fault::LeftOneLess, [2, 1, 0, 0, 1, 2]),
    ];
    for (fault, left) in faults {
        let mut throttle = s_with_n(4).with(fault);
        let found = ticks.map(|tick| throttle.ask(tick, 0, 0, 5));
        assert_eq!(found, left.map(opened), "{fault:?}");
    }
}

/// Row 5 has 4, 3, 5 and 2 in the tested filter of bank 1, 7 in the other, and 1
/// in bank 0.
#[test]
fn counters_that_differ() {
    let mut throttle = Throttle::new(s_with(&[(N, 9), (L, 60), (BANKS, 2)]));
    throttle.state.counters.fill(1);
    write(&mut throttle, 1, 0, 5, [4, 3, 5, 2]);
    write(&mut throttle, 1, 1, 5, [7; 4]);
    for (fault, left) in [
        (Fault::None, 6),
        (Fault::LeftBeforeOpening, 7),
        (Fault::LeftOfOtherFilter, 1),
        (Fault::LeftOfBankZero, 8),
        (Fault::LeftOfFirstPlace, 4),
        (Fault::LeftOfThreePlaces, 5),
        (Fault::LeftOfGreatest, 3),
        (Fault::LeftWraps, 6),
    ] {
        let mut throttle = throttle.clone().with(fault);
        assert_eq!(throttle.ask(0, 1, 0, 5), opened(left), "{fault:?}");
    }
    write(&mut throttle, 1, 0, 5, [12; 4]);
    let mut wraps = throttle.clone().with(Fault::LeftWraps);
    assert_eq!(throttle.ask(0, 1, 0, 5), opened(0));
    assert_eq!(wraps.ask(0, 1, 0, 5), opened(u64::MAX - 2));
}

/// Row 6 of a bank just activated, and with as many in flight as the quota.
#[test]
fn a_wait_and_a_quota_answer_carry_0() {
    let mut waits = Throttle::new(s_with(&[(N, 4), (L, 60), (TRC, 2)]));
    assert_eq!(waits.ask(0, 0, 0, 5), opened(3));
    let mut held = Throttle::new(s_with(&[(N, 4), (L, 60)]));
    held.state.threads[2] = 4;
    for (fault, wait, quota) in [
        (Fault::None, 0, 0),
        (Fault::LeftOnWait, 4, 0),
        (Fault::LeftKeptOnWait, 79, 0),
        (Fault::LeftOnQuota, 0, 4),
        (Fault::LeftKeptOnQuota, 0, 79),
    ] {
        let (mut waits, mut held) = (waits.clone().with(fault), held.clone().with(fault));
        assert_eq!(waits.ask(1, 0, 0, 6), Ok([1, 2, wait]), "{fault:?}");
        assert_eq!(held.ask(1, 0, 0, 6), Ok([4, 0, quota]), "{fault:?}");
    }
}

#[test]
fn a_refusal_leaves_the_word_as_it_was() {
    let mut throttle = Throttle::new(S);
    throttle.state.head[0] = 30;
    let house = house_seeds();
    let mut refused = |fault, seeds: &[u16], bank, tick| {
        let config = Config::new(S, seeds).with(fault);
        let mut out = [1, 2, 3];
        let number = request(&config, &mut throttle.state, tick, bank, 0, 5, &mut out);
        (number, out)
    };
    for (seeds, bank, tick, number) in [
        (63, 0, 30, 1),
        (64, 1, 30, 8),
        (64, 0, 29, 9),
        (64, 0, 1 << 62, 9),
    ] {
        let plain = refused(Fault::None, &house[..seeds], bank, tick);
        assert_eq!(plain, (number, [1, 2, 3]));
        let written = refused(Fault::LeftWrittenOnRefusal, &house[..seeds], bank, tick);
        assert_eq!(written, (number, [1, 2, 0]));
    }
}

/// A throttle with a small N whose counters hold anything, mostly around N, and
/// with some in flight.
fn lent(numbers: &mut Numbers) -> Throttle {
    let n = numbers.within(1, 5);
    let banks = numbers.within(1, 2);
    let mut throttle = Throttle::new(s_with(&[(N, n), (L, 60), (Q, 6), (BANKS, banks)]));
    let keys = [1, 4, 1024][numbers.within(0, 2) as usize];
    throttle.seeds.iter_mut().for_each(|seed| *seed %= keys);
    let top = if numbers.one_in(4) { 65_535 } else { n + 2 };
    throttle
        .state
        .counters
        .fill_with(|| numbers.within(0, top) as u32);
    throttle.state.threads[2] = numbers.within(0, 6) as u32;
    throttle
}

/// The state just before the activation is the one that reading the index at
/// the same tick leaves.
#[test]
fn on_any_contents_n_minus_the_estimate_before_and_1() {
    let numbers = &mut Numbers::new(5);
    let mut seen = BTreeSet::new();
    for _ in 0..2_000 {
        let mut throttle = lent(numbers);
        let n = throttle.setting[N];
        let mut tick = 0;
        for _ in 0..8 {
            let pause = if numbers.one_in(3) { 25 } else { 1 };
            tick += numbers.within(0, pause);
            let bank = numbers.within(0, throttle.setting[BANKS] - 1);
            let (row, filter) = (numbers.within(0, 5) as u16, tick / 20 % 2);
            let mut turned = throttle.clone();
            assert!(turned.index(tick, bank, 0).is_ok());
            let [answer, _, left] = throttle.ask(tick, bank, 0, row).unwrap();
            let before = least(&turned, bank, filter, row);
            let after = least(&throttle, bank, filter, row);
            let [right, same] = match answer {
                0 => [after, before + 1].map(|estimate| n.saturating_sub(estimate)),
                _ => [0, 0],
            };
            assert_eq!((left, left), (right, same));
            seen.insert((answer, before.cmp(&n), left.min(2)));
        }
    }
    let mut all: BTreeSet<_> = [0, 1, 2, 4]
        .into_iter()
        .flat_map(|answer| [Less, Equal, Greater].map(|than| (answer, than, 0)))
        .collect();
    all.extend([(0, Less, 1), (0, Less, 2), (3, Equal, 0), (3, Greater, 0)]);
    assert_eq!(seen, all);
}

/// One opening of a list after set-up.
struct Opening {
    bank: u64,
    row: u16,
    epoch: u64,
    left: u64,
}

/// The openings of a random list of requests, each of them done at once.
fn openings(seed: u64, seeds: &[u16]) -> Vec<Opening> {
    let numbers = &mut Numbers::new(seed);
    let mut throttle = Throttle::new(s_with(&[(N, 6), (L, 60), (BANKS, 2), (TFAW, 1)]));
    throttle.seeds = seeds.to_vec();
    let mut found = Vec::new();
    let mut tick = 0;
    for _ in 0..150 {
        let pause = if numbers.one_in(12) { 30 } else { 1 };
        tick += numbers.within(0, pause);
        let (bank, row) = (numbers.within(0, 1), numbers.within(5, 8) as u16);
        let [answer, _, left] = throttle.ask(tick, bank, 0, row).unwrap();
        if answer == 0 {
            assert_eq!(throttle.done(tick, bank, 0), 0);
            let epoch = tick / 20;
            found.push(Opening {
                bank,
                row,
                epoch,
                left,
            });
        }
    }
    found
}

/// Of each opening: what is left, what N less the row's own openings in this
/// and the former epoch would be, and what was left after the row's opening
/// before, if that was in the same epoch.
fn with_own_counts(openings: &[Opening]) -> Vec<(u64, u64, Option<u64>)> {
    let mut counts: HashMap<(u64, u16, u64), u64> = HashMap::new();
    let mut former: HashMap<(u64, u16, u64), u64> = HashMap::new();
    let of = |opening: &Opening| {
        let key = (opening.bank, opening.row, opening.epoch);
        *counts.entry(key).or_default() += 1;
        let of_epoch = |epoch| counts.get(&(key.0, key.1, epoch)).copied().unwrap_or(0);
        let own = of_epoch(key.2) + key.2.checked_sub(1).map_or(0, of_epoch);
        let before = former.insert(key, opening.left);
        (opening.left, 6_u64.saturating_sub(own), before)
    };
    openings.iter().map(of).collect()
}

/// The tested filter has counted since the former epoch began. The estimate is
/// never below the row's own openings, and greater only where rows share their
/// counters; within an epoch each opening of a row takes 1 or more.
#[test]
fn in_a_list_at_most_what_the_own_openings_leave() {
    let few: Vec<u16> = house_seeds().iter().map(|seed| seed % 4).collect();
    let mut fewer = 0;
    for seed in 1..200 {
        for (left, own, _) in with_own_counts(&openings(seed, &house_seeds())) {
            assert_eq!(left, own);
        }
        for (left, own, before) in with_own_counts(&openings(seed, &few)) {
            assert!(left <= own);
            assert!(before.is_none_or(|before| left < before || left == 0));
            fewer += u64::from(left < own);
        }
    }
    assert!(fewer > 100, "{fewer}");
}

#[test]
fn logs_carry_nothing_of_it() {
    let setting = s_with(&[(BANKS, 2), (THREADS, 2)]);
    assert!(Fault::LEFT.len() >= 21);
    for &fault in Fault::LEFT {
        for seed in 0..20 {
            let records = logged(Throttle::new(setting).with(fault), seed);
            assert_eq!(records, logged(Throttle::new(setting), seed));
            let log = encode(&setting, &house_seeds(), &records);
            assert_eq!(check(&log, fault), check(&log, Fault::None));
        }
    }
}
