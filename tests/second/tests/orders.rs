//! While the seeds stay the same: the hash of an exclusive or of two rows is the
//! exclusive or of their hashes; and within one epoch the filters after a group of
//! activations depend on what they held and on the group, and not on the order. Each
//! wrong hash and each wrong filter shows.

mod common;

use common::*;
use second::filter::{after, hash_by};
use second::setting::{accept, house_seeds};
use second::table;
use second::{Config, Fault, Setting, State, NEW, OLD};

/// Pairs of rows that are tried with each seeds.
const PAIRS: usize = 2_000;
/// Groups that are tried.
const GROUPS: u64 = 400;

/// The house seeds, seeds with which many rows share counters, and any.
fn all_seeds(numbers: &mut Numbers) -> Vec<Vec<u16>> {
    let few: Vec<u16> = house_seeds().iter().map(|seed| seed % 4).collect();
    let mut all = vec![house_seeds(), few, vec![0; 64], vec![1_023; 64]];
    for _ in 0..12 {
        all.push((0..64).map(|_| numbers.within(0, 1_023) as u16).collect());
    }
    all
}

/// Does this hash obey the law for some pairs of rows? In every function.
fn obeys(numbers: &mut Numbers, hash: impl Fn(u16) -> [usize; 4]) -> bool {
    (0..PAIRS).all(|_| {
        let [one, two] = [(); 2].map(|()| numbers.within(0, 65_535) as u16);
        let (left, right, both) = (hash(one), hash(two), hash(one ^ two));
        (0..4).all(|function| both[function] == left[function] ^ right[function])
    })
}

#[test]
fn hash_of_an_exclusive_or() {
    let numbers = &mut Numbers::new(11);
    for seeds in all_seeds(numbers) {
        assert!(obeys(numbers, |row| hash_by(&seeds, row, Fault::None)));
    }
    assert!(obeys(numbers, |row| table::hash(row, Fault::None)));
}

/// Every bit of a row, and every pair of rows with few bits.
#[test]
fn hash_of_rows_with_few_bits() {
    let few: Vec<u16> = (0..16)
        .flat_map(|k| (0..=k).map(move |l| 1 << k | 1 << l))
        .chain([0, u16::MAX])
        .collect();
    let seeds = house_seeds();
    let hash = |row| hash_by(&seeds, row, Fault::None);
    for &one in &few {
        for &two in &few {
            let both: [usize; 4] = std::array::from_fn(|f| hash(one)[f] ^ hash(two)[f]);
            assert_eq!(hash(one ^ two), both, "{one} {two}");
        }
    }
}

/// A hash that is joined otherwise breaks the law, under the house seeds and under
/// random ones, and so do two wrong hashes by bytes.
#[test]
fn wrong_hashes() {
    assert!(Fault::SEEDS.len() >= 5);
    let numbers = &mut Numbers::new(12);
    let all = all_seeds(numbers);
    for &fault in Fault::SEEDS {
        for seeds in [&all[0], &all[4], &all[15]] {
            let broken = !obeys(numbers, |row| hash_by(seeds, row, fault));
            assert!(broken, "{fault:?} does not show");
        }
    }
    for fault in [Fault::BytesOred, Fault::BytesAdded] {
        let broken = !obeys(numbers, |row| table::hash(row, fault));
        assert!(broken, "{fault:?} does not show");
    }
}

/// A setting of either width, its seeds, contents of the filters with cells above N
/// among them, and a group of activations.
struct Case {
    setting: Setting,
    wide: bool,
    seeds: Vec<u16>,
    before: State,
    group: Vec<(usize, u16)>,
}

/// N is small, at times at the greatest of the width. The history has four places, so
/// that a group may fill it.
fn case(numbers: &mut Numbers) -> Case {
    let wide = numbers.one_in(2);
    let great = if wide { 1 << 20 } else { 32_768 };
    let n = if numbers.one_in(4) {
        great
    } else {
        numbers.within(1, 4)
    };
    let banks = numbers.within(1, 2);
    let setting = [1 << 22, 1, 6, n, 6, 1 << 24, 4, banks, 1, 0];
    let all = all_seeds(numbers);
    let seeds = all[numbers.within(0, all.len() as u64 - 1) as usize].clone();
    let mut before = common::runs::fresh(&setting);
    let top = if wide { u32::MAX } else { 65_535 };
    before.counters.fill_with(|| {
        let near = (n as u32).saturating_sub(numbers.within(0, 4) as u32);
        [0, near, near, n as u32 + 1, top][numbers.within(0, 4) as usize]
    });
    let (last, rows) = (banks - 1, numbers.within(1, 5));
    let one = |numbers: &mut Numbers| {
        let row = numbers.within(0, rows) as u16;
        (numbers.within(0, last) as usize, row)
    };
    let group = (0..numbers.within(2, 6)).map(|_| one(numbers)).collect();
    Case {
        setting,
        wide,
        seeds,
        before,
        group,
    }
}

impl Case {
    /// The filters after the group in this order, with a fault or without.
    fn counters(&self, group: &[(usize, u16)], fault: Fault) -> Vec<u32> {
        let limits = if self.wide { NEW } else { OLD };
        let config = Config::new(self.setting, &self.seeds).within(limits);
        let rules = accept(&config.with(fault)).unwrap();
        let mut state = self.before.clone();
        for (step, &(bank, row)) in group.iter().enumerate() {
            state.counters = after(&rules, &state, &[(bank, row)]);
            // The history as the activation leaves it, which only a fault looks at.
            let place = state.head[1] as usize;
            state.ticks[place] = step as u64 + 1;
            state.rows[place] = bank as u32 * 65_536 + u32::from(row);
            state.head[1] = (place as u64 + 1) % state.ticks.len() as u64;
        }
        state.counters
    }

    /// The group in another order.
    fn shuffled(&self, numbers: &mut Numbers) -> Vec<(usize, u16)> {
        let mut group = self.group.clone();
        for k in (1..group.len()).rev() {
            group.swap(k, numbers.within(0, k as u64) as usize);
        }
        group
    }

    /// What each counter must be, from how many of the group name it: those below N
    /// gain as many, up to N, and the others stay.
    fn wanted(&self) -> Vec<u32> {
        let n = self.setting[N];
        let mut named = vec![0; self.before.counters.len()];
        for &(bank, row) in &self.group {
            let mut places = hash_by(&self.seeds, row, Fault::None).to_vec();
            places.sort_unstable();
            places.dedup();
            for place in places {
                named[bank * 2_048 + place] += 1;
                named[bank * 2_048 + 1_024 + place] += 1;
            }
        }
        let gained = |(&held, named): (&u32, u64)| match u64::from(held) {
            held if held >= n => held as u32,
            held => (held + named).min(n) as u32,
        };
        self.before.counters.iter().zip(named).map(gained).collect()
    }
}

#[test]
fn filters_after_a_group_in_any_order() {
    let numbers = &mut Numbers::new(13);
    let mut above = 0;
    for _ in 0..GROUPS {
        let case = case(numbers);
        let wanted = case.wanted();
        assert_eq!(case.counters(&case.group, Fault::None), wanted);
        for _ in 0..4 {
            let other = case.shuffled(numbers);
            assert_eq!(case.counters(&other, Fault::None), wanted, "{other:?}");
        }
        above += u64::from(wanted.iter().any(|&cell| u64::from(cell) > case.setting[N]));
    }
    assert!(above > GROUPS / 2);
}

/// With each wrong filter some group in two orders gives two contents.
#[test]
fn wrong_filters() {
    assert!(Fault::ORDER.len() >= 9);
    for &fault in Fault::ORDER {
        let numbers = &mut Numbers::new(14);
        let shows = (0..20 * GROUPS).any(|_| {
            let case = case(numbers);
            let other = case.shuffled(numbers);
            case.counters(&case.group, fault) != case.counters(&other, fault)
        });
        assert!(shows, "{fault:?} does not show");
    }
}
