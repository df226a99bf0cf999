//! Hash by bytes: the table word by word, a row's hash from its two words, which
//! seeds take the table, and that the calls show no difference. What everything is
//! compared with is the seed rule of document 01.

mod common;

use common::*;
use second::filter::hash;
use second::setting::house_seeds;
use second::table::{self, is_house, WORDS};
use second::{request, Config, Fault, Setting};

/// Counters do not come near N, so that openings left tell the estimate.
const WIDE: Setting = [4_000, 1, 1, 900, 2, 4_000, 255, 1, 1, 0];

/// What the table has to be: each word the seed rule of its byte alone, the high
/// bytes of a function before the low ones.
fn rule() -> Vec<u16> {
    let seeds = house_seeds();
    let word = |place: u16| {
        let (function, value) = (place / 512, place % 256);
        let row = if place & 256 == 0 { value << 8 } else { value };
        hash(&seeds, row)[usize::from(function)] as u16
    };
    (0..2_048).map(word).collect()
}

/// The places at which a table is not the rule.
fn wrong(words: &[u16], rule: &[u16]) -> Vec<usize> {
    (0..2_048)
        .filter(|&place| words[place] != rule[place])
        .collect()
}

/// Random seeds.
fn random_seeds(numbers: &mut Numbers) -> Vec<u16> {
    (0..64).map(|_| numbers.within(0, 1_023) as u16).collect()
}

/// The house seeds with one bit of one word changed, for each bit of each word;
/// a bit from 10 on makes the seed exceed 1,023.
fn one_bit_changed(bits: std::ops::Range<u32>) -> Vec<Vec<u16>> {
    let changed = |word: usize, bit: u32| {
        let mut seeds = house_seeds();
        seeds[word] ^= 1 << bit;
        seeds
    };
    (0..64)
        .flat_map(|word| bits.clone().map(move |bit| changed(word, bit)))
        .collect()
}

/// Accepted seeds far from the house seeds, and ones that have many of them.
fn others(numbers: &mut Numbers) -> Vec<Vec<u16>> {
    let house = house_seeds();
    let mut all = vec![vec![0; 64], vec![1_023; 64]];
    let ways: [fn(&mut [u16]); 6] = [
        |seeds| seeds.reverse(),
        |seeds| seeds.rotate_left(1),
        |seeds| seeds.rotate_left(16),
        |seeds| seeds.sort_unstable(),
        |seeds| seeds.swap(0, 1),
        |seeds| seeds.chunks_mut(16).for_each(|seeds| seeds.reverse()),
    ];
    all.extend(ways.map(|way| {
        let mut seeds = house.clone();
        way(&mut seeds);
        seeds
    }));
    for _ in 0..10 {
        let random = random_seeds(numbers);
        all.push([&house[..16], &random[16..]].concat());
        all.push([&house[..48], &random[48..]].concat());
        all.push([&random[..16], &house[16..]].concat());
        all.push(random);
    }
    all
}

/// Rows of one bit, of one byte, and some of any bits.
fn rows(numbers: &mut Numbers) -> Vec<u16> {
    let mut rows: Vec<u16> = (0..16).map(|bit| 1 << bit).collect();
    rows.extend((0..256).flat_map(|byte| [byte, byte << 8]));
    rows.extend((0..100).map(|_| numbers.within(0, 65_535) as u16));
    rows
}

#[test]
fn every_word_is_the_seed_rule_of_its_byte() {
    let rule = rule();
    assert_eq!(wrong(&WORDS, &rule), []);
    // Row 3 of the sample runs: functions 0 and 1.
    assert_eq!([WORDS[256 + 3], WORDS[512 + 256 + 3]], [177, 312]);
    for word in 0..2_048 {
        let mut words = WORDS;
        words[word] ^= 1 << (word % 10);
        assert_eq!(wrong(&words, &rule), [word]);
    }
}

#[test]
fn every_row_has_the_hash_of_the_seed_rule() {
    let seeds = house_seeds();
    for row in 0..=u16::MAX {
        assert_eq!(table::hash(row, Fault::None), hash(&seeds, row), "{row}");
    }
}

/// The hash of an exclusive or of rows is the exclusive or of their hashes.
#[test]
fn exclusive_or_of_rows() {
    let numbers = &mut Numbers::new(1);
    let mut all = others(numbers);
    all.push(house_seeds());
    for seeds in &all {
        let mut rows = rows(numbers);
        rows.push(0);
        for _ in 0..2_000 {
            let at = [(); 2].map(|()| numbers.within(0, rows.len() as u64 - 1) as usize);
            let [one, two] = at.map(|at| rows[at]);
            let (left, right) = (hash(seeds, one), hash(seeds, two));
            let both: [usize; 4] = std::array::from_fn(|f| left[f] ^ right[f]);
            assert_eq!(hash(seeds, one ^ two), both);
        }
    }
}

#[test]
fn the_house_seeds_alone_take_the_table() {
    assert!(is_house(&house_seeds(), Fault::None));
    let numbers = &mut Numbers::new(2);
    for seeds in others(numbers).iter().chain(&one_bit_changed(0..16)) {
        assert!(!is_house(seeds, Fault::None), "{seeds:?}");
    }
    let longer = [house_seeds(), house_seeds()].concat();
    for length in [0, 1, 16, 63, 65, 128] {
        assert!(!is_house(&longer[..length], Fault::None));
    }
}

/// A throttle with other seeds.
fn throttle(seeds: &[u16]) -> Throttle {
    let mut throttle = Throttle::new(WIDE);
    throttle.seeds = seeds.to_vec();
    throttle
}

/// A cell for each place of a hash that no other function names too, in both
/// filters.
fn added(places: [usize; 4]) -> Vec<u32> {
    let mut counters = vec![0; 2_048];
    for place in places {
        counters[place] = 1;
        counters[1_024 + place] = 1;
    }
    counters
}

#[test]
fn an_activation_adds_where_the_seed_rule_says() {
    let numbers = &mut Numbers::new(3);
    let mut all = others(numbers);
    all.push(house_seeds());
    all.extend(one_bit_changed(0..10).into_iter().step_by(7));
    let rows = rows(numbers);
    for seeds in &all {
        let step = if *seeds == house_seeds() { 1 } else { 9 };
        for &row in rows.iter().step_by(step) {
            let mut throttle = throttle(seeds);
            assert_eq!(throttle.ask(0, 0, 0, row), Ok([0, 0, 899]));
            assert_eq!(throttle.state.counters, added(hash(seeds, row)), "{row}");
        }
    }
}

/// A seed above 1,023 is refused, also where the others are the house seeds.
#[test]
fn seeds_above_1023() {
    for seeds in one_bit_changed(10..16) {
        let mut state = Throttle::new(WIDE).state;
        let before = state.clone();
        let mut out = [7; 3];
        let config = Config::new(WIDE, &seeds);
        assert_eq!(request(&config, &mut state, 0, 0, 0, 5, &mut out), 1);
        assert_eq!((state, out), (before, [7; 3]));
    }
}

/// Does a fault show in a request of one of the rows, each opened once?
fn shows(seeds: &[u16], rows: &[u16], fault: Fault) -> bool {
    let mut right = throttle(seeds);
    let mut wrong = throttle(seeds).with(fault);
    (0..).zip(rows).any(|(tick, &row)| {
        let answers = [&mut right, &mut wrong].map(|throttle| {
            let answer = throttle.ask(tick, 0, 0, row);
            assert_eq!(throttle.done(tick, 0, 0), 0);
            answer
        });
        answers[0] != answers[1] || right.state != wrong.state
    })
}

#[test]
fn faults_of_the_table_show_under_the_house_seeds_only() {
    assert!(Fault::TABLE.len() >= 12);
    let numbers = &mut Numbers::new(4);
    let (rows, others) = (rows(numbers), others(numbers));
    for &fault in Fault::TABLE {
        let house = house_seeds();
        let other = |row| table::hash(row, fault) != hash(&house, row);
        assert!((0..=u16::MAX).any(other), "{fault:?} in no row");
        assert!(shows(&house, &rows, fault), "{fault:?} does not show");
        let few = &rows[..40];
        assert!(!others.iter().any(|seeds| shows(seeds, few, fault)));
    }
}

#[test]
fn faults_of_the_comparison_show_under_other_seeds_only() {
    assert!(Fault::HOUSE.len() >= 15);
    let numbers = &mut Numbers::new(5);
    let rows = rows(numbers);
    let mut all = others(numbers);
    all.extend(one_bit_changed(0..10).into_iter().step_by(3));
    for &fault in Fault::HOUSE {
        let seen = all.iter().any(|seeds| shows(seeds, &rows[..16], fault));
        assert!(seen, "{fault:?} does not show");
        assert!(!shows(&house_seeds(), &rows, fault), "{fault:?}");
    }
}

/// With the table for all seeds each change of a bit shows, as it does where its
/// word is left out of the comparison.
#[test]
fn each_bit_of_each_seed_shows() {
    let rows = rows(&mut Numbers::new(6));
    for seeds in one_bit_changed(0..10) {
        for fault in [
            Fault::HouseAlways,
            Fault::HouseAlwaysInCount,
            Fault::HouseAlwaysInEstimate,
        ] {
            assert!(shows(&seeds, &rows, fault), "{fault:?} {seeds:?}");
        }
    }
}
