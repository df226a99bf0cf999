//! The planner against every delay tried one by one, under both profiles and in
//! both widths.

mod common;

use common::wide::{CHIP, THRESHOLD};
use common::*;
use second::plan::delays;
use second::setting::row_bound;
use second::{Config, Fault, Limits, Setting, NEW, OLD};

/// What `out` holds before a call.
const BEFORE: [u64; 2] = [111, 222];

/// The number that the planner returns, and `out` after it.
fn planned(setting: &Setting, fault: Fault) -> (u32, [u64; 2]) {
    planned_within(OLD, setting, fault)
}

/// The same in a width.
fn planned_within(limits: Limits, setting: &Setting, fault: Fault) -> (u32, [u64; 2]) {
    let mut out = BEFORE;
    let config = Config::new(*setting, &[]).within(limits).with(fault);
    (delays(&config, &mut out), out)
}

/// The delays that are accepted with a mark. A delay above W is above W/2, so
/// that W + 1 stands for every longer one.
fn accepted(limits: Limits, setting: &Setting, mark: u64) -> Vec<u64> {
    let tried = 1..=(setting[W] + 1).min(1 << 29);
    let with_delay = |delay| with(*setting, &[(TD, delay), (MARK, mark)]);
    let taken = |delay: &u64| refusal_within(limits, with_delay(*delay), &[0; 64]) == 0;
    tried.filter(taken).collect()
}

/// Why no delay is accepted: 1 or 2 whatever the delay, 16 if one is with mark 0,
/// else the refusal of the smallest delay with B <= L, or 5.
fn reason(limits: Limits, setting: &Setting) -> u32 {
    let first = refusal_within(limits, with(*setting, &[(TD, 1)]), &[0; 64]);
    if first == 1 || first == 2 {
        return first;
    }
    if !accepted(limits, setting, 0).is_empty() {
        return 16;
    }
    let plain = |delay| with(*setting, &[(TD, delay), (MARK, 0)]);
    let bound = |delay| row_bound(&Config::new(plain(delay), &[])).unwrap() as u64;
    let smallest = (1..=setting[W] + 1).find(|&delay| bound(delay) <= setting[L]);
    smallest.map_or(5, |delay| refusal_within(limits, plain(delay), &[0; 64]))
}

/// What the planner has to give.
fn wanted(limits: Limits, setting: &Setting) -> (u32, [u64; 2]) {
    let delays = accepted(limits, setting, setting[MARK]);
    match (delays.first(), delays.last()) {
        (Some(&least), Some(&greatest)) => {
            assert_eq!(delays.len() as u64, greatest - least + 1, "{setting:?}");
            (0, [least, greatest])
        }
        _ => (reason(limits, setting), BEFORE),
    }
}

/// A setting with a short window, where tRC, W/2 and L decide, or with one of up
/// to 3,600 ticks, where 1,024 and 4,096 history places decide too. Its delay is
/// any number.
fn any(numbers: &mut Numbers) -> Setting {
    let n = numbers.within(0, 6);
    let (w, trc, tfaw, spare) = if numbers.one_in(4) {
        let spare = [2, 60][numbers.within(0, 1) as usize];
        (numbers.within(200, 1_800), 30, 1, spare)
    } else {
        (numbers.within(0, 20), 6, 0, 9)
    };
    let far = if numbers.one_in(5) { 280 } else { 0 };
    let mark = numbers.within(0, 8);
    [
        2 * w,
        numbers.within(0, trc) + far,
        tfaw + numbers.within(0, 2),
        n,
        numbers.within(0, 9),
        2 * n + numbers.within(0, spare),
        4,
        numbers.within(1, 7),
        8,
        if mark > 1 { mark % 2 } else { 2 * mark },
    ]
}

/// Settings with what the planner has to give.
fn cases() -> Vec<(Setting, (u32, [u64; 2]))> {
    let numbers = &mut Numbers::new(9);
    (0..2_500)
        .map(|_| any(numbers))
        .map(|setting| (setting, wanted(OLD, &setting)))
        .collect()
}

/// Settings for the new width: those of the old one, and ones at which 32,768
/// history places decide.
fn wide_settings() -> Vec<Setting> {
    let numbers = &mut Numbers::new(10);
    let mut settings: Vec<Setting> = (0..400).map(|_| any(numbers)).collect();
    for k in 0..12 {
        let w = numbers.within(8_180, 8_240);
        let trc = w / 2 + numbers.within(0, 9);
        let (limit, banks) = (3 + k / 6, numbers.within(4, 5));
        settings.push([2 * w, trc, 1, 1, 1, limit, 4, banks, 8, k % 2]);
    }
    settings
}

/// Thresholds around the greatest of both widths, and what the planner of the new
/// one gives.
fn thresholds() -> [(Setting, (u32, [u64; 2])); 4] {
    [
        (32_768, (0, [1, 32_768])),
        (32_769, (0, [1, 32_768])),
        (1 << 20, (0, [1, 32_768])),
        ((1 << 20) + 1, (1, BEFORE)),
    ]
    .map(|(n, wanted)| (with(THRESHOLD, &[(N, n)]), wanted))
}

#[test]
fn every_delay_tried() {
    let mut seen = [[0; 17]; 3];
    for (setting, wanted) in cases() {
        assert_eq!(planned(&setting, Fault::None), wanted, "{setting:?}");
        seen[setting[MARK] as usize][wanted.0 as usize] += 1;
    }
    for number in 0..=5 {
        assert!(seen[0][number] > 3 && seen[1][number] > 3, "{seen:?}");
    }
    assert!(seen[1][16] > 20 && seen[2][1] > 20, "{seen:?}");
}

#[test]
fn wrong_plans() {
    assert!(Fault::PLANNER.len() >= 11);
    let cases = cases();
    for &fault in Fault::PLANNER {
        let shows = |(setting, wanted): &(Setting, _)| planned(setting, fault) != *wanted;
        assert!(cases.iter().any(shows), "{fault:?} does not show");
    }
}

#[test]
fn every_delay_tried_in_the_new_width() {
    let mut seen = [0; 17];
    let brute = |setting| (setting, wanted(NEW, &setting));
    let cases = wide_settings().into_iter().map(brute);
    for (setting, wanted) in cases.chain(thresholds()) {
        let found = planned_within(NEW, &setting, Fault::None);
        assert_eq!(found, wanted, "{setting:?}");
        seen[wanted.0 as usize] += 1;
    }
    let reached = [0, 1, 2, 3, 4, 5, 16].map(|number: usize| seen[number]);
    assert!(reached.iter().all(|&count| count > 1), "{seen:?}");
}

#[test]
fn wrong_plans_of_a_width() {
    assert!(Fault::PLAN_LIMITS.len() >= 10);
    let mut settings = wide_settings();
    settings.extend(thresholds().map(|(setting, _)| setting));
    let shows = |limits, fault, setting: &Setting| {
        planned_within(limits, setting, fault) != planned_within(limits, setting, Fault::None)
    };
    for &fault in [Fault::PLANNER, Fault::PLAN_LIMITS].concat().iter() {
        let of_old = [Fault::PlanOldNewThreshold, Fault::PlanOldNewHistory].contains(&fault);
        let limits = if of_old { OLD } else { NEW };
        let seen = settings.iter().any(|setting| shows(limits, fault, setting));
        assert!(seen, "{fault:?} does not show");
    }
}

/// The limit 1,024 has delays in the new width only, and N 400 is its last.
#[test]
fn a_chip_in_both_widths() {
    let of = |limits, n| planned_within(limits, &with(CHIP, &[(N, n)]), Fault::None);
    assert_eq!(of(NEW, 400), (0, [1_142_197, 1_146_880]));
    assert_eq!(of(NEW, 401), (4, BEFORE));
    assert_eq!(of(OLD, 400), (4, BEFORE));
    let small = with(CHIP, &[(BANKS, 4), (MARK, 1)]);
    assert_eq!(planned_within(OLD, &small, Fault::None), (4, BEFORE));
    assert_eq!(planned_within(NEW, &small, Fault::None), (16, BEFORE));
}

/// A chip with N 4,096 and L 16,384: 256 times tFAW is the longest delay of the
/// small profile.
#[test]
fn a_chip_under_both_profiles() {
    let chip = |n, l, banks, mark| [256_000_000, 185, 140, n, 1, l, 255, banks, 8, mark];
    let of = |n, l, banks, mark| planned(&chip(n, l, banks, mark), Fault::None);
    assert_eq!(of(4_096, 16_384, 16, 0), (0, [31_065, 143_360]));
    assert_eq!(of(4_096, 16_384, 4, 1), (0, [31_065, 35_840]));
    assert_eq!(of(4_096, 16_384, 5, 1), (16, BEFORE));
    assert_eq!(of(2_048, 8_192, 4, 0), (0, [62_315, 143_360]));
    assert_eq!(of(2_048, 8_192, 4, 1), (16, BEFORE));
    for (banks, mark) in [(16, 0), (4, 1), (5, 1)] {
        assert_eq!(of(512, 2_048, banks, mark), (4, BEFORE));
        assert_eq!(of(8_192, 16_384, banks, mark), (5, BEFORE));
    }
    for mark in [2, 255, 256, 257, 1 << 32, (1 << 32) + 1, 1 << 63, u64::MAX] {
        assert_eq!(of(4_096, 16_384, 4, mark), (1, BEFORE));
    }
}

#[test]
fn s_under_both_profiles() {
    for mark in [0, 1] {
        let found = planned(&s_with(&[(MARK, mark)]), Fault::None);
        assert_eq!(found, (0, [6, 20]));
    }
    let with_four_banks = planned(&s_with(&[(BANKS, 4), (MARK, 1)]), Fault::None);
    let with_five_banks = planned(&s_with(&[(BANKS, 5), (MARK, 1)]), Fault::None);
    assert_eq!((with_four_banks.0, with_five_banks.0), (0, 16));
}

/// The smallest delay with B <= L is below tRC, and every delay from tRC on has
/// too long a history: 3 with both marks where the large profile has none, and 16
/// where only the small one has none.
#[test]
fn a_smallest_delay_below_the_gap() {
    let gap = |trc, mark| [6_000, trc, 1, 1, 1, 4_000, 4, 4, 1, mark];
    let of = |trc, mark| planned(&gap(trc, mark), Fault::None);
    assert_eq!((of(1_025, 0).0, of(1_025, 1).0), (3, 3));
    assert_eq!(of(1_024, 0), (0, [1_024, 1_024]));
    assert_eq!(of(1_024, 1), (16, BEFORE));
    assert_eq!(of(256, 1), (0, [256, 256]));
    assert_eq!(of(257, 1), (16, BEFORE));
}
