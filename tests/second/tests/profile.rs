//! The profile mark in the four calls: what the small profile takes and refuses,
//! where refusal 16 stands among the others, and that a setting of the small
//! profile gets the same replies and the same memory under the large one.

mod common;

use common::runs::{answer, run_on, setting, Run};
use common::*;
use second::setting::{accept, house_seeds, row_bound};
use second::{done, index, request, setup, Config, Fault, Setting, State};

/// The most that the small profile takes: four banks, and 1,024 history places
/// with the delay 256 times tFAW.
const EDGE: Setting = [4_000, 1, 4, 2, 1_024, 10, 4, 4, 2, 1];

/// EDGE with some fields changed, and the refusal of the setting, 0 for none.
const CASES: [(&[(usize, u64)], u32); 50] = [
    (&[], 0),
    (&[(MARK, 0)], 0),
    (&[(BANKS, 1)], 0),
    (&[(BANKS, 5)], 16),
    (&[(BANKS, 5), (MARK, 0)], 0),
    (&[(BANKS, 16)], 16),
    (&[(BANKS, 16), (MARK, 0)], 0),
    (&[(BANKS, 17)], 1),
    (&[(BANKS, 17), (MARK, 0)], 1),
    // 1,020, 1,024 and 1,028 places
    (&[(TD, 1_020)], 0),
    (&[(TD, 1_021)], 0),
    (&[(TD, 1_025)], 16),
    (&[(TD, 1_025), (MARK, 0)], 0),
    // 4,096 and 4,100 places
    (&[(TFAW, 1)], 16),
    (&[(TFAW, 1), (MARK, 0)], 0),
    (&[(TFAW, 1), (TD, 1_025)], 4),
    (&[(TFAW, 1), (TD, 1_025), (MARK, 0)], 4),
    // above the small profile, and another refusal
    (&[(BANKS, 5), (TD, 1_025)], 16),
    (&[(BANKS, 5), (Q, 0)], 1),
    (&[(BANKS, 5), (W, 4_001)], 1),
    (&[(BANKS, 5), (N, 2_000)], 2),
    (&[(TD, 1_025), (N, 2_000)], 2),
    (&[(BANKS, 5), (TD, 2_001)], 3),
    (&[(BANKS, 5), (TRC, 999), (TD, 998)], 3),
    (&[(BANKS, 5), (TFAW, 1), (TD, 1_025)], 4),
    (&[(BANKS, 5), (L, 7)], 5),
    (&[(TD, 1_025), (L, 7)], 5),
    (&[(BANKS, 5), (TD, 1_025), (L, 7)], 5),
    // a mark of no profile, alone and with another refusal
    (&[(MARK, 2)], 1),
    (&[(MARK, 3)], 1),
    (&[(MARK, 255)], 1),
    (&[(MARK, 256)], 1),
    (&[(MARK, 257)], 1),
    (&[(MARK, 1 << 16)], 1),
    (&[(MARK, (1 << 16) + 1)], 1),
    (&[(MARK, 1 << 31)], 1),
    (&[(MARK, 1 << 32)], 1),
    (&[(MARK, (1 << 32) + 1)], 1),
    (&[(MARK, 1 << 63)], 1),
    (&[(MARK, (1 << 63) + 1)], 1),
    (&[(MARK, u64::MAX)], 1),
    (&[(MARK, 2), (BANKS, 5)], 1),
    (&[(MARK, 2), (TD, 1_025)], 1),
    (&[(MARK, 2), (N, 2_000)], 1),
    (&[(MARK, 2), (TD, 2_001)], 1),
    (&[(MARK, 2), (TFAW, 1), (TD, 1_025)], 1),
    (&[(MARK, 2), (L, 7)], 1),
    (&[(MARK, 256), (BANKS, 5)], 1),
    (&[(MARK, 257), (BANKS, 5)], 1),
    (&[(MARK, 0), (L, 7)], 5),
];

/// What else is wrong with a call, besides its setting.
#[derive(Clone, Copy, Debug)]
enum Wrong {
    Nothing,
    ShortBuffer,
    BadMemory,
    BankOutside,
    EarlyTick,
}

const WRONG: [Wrong; 5] = [
    Wrong::Nothing,
    Wrong::ShortBuffer,
    Wrong::BadMemory,
    Wrong::BankOutside,
    Wrong::EarlyTick,
];

/// What a set-up, a request, a done and an index reading return, and whether one
/// that is refused changes anything.
type Told = [(u32, bool); 4];

/// What the calls have to tell where the setting has this refusal.
fn wanted(refusal: u32, wrong: Wrong) -> Told {
    let numbers = match (refusal, wrong) {
        (0, Wrong::Nothing) => [0; 4],
        (0, Wrong::ShortBuffer) => [6; 4],
        (0, Wrong::BadMemory) => [0, 7, 7, 7],
        (0, Wrong::BankOutside) => [0, 8, 8, 8],
        (0, Wrong::EarlyTick) => [0, 9, 9, 9],
        _ => [refusal; 4],
    };
    numbers.map(|number| (number, false))
}

/// Makes the four calls, each on its own copy of long buffers with a last tick of
/// 7 and one request in flight.
fn told(setting: Setting, wrong: Wrong, fault: Fault) -> Told {
    let seeds = house_seeds();
    let config = Config::new(setting, &seeds).with(fault);
    let mut lent = State {
        head: [0; 22],
        counters: vec![0; 16 * 2_048],
        ticks: vec![0; 4_096],
        rows: vec![0; 4_096],
        threads: vec![0; 16 * 32 * 3],
    };
    (lent.head[0], lent.threads[2]) = (7, 1);
    let (mut tick, mut bank) = (9, 0);
    match wrong {
        Wrong::Nothing => {}
        Wrong::ShortBuffer => lent.rows.clear(),
        Wrong::BadMemory => lent.head[1] = u64::MAX,
        Wrong::BankOutside => bank = 99,
        Wrong::EarlyTick => tick = 6,
    }
    [0, 1, 2, 3].map(|kind| {
        let (mut state, mut out) = (lent.clone(), [77; 3]);
        let number = match kind {
            0 => setup(&config, &mut state),
            1 => request(&config, &mut state, tick, bank, 0, 5, &mut out),
            2 => done(&config, &mut state, tick, bank, 0),
            _ => index(&config, &mut state, tick, bank, 0, &mut out),
        };
        (number, number != 0 && (state != lent || out != [77; 3]))
    })
}

#[test]
fn what_the_profiles_take_and_refuse() {
    for (changes, refusal) in CASES {
        for wrong in WRONG {
            let found = told(with(EDGE, changes), wrong, Fault::None);
            assert_eq!(found, wanted(refusal, wrong), "{changes:?} {wrong:?}");
        }
    }
}

#[test]
fn wrong_refusals() {
    assert!(Fault::PROFILE.len() >= 32);
    for &fault in Fault::PROFILE {
        let shows = |&(changes, refusal): &(&[(usize, u64)], u32)| {
            WRONG
                .into_iter()
                .any(|wrong| told(with(EDGE, changes), wrong, fault) != wanted(refusal, wrong))
        };
        assert!(CASES.iter().any(shows), "{fault:?} does not show");
    }
}

#[test]
fn s_under_the_small_profile() {
    let mut throttle = Throttle::new(s_with(&[(MARK, 1)]));
    assert_eq!(throttle.setup(), 0);
    assert_eq!(throttle.ask(0, 0, 0, 5), Ok([0, 0, 1]));
    assert_eq!(throttle.ask(1, 0, 0, 5), Ok([0, 0, 0]));
    assert_eq!(throttle.five(2), wait_row(7));
    assert_eq!(throttle.five(7), OPENED);
    assert_eq!(throttle.index(7, 0, 0), Ok([1, 8, 4]));
    assert_eq!(throttle.five(8), wait_row(13));
    assert_eq!(throttle.done(8, 0, 0), 0);
}

/// More than four banks or 1,024 history places.
fn above(setting: &Setting) -> bool {
    setting[BANKS] > 4 || 4 * setting[TD].div_ceil(setting[TFAW]) > 1_024
}

/// The refusal with mark 1, given that with mark 0.
fn with_mark_1(setting: &Setting, with_mark_0: u32) -> u32 {
    match with_mark_0 {
        1..=5 => with_mark_0,
        _ if above(setting) => 16,
        _ => with_mark_0,
    }
}

/// A setting with every field at or next to a bound, its own or one of another
/// refusal.
fn at_bounds(numbers: &mut Numbers) -> Setting {
    let mut pick = |values: &[u64]| values[numbers.within(0, values.len() as u64 - 1) as usize];
    let tfaw = pick(&[1, 2, 3, 65_535]);
    let places = pick(&[1, 255, 256, 257, 1_024, 1_025]);
    let td = places * tfaw + 1 - pick(&[0, 1, 1, tfaw]);
    let trc = pick(&[1, 2, 3, td]);
    let n = pick(&[1, 2, 3, 32_768, 32_769]);
    let free = 2 * n * trc;
    let w = pick(&[free, free + 2, 2 * td, 2 * td + 40, 1 << 30]);
    let (banks, threads) = (pick(&[1, 3, 4, 5, 6, 16, 17]), pick(&[1, 32]));
    let q = pick(&[1, 4, 4, 4, 255, 256]);
    let mut setting = [w, trc, tfaw, n, td, 1, q, banks, threads, 0];
    let bound = row_bound(&Config::new(setting, &[])).map_or(1, |bound| bound as u64);
    setting[L] = pick(&[bound - 1, bound, bound, bound + 9]);
    setting
}

#[test]
fn the_refusal_with_mark_1_from_that_with_mark_0() {
    let numbers = &mut Numbers::new(3);
    let seeds = house_seeds();
    let mut seen = [[0; 17]; 2];
    for _ in 0..40_000 {
        let large = at_bounds(numbers);
        let small = with(large, &[(MARK, 1)]);
        let found = [large, small].map(|setting| refusal(setting, &seeds));
        assert_eq!(found[1], with_mark_1(&large, found[0]), "{large:?}");
        seen[usize::from(above(&large))][found[1] as usize] += 1;
    }
    for number in [0, 1, 2, 3, 5, 16] {
        let place = usize::from(number == 16);
        assert!(seen[place][number] > 100, "{number} is rare: {seen:?}");
    }
    for number in 1..=5 {
        assert!(seen[1][number] > 100, "{number} for 16 is rare: {seen:?}");
    }
}

/// A run on a small setting or on one with about 1,024 history places; of the
/// banks there are at times more than four.
fn near(seed: u64) -> Run {
    let numbers = &mut Numbers::new(seed);
    let mut chosen = setting(numbers);
    if numbers.one_in(3) {
        let tfaw = numbers.within(1, 3);
        let td = numbers.within(255, 257) * tfaw - numbers.within(0, tfaw - 1);
        let banks = numbers.within(2, 5);
        let w = 2 * (td + numbers.within(4, 90));
        let changes = [(TFAW, tfaw), (TD, td), (BANKS, banks), (W, w), (N, 2)];
        chosen = with(chosen, &changes);
        let bound = row_bound(&Config::new(chosen, &[])).unwrap();
        chosen[L] = bound as u64 + numbers.within(0, 4);
    }
    run_on(numbers, chosen, false)
}

/// Does each call of a run, made with mark 1 and a fault, give what it must
/// beside the same call with mark 0? Both go on from the same memory.
fn same(run: &Run, fault: Fault) -> bool {
    let large = Config::new(with(run.setting, &[(MARK, 0)]), &run.seeds);
    let small = Config::new(with(run.setting, &[(MARK, 1)]), &run.seeds).with(fault);
    let (mut first, mut second) = (run.state.clone(), run.state.clone());
    let refused = |number| with_mark_1(&run.setting, number) == 16;
    let numbers = [large, small].map(|config| setup(&config, &mut run.state.clone()));
    numbers[1] == with_mark_1(&run.setting, numbers[0])
        && run.calls.iter().all(|call| {
            let before = first.clone();
            let one = answer(&large, &mut first, call);
            let two = answer(&small, &mut second, call);
            if refused(one.0) {
                first = before;
                return two == (16, [7; 3]) && second == first;
            }
            two == one && second == first
        })
}

#[test]
fn the_small_profile_decides_as_the_large_one() {
    let mut seen = [0; 3];
    for seed in 1..600 {
        let run = near(seed);
        assert!(same(&run, Fault::None), "{:?}", run.setting);
        let small = with(run.setting, &[(MARK, 1)]);
        let large = with(run.setting, &[(MARK, 0)]);
        let accepted = |setting| accept(&Config::new(setting, &run.seeds)).is_ok();
        assert!(accepted(large) || !accepted(small));
        seen[usize::from(accepted(large)) + usize::from(accepted(small))] += 1;
    }
    assert!(seen.iter().all(|&runs| runs > 30), "{seen:?}");
}

#[test]
fn wrong_decisions() {
    assert!(Fault::SMALL.len() >= 5);
    for &fault in Fault::SMALL {
        let shows = (1..600).any(|seed| !same(&near(seed), fault));
        assert!(shows, "{fault:?} does not show");
    }
}
