//! In flight is the thread's total over the banks of the setting: the requests
//! that it decides, what a done lowers and when it is refused, and logs whose
//! answers were made with the named bank's own count.

mod common;

use common::*;
use second::decision::Call;
use second::quota::in_flight;
use second::setting::{accept, house_seeds};
use second::{Config, Fault};
use std::collections::BTreeSet;

/// S with two banks, two threads and this Q.
fn two_banks(q: u64) -> Throttle {
    Throttle::new(s_with(&[(BANKS, 2), (THREADS, 2), (Q, q)]))
}

/// The place of a thread's count in a bank.
fn place(throttle: &Throttle, bank: usize, thread: usize) -> usize {
    (bank * throttle.setting[THREADS] as usize + thread) * 3 + 2
}

/// Writes a thread's counts, that of bank 0 first.
fn fly(throttle: &mut Throttle, thread: usize, counts: &[u32]) {
    for (bank, &count) in counts.iter().enumerate() {
        let place = place(throttle, bank, thread);
        throttle.state.threads[place] = count;
    }
}

/// The sum of a thread's counts.
fn total(throttle: &Throttle, thread: usize) -> u64 {
    (0..throttle.setting[BANKS] as usize)
        .map(|bank| u64::from(throttle.state.threads[place(throttle, bank, thread)]))
        .sum()
}

#[test]
fn a_request_of_another_bank_counts() {
    let mut throttle = two_banks(1);
    assert_eq!(throttle.at(0, 0, 0, 5), OPENED);
    let mut old = throttle.clone().with(Fault::InFlightOfBank);
    assert_eq!(throttle.at(1, 1, 0, 5), QUOTA);
    assert_eq!(old.at(1, 1, 0, 5), OPENED);
}

#[test]
fn a_done_of_any_bank_lowers_the_total() {
    let mut throttle = two_banks(1);
    assert_eq!(throttle.at(0, 0, 0, 5), OPENED);
    assert_eq!(throttle.at(1, 1, 0, 5), QUOTA);
    assert_eq!(throttle.done(2, 0, 0), 0);
    assert_eq!(throttle.at(2, 1, 0, 5), OPENED);
    assert_eq!(throttle.at(3, 0, 0, 5), QUOTA);
    assert_eq!(throttle.done(3, 1, 0), 0);
    assert_eq!(throttle.at(3, 0, 0, 5), OPENED);
}

#[test]
fn a_done_in_a_bank_with_none_is_refused_and_changes_nothing() {
    let mut throttle = two_banks(2);
    assert_eq!(throttle.at(0, 0, 0, 5), OPENED);
    assert_eq!(throttle.at(1, 0, 0, 6), OPENED);
    let before = throttle.state.clone();
    for tick in [1, 2, 19, 20, 40, 1000] {
        assert_eq!(throttle.done(tick, 1, 0), 10);
        assert_eq!(throttle.done(tick, 0, 1), 10);
        assert_eq!(throttle.state, before);
    }
    let mut by_total = throttle.clone().with(Fault::DoneRefusedByTotal);
    assert_eq!((by_total.done(1, 1, 0), by_total.done(1, 0, 1)), (0, 10));
    assert_eq!((throttle.done(1, 0, 0), throttle.done(1, 1, 0)), (0, 10));
    assert_eq!((throttle.done(1, 0, 0), throttle.done(1, 0, 0)), (0, 10));
}

#[test]
fn a_thread_on_sixteen_banks_has_one_quota() {
    let setting = s_with(&[(BANKS, 16), (Q, 3), (W, 400), (TD, 100)]);
    let opened = |fault| {
        let mut throttle = Throttle::new(setting).with(fault);
        let open = |&k: &u64| throttle.at(4 * k, k % 16, 0, k as u16) == OPENED;
        (0..64).filter(open).count()
    };
    assert_eq!(opened(Fault::None), 3);
    assert_eq!(opened(Fault::InFlightOfBank), 48);
}

#[test]
fn every_small_total_against_every_small_quota() {
    for counts in (0..27).map(|k| [k % 3, k / 3 % 3, k / 9]) {
        for (q, bank) in (1..=7).flat_map(|q| (0..3).map(move |bank| (q, bank))) {
            let mut throttle = Throttle::new(s_with(&[(BANKS, 3), (Q, q)]));
            fly(&mut throttle, 0, &counts);
            let held = u64::from(counts.iter().sum::<u32>()) >= q;
            let answer = if held { QUOTA } else { OPENED };
            assert_eq!(throttle.at(0, bank, 0, 5), answer, "{counts:?} {q} {bank}");
        }
    }
}

#[test]
fn other_threads_do_not_count() {
    let mut throttle = two_banks(3);
    fly(&mut throttle, 0, &[1, 1]);
    fly(&mut throttle, 1, &[u32::MAX, 3]);
    let mut all_threads = throttle.clone().with(Fault::InFlightOfAllThreads);
    assert_eq!(throttle.at(0, 0, 1, 5), QUOTA);
    assert_eq!(throttle.at(0, 0, 0, 5), OPENED);
    assert_eq!(all_threads.at(0, 0, 0, 5), QUOTA);
}

/// The counter of bank 0 gives a quota of 2, that of bank 1 one of 4.
#[test]
fn the_quota_comes_from_the_named_bank() {
    let mut throttle = two_banks(4);
    let first = place(&throttle, 0, 0) - 2;
    throttle.state.threads[first] = 4;
    fly(&mut throttle, 0, &[1, 1]);
    assert_eq!(throttle.index(0, 0, 0), Ok([4, 8, 2]));
    assert_eq!(throttle.index(0, 1, 0), Ok([0, 8, 4]));
    assert_eq!(throttle.at(0, 0, 0, 5), QUOTA);
    for fault in [
        Fault::QuotaOfBankZero,
        Fault::RequestOfBankZero,
        Fault::QuotaOfGreatest,
    ] {
        assert_eq!(throttle.clone().with(fault).at(0, 1, 0, 5), QUOTA);
    }
    assert_eq!(throttle.at(0, 1, 0, 5), OPENED);
    assert_eq!(throttle.at(1, 1, 0, 6), OPENED);
    assert_eq!(throttle.at(2, 1, 0, 7), QUOTA);
}

#[test]
fn counts_whose_sum_passes_32_bits() {
    let sixteen = [1 << 28; 16];
    let cases: [&[u32]; 4] = [&[u32::MAX, 1], &[1, u32::MAX], &[1 << 31; 2], &sixteen];
    for counts in cases {
        let banks = counts.len() as u64;
        let mut throttle = Throttle::new(s_with(&[(BANKS, banks)]));
        fly(&mut throttle, 0, counts);
        assert_eq!(total(&throttle, 0), 1 << 32);
        for bank in 0..banks {
            let mut wraps = throttle.clone().with(Fault::InFlightWraps);
            assert_eq!(throttle.at(0, bank, 0, 5), QUOTA);
            assert_eq!(wraps.at(0, bank, 0, 5), OPENED);
        }
        assert_eq!(throttle.done(1, banks - 1, 0), 0);
        assert_eq!(total(&throttle, 0), (1 << 32) - 1);
        assert_eq!(throttle.at(1, 0, 0, 5), QUOTA);
    }
    let mut throttle = Throttle::new(s_with(&[(BANKS, 16), (Q, 255)]));
    fly(&mut throttle, 0, &[u32::MAX; 16]);
    assert_eq!(throttle.at(0, 3, 0, 5), QUOTA);
}

#[test]
fn banks_outside_the_setting_play_no_part() {
    let mut throttle = two_banks(2);
    throttle.state.threads.extend([7; 9]);
    fly(&mut throttle, 0, &[1, 0, 5]);
    let mut three = throttle.clone();
    three.setting[BANKS] = 3;
    three.state.counters.resize(3 * 2048, 0);
    assert_eq!(three.at(0, 1, 0, 5), QUOTA);
    assert_eq!(throttle.at(0, 1, 0, 5), OPENED);
    assert_eq!(throttle.state.threads[12..], [7, 7, 5, 7, 7, 7, 7, 7, 7]);
    throttle.setting[BANKS] = 1;
    assert_eq!(throttle.at(1, 0, 0, 5), OPENED);
}

/// Ten banks, thread 0 with 10^b in flight in bank b and thread 1 with twice as
/// many: each digit of a total tells of one bank.
#[test]
fn wrong_totals() {
    let seeds = house_seeds();
    let setting = s_with(&[(BANKS, 10), (THREADS, 2)]);
    let mut throttle = Throttle::new(setting);
    let powers: [u32; 10] = std::array::from_fn(|bank| 10_u32.pow(bank as u32));
    fly(&mut throttle, 0, &powers);
    fly(&mut throttle, 1, &powers.map(|count| 2 * count));
    let faults = [
        (Fault::None, 1_111_111_111),
        (Fault::InFlightOfBank, 10_000),
        (Fault::InFlightOfAllThreads, 30_000),
        (Fault::InFlightUpToBank, 11_111),
        (Fault::InFlightFromBank, 1_111_110_000),
        (Fault::InFlightOfOtherBanks, 1_111_101_111),
        (Fault::InFlightWithoutLast, 111_111_111),
        (Fault::InFlightOfEightBanks, 11_111_111),
        (Fault::InFlightThreadByThread, 33_333),
    ];
    let call = Call {
        tick: 0,
        bank: 4,
        thread: 0,
    };
    for (fault, found) in faults {
        let rules = accept(&Config::new(setting, &seeds).with(fault)).unwrap();
        assert_eq!(
            in_flight(&rules, &throttle.state, &call),
            found,
            "{fault:?}"
        );
    }
}

/// One call of a list and what it answers: kind and refusal or answer.
type Seen = (&'static str, Result<u64, u32>);

/// Makes a random call of any kind at about this tick.
fn call(throttle: &mut Throttle, numbers: &mut Numbers, tick: u64) -> (Seen, usize) {
    let [.., banks, threads, _] = throttle.setting;
    let outside = u64::from(numbers.one_in(20));
    let (bank, thread) = (
        numbers.within(0, banks - 1 + outside),
        numbers.within(0, threads - 1),
    );
    let tick = tick.saturating_sub(u64::from(numbers.one_in(20)));
    let seen = match numbers.within(0, 9) {
        0..=5 => {
            let row = numbers.within(5, 7) as u16;
            let out = throttle.at(tick, bank, thread, row);
            ("request", out.map(|out| out[0]))
        }
        6..=8 => match throttle.done(tick, bank, thread) {
            0 => ("done", Ok(0)),
            number => ("done", Err(number)),
        },
        _ => ("index", throttle.index(tick, bank, thread).map(|_| 0)),
    };
    (seen, thread as usize)
}

/// Makes a random list of calls after a set-up. Is each thread's total its
/// openings less its dones after every call, and at most Q?
fn balanced(seed: u64, fault: Fault, seen: &mut BTreeSet<Seen>) -> bool {
    let numbers = &mut Numbers::new(seed);
    let (q, banks, threads) = (
        numbers.within(1, 5),
        numbers.within(1, 4),
        numbers.within(1, 3),
    );
    let setting = s_with(&[(Q, q), (BANKS, banks), (THREADS, threads)]);
    let mut throttle = Throttle::new(setting).with(fault);
    let mut balance = vec![0; threads as usize];
    let mut tick = 0;
    (0..120).all(|_| {
        tick += numbers.within(0, 3);
        let (one, thread) = call(&mut throttle, numbers, tick);
        balance[thread] += match one {
            ("request", Ok(0)) => 1,
            ("done", Ok(0)) => -1,
            _ => 0,
        };
        seen.insert(one);
        (0..threads as usize).all(|thread| {
            let total = total(&throttle, thread);
            total as i64 == balance[thread] && total <= q
        })
    })
}

#[test]
fn in_a_list_the_total_is_openings_less_dones() {
    let mut seen = BTreeSet::new();
    assert!((1..300).all(|seed| balanced(seed, Fault::None, &mut seen)));
    let mut all: BTreeSet<Seen> = (0..5).map(|answer| ("request", Ok(answer))).collect();
    all.extend([("done", Ok(0)), ("done", Err(10)), ("index", Ok(0))]);
    for kind in ["request", "done", "index"] {
        all.extend([(kind, Err(8)), (kind, Err(9))]);
    }
    assert_eq!(seen, all);
    for fault in [
        Fault::DoneTakesNothing,
        Fault::DoneRefusedByTotal,
        Fault::DropsInFlightAtTurn,
        Fault::InFlightOfBank,
        Fault::QuotaStrict,
    ] {
        let found = (1..300).any(|seed| !balanced(seed, fault, &mut seen));
        assert!(found, "{fault:?}");
    }
}

#[test]
fn a_log_of_the_banks_own_count_differs_where_the_two_decide_differently() {
    let setting = s_with(&[(BANKS, 3), (THREADS, 2), (Q, 10)]);
    for [old, new] in where_old_logs_differ(setting, Fault::InFlightOfBank) {
        assert!(old != 4 && new == 4, "{old} {new}");
    }
}
