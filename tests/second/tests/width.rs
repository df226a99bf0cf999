//! The two widths: their limits, counters of more than 16 bits, histories of more
//! than 4,096 places, and that settings of the old width get the same replies and
//! the same memory in the new one.

mod common;

use common::runs::{answer, run, Run};
use common::wide::{wide_run, CHIP, HISTORY, THRESHOLD};
use common::*;
use second::log::{check, Record};
use second::setting::{accept, history_length, house_seeds, row_bound};
use second::write::encode;
use second::{Config, Fault, Limits, Setting, State};

/// The greatest threshold of the new width.
const TOP: u64 = 1 << 20;

/// A setting, fields of it to change, and its refusals in the old and the new
/// width, 0 for none.
type Case = (Setting, &'static [(usize, u64)], [u32; 2]);

const CASES: [Case; 24] = [
    (THRESHOLD, &[(N, 32_768)], [0, 0]),
    (THRESHOLD, &[(N, 32_769)], [1, 0]),
    (THRESHOLD, &[(N, 65_536)], [1, 0]),
    (THRESHOLD, &[(N, TOP)], [1, 0]),
    (THRESHOLD, &[(N, TOP + 1)], [1, 1]),
    (THRESHOLD, &[(N, (1 << 32) + 2)], [1, 1]),
    (THRESHOLD, &[(N, u64::MAX)], [1, 1]),
    (THRESHOLD, &[(N, TOP), (Q, 0)], [1, 1]),
    (THRESHOLD, &[(N, TOP), (TRC, 2)], [1, 2]),
    (THRESHOLD, &[(N, TOP), (TD, (1 << 21) + 1)], [1, 3]),
    (THRESHOLD, &[(N, TOP), (TD, 32_769)], [1, 4]),
    (THRESHOLD, &[(N, TOP), (L, 2 * TOP)], [1, 5]),
    (THRESHOLD, &[(N, TOP), (BANKS, 5), (MARK, 1)], [1, 16]),
    (THRESHOLD, &[(N, TOP), (MARK, 2)], [1, 1]),
    (HISTORY, &[(TD, 1_024), (L, 60)], [0, 0]),
    (HISTORY, &[(TD, 1_025), (L, 60)], [4, 0]),
    (HISTORY, &[], [4, 0]),
    (HISTORY, &[(TD, 8_193)], [4, 4]),
    (HISTORY, &[(TD, 20_001)], [3, 3]),
    (HISTORY, &[(L, 8)], [4, 5]),
    (HISTORY, &[(MARK, 1)], [4, 16]),
    (HISTORY, &[(MARK, 1), (TD, 256), (L, 200)], [0, 0]),
    (HISTORY, &[(MARK, 1), (TD, 257), (L, 200)], [16, 16]),
    (HISTORY, &[(MARK, 2)], [1, 1]),
];

/// The numbers of set-up, request, done and index of a setting in a width, on
/// cleared memory that is long enough.
fn numbers_of(limits: Limits, setting: Setting, fault: Fault) -> [u32; 4] {
    let seeds = house_seeds();
    let config = Config::new(setting, &seeds).within(limits).with(fault);
    let mut state = State {
        head: [0; 22],
        counters: vec![0; 16 * 2_048],
        ticks: vec![0; 33_000],
        rows: vec![0; 33_000],
        threads: vec![1; 16 * 32 * 3],
    };
    let mut out = [0; 3];
    [
        second::setup(&config, &mut state.clone()),
        second::request(&config, &mut state.clone(), 0, 0, 0, 5, &mut out),
        second::done(&config, &mut state.clone(), 0, 0, 0),
        second::index(&config, &mut state, 0, 0, 0, &mut out),
    ]
}

#[test]
fn limits_of_both_widths() {
    for (base, changes, refusals) in CASES {
        let setting = with(base, changes);
        for (limits, refusal) in [second::OLD, second::NEW].into_iter().zip(refusals) {
            let numbers = numbers_of(limits, setting, Fault::None);
            assert_eq!(numbers, [refusal; 4], "{setting:?} {limits:?}");
        }
    }
}

/// The report of a log that has the first request of row 5, which is opened.
fn report(setting: Setting, fault: Fault) -> String {
    let first = Record {
        row: 5,
        ..Record::default()
    };
    check(&encode(&setting, &house_seeds(), &[first]), fault).to_string()
}

#[test]
fn the_checker_keeps_the_old_limits() {
    for (base, changes, [refusal, _]) in CASES {
        let setting = with(base, changes);
        if setting.iter().any(|&word| word >= 1 << 32) || setting[MARK] > 1 {
            continue;
        }
        let wanted = match refusal {
            0 => "records 1\nopened 1\nagrees\n".to_string(),
            _ => format!("refused {refusal} 0\n"),
        };
        assert_eq!(report(setting, Fault::None), wanted, "{setting:?}");
    }
    for &fault in Fault::LOG_LIMITS {
        let other = |setting| report(setting, fault) != report(setting, Fault::None);
        assert!(other(THRESHOLD) || other(HISTORY), "{fault:?}");
    }
}

/// The chip with the limit 1,024 has B 1,024 and 32,636 history places; one tick
/// less is refused with 5.
#[test]
fn a_chip_with_a_limit_near_1000() {
    let seeds = house_seeds();
    let config = Config::wide(CHIP, &seeds);
    assert_eq!(row_bound(&config), Some(1_024));
    assert_eq!(history_length(&config), Some(32_636));
    assert!(accept(&config).is_ok());
    assert_eq!(
        refusal_within(second::NEW, with(CHIP, &[(TD, 1_142_196)]), &seeds),
        5
    );
    assert_eq!(refusal(CHIP, &seeds), 4);
}

#[test]
fn counters_pass_65_535_and_stop_at_n() {
    for (first, counters) in [
        (65_533, [65_534, 65_535, 65_536, 65_537]),
        (1_048_574, [1_048_575, 1_048_576, 1_048_576, 1_048_576]),
        (u32::MAX - 1, [u32::MAX - 1; 4]),
    ] {
        let mut throttle = Throttle::wide(THRESHOLD);
        throttle.state.counters.fill(first);
        for (tick, counter) in (0..).step_by(9).zip(counters) {
            let left = TOP.saturating_sub(u64::from(counter));
            assert_eq!(throttle.ask(tick, 0, 0, 0), Ok([0, 0, left]));
            assert_eq!(throttle.state.counters[..2], [counter, first]);
            assert_eq!(throttle.state.counters[1_024..1_026], [counter, first]);
            assert_eq!(throttle.done(tick, 0, 0), 0);
        }
    }
}

/// Row 5 is blacklisted at N, and not at a counter that is N in 16 bits only.
#[test]
fn a_threshold_above_16_bits() {
    let mut throttle = Throttle::wide(with(THRESHOLD, &[(N, 65_538)]));
    throttle.state.counters.fill(2);
    for tick in 0..4 {
        assert_eq!(throttle.ask(tick, 0, 0, 5), Ok([0, 0, 65_535 - tick]));
        assert_eq!(throttle.done(tick, 0, 0), 0);
    }
    throttle.state.counters.fill(65_537);
    assert_eq!(throttle.ask(10, 0, 0, 5), Ok([0, 0, 0]));
    assert_eq!(throttle.ask(11, 0, 0, 5), Ok([3, 16, 0]));
    assert_eq!(throttle.state.counters[0], 65_537);
}

/// The place moves on past 4,095 and from 32,767 to 0, and the row rule finds an
/// activation wherever it is kept.
#[test]
fn a_history_of_32_768_places() {
    for (place, next) in [
        (4_095, 4_096),
        (4_096, 4_097),
        (20_000, 20_001),
        (32_767, 0),
    ] {
        let mut throttle = Throttle::wide(HISTORY);
        throttle.state.counters.fill(2);
        throttle.state.head[1] = place;
        assert_eq!(throttle.five(7), OPENED);
        assert_eq!(throttle.state.head[1], next);
        assert_eq!(throttle.state.ticks[place as usize], 8);
        assert_eq!(throttle.state.rows[place as usize], 5);
        assert_eq!(throttle.five(8), wait_row(7 + 8_192));
        throttle.state.ticks[place as usize] = 10;
        throttle.all_refused(7, 8, 0, 0);
    }
    let mut throttle = Throttle::wide(HISTORY);
    throttle.state.head[1] = 32_768;
    throttle.all_refused(7, 0, 0, 0);
}

/// The numbers, answers and memory of a run in a width, call by call.
fn replies(run: &Run, limits: Limits, fault: Fault) -> Vec<(u32, [u64; 3], State)> {
    let config = Config::new(run.setting, &run.seeds)
        .within(limits)
        .with(fault);
    let mut state = run.state.clone();
    let reply = |call| {
        let (number, out) = answer(&config, &mut state, call);
        (number, out, state.clone())
    };
    run.calls.iter().map(reply).collect()
}

#[test]
fn both_widths_reply_alike_within_the_old_limits() {
    for seed in 1..400 {
        let run = run(seed);
        let old = replies(&run, second::OLD, Fault::None);
        assert!(old == replies(&run, second::NEW, Fault::None), "run {seed}");
    }
}

/// Does some run go another way in a width with this fault?
fn shows(limits: Limits, fault: Fault, runs: &[Run]) -> bool {
    let differs = |run: &Run| {
        let plain = Config::new(run.setting, &run.seeds).within(limits);
        let faulty = plain.with(fault);
        let (mut right, mut wrong) = (run.state.clone(), run.state.clone());
        run.calls.iter().any(|call| {
            let replies = answer(&plain, &mut right, call) != answer(&faulty, &mut wrong, call);
            replies || right != wrong
        })
    };
    runs.iter().any(differs)
}

/// A fault of one width shows there and not in the other.
#[test]
fn every_fault_of_a_width_shows_in_it_alone() {
    assert!(Fault::WIDE.len() >= 34 && Fault::OLD_WIDTH.len() >= 8);
    let runs: Vec<Run> = (1..80).map(wide_run).chain((1..200).map(run)).collect();
    for &fault in Fault::WIDE {
        assert!(shows(second::NEW, fault, &runs), "{fault:?} does not show");
        assert!(!shows(second::OLD, fault, &runs[70..90]), "{fault:?}");
    }
    for &fault in Fault::OLD_WIDTH {
        assert!(shows(second::OLD, fault, &runs), "{fault:?} does not show");
        assert!(!shows(second::NEW, fault, &runs[70..90]), "{fault:?}");
    }
}
