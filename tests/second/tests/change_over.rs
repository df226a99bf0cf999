//! The change-over: what it writes, its refusals and their order, and that a state
//! taken over answers every later call as it would have before.

mod common;

use common::runs::{answer, run, Run};
use common::wide::{HISTORY, THRESHOLD};
use common::*;
use second::setting::house_seeds;
use second::{change_over, Config, Fault, Setting, State};

/// What the new counters hold before.
const BEFORE: u32 = 0xA1B2_C3D4;

/// A saved state, and the new counters.
#[derive(Clone, Debug, PartialEq)]
struct Case {
    setting: Setting,
    seeds: Vec<u16>,
    saved: State,
    counters: Vec<u32>,
}

impl Case {
    /// A state of the setting S with three banks, and longer buffers than it uses.
    fn new() -> Self {
        Case::of(s_with(&[(BANKS, 3)]), 8)
    }

    /// A state of a setting with this many history places; old counters are 0 to
    /// 65,535.
    fn of(setting: Setting, h: usize) -> Self {
        let banks = setting[BANKS] as usize;
        let mut saved = State {
            head: [9; 22],
            counters: (0..banks as u32 * 2048 + 5)
                .map(|k| k * 31 % 65_536)
                .collect(),
            ticks: vec![7; h + 2],
            rows: vec![5; h + 1],
            threads: vec![2; 2 + banks * 3],
        };
        saved.head[..2].copy_from_slice(&[8, 3]);
        saved.head[2 + banks..18].fill(u64::MAX);
        saved.counters[..2].copy_from_slice(&[65_535, 32_768]);
        Case {
            setting,
            seeds: house_seeds(),
            saved,
            counters: vec![BEFORE; banks * 2048 + 3],
        }
    }

    fn change(&mut self, fault: Fault) -> u32 {
        let config = Config::new(self.setting, &self.seeds).with(fault);
        change_over(&config, &mut self.saved, &mut self.counters)
    }

    /// The number, and the case after it.
    fn told(&self, fault: Fault) -> (u32, Case) {
        let mut case = self.clone();
        (case.change(fault), case)
    }
}

#[test]
fn the_new_counters_become_the_old_ones() {
    let before = Case::new();
    let mut case = before.clone();
    assert_eq!(case.change(Fault::None), 0);
    assert_eq!(case.saved, before.saved);
    assert_eq!(case.counters[..6_144], before.saved.counters[..6_144]);
    assert_eq!(case.counters[6_144..], [BEFORE; 3]);
    assert_eq!(case.counters[..2], [65_535, 32_768]);
}

/// Just long enough buffers, one of which is one cell short.
fn cut() -> [Case; 6] {
    let mut exact = Case::new();
    exact.saved.counters.truncate(6_144);
    exact.saved.ticks.truncate(8);
    exact.saved.rows.truncate(8);
    exact.saved.threads.truncate(9);
    exact.counters.truncate(6_144);
    let cut: [fn(&mut Case); 6] = [
        |_| {},
        |case| case.saved.counters.truncate(6_143),
        |case| case.counters.truncate(6_143),
        |case| case.saved.ticks.truncate(7),
        |case| case.saved.rows.truncate(7),
        |case| case.saved.threads.truncate(8),
    ];
    cut.map(|cut| {
        let mut case = exact.clone();
        cut(&mut case);
        case
    })
}

/// Memory that 7 refuses: the next place, a bank, the rank and the history.
fn spoilt(case: &Case) -> [Case; 5] {
    let spoil: [fn(&mut State); 5] = [
        |state| state.head[1] = 8,
        |state| state.head[4] = 10,
        |state| state.head[21] = u64::MAX,
        |state| state.ticks[2] = 10,
        |state| state.ticks[5] = 8,
    ];
    spoil.map(|spoil| {
        let mut case = case.clone();
        spoil(&mut case.saved);
        case
    })
}

/// Every kind of refusal, alone and with a later one, with its number.
fn refused() -> Vec<(u32, Case)> {
    let mut all = Vec::new();
    let [_, short @ ..] = cut();
    for case in &short {
        all.push((6, case.clone()));
    }
    for case in spoilt(&Case::new()) {
        all.push((7, case));
    }
    for case in spoilt(&short[1]) {
        all.push((6, case));
    }
    let fields: [(u32, &[(usize, u64)]); 10] = [
        (1, &[(Q, 0)]),
        (1, &[(N, 32_769)]),
        (1, &[(MARK, 2)]),
        (2, &[(TRC, 10)]),
        (3, &[(TD, 21)]),
        (5, &[(L, 9)]),
        (16, &[(BANKS, 5), (MARK, 1)]),
        (1, &[(L, 9), (BANKS, 17)]),
        (5, &[(L, 9), (BANKS, 5), (MARK, 1)]),
        (1, &[(N, 32_769), (BANKS, 5), (MARK, 1)]),
    ];
    for (number, changes) in fields {
        for base in [&Case::new(), &short[0], &spoilt(&Case::new())[0]] {
            let mut case = base.clone();
            case.setting = with(case.setting, changes);
            all.push((number, case));
        }
    }
    for seeds in [63, 65] {
        let mut case = Case::new();
        case.seeds.resize(seeds, 0);
        all.push((1, case));
    }
    all
}

#[test]
fn refusals_one_by_one_and_in_their_order() {
    for (number, case) in refused().into_iter().chain(refused_in_use()) {
        assert_eq!(case.told(Fault::None), (number, case));
    }
    assert_eq!(cut()[0].told(Fault::None).0, 0);
}

/// The refused cases with new counters that are in use already: they hold the old
/// ones as a change-over left them, or as calls have moved them on.
fn refused_in_use() -> Vec<(u32, Case)> {
    let taken = |(number, mut case): (u32, Case), moved: u32| {
        let old = case.saved.counters.iter().chain(&[0; 5]);
        for (place, (new, old)) in case.counters.iter_mut().zip(old).enumerate() {
            *new = *old;
            if place % 7 == 0 {
                *new = (*old + moved) % 65_536;
            }
        }
        (number, case)
    };
    let both = |case: (u32, Case)| [taken(case.clone(), 0), taken(case, 1)];
    refused().into_iter().flat_map(both).collect()
}

/// Settings at the old limits, and those that only the new width takes.
fn limits() -> Vec<(u32, Case)> {
    let threshold = |n| with(THRESHOLD, &[(N, n)]);
    let history = |td| with(HISTORY, &[(TD, td), (L, 60)]);
    [
        (0, threshold(32_767), 8),
        (0, threshold(32_768), 8),
        (1, threshold(32_769), 8),
        (1, threshold(1 << 20), 8),
        (0, history(1_024), 4_096),
        (4, history(1_025), 4_100),
        (4, history(8_192), 32_768),
        (4, history(8_193), 32_772),
    ]
    .map(|(number, setting, h)| (number, Case::of(setting, h)))
    .to_vec()
}

#[test]
fn the_old_limits_hold() {
    for (number, case) in limits() {
        assert_eq!(case.told(Fault::None).0, number, "{:?}", case.setting);
    }
}

/// A last tick of 2^62 or more is no refusal, nor are kept ticks of banks outside
/// the setting, nor counters above N.
#[test]
fn contents_that_seven_lets_pass() {
    for last in [0, 1 << 62, u64::MAX] {
        let mut case = Case::new();
        case.saved.ticks.fill(0);
        case.saved.head.fill(0);
        case.saved.head[0] = last;
        case.saved.head[5..18].fill(u64::MAX);
        case.saved.head[18] = last.saturating_add(1);
        case.saved.counters.fill(65_535);
        let (number, after) = case.told(Fault::None);
        assert_eq!((number, &after.saved), (0, &case.saved));
        assert_eq!(after.counters[..6_144], [65_535; 6_144]);
    }
}

/// A run's state as a saved one, with any old and new counters.
fn case_of(numbers: &mut Numbers, run: &Run) -> Case {
    let mut saved = run.state.clone();
    if numbers.one_in(2) {
        let top = [65_535, run.setting[N] + 1][numbers.within(0, 1) as usize];
        saved.counters.fill_with(|| numbers.within(0, top) as u32);
    }
    let mut counters = vec![0; saved.counters.len() + 3];
    counters.fill_with(|| numbers.within(0, u64::from(u32::MAX)) as u32);
    Case {
        setting: run.setting,
        seeds: run.seeds.clone(),
        saved,
        counters,
    }
}

/// The state that the new width goes on with.
fn taken_over(case: Case) -> State {
    State {
        counters: case.counters,
        ..case.saved
    }
}

#[test]
fn later_calls_get_the_same_replies() {
    let numbers = &mut Numbers::new(11);
    let mut changed = 0;
    for seed in 1..800 {
        let run = run(seed);
        let mut case = case_of(numbers, &run);
        let mut old = case.saved.clone();
        let used = old.counters.len();
        if case.change(Fault::None) != 0 {
            continue;
        }
        changed += 1;
        let mut new = taken_over(case);
        let rest = new.counters.split_off(used);
        new.counters.extend_from_slice(&rest);
        for call in &run.calls {
            let narrow = answer(&Config::new(run.setting, &run.seeds), &mut old, call);
            let wide = answer(&Config::wide(run.setting, &run.seeds), &mut new, call);
            assert_eq!(narrow, wide, "run {seed}");
            assert_eq!(new.counters[used..], rest);
            let cut = State {
                counters: new.counters[..used].to_vec(),
                ..new.clone()
            };
            assert!(cut == old, "run {seed}");
        }
    }
    assert!(changed > 300, "{changed} states were taken over");
}

#[test]
fn every_fault_of_the_change_over_shows() {
    assert!(Fault::CHANGE.len() >= 62);
    let mut cases: Vec<Case> = refused().into_iter().map(|(_, case)| case).collect();
    cases.extend(refused_in_use().into_iter().map(|(_, case)| case));
    cases.extend(limits().into_iter().map(|(_, case)| case));
    cases.extend(cut());
    cases.push(Case::new());
    let mut late = Case::new();
    late.saved.head[0] = 1 << 62;
    cases.push(late);
    for &fault in Fault::CHANGE {
        let shows = |case: &Case| case.told(fault) != case.told(Fault::None);
        assert!(cases.iter().any(shows), "{fault:?} does not show");
    }
}
