//! Every wrong behaviour of the calls that can be switched on shows in a campaign
//! of small runs, on memory set up and on memory of any contents. Those of the
//! hash by bytes, of the profile mark, of the widths, of spans, of two probes and of
//! cut-down logs have tests of their own.

mod common;

use common::runs::{answer, run, Run};
use second::setting::accept;
use second::{setup, Config, Fault};

/// Where a run with a fault goes another way.
#[derive(Clone, Copy, PartialEq, Eq)]
enum Shown {
    Nowhere,
    /// In the openings left of a request and in nothing else.
    InLeft,
    Elsewhere,
}

/// Elsewhere if a call goes another way in anything but openings left, and
/// else in them if a call does that.
fn shown(run: &Run, fault: Fault) -> Shown {
    let plain = Config::new(run.setting, &run.seeds);
    let faulty = plain.with(fault);
    let (mut right, mut wrong) = (run.state.clone(), run.state.clone());
    let mut shown = Shown::Nowhere;
    for call in &run.calls {
        let (right_number, right_out) = answer(&plain, &mut right, call);
        let (wrong_number, mut wrong_out) = answer(&faulty, &mut wrong, call);
        if call.kind > 1 && right_out[2] != wrong_out[2] {
            shown = Shown::InLeft;
            wrong_out[2] = right_out[2];
        }
        if (right_number, right_out, &right) != (wrong_number, wrong_out, &wrong) {
            return Shown::Elsewhere;
        }
    }
    shown
}

/// A fault of openings left shows in them, one of the other calls elsewhere too.
#[test]
fn every_fault_shows() {
    assert!(Fault::CALLS.len() >= 76 && Fault::LEFT.len() >= 21);
    assert_eq!(Fault::default(), Fault::None);
    let found = |fault, wanted| (1..2000).any(|seed| shown(&run(seed), fault) == wanted);
    for &fault in Fault::CALLS {
        assert!(found(fault, Shown::Elsewhere), "{fault:?} does not show");
    }
    for &fault in Fault::LEFT {
        assert!(found(fault, Shown::InLeft), "{fault:?} does not show");
    }
}

/// Each part of the faults has tests of its own.
#[test]
fn every_fault_belongs_to_a_part() {
    let parts = [
        Fault::CALLS,
        Fault::LEFT,
        Fault::TABLE,
        Fault::HOUSE,
        Fault::PROFILE,
        Fault::SMALL,
        Fault::CHECKER,
        Fault::WRITER,
        Fault::PLANNER,
        Fault::WIDE,
        Fault::OLD_WIDTH,
        Fault::PLAN_LIMITS,
        Fault::LOG_LIMITS,
        Fault::CHANGE,
        Fault::SPAN,
        Fault::SPAN_REFUSALS,
        Fault::SEEDS,
        Fault::ORDER,
        Fault::PROBES,
        Fault::PROBES_REFUSALS,
        Fault::CUT,
        Fault::CUT_REFUSALS,
    ];
    assert_eq!(parts.concat(), Fault::ALL);
}

#[test]
fn faults_of_openings_left_show_nowhere_else() {
    for &fault in Fault::LEFT {
        for seed in 1..200 {
            assert!(shown(&run(seed), fault) != Shown::Elsewhere, "{fault:?}");
        }
    }
}

#[test]
fn plain_runs_are_repeatable_and_refusals_change_nothing() {
    for seed in 1..200 {
        let run = run(seed);
        assert!(shown(&run, Fault::None) == Shown::Nowhere);
        let config = Config::new(run.setting, &run.seeds);
        let mut state = run.state.clone();
        for call in &run.calls {
            let before = state.clone();
            let (number, out) = answer(&config, &mut state, call);
            assert!(number == 0 || state == before && out == [7; 3]);
        }
    }
}

#[test]
fn most_runs_are_answered() {
    let mut answered = [0; 3];
    for seed in 1..300 {
        let run = run(seed);
        let config = Config::new(run.setting, &run.seeds);
        let mut state = run.state.clone();
        assert_eq!(
            accept(&config).is_ok(),
            setup(&config, &mut state.clone()) == 0
        );
        for call in &run.calls {
            let (number, _) = answer(&config, &mut state, call);
            answered[call.kind.min(2) as usize] += u32::from(number == 0);
        }
    }
    assert!(answered.iter().all(|&count| count > 300), "{answered:?}");
}
