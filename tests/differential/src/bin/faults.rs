//! Shows that the comparison sees: the library against the second
//! implementation with one fault switched on must differ, for each fault of the
//! calls in each width, of the hash by bytes, of the change-over, of the log writer,
//! of the planner, of the bounds of spans, of the fit of two probes and of cut-down logs.
//! Those of the log checker are shown by tests/log/run too.
//! Argument, optional: the seed.

use differential::campaign::Campaign;
use differential::hashes::Sides;
use differential::lent::Lent;
use differential::numbers::Numbers;
use differential::rings::By;
use differential::side::Second;
use differential::tally::Tally;
use differential::{
    beside, change_refusals, crossing, cuts, edges, far, hashes, levels, orders, planner, probes,
    rings, spans, twins, writer,
};
use second::{Fault, Limits, NEW, OLD};
use std::ops::Range;
use std::process::ExitCode;

/// Runs that a fault is looked for in before what is listed, and all runs.
const FIRST: u64 = 300;
const RUNS: u64 = 5_000;
/// Faults that are to be planted at least, those of both widths twice.
const FAULTS: usize = 911;
/// Bits of the 64 seeds, up to 1,023.
const BITS: usize = 64 * hashes::BITS as usize;
/// Wrong histories in refusal 7, which the change-over has to show too.
const SEVEN: [Fault; 8] = [
    Fault::WrapPairIsRise,
    Fault::EqualIsRise,
    Fault::WrapPairMissed,
    Fault::BlockEndMissed,
    Fault::LargeRiseMissed,
    Fault::LargeGapIsRise,
    Fault::LooksAtForeignBanks,
    Fault::KeptTickOffByOne,
];
/// Faults with which a state that was taken over answers otherwise than before.
const BESIDE: [Fault; 16] = [
    Fault::OldRoundsDown,
    Fault::OldInFlightOfBank,
    Fault::OldLeftBeforeOpening,
    Fault::OldAddsTwice,
    Fault::WideRoundsDown,
    Fault::WideInFlightOfBank,
    Fault::WideLeftBeforeOpening,
    Fault::WideAddsTwice,
    Fault::WideTurnClearsHalf,
    Fault::WideBanksOverlap,
    Fault::ChangeZeroes,
    Fault::ChangeNothingWritten,
    Fault::ChangeFilterZeroOnly,
    Fault::ChangeFirstBankOnly,
    Fault::ChangeRescales,
    Fault::ChangeClipped,
];

/// Wrong counts that do not depend on the order of the activations, which the filters
/// after a list have to show too.
const COUNTS: [Fault; 8] = [
    Fault::CountsWaits,
    Fault::CountsQuota,
    Fault::CountsRefused,
    Fault::AddsTwiceToShared,
    Fault::CountsAtThreshold,
    Fault::FilterZeroTwice,
    Fault::HouseAlwaysInCount,
    Fault::SeedsOred,
];

/// Wrong rules that have to show in the judgement of a selection.
const JUDGED: [Fault; 12] = [
    Fault::TestsClearedFilter,
    Fault::CountsWaits,
    Fault::DelayAloneAsWait,
    Fault::DoneTakesNothing,
    Fault::RankThirdLast,
    Fault::RowDelayIsTrc,
    Fault::StoresWithoutPlusOne,
    Fault::BankGapStrict,
    Fault::QuotaRoundsDown,
    Fault::InFlightOfBank,
    Fault::QuotaLast,
    Fault::SeedsReversed,
];

fn main() -> ExitCode {
    let seed = std::env::args()
        .nth(1)
        .map_or(1, |seed| seed.parse().expect("a seed"));
    println!("faults: seed {seed}");
    let mut planted = Planted::default();
    for (limits, own) in [(OLD, Fault::OLD_WIDTH), (NEW, Fault::WIDE)] {
        of_width(seed, limits, own, &mut planted);
    }
    println!("faults: change-over");
    planted.all(Fault::CHANGE, |fault| in_change(seed, fault));
    planted.all(&SEVEN, |fault| in_change(seed, fault));
    println!("faults: log writer");
    planted.all(Fault::WRITER, |fault| writer::compare(seed, fault).err());
    println!("faults: the widths beside each other");
    planted.all(&BESIDE, |fault| {
        beside::compare(seed, |lent| faulty(lent, fault)).err()
    });
    println!("faults: bounds of spans");
    let bounds = [Fault::SPAN, Fault::SPAN_REFUSALS].concat();
    planted.all(&bounds, |fault| spans::compare(seed, fault).err());
    println!("faults: two probes");
    let fits = [Fault::PROBES, Fault::PROBES_REFUSALS].concat();
    planted.all(&fits, |fault| in_probes(seed, fault));
    println!("faults: cut-down logs");
    let cuts = [Fault::CUT, Fault::CUT_REFUSALS].concat();
    let logs = [Fault::CHECKER, Fault::LOG_LIMITS, &JUDGED].concat();
    planted.all(&cuts, |fault| in_cuts(seed, fault));
    planted.all(&logs, |fault| in_cuts(seed, fault));
    let Planted { many, caught } = planted;
    println!("faults: {caught} of {many} caught");
    let bits = bits_seen(seed);
    println!("faults: the table under one changed bit of a house seed: {bits} of {BITS} caught");
    if caught < many || many < FAULTS || bits < BITS || !every_list() {
        return ExitCode::FAILURE;
    }
    ExitCode::SUCCESS
}

/// How many faults were planted, and how many showed.
#[derive(Default)]
struct Planted {
    many: usize,
    caught: usize,
}

impl Planted {
    /// Plants these faults; each shows by the first difference that is found.
    fn all(&mut self, faults: &[Fault], find: impl Fn(Fault) -> Option<String>) {
        for &fault in faults {
            let found = find(fault);
            let name = format!("{fault:?}");
            let what = found.as_deref().unwrap_or("NOT CAUGHT");
            println!("  {name:<27} {what}");
            self.many += 1;
            self.caught += usize::from(found.is_some());
        }
    }
}

/// Is every fault in a list that is planted here?
fn every_list() -> bool {
    let here = [
        Fault::CALLS,
        Fault::LEFT,
        Fault::TABLE,
        Fault::HOUSE,
        Fault::PROFILE,
        Fault::SMALL,
        Fault::WRITER,
        Fault::PLANNER,
        Fault::WIDE,
        Fault::OLD_WIDTH,
        Fault::PLAN_LIMITS,
        Fault::CHANGE,
        Fault::SPAN,
        Fault::SPAN_REFUSALS,
        Fault::SEEDS,
        Fault::ORDER,
        Fault::PROBES,
        Fault::PROBES_REFUSALS,
        Fault::CUT,
        Fault::CUT_REFUSALS,
        Fault::CHECKER,
        Fault::LOG_LIMITS,
    ];
    here.concat().len() == Fault::ALL.len()
}

/// The faults of both widths and those of one alone, in a width.
fn of_width(seed: u64, limits: Limits, own: &[Fault], planted: &mut Planted) {
    let name = if limits == NEW { "new" } else { "old" };
    println!("faults: {name} width");
    let campaign = Campaign::new(seed, limits);
    let shared = [Fault::CALLS, Fault::LEFT, Fault::PROFILE, Fault::SMALL].concat();
    planted.all(&shared, |fault| in_calls(&campaign, limits, fault));
    planted.all(own, |fault| in_calls(&campaign, limits, fault));
    let filters = [Fault::SEEDS, Fault::ORDER].concat();
    planted.all(&filters, |fault| in_calls(&campaign, limits, fault));
    let hashed = [Fault::TABLE, Fault::HOUSE].concat();
    planted.all(&hashed, |fault| {
        hashes::compare(seed, Sides { limits, fault }).err()
    });
    let plans = [Fault::PLANNER, limits_of_plans(limits)].concat();
    planted.all(&plans, |fault| planner::compare(seed, limits, fault).err());
    println!("faults: {name} width, the profiles beside each other");
    planted.all(Fault::SMALL, |fault| {
        twins::compare(seed, limits, |lent| faulty(lent, fault)).err()
    });
    println!("faults: {name} width, groups in several orders, and filters after lists");
    planted.all(Fault::ORDER, |fault| {
        orders::groups(seed, limits, |lent| faulty(lent, fault)).err()
    });
    let counts = [Fault::ORDER, &COUNTS].concat();
    planted.all(&counts, |fault| {
        orders::lists(seed, limits, |lent| faulty(lent, fault)).err()
    });
}

/// The wrong limits of the planner of a width; those of the old width stand first.
fn limits_of_plans(limits: Limits) -> &'static [Fault] {
    let (old, new) = Fault::PLAN_LIMITS.split_at(2);
    match limits {
        NEW => new,
        _ => old,
    }
}

/// For how many bits of the seeds it shows if the table is taken for the house
/// seeds with that bit changed, as it is where its word is not compared.
fn bits_seen(seed: u64) -> usize {
    let numbers = &mut Numbers::new(seed);
    let sides = Sides {
        limits: OLD,
        fault: Fault::HouseAlways,
    };
    let mut shows = |k: &usize| {
        let (word, bit) = (k % 64, (k / 64) as u32);
        hashes::one_changed(numbers, word, bit, sides, &mut 0).is_err()
    };
    (0..BITS).filter(|k| shows(k)).count()
}

/// The first difference from a fault of the calls: in the first runs, with the
/// number of the call, then in what is listed, then in further runs.
fn in_calls(campaign: &Campaign, limits: Limits, fault: Fault) -> Option<String> {
    let mut tally = Tally::default();
    let mut in_runs = |mut runs: Range<u64>| {
        let found = runs.find_map(|run| campaign.run(run, fault, &mut tally).err());
        found.map(|found| format!("call {:>6}: {}", tally.calls + 1, found.what))
    };
    in_runs(0..FIRST)
        .or_else(|| listed(limits, fault))
        .or_else(|| in_runs(FIRST..RUNS))
}

/// The first difference from a fault of the calls in what is listed for a width.
fn listed(limits: Limits, fault: Fault) -> Option<String> {
    let by = match limits {
        NEW => By::NewIndex,
        _ => By::OldIndex,
    };
    let in_cells = || {
        rings::compare(by, fault)
            .err()
            .or_else(|| levels::compare(limits, fault).err())
            .or_else(|| far::compare(fault).err())
            .map(|found| found.what)
    };
    edges::compare(fault).err().or_else(in_cells)
}

/// The first difference from a fault of the change-over.
fn in_change(seed: u64, fault: Fault) -> Option<String> {
    let found = change_refusals::compare(fault)
        .err()
        .or_else(|| rings::compare(By::ChangeOver, fault).err())
        .or_else(|| crossing::compare(seed, fault).err());
    found.map(|difference| difference.what)
}

/// The first difference from a fault of the fit of two probes.
fn in_probes(seed: u64, fault: Fault) -> Option<String> {
    let listed = probes::listed(fault).err();
    listed.or_else(|| probes::short(seed, fault).err())
}

/// The first difference from a fault of cut-down logs.
fn in_cuts(seed: u64, fault: Fault) -> Option<String> {
    let listed = cuts::refused(fault).and_then(|_| cuts::known(fault));
    listed.and_then(|_| cuts::short(seed, fault)).err()
}

/// The second implementation with a fault.
fn faulty(lent: &Lent, fault: Fault) -> Second {
    Second {
        lent: lent.clone(),
        fault,
    }
}
