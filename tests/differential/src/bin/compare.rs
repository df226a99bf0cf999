//! Compares the library with the second implementation after every call of a
//! campaign in each width, on listed histories and counters, on settings at bounds,
//! and under the house seeds and seeds next to them; the change-over, alone and in
//! lists of calls; the library with itself under both profiles, in both widths after
//! a change-over and with activations in several orders; the log writer, the planner,
//! the bounds of spans, the fit of two probes and cut-down logs. Arguments, both optional:
//! the seed and the number of runs in the old width.

use differential::campaign::Campaign;
use differential::hashes::Sides;
use differential::rings::By;
use differential::settings::{accepted, bases};
use differential::side::Library;
use differential::tally::{Tally, LEAST};
use differential::{
    beside, change_refusals, crossing, cut_tally, cuts, edges, far, hashes, levels, orders,
    planner, probes, rings, spans, twins, writer,
};
use second::{Fault, Limits, NEW, OLD};
use std::fmt::Debug;
use std::process::ExitCode;

/// Runs of a campaign in the old width, and calls that it has to make. That of the
/// new width has an eighth.
const RUNS: u64 = 160_000;
const CALLS: u64 = 1_000_000;
const SHARE: u64 = 8;
/// What a change-over returns, in the order of the tests.
const NUMBERS: [usize; 9] = [0, 1, 2, 3, 4, 5, 16, 6, 7];

fn main() -> ExitCode {
    let mut arguments = std::env::args().skip(1).map(|word| word.parse::<u64>());
    let seed = arguments.next().map_or(1, |seed| seed.expect("a seed"));
    let runs = arguments
        .next()
        .map_or(RUNS, |runs| runs.expect("a number of runs"));
    println!("compare: seed {seed}");
    let both = [OLD, NEW];
    let all_accepted = |limits| bases(limits).iter().all(|base| accepted(limits, base));
    let same = both.iter().all(all_accepted)
        && campaign(seed, OLD, runs, CALLS)
        && campaign(seed, NEW, runs / SHARE, CALLS / SHARE)
        && both
            .into_iter()
            .all(|limits| listed(limits) && hashed(seed, limits))
        && both.into_iter().all(|limits| profiles(seed, limits))
        && far_places()
        && at_edges()
        && changed(seed)
        && written(seed)
        && both.into_iter().all(|limits| planned(seed, limits))
        && spanned(seed)
        && probed(seed)
        && cut_down(seed)
        && both.into_iter().all(|limits| ordered(seed, limits));
    if !same {
        println!("compare: FAILED");
        return ExitCode::FAILURE;
    }
    println!("compare: no difference");
    ExitCode::SUCCESS
}

/// The width by name.
fn width(limits: Limits) -> &'static str {
    match limits {
        NEW => "new width",
        _ => "old width",
    }
}

/// Makes the runs of a width; was there no difference, and was enough reached?
fn campaign(seed: u64, limits: Limits, runs: u64, calls: u64) -> bool {
    let campaign = Campaign::new(seed, limits);
    let mut tally = Tally::default();
    let (name, bounds) = (width(limits), campaign.bounds());
    println!("compare: {name}, {bounds} settings at bounds in the runs");
    for run in 0..runs {
        if let Err(difference) = campaign.run(run, Fault::None, &mut tally) {
            println!("compare: DIFFERENCE in run {run}: {difference:#?}");
            return false;
        }
    }
    println!("{tally}");
    let missed = tally.missed();
    let enough = tally.calls >= calls && runs / 8 >= bounds as u64 && missed.is_empty();
    if !enough {
        println!("compare: too few calls or runs, or reached too seldom: {missed:?}");
    }
    enough
}

/// Prints what was compared, or where there is a difference or too little was
/// reached; was there no difference, and enough?
fn none<T: Debug, E: Debug>(what: &str, compared: Result<T, E>, enough: fn(&T) -> bool) -> bool {
    match &compared {
        Ok(told) if enough(told) => println!("  {what}: {told:?}"),
        Ok(told) => println!("compare: too little reached in {what}: {told:?}"),
        Err(difference) => println!("compare: DIFFERENCE in {what}: {difference:#?}"),
    }
    compared.is_ok_and(|told| enough(&told))
}

/// Compares on listed histories and on listed counters.
fn listed(limits: Limits) -> bool {
    let by = match limits {
        NEW => By::NewIndex,
        _ => By::OldIndex,
    };
    let name = width(limits);
    let histories = rings::compare(by, Fault::None);
    let counters = levels::compare(limits, Fault::None);
    none(&format!("listed histories, {name}"), histories, |told| {
        told.sound.min(told.unsound) > 1_000
    }) && none(&format!("listed counters, {name}"), counters, |told| {
        told.none.min(told.some) > 1_000
    })
}

/// Compares under the house seeds and under others: every row once under the house
/// seeds; ten bits of each word, and six that the four calls refuse.
fn hashed(seed: u64, limits: Limits) -> bool {
    let fault = Fault::None;
    let compared = hashes::compare(seed, Sides { limits, fault });
    let name = format!("house seeds and others, {}", width(limits));
    none(&name, compared, |told| {
        told.house > 66_000
            && told.changed > 64 * 10 * 20
            && told.refused == 64 * 6 * 4
            && told.other.min(told.held) > 1_000
            && told.in_turn > 500
    })
}

/// Compares the library with mark 1 and with mark 0.
fn profiles(seed: u64, limits: Limits) -> bool {
    let compared = twins::compare(seed, limits, Library::new);
    none(
        &format!("both profiles, {}", width(limits)),
        compared,
        |told| told.settings > 1_000 && told.answered > 10_000,
    )
}

/// Compares at history places that only the new width has: 18 places, with three
/// activations, two waits and three memories that 7 refuses at each.
fn far_places() -> bool {
    none("far history places", far::compare(Fault::None), |told| {
        [told.opened, told.waits, told.unsound] == [18 * 3, 18 * 2, 18 * 3]
    })
}

/// Compares all calls on settings at the bounds of both widths.
fn at_edges() -> bool {
    none("settings at bounds", edges::compare(Fault::None), |told| {
        let all = [&told.calls[..], &told.plans[..], &[told.changes]].concat();
        all.iter().flatten().all(|&count| count > LEAST)
    })
}

/// Compares the change-over, and what comes after it.
fn changed(seed: u64) -> bool {
    let refusals = change_refusals::compare(Fault::None);
    let histories = rings::compare(By::ChangeOver, Fault::None);
    let lists = crossing::compare(seed, Fault::None);
    let widths = beside::compare(seed, Library::new);
    none("change-over, refusals", refusals, |told| {
        NUMBERS.iter().all(|&number| told.numbers[number] > 3)
    }) && none("change-over, listed histories", histories, |told| {
        told.sound.min(told.unsound) > 1_000
    }) && none("change-over, lists", lists, in_lists)
        && none("change-over, both widths", widths, |told| {
            told.changed > 1_000 && told.answered > 10_000
        })
}

/// Was enough reached in lists with a change-over? Before the one that was answered
/// each number is to come, and after it each but 0, there also on the calls' own
/// memory, with 6 by each buffer. Where a list begins at the new width, its own
/// setting gets 1 or 4.
fn in_lists(told: &crossing::Told) -> bool {
    let (after, alone) = (&told.after, &told.alone);
    let refused = &NUMBERS[1..];
    let of = |counts: &[u64; 17], numbers: &[usize]| -> Vec<u64> {
        numbers.iter().map(|&number| counts[number]).collect()
    };
    let counts = [
        of(&told.numbers, &NUMBERS),
        of(&after.late.numbers, refused),
        of(&after.late.own, refused),
        after.late.short.to_vec(),
        of(&alone.late.numbers, &[1, 4]),
        vec![told.not_set_up, told.above, told.high, told.longer],
        after.answers.to_vec(),
    ];
    counts.concat().iter().all(|&count| count > LEAST)
        && told.before.min(after.calls) > 1_000
        && alone.calls > 500
}

/// Compares the log writer.
fn written(seed: u64) -> bool {
    none("log writer", writer::compare(seed, Fault::None), |told| {
        let written = told.written.into_iter().all(|count| count > LEAST);
        written && told.refused.min(told.for_the_mark) > LEAST
    })
}

/// Compares the planner of a width.
fn planned(seed: u64, limits: Limits) -> bool {
    let compared = planner::compare(seed, limits, Fault::None);
    none(&format!("planner, {}", width(limits)), compared, |told| {
        let of = |mark: usize| planner::NUMBERS.map(|number| told.numbers[mark][number]);
        let both = [of(0)[..6].to_vec(), of(1).to_vec()].concat();
        both.iter().all(|&count| count > LEAST) && told.fewer > LEAST
    })
}

/// Compares the bounds of spans. Every number is to come under both profiles, but 16
/// under the large one, and both forms of the bound, with spans of every kind.
fn spanned(seed: u64) -> bool {
    none(
        "bounds of spans",
        spans::compare(seed, Fault::None),
        |told| {
            let of = |mark: usize| planner::NUMBERS.map(|number| told.numbers[mark][number]);
            let kinds = [told.late, told.whole, told.great, told.wide];
            let both = [&of(0)[..6], &of(1), &told.forms, &kinds, &told.zero].concat();
            both.iter().all(|&count| count > LEAST)
        },
    )
}

/// Compares the fit of two probes: each kind of lists is to come among the listed ones,
/// and often among those at random; long lists fit or do not.
fn probed(seed: u64) -> bool {
    let listed = probes::listed(Fault::None);
    let short = probes::short(seed, Fault::None);
    let long = probes::long(seed, Fault::None);
    none("two probes, listed", listed, |told| told.fewest() > 0)
        && none("two probes, at random", short, |told| told.fewest() > LEAST)
        && none("two probes, long lists", long, |told| {
            told.fitting().min(told.unfit()) > LEAST
        })
}

/// Compares cut-down logs: every kind of listed logs is to be met, and often the kinds of
/// logs at random.
fn cut_down(seed: u64) -> bool {
    let fault = Fault::None;
    let parts = [
        ("known", cuts::known(fault), cut_tally::of_known(), 1),
        ("refused", cuts::refused(fault), cut_tally::of_refused(), 1),
        ("short", cuts::short(seed, fault), cut_tally::of_short(), 5),
        ("long", cuts::long(seed, fault), cut_tally::of_long(), 1),
        (
            "large settings",
            cuts::great(seed, fault),
            cut_tally::of_great(),
            1,
        ),
    ];
    parts.into_iter().all(|(name, compared, wanted, least)| {
        let told = compared.as_ref().ok();
        let missed = told.map_or(Vec::new(), |told| told.missed(wanted, least));
        if !missed.is_empty() {
            println!("compare: met too seldom in cut-down logs, {name}: {missed:?}");
        }
        none(&format!("cut-down logs, {name}"), compared, |_| true) && missed.is_empty()
    })
}

/// Compares the filters of the library after groups in several orders, and after
/// lists of calls with those of the second implementation.
fn ordered(seed: u64, limits: Limits) -> bool {
    let groups = orders::groups(seed, limits, Library::new);
    let lists = orders::lists(seed, limits, Library::new);
    let name = width(limits);
    none(&format!("orders of activations, {name}"), groups, |told| {
        let kinds = [told.apart, told.whole, told.above, told.filled];
        told.groups > 1_000 && told.compared > 5_000 && kinds.iter().all(|&count| count > LEAST)
    }) && none(&format!("filters after lists, {name}"), lists, |told| {
        let kinds = [told.opened, told.held, told.others, told.refused];
        told.lists > 1_000 && kinds.iter().all(|&count| count > 1_000)
    })
}
