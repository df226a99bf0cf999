//! Attacks the limit from outside: greedy and random adversaries hammer rows
//! through the library on small settings with L at the row bound B, in the old
//! width, in the new one and across a change-over. No row may be activated more
//! than B times in W successive ticks, and in a span of any other length more often
//! than the library says of it. The same adversaries on faulty implementations must
//! get above B, and above wrong bounds of spans. Argument, optional: the seed.

use differential::adversary::{hammer, hammer_at_random, most_in, Plan, ROW};
use differential::call::Call;
use differential::crossed::Crossed;
use differential::lent::Lent;
use differential::numbers::Numbers;
use differential::reached::{spans_hold, too_low_seen, Reached};
use differential::settings::{bound, seeds, BANKS, L, N, TD, TRC, W};
use differential::side::{Library, Saved, Second, Side};
use differential::spans::of_library;
use differential::wide::CHIP;
use second::filter::hash;
use second::setting::house_seeds;
use second::{Fault, Limits, Setting, NEW, OLD};
use std::process::ExitCode;

/// Settings tried besides the listed ones, and how many of all are tried in the new
/// width and across a change-over.
const SETTINGS: usize = 160;
const FEW: usize = 12;
/// Setting S of the specification, where exhaustive search finds 8 of B = 10,
/// two settings that attain B, the second with tD above tRC, and one in which two
/// bursts are most of B, so that a third one shows.
const LISTED: [Setting; 4] = [
    [40, 1, 4, 2, 6, 10, 255, 1, 4, 1],
    [20, 2, 1, 2, 2, 10, 255, 2, 4, 0],
    [10, 2, 1, 1, 3, 4, 255, 2, 4, 1],
    [40, 1, 4, 4, 20, 10, 255, 1, 4, 0],
];
/// Most activations of a row in W ticks for the listed settings.
const LISTED_MOST: [usize; 4] = [8, 10, 4, 8];
/// Faults with which some adversary gets above B.
const UNSAFE: [Fault; 6] = [
    Fault::TestsClearedFilter,
    Fault::RowDelayIsTrc,
    Fault::FilterZeroTwice,
    Fault::StampsLastTick,
    Fault::StoresWithoutPlusOne,
    Fault::BlacklistedAboveN,
];

/// Faults with which some adversary gets above B across a change-over to new
/// counters that are 0 before it.
const UNSAFE_CHANGES: [Fault; 3] = [
    Fault::ChangeZeroes,
    Fault::ChangeNothingWritten,
    Fault::ChangeFilterZeroOnly,
];

/// In which width a row is hammered.
#[derive(Clone, Copy, Debug)]
enum Way {
    Old,
    New,
    Across,
}

/// The most activations found on one setting, in W ticks and in every span.
struct Found {
    setting: Setting,
    bound: usize,
    most: usize,
    reached: Reached,
}

fn main() -> ExitCode {
    let seed = std::env::args()
        .nth(1)
        .map_or(1, |seed| seed.parse().expect("a seed"));
    println!("attack: seed {seed}");
    let mut numbers = Numbers::new(seed);
    let mut settings = LISTED.to_vec();
    settings.extend((0..SETTINGS).map(|_| small(&mut numbers)));
    let few = &settings[..FEW];
    let sound = limits_hold(&mut numbers, Way::Old, &settings)
        && limits_hold(&mut numbers, Way::New, few)
        && limits_hold(&mut numbers, Way::Across, few);
    let seen = faults_seen(&mut numbers, &settings) && changes_seen();
    let published = published();
    let chip = chip();
    if sound && seen && published && chip {
        println!("attack: no row above its bound");
        ExitCode::SUCCESS
    } else {
        println!("attack: FAILED");
        ExitCode::FAILURE
    }
}

/// A small accepted setting with L = B, of either profile.
fn small(numbers: &mut Numbers) -> Setting {
    let trc = numbers.within(1, 3);
    let n = numbers.within(1, 4);
    let w = 2 * (n * trc + numbers.within(1, 14));
    let td = numbers.within(trc, (w / 2).max(trc));
    let tfaw = numbers.within(1, 5);
    let (banks, mark) = (numbers.within(1, 2), numbers.within(0, 1));
    let mut setting = [w, trc, tfaw, n, td, 1, 255, banks, 4, mark];
    setting[L] = bound(&setting).expect("W is large enough");
    if td > w / 2 {
        return LISTED[0];
    }
    setting
}

/// Seeds under which the hammered row shares counters with others.
fn colliding(numbers: &mut Numbers) -> Vec<u16> {
    loop {
        let seeds = seeds(numbers);
        let shared = |row: u16| {
            hash(&seeds, row)
                .iter()
                .any(|at| hash(&seeds, ROW).contains(at))
        };
        if (0..4).any(shared) {
            return seeds;
        }
    }
}

/// Notes what all adversaries reach.
fn attack(side: &mut impl Side, setting: &Setting, numbers: &mut Numbers, reached: &mut Reached) {
    let (w, epoch) = (setting[W], setting[W] / 2);
    let step = (epoch / 16).max(1) as usize;
    for start in (epoch..2 * epoch).step_by(step) {
        for first in 1..=setting[N] as usize + 1 {
            for pause in (0..=w).step_by(step) {
                let end = start + 3 * w;
                let plan = Plan {
                    start,
                    first,
                    pause,
                    end,
                };
                reached.note(&hammer(side, setting, &plan));
            }
        }
    }
    for _ in 0..4 {
        let rows = hammer_at_random(side, setting, numbers, 2_000);
        rows.iter().for_each(|ticks| reached.note(ticks));
    }
}

/// The same on a side that is made from what it works on, in a width or across a
/// change-over at each of some ticks: before an epoch turn, at it and after it.
fn reached_by<S: Saved>(
    way: Way,
    make: impl Fn(&Lent) -> S,
    setting: &Setting,
    numbers: &mut Numbers,
) -> Reached {
    let seeds = colliding(numbers);
    let side = |limits: Limits| make(&Lent::exact(limits, *setting, seeds.clone()));
    let mut reached = Reached::new(setting);
    match way {
        Way::Old => attack(&mut side(OLD), setting, numbers, &mut reached),
        Way::New => attack(&mut side(NEW), setting, numbers, &mut reached),
        Way::Across => {
            let epoch = setting[W] / 2;
            let mut crossed = Crossed::new(side(OLD), setting[BANKS]);
            for tick in [3 * epoch - 1, 3 * epoch, 3 * epoch + epoch / 2] {
                crossed.at = tick;
                attack(&mut crossed, setting, numbers, &mut reached);
            }
        }
    }
    reached
}

/// Attacks the library on every setting; no row gets above B, nor above the bound of
/// another span.
fn limits_hold(numbers: &mut Numbers, way: Way, settings: &[Setting]) -> bool {
    let mut found = Vec::new();
    for setting in settings {
        let reached = reached_by(way, Library::new, setting, numbers);
        let bound = bound(setting).expect("accepted") as usize;
        found.push(Found {
            setting: *setting,
            bound,
            most: reached.most(setting[W]),
            reached,
        });
    }
    report(way, &found);
    let reached: Vec<Reached> = found.iter().map(|found| found.reached.clone()).collect();
    let spans = spans_hold(&format!("{way:?}"), &reached)
        && (!matches!(way, Way::Old) || too_low_seen(&reached));
    let listed = found
        .iter()
        .zip(LISTED_MOST)
        .all(|(found, most)| found.most == most);
    let above = found.iter().find(|found| found.most > found.bound);
    if let Some(Found {
        setting,
        bound,
        most,
        ..
    }) = above
    {
        println!("  ABOVE THE BOUND: {most} of {bound} on {setting:?}");
    }
    if !listed {
        let most: Vec<usize> = found.iter().map(|found| found.most).collect();
        println!("  NOT AS LISTED: the most activations of the first settings, {most:?}");
    }
    listed && spans && above.is_none()
}

/// Prints how near the attacks came to the bound.
fn report(way: Way, found: &[Found]) {
    let attained = found
        .iter()
        .filter(|found| found.most >= found.bound)
        .count();
    println!(
        "  {way:?}: {} settings with L = B, B attained on {attained}",
        found.len()
    );
    let delayed = found
        .iter()
        .filter(|found| found.setting[TD] > found.setting[TRC]);
    let closest = delayed.max_by_key(|found| (found.most * 1_000 / found.bound, found.bound));
    if let Some(Found {
        setting,
        bound,
        most,
        ..
    }) = closest
    {
        println!("  closest with tD above tRC: {most} of {bound} on {setting:?}");
    }
    let Found {
        setting,
        bound,
        most,
        ..
    } = &found[0];
    println!("  setting S: {most} of {bound} on {setting:?}");
}

/// The adversaries get above B on each of the unsafe faults.
fn faults_seen(numbers: &mut Numbers, settings: &[Setting]) -> bool {
    let mut seen = 0;
    for fault in UNSAFE {
        let above = settings.iter().any(|setting| {
            let faulty = |lent: &Lent| Second {
                lent: lent.clone(),
                fault,
            };
            let reached = reached_by(Way::Old, faulty, setting, numbers);
            reached.most(setting[W]) as u64 > bound(setting).unwrap_or(0)
        });
        if !above {
            println!("  {fault:?}: NOT SEEN");
        }
        seen += usize::from(above);
    }
    println!("  {seen} of {} unsafe faults seen", UNSAFE.len());
    seen == UNSAFE.len()
}

/// Two bursts get above B on each of the unsafe change-overs if one stands before
/// the last activation of the second burst, and not without a fault.
fn changes_seen() -> bool {
    let (setting, seeds) = (LISTED[3], house_seeds());
    let epoch = setting[W] / 2;
    let above = |fault: &Fault| {
        let lent = Lent::exact(OLD, setting, seeds.clone());
        let faulty = Second {
            lent,
            fault: *fault,
        };
        let mut crossed = Crossed::new(faulty, setting[BANKS]);
        crossed.at = 3 * epoch + setting[N] - 2;
        let ticks = bursts(&mut crossed, &setting, 2 * epoch);
        most_in(&ticks, setting[W]) as u64 > setting[L]
    };
    let seen = UNSAFE_CHANGES.iter().filter(|fault| above(fault)).count();
    println!(
        "  {seen} of {} unsafe change-overs seen",
        UNSAFE_CHANGES.len()
    );
    seen == UNSAFE_CHANGES.len() && !above(&Fault::None)
}

/// The published setting (N 8,192, tD 31,065) lets a row be activated 20,431
/// times in W ticks, far above its limit of 16,384. Document 01 refuses it with
/// that limit, and accepts it with L = B = 24,528.
fn published() -> bool {
    let twin = [256_000_000, 185, 140, 8_192, 31_065, 24_528, 255, 1, 2, 0];
    let half = [256_000_000, 185, 140, 4_096, 31_065, 16_384, 255, 1, 2, 1];
    let mut refused = Lent::exact(OLD, twin, house_seeds());
    refused.setting[L] = 16_384;
    let mut library = Library::new(&refused);
    let number = library.call(&Call::SETUP).number;
    let [twin, half] = [twin, half].map(|setting| through_library(OLD, &setting));
    println!("  published setting: refused with {number} at L 16,384;");
    println!("  at L 24,528 a row is activated {twin} times in W; with half its N {half} times");
    number == 5 && twin == 20_431 && half <= 16_384
}

/// A chip with the limit 1,024 is kept by the new width, and refused by the old.
fn chip() -> bool {
    let mut old = Library::new(&Lent::exact(OLD, CHIP, house_seeds()));
    let number = old.call(&Call::SETUP).number;
    let most = through_library(NEW, &CHIP);
    println!("  limit 1,024: refused with {number} by the old width;");
    println!("  in the new width a row is activated {most} times in W");
    number == 4 && most == 911
}

/// The same two bursts through the library in a width, and the most activations in W
/// ticks; 0 if there are more in some span than the library says of it.
fn through_library(limits: Limits, setting: &Setting) -> usize {
    let mut library = Library::new(&Lent::exact(limits, *setting, house_seeds()));
    let ticks = bursts(&mut library, setting, 3 * (setting[W] / 2));
    let [w, trc, _, n, td, ..] = *setting;
    let spans = [
        1,
        trc,
        trc + 1,
        n * trc,
        n * trc + 1,
        n * trc + td,
        w / 2,
        w / 2 + 1,
        w / 2 + 2,
        w,
    ];
    for x in spans {
        let (most, bound) = (most_in(&ticks, x), of_library(setting, x));
        if most as u64 > bound {
            println!("  ABOVE THE BOUND OF A SPAN: {most} of {bound} in {x} ticks on {setting:?}");
            return 0;
        }
    }
    most_in(&ticks, w)
}

/// The ticks of the activations if N of them, tRC apart, end with the epoch before a
/// turn and the others come as early as allowed, in W ticks.
fn bursts(side: &mut impl Side, setting: &Setting, turn: u64) -> Vec<u64> {
    let start = turn - 1 - (setting[N] - 1) * setting[TRC];
    let plan = Plan {
        start,
        first: 0,
        pause: 0,
        end: start + setting[W],
    };
    hammer(side, setting, &plan)
}
