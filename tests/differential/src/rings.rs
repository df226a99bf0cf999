//! Histories at the edges of refusal 7: large ticks, large gaps, and falls in
//! the first, an inner and the last cell of a block of 64 cells, at the wrap of
//! the ring and at that of 64 bits. Each is tried with one reading of the index in
//! a width, or with the change-over.

use crate::call::{Call, Kind};
use crate::lent::Lent;
use crate::pair::{Difference, Pair};
use second::setting::house_seeds;
use second::state::{LAST, PLACE};
use second::{Fault, NEW, OLD};

/// Lengths H, around a block, around two blocks, of a chip and the greatest of the
/// old width.
const LENGTHS: [usize; 9] = [4, 8, 60, 64, 68, 128, 132, 888, 4_096];
/// Lengths for the new width, which has others that only it allows, and for the
/// change-over.
const NEW_LENGTHS: [usize; 5] = [4, 64, 68, 132, 4_100];
const CHANGED_LENGTHS: [usize; 4] = [4, 64, 68, 132];
/// Ticks from one activation to the next where nothing else is said.
const STEP: u64 = 185;
/// Gaps between two neighbours.
const GAPS: [u64; 12] = [
    1 << 47,
    (1 << 48) - 1,
    1 << 48,
    1 << 57,
    (1 << 57) + 1,
    (1 << 58) - 1,
    1 << 58,
    (1 << 58) + 1,
    1 << 59,
    1 << 62,
    1 << 63,
    u64::MAX,
];
/// Stored ticks that are the oldest or the newest of a history.
const LARGE: [u64; 8] = [
    0,
    1 << 20,
    (1 << 62) - 1,
    1 << 62,
    (1 << 63) - 1,
    1 << 63,
    (1 << 63) + (1 << 20),
    u64::MAX,
];

/// What is asked over a history.
#[derive(Clone, Copy, PartialEq, Eq)]
pub enum By {
    OldIndex,
    NewIndex,
    ChangeOver,
}

/// How many histories passed refusal 7, and how many did not.
#[derive(Debug, Default)]
pub struct Told {
    pub sound: u64,
    pub unsound: u64,
}

/// Tries all histories, the second implementation with a fault or without, and
/// stops at the first difference.
pub fn compare(by: By, fault: Fault) -> Result<Told, Box<Difference>> {
    let mut told = Told::default();
    let lengths = match by {
        By::OldIndex => LENGTHS.as_slice(),
        By::NewIndex => &NEW_LENGTHS,
        By::ChangeOver => &CHANGED_LENGTHS,
    };
    let try_one = &mut |next, stored| ask(by, next, stored, fault, &mut told);
    for &h in lengths {
        let mut places = vec![0, 1, 63, 64, 65, h - 1];
        places.retain(|&next| next < h);
        places.dedup();
        for next in places {
            climbs(h, &mut |stored| try_one(next, stored))?;
            for at in edges(h, next) {
                bends(h, at, &mut |stored| try_one(next, stored))?;
            }
        }
    }
    Ok(told)
}

/// What is made of a history, given from its oldest stored tick to its newest.
type Try<'a> = &'a mut dyn FnMut(Vec<u64>) -> Result<(), Box<Difference>>;

/// Histories with one gap throughout, which pass 2^64 where H of them do.
fn climbs(h: usize, with: Try) -> Result<(), Box<Difference>> {
    for oldest in LARGE {
        for gap in GAPS {
            let stored = |age: u64| oldest.wrapping_add(age.wrapping_mul(gap));
            with((0..h as u64).map(stored).collect())?;
        }
    }
    Ok(())
}

/// Histories in which something happens at the cell `at`: a fall by one, a pass
/// over 2^64, or a gap after activations or after empty places.
fn bends(h: usize, at: usize, with: Try) -> Result<(), Box<Difference>> {
    let even: Vec<u64> = (0..h as u64).map(|age| age * STEP).collect();
    for newest in LARGE.into_iter().filter(|&newest| newest > even[h - 1]) {
        let mut stored: Vec<u64> = even
            .iter()
            .map(|rise| newest - even[h - 1] + rise)
            .collect();
        with(stored.clone())?;
        stored[at] = stored[at - 1] - 1;
        with(stored)?;
    }
    let wrapped = |rise: &u64| rise.wrapping_sub(even[at]);
    with(even.iter().map(wrapped).collect())?;
    for gap in GAPS {
        for step in [0, 1] {
            let mut stored: Vec<u64> = even.iter().map(|rise| rise * step).collect();
            for tick in &mut stored[at..] {
                *tick = tick.wrapping_add(gap);
            }
            with(stored)?;
        }
    }
    Ok(())
}

/// The cells from the second oldest on, counted from the oldest, that lie at or
/// next to the border of a block, where the blocks are counted from the next
/// place and again from place 0; of a long run only its first and last blocks.
fn edges(h: usize, next: usize) -> Vec<usize> {
    let far = |at: usize, length: usize| at >= 130 && at + 130 < length;
    let border = |at: usize| matches!(at % 64, 0 | 1 | 33 | 63);
    let high = h - next;
    let chosen = |&at: &usize| {
        let (at, length) = if at < high {
            (at, high)
        } else {
            (at - high, next)
        };
        !far(at, length) && (border(at) || at + 1 == length)
    };
    (1..h).filter(chosen).collect()
}

/// Reads the index over this history on both sides, or takes it over, at a last
/// tick that no stored tick is after, and compares.
fn ask(
    by: By,
    next: usize,
    mut stored: Vec<u64>,
    fault: Fault,
    told: &mut Told,
) -> Result<(), Box<Difference>> {
    let h = stored.len();
    let greatest = stored.iter().max().expect("H is not 0");
    let last = greatest.saturating_sub(1);
    stored.rotate_right(next);
    let mark = u64::from(h <= 1_024);
    let setting = [1 << 29, 1, 64, 1, 16 * h as u64, 1 << 24, 255, 1, 1, mark];
    let limits = if by == By::NewIndex { NEW } else { OLD };
    let mut lent = Lent::exact(limits, setting, house_seeds());
    lent.state.head[LAST] = last;
    lent.state.head[PLACE] = next as u64;
    lent.state.ticks = stored;
    let call = Call {
        kind: Kind::Index,
        tick: last,
        ..Call::SETUP
    };
    let mut pair = Pair::new(lent, fault);
    let number = match by {
        By::ChangeOver => pair.change_over(&[0; 2_048])?.0,
        _ => pair.call(&call)?.number,
    };
    match number {
        0 | 9 => told.sound += 1,
        7 => told.unsound += 1,
        _ => panic!("a reading returned {number}"),
    }
    Ok(())
}
