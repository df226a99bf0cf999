//! A cut-down log: of up to 64 records that differ, a selection that still differs and
//! does not without any single one of its records. Records are left out one by one, from
//! first to last, in passes, until a pass leaves out none. How a selection is judged is in
//! `cut_judge`, the refusals of the log are in `cut_blocks`.

use crate::cut_blocks::read;
use crate::cut_judge::{Judge, Verdict};
use crate::fault::Fault;
use crate::log::{Record, RECORDS};

/// Most records of a log that is cut down.
pub const MOST: usize = 64;

/// Records by their places in the log, from 0, in their order.
pub type Selection = Vec<usize>;

/// Writes the selection, bit i for record i, and returns 0; or returns the number of a
/// refusal.
pub fn cut_down(log: &[u8], fault: Fault, out: &mut [u64; 1]) -> u32 {
    let cut = read(log, fault).and_then(|mut judge| Ok((cut(&mut judge)?, judge.records.len())));
    match cut {
        Ok((left, many)) => {
            let selection = left.last().map_or(&[][..], Vec::as_slice);
            write(selection, many, fault, out);
            0
        }
        Err(number) => {
            write_refused(number, fault, out);
            number
        }
    }
}

/// What each pass left, the last being the one that left out none; or the number of a
/// refusal.
pub fn passes(log: &[u8]) -> Result<Vec<Selection>, u32> {
    cut(&mut read(log, Fault::None)?)
}

/// The records of a log and how all of them end; or the number of a refusal before 21.
pub fn ends(log: &[u8]) -> Result<(Vec<Record>, Verdict), u32> {
    let mut judge = read(log, Fault::None)?;
    let all = judge.all();
    let verdict = judge.verdict(&all);
    Ok((judge.records, verdict))
}

/// The passes over the records of a log, or 21 if they do not differ.
fn cut(judge: &mut Judge) -> Result<Vec<Selection>, u32> {
    let all = judge.all();
    match (judge.verdict(&all), judge.fault) {
        (Verdict::Differs(first), _) => Ok(passes_over(judge, all, first)),
        (Verdict::Refused(first, _), Fault::CutRefusedTaken) => Ok(passes_over(judge, all, first)),
        (Verdict::Refused(_, number), Fault::CutRefusedHasItsNumber) => Err(number),
        (Verdict::Agrees, Fault::CutNoneTaken) if all.is_empty() => Ok(Vec::new()),
        (Verdict::Agrees, Fault::CutNoneIs11) if all.is_empty() => Err(11),
        (Verdict::Agrees, Fault::CutNoneIs13) if all.is_empty() => Err(13),
        (Verdict::Agrees, Fault::CutAgreesTaken) => Ok(vec![all]),
        (_, Fault::CutSameIs20) => Err(20),
        _ => Err(21),
    }
}

/// The passes over all records, of which this one differs first. Only a fault makes others.
fn passes_over(judge: &mut Judge, all: Selection, first: usize) -> Vec<Selection> {
    match judge.fault {
        Fault::CutKeepsAll => vec![all],
        Fault::CutDifferingOnly => vec![vec![first]],
        Fault::CutUpToDiffering => vec![(0..=first).collect()],
        Fault::CutTriesOriginal => vec![all_at_once(judge, &all, first)],
        Fault::CutPairsToo => {
            let mut left = repeated(judge, all, first);
            left.extend(pairs_too(judge, left.last(), first));
            left
        }
        _ => repeated(judge, all, first),
    }
}

/// Passes until one leaves out none. `first` is the record that differs first in the log.
fn repeated(judge: &mut Judge, all: Selection, first: usize) -> Vec<Selection> {
    let mut left: Vec<Selection> = Vec::new();
    let mut current = all;
    loop {
        let next = pass(judge, &current, left.len(), first);
        let is_last = next == current || left.len() + 1 == most_passes(judge.fault);
        left.push(next.clone());
        current = next;
        if is_last {
            return left;
        }
    }
}

/// No log has so many records that a pass with this number removes one. Only a fault
/// stops earlier.
fn most_passes(fault: Fault) -> usize {
    match fault {
        Fault::CutOnePass => 1,
        Fault::CutTwoPasses => 2,
        Fault::CutThreePasses => 3,
        Fault::CutSixPasses => 6,
        _ => usize::MAX,
    }
}

/// One pass, with its number from 0: tries to leave out each record of the selection,
/// and leaves it out if the others still differ.
fn pass(judge: &mut Judge, selection: &[usize], number: usize, first: usize) -> Selection {
    match judge.fault {
        Fault::CutRestarts => return restarted(judge, selection, first),
        Fault::CutTriesPassStart => return all_at_once(judge, selection, first),
        _ => {}
    }
    let mut kept = selection.to_vec();
    let mut is_skipped = false;
    for place in tried(selection, number, first, judge.fault) {
        if is_skipped {
            is_skipped = false;
            continue;
        }
        let rest = without(&kept, place);
        if differs(judge, &rest, first) {
            kept = rest;
            is_skipped = judge.fault == Fault::CutSkipsNext;
        } else if judge.fault == Fault::CutEndsAtNeeded {
            break;
        }
    }
    kept
}

/// The records that a pass tries to leave out, in the order in which it does.
fn tried(selection: &[usize], number: usize, first: usize, fault: Fault) -> Selection {
    let mut places = selection.to_vec();
    match fault {
        Fault::CutLastToFirst => places.reverse(),
        Fault::CutTurnsBack if number % 2 == 1 => places.reverse(),
        Fault::CutFirstKept => places = places[1..].to_vec(),
        Fault::CutLastKept => places.truncate(places.len() - 1),
        Fault::CutRestKept => places.retain(|&place| place <= first),
        _ => {}
    }
    places
}

fn without(selection: &[usize], place: usize) -> Selection {
    let others = selection.iter().copied();
    others.filter(|&other| other != place).collect()
}

/// Does a selection differ? One that is refused first, or agrees, does not.
fn differs(judge: &mut Judge, selection: &[usize], first: usize) -> bool {
    let verdict = judge.verdict(selection);
    match (judge.fault, verdict) {
        (Fault::CutRefusalDiffers, Verdict::Refused(..)) => true,
        (Fault::CutTenDiffers, Verdict::Refused(_, 10)) => true,
        (Fault::CutNineDiffers, Verdict::Refused(_, 9)) => true,
        (Fault::CutAgreesDiffers, Verdict::Agrees) => !selection.is_empty(),
        (Fault::CutEmptyDiffers, Verdict::Agrees) => selection.is_empty(),
        (Fault::CutSameRecord, Verdict::Differs(place)) => place == first,
        _ => matches!(verdict, Verdict::Differs(_)),
    }
}

/// Leaves out, together, each record without which these differ (only as a fault).
fn all_at_once(judge: &mut Judge, selection: &[usize], first: usize) -> Selection {
    let mut is_needed = |place: &usize| !differs(judge, &without(selection, *place), first);
    let places = selection.iter().copied();
    places.filter(|place| is_needed(place)).collect()
}

/// Leaves out the first record that can be, until there is none (only as a fault).
fn restarted(judge: &mut Judge, selection: &[usize], first: usize) -> Selection {
    let mut kept = selection.to_vec();
    loop {
        let mut rests = kept.iter().map(|&place| without(&kept, place));
        match rests.find(|rest| differs(judge, rest, first)) {
            Some(rest) => kept = rest,
            None => return kept,
        }
    }
}

/// Leaves out two records that follow each other where that can be, and makes passes
/// again (only as a fault).
fn pairs_too(judge: &mut Judge, left: Option<&Selection>, first: usize) -> Vec<Selection> {
    let kept = left.cloned().unwrap_or_default();
    let mut pairs = kept.windows(2);
    let rest = pairs.find_map(|pair| {
        let rest = without(&without(&kept, pair[0]), pair[1]);
        differs(judge, &rest, first).then_some(rest)
    });
    rest.map_or(Vec::new(), |rest| repeated(judge, rest, first))
}

/// Writes the selection of a log that has so many records.
fn write(selection: &[usize], many: usize, fault: Fault, out: &mut [u64; 1]) {
    let bit = |place: usize| match fault {
        Fault::CutBitsReversed => MOST - 1 - place,
        Fault::CutBitsReversedInLog => many - 1 - place,
        Fault::CutBitOneUp => place + 1,
        Fault::CutBitsOfBlock => place % RECORDS,
        _ => place,
    };
    let word = |places: &mut dyn Iterator<Item = usize>| {
        let bits = places.map(bit).filter(|&bit| bit < MOST);
        bits.fold(0, |word, bit| word | 1 << bit)
    };
    let mask: u64 = word(&mut selection.iter().copied());
    match fault {
        Fault::CutMask32 => out[0] = mask % (1 << 32),
        Fault::CutBit63Lost => out[0] = mask % (1 << 63),
        Fault::CutComplement => out[0] = !mask,
        Fault::CutLeftOutWritten => {
            out[0] = word(&mut (0..many).filter(|place| !selection.contains(place)));
        }
        Fault::CutNotWritten => {}
        Fault::CutOred => out[0] |= mask,
        _ => out[0] = mask,
    }
}

/// What a refusal writes: nothing, but for faults.
fn write_refused(number: u32, fault: Fault, out: &mut [u64; 1]) {
    match (fault, number) {
        (Fault::CutBlockWrites, 11..=13)
        | (Fault::CutSettingWrites, 1..=5 | 16)
        | (Fault::CutTwentyWrites, 20)
        | (Fault::CutTwentyOneWrites, 21) => out[0] = 0,
        (Fault::CutTwentyOneWritesAll, 21) => out[0] = u64::MAX,
        _ => {}
    }
}
