//! The refusals of a log that is to be cut down, before that for records that do not
//! differ: of each block 11, 12 and 13, after block 0 those of its setting, and 20 after
//! all blocks. All that a log is to be refused for is gathered, and the first of it in the
//! order of the tests is given.

use crate::cut::MOST;
use crate::cut_judge::{Judge, Verdict};
use crate::fault::Fault;
use crate::log::{records, sound, sums, Record, Run, BLOCK, BODY, RECORDS, SUMS};
use crate::write::seal;

/// What a log is refused for.
#[derive(Clone, Copy, PartialEq, Eq)]
enum Reason {
    /// The block with this number, from 0.
    Block(u64),
    Setting,
    /// More than 64 records.
    Many,
}

/// After the tests of all blocks, in the order of the tests.
const AFTER_BLOCKS: u64 = 1 << 60;

/// The records of a log that is not refused here, to be judged.
pub fn read(log: &[u8], fault: Fault) -> Result<Judge<'_>, u32> {
    let mut blocks: Vec<&[u8]> = log.chunks(BLOCK).collect();
    if fault == Fault::CutElevenLeftOut && log.len() > BLOCK {
        blocks.truncate(log.len() / BLOCK);
    }
    if blocks.is_empty() {
        return Err(if fault == Fault::CutEmptyIs21 { 21 } else { 11 });
    }
    blocks.truncate(looked_at(&blocks, fault));
    let reasons = reasons(&blocks, fault);
    let all = reasons.iter().copied();
    let first = all.min_by_key(|&(reason, number)| order(reason, number, &blocks, fault));
    match first {
        None => Ok(judge(&blocks, fault)),
        Some((Reason::Many, _)) if is_same_before_many(&blocks, &reasons, fault) => Err(21),
        Some((reason, number)) => Err(told(reason, number, fault)),
    }
}

/// The records of these blocks; of a block that is cut off there are none.
fn judge<'a>(blocks: &[&'a [u8]], fault: Fault) -> Judge<'a> {
    let whole = blocks[1..].iter().filter(|block| block.len() == BLOCK);
    let all = whole.flat_map(|block| records(block)).map(Record::read);
    Judge::new(blocks[0], all.collect(), fault)
}

/// How many blocks are looked at: all of them, but for faults.
fn looked_at(blocks: &[&[u8]], fault: Fault) -> usize {
    if fault == Fault::CutFirstBlocksOnly {
        return blocks.len().min(2);
    }
    if !matches!(
        fault,
        Fault::CutBlocksUntilDiffering | Fault::CutBlocksUntilRefused
    ) {
        return blocks.len();
    }
    let is_block_bad = |index: usize| block_refusal(blocks, index, fault) != 0;
    let sound = (0..blocks.len()).find(|&index| is_block_bad(index));
    let sound = &blocks[..sound.unwrap_or(blocks.len())];
    if sound.is_empty() || Run::start(sound[0], fault).is_err() {
        return blocks.len();
    }
    let mut judge = judge(sound, fault);
    let all = judge.all();
    match (judge.verdict(&all), fault) {
        (Verdict::Differs(place), Fault::CutBlocksUntilDiffering)
        | (Verdict::Refused(place, _), Fault::CutBlocksUntilRefused) => place / RECORDS + 2,
        _ => blocks.len(),
    }
}

/// All that these blocks are refused for.
fn reasons(blocks: &[&[u8]], fault: Fault) -> Vec<(Reason, u32)> {
    let mut reasons = Vec::new();
    for index in 0..blocks.len() {
        reasons.push((
            Reason::Block(index as u64),
            block_refusal(blocks, index, fault),
        ));
    }
    if blocks[0].len() == BLOCK {
        let refused = Run::start(blocks[0], fault).err();
        reasons.push((Reason::Setting, refused.unwrap_or(0)));
    }
    let is_many = judge(blocks, fault).records.len() > most(fault);
    reasons.push((Reason::Many, if is_many { 20 } else { 0 }));
    reasons.retain(|&(_, number)| number != 0);
    reasons
}

/// The most records that are taken.
fn most(fault: Fault) -> usize {
    match fault {
        Fault::CutTwentyAt64 => MOST - 1,
        Fault::CutTwentyAbove65 => MOST + 1,
        Fault::CutTwentyAbove60 => 3 * RECORDS,
        Fault::CutTwentyAbove80 => 4 * RECORDS,
        Fault::CutTwentyLeftOut => usize::MAX,
        _ => MOST,
    }
}

/// Where a refusal stands in the order of the tests: block 0, its setting, the other
/// blocks, 20. The least number comes first.
fn order(reason: Reason, number: u32, blocks: &[&[u8]], fault: Fault) -> u64 {
    let of_block = |index: u64| 10 * index + 10;
    match (fault, reason) {
        (Fault::CutElevenFirst, Reason::Block(_)) if number == 11 => 0,
        (Fault::CutSettingFirst, Reason::Setting) | (Fault::CutTwentyFirst, Reason::Many) => 0,
        (Fault::CutSettingAfterBlocks, Reason::Setting) => AFTER_BLOCKS - 1,
        (Fault::CutSettingAfterTwenty, Reason::Setting) => AFTER_BLOCKS + 1,
        (Fault::CutTwentyBeforeSetting, Reason::Many) => of_block(0) + 4,
        (Fault::CutTwentyBeforeBlocks, Reason::Many) => of_block(0) + 6,
        (Fault::CutTwentyWhenCounted, Reason::Many) => {
            let is_above = |&many: &usize| judge(&blocks[..many], fault).records.len() > MOST;
            let block = (1..=blocks.len()).find(is_above).unwrap_or(blocks.len()) - 1;
            of_block(block as u64) + 1
        }
        (_, Reason::Block(index)) => of_block(index),
        (_, Reason::Setting) => of_block(0) + 5,
        (_, Reason::Many) => AFTER_BLOCKS,
    }
}

/// Is 21 given before 20 (only as a fault)?
fn is_same_before_many(blocks: &[&[u8]], reasons: &[(Reason, u32)], fault: Fault) -> bool {
    if fault != Fault::CutTwentyOneBeforeTwenty || reasons.len() > 1 {
        return false;
    }
    let mut judge = judge(blocks, fault);
    let all = judge.all();
    !matches!(judge.verdict(&all), Verdict::Differs(_))
}

/// The number that is given for a refusal. Only a fault changes it.
fn told(reason: Reason, number: u32, fault: Fault) -> u32 {
    match (fault, number) {
        (Fault::CutElevenIs12, 11) | (Fault::CutThirteenIs12, 13) => 12,
        (Fault::CutElevenIs13, 11) | (Fault::CutTwelveIs13, 12) => 13,
        (Fault::CutTwelveIs11, 12) | (Fault::CutThirteenIs11, 13) => 11,
        (Fault::CutTwentyIs21, 20) => 21,
        (Fault::CutTwentyIs13, 20) => 13,
        (Fault::CutSettingIs13, _) if reason == Reason::Setting => 13,
        (Fault::CutSettingIs21, _) if reason == Reason::Setting => 21,
        _ => number,
    }
}

/// 11, 12 or 13 for a block, else 0.
fn block_refusal(blocks: &[&[u8]], index: usize, fault: Fault) -> u32 {
    let block = blocks[index];
    let before = match index {
        0 => 0,
        _ if fault == Fault::CutShortBlockFree => RECORDS,
        _ => usize::from(blocks[index - 1][4]),
    };
    let refusal = |block: &[u8]| sound(block, index as u64, before, fault).err().unwrap_or(0);
    if block.len() < BLOCK {
        return refusal(block);
    }
    let is_summed = || stored(block) == sums(block);
    if fault == Fault::CutThirteenBeforeTwelve && !is_summed() {
        return if refusal(&changed(block, |_| {})) == 13 {
            13
        } else {
            12
        };
    }
    match mended(block, index, fault) {
        Some(mended) if is_sum_free(block, index, fault) || is_summed() => refusal(&mended),
        _ => refusal(block),
    }
}

/// The two sums that a block has.
fn stored(block: &[u8]) -> [u64; 2] {
    [SUMS, SUMS + 2].map(|at| u64::from(block[at]) + 256 * u64::from(block[at + 1]))
}

/// The block with a change and its sums written anew.
fn changed(block: &[u8], change: impl Fn(&mut [u8])) -> Vec<u8> {
    let mut block = block.to_vec();
    change(&mut block);
    seal(&mut block);
    block
}

/// Are the sums of a block passed over (only as a fault)?
fn is_sum_free(block: &[u8], index: usize, fault: Fault) -> bool {
    let is_right = |sum: usize| stored(block)[sum] == sums(block)[sum];
    match fault {
        Fault::CutTwelveLeftOut => true,
        Fault::CutPlainSumFree => is_right(1),
        Fault::CutWeightedSumFree => is_right(0),
        Fault::CutSumsOfFirstFree => index == 0,
        Fault::CutSumsOfLaterFree => index > 0,
        _ => false,
    }
}

/// A block as it would have to be, in what a fault does not test; none without such a
/// fault.
fn mended(block: &[u8], index: usize, fault: Fault) -> Option<Vec<u8>> {
    if is_sum_free(block, index, fault) {
        return Some(changed(block, |_| {}));
    }
    let later = index > 0;
    let change: fn(&mut [u8], usize) = match fault {
        Fault::CutNumberFree => |block, index| {
            block[..4].copy_from_slice(&(index as u32).to_le_bytes());
        },
        Fault::CutFirstCountFree if !later => |block, _| block[4] = 0,
        Fault::CutCountZeroFree if later && block[4] == 0 => |block, _| {
            block[4] = 1;
        },
        Fault::CutCountAbove20Free if later => |block, _| block[4] = block[4].min(20),
        Fault::CutZerosFree => |block, _| block[5..8].fill(0),
        Fault::CutKindFree if later => |block, _| each(block, |record| record[20] &= 1),
        Fault::CutAnswerFree if later => {
            |block, _| each(block, |record| record[21] = record[21].min(4))
        }
        Fault::CutRecordZerosFree if later => |block, _| each(block, |record| record[22..].fill(0)),
        Fault::CutRestFree if later => |block, _| {
            let end = BODY + 24 * usize::from(block[4]).min(RECORDS);
            block[end..SUMS].fill(0);
        },
        _ => return None,
    };
    Some(changed(block, |block| change(block, index)))
}

/// Changes each record of a block.
fn each(block: &mut [u8], change: fn(&mut [u8])) {
    let many = usize::from(block[4]).min(RECORDS);
    block[BODY..SUMS]
        .chunks_exact_mut(24)
        .take(many)
        .for_each(change);
}
