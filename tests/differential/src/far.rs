//! History places that only the new width has: activations kept at and around place
//! 4,096 and at the last places, found again by the row rule, looked at by refusal 7
//! and cleared by set-up.

use crate::call::{Call, Kind};
use crate::lent::Lent;
use crate::pair::{Difference, Pair};
use second::setting::house_seeds;
use second::state::{LAST, PLACE};
use second::{Fault, Setting, NEW};

/// Lengths H: the least that only the new width has, a middle one and the greatest.
const LENGTHS: [u64; 3] = [4_100, 8_192, 32_768];
/// The last tick at the start.
const START: u64 = 100;

/// How many activations were kept, how many requests waited for their row, and how
/// many calls were refused with 7.
#[derive(Debug, Default)]
pub struct Told {
    pub opened: u64,
    pub waits: u64,
    pub unsound: u64,
}

/// Tries all places, the second implementation with a fault or without, and stops
/// at the first difference.
pub fn compare(fault: Fault) -> Result<Told, Box<Difference>> {
    let mut told = Told::default();
    for h in LENGTHS {
        for place in [4_094, 4_095, 4_096, 4_097, h - 2, h - 1] {
            list(h, place, fault, &mut told)?;
        }
    }
    Ok(told)
}

/// Two rows in turn, which every counter blacklists, from a next place on; then
/// memory that 7 refuses around that place, and a set-up.
fn list(h: u64, place: u64, fault: Fault, told: &mut Told) -> Result<(), Box<Difference>> {
    let delay = h / 4;
    let setting: Setting = [8 * delay, 1, 1, 2, delay, 60, 255, 1, 1, 0];
    let mut lent = Lent::exact(NEW, setting, house_seeds());
    lent.state.head[LAST] = START;
    lent.state.head[PLACE] = place;
    lent.state.counters.fill(2);
    lent.state.rows.fill(77);
    let mut pair = Pair::new(lent, fault);
    for (tick, row) in (START..).zip([5, 6, 5, 6]) {
        told.note(call(&mut pair, Kind::Request, tick, row)?);
    }
    told.note(call(&mut pair, Kind::Request, START + delay, 5)?);
    let kept = place as usize;
    let after = (kept + 1) % h as usize;
    for (at, stored) in [(kept, 1 << 40), (kept - 1, START + 2), (after, 1)] {
        let mut lent = pair.lent();
        lent.state.ticks[at] = stored;
        let mut spoilt = Pair::new(lent, fault);
        let (number, _) = call(&mut spoilt, Kind::Index, START + delay, 0)?;
        told.unsound += u64::from(number == 7);
    }
    call(&mut pair, Kind::Setup, 0, 0)?;
    Ok(())
}

/// Makes a call; its number, and the first word of out.
fn call(pair: &mut Pair, kind: Kind, tick: u64, row: u16) -> Result<(u32, u64), Box<Difference>> {
    let answer = pair.call(&Call {
        kind,
        tick,
        row,
        ..Call::SETUP
    })?;
    Ok((answer.number, answer.out[0]))
}

impl Told {
    fn note(&mut self, (number, answer): (u32, u64)) {
        self.opened += u64::from(number == 0 && answer == 0);
        self.waits += u64::from(number == 0 && answer == 3);
    }
}
