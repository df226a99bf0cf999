//! Adversaries: programs that activate rows as often as the answers allow, and
//! the most activations of one row in a span that they reach.

use crate::call::{Call, Kind};
use crate::numbers::Numbers;
use crate::settings::{BANKS, THREADS, W};
use crate::side::Side;
use second::Setting;
use std::collections::HashMap;

/// The row that is hammered.
pub const ROW: u16 = 5;

/// What to do after a request.
enum Reply {
    Opened,
    /// Ask again at this tick.
    Wait(u64),
    /// Every thread is held by its quota.
    Held,
}

/// Hammers one row: some activations as early as allowed, a pause, then again
/// as early as allowed.
#[derive(Clone, Copy, Debug)]
pub struct Plan {
    pub start: u64,
    /// Activations before the pause.
    pub first: usize,
    pub pause: u64,
    pub end: u64,
}

/// Carries out a plan after a set-up and returns the ticks of all activations.
pub fn hammer(side: &mut impl Side, setting: &Setting, plan: &Plan) -> Vec<u64> {
    let number = side.call(&Call::SETUP).number;
    assert_eq!(number, 0, "set-up of {setting:?}");
    let mut opened = Vec::new();
    let mut tick = plan.start;
    while tick < plan.end {
        match ask(side, setting, tick, 0, ROW) {
            Reply::Opened => {
                opened.push(tick);
                if opened.len() == plan.first {
                    tick += plan.pause;
                }
            }
            Reply::Wait(until) => tick = until,
            Reply::Held => tick = next_turn(setting, tick),
        }
    }
    opened
}

/// Hammers a few rows in all banks at random: mostly as early as allowed, at
/// times after a pause. Returns the ticks of all activations, row by row.
pub fn hammer_at_random(
    side: &mut impl Side,
    setting: &Setting,
    numbers: &mut Numbers,
    calls: u64,
) -> Vec<Vec<u64>> {
    let number = side.call(&Call::SETUP).number;
    assert_eq!(number, 0, "set-up of {setting:?}");
    let mut opened: HashMap<(u64, u16), Vec<u64>> = HashMap::new();
    let mut tick = numbers.within(0, setting[W]);
    let mut row = ROW;
    let mut bank = 0;
    for _ in 0..calls {
        if numbers.one_in(6) {
            row = numbers.within(0, 3) as u16;
            bank = numbers.within(0, setting[BANKS] - 1);
        }
        match ask(side, setting, tick, bank, row) {
            Reply::Opened => opened.entry((bank, row)).or_default().push(tick),
            Reply::Wait(until) if !numbers.one_in(5) => tick = until,
            Reply::Wait(_) => tick += numbers.within(0, 2),
            Reply::Held => tick = next_turn(setting, tick),
        }
        if numbers.one_in(25) {
            tick += numbers.within(1, setting[W] / 2);
        }
    }
    opened.into_values().collect()
}

/// Requests a row for one thread after the other until one isn't held by its
/// quota, and reports an activation done at once.
fn ask(side: &mut impl Side, setting: &Setting, tick: u64, bank: u64, row: u16) -> Reply {
    for thread in 0..setting[THREADS] {
        let mut call = Call {
            kind: Kind::Request,
            tick,
            bank,
            thread,
            row,
        };
        let answer = side.call(&call);
        assert_eq!(answer.number, 0, "{call:?} on {setting:?}");
        let [said, until, left] = answer.out;
        assert!(said == 0 || left == 0, "{answer:?} to {call:?}");
        match said {
            0 => {
                call.kind = Kind::Done;
                assert_eq!(side.call(&call).number, 0, "{call:?} on {setting:?}");
                return Reply::Opened;
            }
            4 => {}
            _ => {
                assert!(until > tick, "{answer:?} to {call:?} on {setting:?}");
                return Reply::Wait(until);
            }
        }
    }
    Reply::Held
}

/// The first tick of the next epoch.
fn next_turn(setting: &Setting, tick: u64) -> u64 {
    let epoch = setting[W] / 2;
    (tick / epoch + 1) * epoch
}

/// The most of these rising ticks that lie within X successive ticks.
pub fn most_in(ticks: &[u64], x: u64) -> usize {
    let mut first = 0;
    let mut most = 0;
    for (place, &tick) in ticks.iter().enumerate() {
        while tick - ticks[first] >= x {
            first += 1;
        }
        most = most.max(place + 1 - first);
    }
    most
}
