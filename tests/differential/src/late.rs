//! Change-overs among calls of the new width, into the very counters of these calls.
//! All of them are refused and change nothing, as a list has no change-over that is
//! answered after another one or after a set-up of the new width. Head, history and
//! thread counters that they are given are those of the calls too, or others.

use crate::contents::{fill_any, fill_near, spoil};
use crate::lent::{used, Lent};
use crate::library::{self, Given};
use crate::memory::{Counters, Memory};
use crate::numbers::Numbers;
use crate::pair::{Difference, Pair};
use crate::settings::{bound, odd_seeds, BANKS, L, MARK, N, Q, TD, TFAW, THREADS, TRC, W};
use crate::side::Second;
use crate::wide::{great, long};
use second::{change_over, Fault, State, OLD};

/// One change-over.
pub struct Late {
    /// Setting, seeds and memory of the old width.
    old: Lent,
    /// Cells that are given of the new counters.
    counters: usize,
    /// Which of head, history ticks, history rows and thread counters are those of
    /// the calls. They are given as far as `old` has cells of them.
    own: [bool; 4],
    /// The buffer that is too short, if one is: old counters, new counters, history
    /// ticks, history rows or thread counters.
    short: Option<usize>,
}

/// How many were refused with each number: all, and those of the calls' own head,
/// history and thread counters; and with 6 for each of the five buffers alone.
#[derive(Debug, Default)]
pub struct Told {
    pub numbers: [u64; 17],
    pub own: [u64; 17],
    pub short: [u64; 5],
}

/// Makes a change-over that is refused, into the counters of a pair of the new
/// width; in a few cases none. `rows` are those that the calls ask for, `counters`
/// the old counters of the list.
pub fn refused(
    numbers: &mut Numbers,
    pair: &mut Pair,
    rows: &[u16],
    counters: &[u32],
    told: &mut Told,
) -> Result<(), Box<Difference>> {
    let lent = pair.lent();
    let late = Late::any(numbers, &lent, rows, counters);
    if !late.is_refused(&lent) {
        return Ok(());
    }
    let number = pair.change_over_late(&late)? as usize;
    told.numbers[number] += 1;
    if late.own == [true; 4] {
        told.own[number] += 1;
    }
    if let (6, Some(short)) = (number, late.short) {
        told.short[short] += 1;
    }
    Ok(())
}

impl Late {
    /// Any change-over into the counters of this memory. What is wrong is the setting,
    /// the contents, H for these contents, or a length; or nothing, which the setting
    /// of a list that begins at the new width makes a refusal too.
    fn any(numbers: &mut Numbers, lent: &Lent, rows: &[u16], counters: &[u32]) -> Self {
        let mut late = Late {
            old: lent.clone(),
            counters: lent.state.counters.len(),
            own: [true; 4],
            short: None,
        };
        late.old.limits = OLD;
        late.old.state.counters = counters.to_vec();
        if numbers.one_in(2) {
            late.take_other(numbers, rows);
        }
        match numbers.within(0, 15) {
            wrong @ 0..=6 => late.spoil_setting(numbers, wrong),
            7 => {
                late.own[..2].fill(false);
                spoil(numbers, &mut late.old);
            }
            8 | 9 => {
                let gap = &mut late.old.setting[TFAW];
                *gap = numbers.pick(&[2 * *gap, 65_535]).min(65_535);
            }
            10 => {}
            buffer => late.cut(numbers, buffer as usize - 11),
        }
        late
    }

    /// Takes other old counters, and other contents for some or all of the rest.
    fn take_other(&mut self, numbers: &mut Numbers, rows: &[u16]) {
        match numbers.within(0, 3) {
            0 => fill_any(numbers, &mut self.old),
            _ => fill_near(numbers, rows, &mut self.old),
        }
        let some = numbers.one_in(2);
        self.own = self.own.map(|_| some && numbers.one_in(2));
    }

    /// Makes the setting one that is refused, mostly with 1, 2, 3, 4, 5 and 16 in
    /// this order, or one that only the new width accepts.
    fn spoil_setting(&mut self, numbers: &mut Numbers, wrong: u64) {
        let setting = &mut self.old.setting;
        let free = 2 * setting[N] * setting[TRC];
        match wrong {
            0 => self.leave_range(numbers),
            1 => setting[W] = numbers.pick(&[2, free]),
            2 => setting[TD] = numbers.pick(&[setting[TRC] - 1, setting[W] / 2 + 1]).max(1),
            3 => *setting = long(numbers),
            4 => setting[L] = bound(setting).map_or(1, |bound| numbers.pick(&[1, bound - 1])),
            5 => {
                setting[MARK] = 1;
                setting[BANKS] = numbers.within(5, 16);
            }
            _ => *setting = great(numbers),
        }
    }

    /// Takes a field out of its range at the old limits, or other seeds, which are
    /// mostly refused.
    fn leave_range(&mut self, numbers: &mut Numbers) {
        let outside = [
            (W, 3),
            (N, 0),
            (N, 32_769),
            (N, 1 << 20),
            (Q, 0),
            (Q, 256),
            (BANKS, 17),
            (THREADS, 33),
            (MARK, 2),
            (MARK, 1 << 32),
        ];
        if numbers.one_in(3) {
            self.old.seeds = odd_seeds(numbers);
        } else {
            let (field, value) = numbers.pick(&outside);
            self.old.setting[field] = value;
        }
    }

    /// Makes a buffer too short.
    fn cut(&mut self, numbers: &mut Numbers, buffer: usize) {
        let [counters, ticks, rows, threads] = used(&OLD, &self.old.setting);
        let used = [counters, counters, ticks, rows, threads][buffer];
        let length = numbers
            .pick(&[0, 1, used / 2, used - 1, used - 1])
            .min(used - 1);
        let state = &mut self.old.state;
        match buffer {
            0 => state.counters.truncate(length),
            1 => self.counters = self.counters.min(length),
            2 => state.ticks.truncate(length),
            3 => state.rows.truncate(length),
            _ => state.threads.truncate(length),
        }
        self.short = Some(buffer);
    }

    /// Its arguments in short, with the cells of the five buffers.
    pub fn arguments(&self) -> String {
        let Late { old, own, .. } = self;
        let (setting, state) = (&old.setting, &old.state);
        let cells = [
            state.counters.len(),
            self.counters,
            state.ticks.len(),
            state.rows.len(),
            state.threads.len(),
        ];
        let seeds = old.seeds.len();
        format!("late change-over of {setting:?}, {seeds} seeds, cells {cells:?}, own {own:?}")
    }

    /// What it is given where the calls work on this memory.
    pub fn given(&self, state: &State) -> Lent {
        let mut given = self.old.clone();
        self.copy_own(state, &mut given.state);
        given
    }

    /// Does the second implementation without a fault refuse it?
    fn is_refused(&self, lent: &Lent) -> bool {
        let mut second = Second {
            lent: lent.clone(),
            fault: Fault::None,
        };
        self.of_second(&mut self.given(&lent.state), &mut second) != 0
    }

    /// Makes it with the second implementation, `given` being what it is given. What
    /// a fault changes of the calls' own memory is changed there too.
    pub fn of_second(&self, given: &mut Lent, second: &mut Second) -> u32 {
        let (config, saved) = given.parts(second.fault);
        let state = &mut second.lent.state;
        let number = change_over(&config, saved, &mut state.counters[..self.counters]);
        self.copy_own(saved, state);
        number
    }

    /// Makes it with the library, on the memory of the calls and, where it is given
    /// others, on `other`.
    pub fn of_library(&self, memory: &mut Memory, other: &Memory) -> u32 {
        let Counters::New(counters) = &mut memory.counters else {
            panic!("the memory is not of the new width");
        };
        let mut given = Given::of(other);
        let [head, ticks, rows, threads] = self.own;
        if head {
            given.head = memory.head.cells();
        }
        if ticks {
            given.ticks = &memory.ticks.cells()[..given.ticks.len()];
        }
        if rows {
            given.rows = &memory.rows.cells()[..given.rows.len()];
        }
        if threads {
            given.threads = &memory.threads.cells()[..given.threads.len()];
        }
        library::change_over(&given, &mut counters.cells_mut()[..self.counters])
    }

    /// Copies what is the calls' own, as far as both have cells of it.
    fn copy_own(&self, from: &State, to: &mut State) {
        let [head, ticks, rows, threads] = self.own;
        copy(head, &from.head, &mut to.head);
        copy(ticks, &from.ticks, &mut to.ticks);
        copy(rows, &from.rows, &mut to.rows);
        copy(threads, &from.threads, &mut to.threads);
    }
}

/// Copies the cells that both buffers have, if they are to be copied.
fn copy<T: Copy>(wanted: bool, from: &[T], to: &mut [T]) {
    if wanted {
        let cells = from.len().min(to.len());
        to[..cells].copy_from_slice(&from[..cells]);
    }
}
