//! What a list of calls works on: a width, a setting with its seeds, and memory of
//! some lengths.

use crate::numbers::Numbers;
use crate::settings::{history, BANKS, THREADS};
use second::{Config, Fault, Limits, Setting, State, NEW};

/// The limits stand for the width.
#[derive(Clone, Debug)]
pub struct Lent {
    pub limits: Limits,
    pub setting: Setting,
    pub seeds: Vec<u16>,
    pub state: State,
}

impl Lent {
    /// Cleared memory for a setting, accepted or not: as long as it uses, or, in
    /// some cases, with buffers longer or one cell short.
    pub fn cleared(
        numbers: &mut Numbers,
        limits: Limits,
        setting: Setting,
        seeds: Vec<u16>,
    ) -> Self {
        let mut lengths = used(&limits, &setting);
        match numbers.within(0, 15) {
            0 => {
                let short = numbers.pick(&lengths_to_cut());
                for (length, _) in lengths.iter_mut().zip(short).filter(|(_, cut)| *cut) {
                    *length = length.saturating_sub(1);
                }
            }
            1 => lengths[numbers.within(0, 3) as usize] = 0,
            2..=8 => {
                for length in &mut lengths {
                    *length += numbers.within(0, 5) as usize;
                }
            }
            _ => {}
        }
        Lent {
            limits,
            setting,
            seeds,
            state: zeros(lengths),
        }
    }

    /// Cleared memory that is just as long as a setting uses.
    pub fn exact(limits: Limits, setting: Setting, seeds: Vec<u16>) -> Self {
        Lent {
            limits,
            setting,
            seeds,
            state: zeros(used(&limits, &setting)),
        }
    }

    /// The setting as the second implementation takes it, and the memory.
    pub fn parts(&mut self, fault: Fault) -> (Config<'_>, &mut State) {
        let config = Config::new(self.setting, &self.seeds)
            .within(self.limits)
            .with(fault);
        (config, &mut self.state)
    }

    /// Places of the history, as far as memory is lent for it.
    pub fn places(&self) -> usize {
        history(&self.limits, &self.setting)
    }

    /// Is it of the new width?
    pub fn is_wide(&self) -> bool {
        self.limits == NEW
    }

    /// The greatest number that a filter counter can hold.
    pub fn greatest(&self) -> u32 {
        if self.is_wide() {
            u32::MAX
        } else {
            u32::from(u16::MAX)
        }
    }
}

/// The cells that a setting uses: filter counters, history ticks and rows, and
/// thread counters.
pub fn used(limits: &Limits, setting: &Setting) -> [usize; 4] {
    let banks = setting[BANKS].min(16) as usize;
    let threads = setting[THREADS].min(32) as usize;
    let places = history(limits, setting);
    [banks * 2_048, places, places, banks * threads * 3]
}

/// Cleared memory of these lengths.
fn zeros([counters, ticks, rows, threads]: [usize; 4]) -> State {
    State {
        head: [0; 22],
        counters: vec![0; counters],
        ticks: vec![0; ticks],
        rows: vec![0; rows],
        threads: vec![0; threads],
    }
}

/// Which of the four buffers are one cell short: each alone, or all.
fn lengths_to_cut() -> [[bool; 4]; 5] {
    [
        [true, false, false, false],
        [false, true, false, false],
        [false, false, true, false],
        [false, false, false, true],
        [true; 4],
    ]
}
