//! The memory the throttle works on: the state head and the four lent
//! buffers, with the refusals about them (6 and 7). The filter counters are
//! numbers of up to 32 bits; in the old width each is below 65,536.

use crate::fault::Fault;
use crate::setting::Rules;

/// Head cell of the last tick, stored as it is.
pub const LAST: usize = 0;
/// Head cell of the next history place.
pub const PLACE: usize = 1;
/// First of 16 head cells: each bank's last activation, stored plus one.
pub const BANK: usize = 2;
/// First of four head cells: the rank's last activations, newest first.
pub const RANK: usize = 18;

/// History places of the old width at most, beyond which a fault of the new one
/// does not go.
pub const FEW: usize = 4_096;

/// Offset of in flight among the three cells of a thread in a bank; 0 and 1
/// are its index counters of filter 0 and 1.
pub const IN_FLIGHT: usize = 2;

/// The state head and the lent buffers. Kept ticks are stored plus one, and 0
/// means none.
#[derive(Clone, Debug, PartialEq, Eq)]
pub struct State {
    pub head: [u64; 22],
    /// [bank * 2048 + filter * 1024 + place]
    pub counters: Vec<u32>,
    /// History buffer: stored ticks.
    pub ticks: Vec<u64>,
    /// History buffer: bank * 65,536 + row.
    pub rows: Vec<u32>,
    /// [(bank * threads + thread) * 3 + k]
    pub threads: Vec<u32>,
}

impl State {
    /// Cleared memory, exactly as long as this setting uses.
    pub fn cleared(rules: &Rules) -> Self {
        State {
            head: [0; 22],
            counters: vec![0; counters_used(rules)],
            ticks: vec![0; rules.h],
            rows: vec![0; rules.h],
            threads: vec![0; threads_used(rules)],
        }
    }

    /// Clears the used parts and the head.
    pub fn clear(&mut self, rules: &Rules) {
        let counters = match rules.fault {
            Fault::WideSetupClearsHalf if rules.wide => counters_used(rules) / 2,
            _ => counters_used(rules),
        };
        let places = match rules.fault {
            Fault::WideSetupClearsFew if rules.wide => rules.h.min(FEW),
            _ => rules.h,
        };
        self.head = [0; 22];
        self.counters[..counters].fill(0);
        self.ticks[..places].fill(0);
        self.rows[..places].fill(0);
        self.threads[..threads_used(rules)].fill(0);
    }

    /// Refusal 6: a buffer too short.
    pub fn too_short(&self, rules: &Rules) -> bool {
        self.counters.len() < counters_used(rules)
            || self.ticks.len() < rules.h
            || self.rows.len() < rules.h
            || self.threads.len() < threads_used(rules)
    }

    /// Refusal 7: a history place of H or more, a kept tick after the last
    /// tick, or stored history ticks that rise when read back.
    pub fn unsound(&self, rules: &Rules) -> bool {
        self.place_outside(rules) || self.kept_after_last(rules) || self.rises(rules)
    }

    /// Is the next history place H or more?
    pub fn place_outside(&self, rules: &Rules) -> bool {
        let places = match rules.fault {
            Fault::WidePlaceRefused if rules.wide => rules.h.min(FEW),
            _ => rules.h,
        };
        self.head[PLACE] >= places as u64
    }

    /// Is a kept tick of a bank, of the rank or of the history after the last?
    pub fn kept_after_last(&self, rules: &Rules) -> bool {
        let banks = if rules.has(Fault::LooksAtForeignBanks) {
            16
        } else {
            rules.banks
        };
        let last = self.head[LAST];
        let after = |&stored: &u64| {
            if rules.has(Fault::KeptTickOffByOne) {
                return stored > last;
            }
            stored != 0 && stored - 1 > last
        };
        let places = if rules.has_wide(Fault::WideTestStops) {
            rules.h.min(FEW)
        } else {
            rules.h
        };
        self.head[BANK..BANK + banks].iter().any(after)
            || self.head[RANK..RANK + 4].iter().any(after)
            || self.ticks[..places].iter().any(after)
    }

    /// Do the stored history ticks rise anywhere, read from the newest place
    /// back? Needs a history place below H.
    pub fn rises(&self, rules: &Rules) -> bool {
        let before = |place: usize| if place == 0 { rules.h - 1 } else { place - 1 };
        let mut newer = before(self.head[PLACE] as usize);
        let pairs = if rules.has(Fault::WrapPairIsRise) {
            rules.h
        } else {
            rules.h - 1
        };
        (0..pairs).any(|_| {
            let older = before(newer);
            let rise = self.rise(rules, newer, older);
            newer = older;
            rise
        })
    }

    /// Do the stored ticks rise from one history place to the older one?
    fn rise(&self, rules: &Rules, newer: usize, older: usize) -> bool {
        let place = self.head[PLACE] as usize;
        let start = if newer < place { 0 } else { place };
        let (new, old) = (self.ticks[newer], self.ticks[older]);
        match rules.fault {
            Fault::EqualIsRise => old > new || new != 0 && old == new,
            Fault::WrapPairMissed => old > new && newer != 0,
            Fault::BlockEndMissed => {
                old > new && (newer == start || !(newer - start).is_multiple_of(64))
            }
            Fault::LargeRiseMissed => old > new && old - new <= 1 << 63,
            Fault::LargeGapIsRise => old > new || new - old >= 1 << 58,
            Fault::WideTestStops if rules.wide => old > new && newer.max(older) < FEW,
            _ => old > new,
        }
    }
}

/// First counter of a filter of a bank.
pub fn filter_start(rules: &Rules, bank: usize, filter: usize) -> usize {
    if rules.has_wide(Fault::WideBanksOverlap) {
        return bank * 1024 + filter * 1024;
    }
    bank * 2048 + filter * 1024
}

/// Filter counters in use: two filters of 1,024 for each bank.
pub fn counters_used(rules: &Rules) -> usize {
    rules.banks * 2 * 1024
}

/// Thread counters in use: three for each bank and thread.
pub fn threads_used(rules: &Rules) -> usize {
    rules.banks * rules.threads * 3
}

/// First of the three cells of a thread in a bank.
pub fn thread_cell(rules: &Rules, bank: usize, thread: usize) -> usize {
    (bank * rules.threads + thread) * 3
}
