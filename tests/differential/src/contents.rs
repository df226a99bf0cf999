//! Contents of lent memory of every kind, from cleared over odd but sound to
//! arbitrary.

use crate::lent::Lent;
use crate::numbers::Numbers;
use crate::settings::{BANKS, L, N, Q, TD, TFAW, THREADS, TRC, W};
use second::filter::hash;
use second::state::{BANK, LAST, PLACE, RANK};
use second::{Setting, State};

/// Fills memory with any bits. In half of the cases each, the history place is
/// below H, no kept tick is after the last, and all but a few history ticks
/// are none, so that every part of refusal 7 decides at times.
pub fn fill_any(numbers: &mut Numbers, lent: &mut Lent) {
    let (places, greatest) = (lent.places() as u64, lent.greatest());
    let state = &mut lent.state;
    state.head.fill_with(|| numbers.word());
    state
        .counters
        .fill_with(|| numbers.word() as u32 & greatest);
    state.ticks.fill_with(|| numbers.word());
    state.rows.fill_with(|| numbers.word() as u32);
    state.threads.fill_with(|| numbers.word() as u32);
    if numbers.one_in(2) {
        state.head[PLACE] %= places;
    }
    if numbers.one_in(2) {
        state.head[LAST] = u64::MAX - numbers.within(0, 1);
    }
    if numbers.one_in(2) && !state.ticks.is_empty() {
        state.ticks.fill(0);
        chain(numbers, &mut state.ticks);
    }
}

/// Writes a few neighbouring cells, each a step above the one before, where a
/// step may lie in the highest bits only or pass 2^64.
fn chain(numbers: &mut Numbers, ticks: &mut [u64]) {
    let mut place = below(numbers, ticks.len());
    let mut tick: u64 = 0;
    for _ in 0..numbers.within(1, 5) {
        let word = numbers.word();
        let step = numbers.pick(&[word, word >> 1, word >> 2, word >> 9, word << 56]);
        tick = tick.wrapping_add(step);
        ticks[place] = tick;
        place = (place + 1) % ticks.len();
    }
}

/// Fills memory with odd contents that refusal 7 lets pass, but for one case
/// in eight. The rows are those the calls will ask for.
pub fn fill_near(numbers: &mut Numbers, rows: &[u16], lent: &mut Lent) {
    let setting = lent.setting;
    let last = last_tick(numbers, &setting);
    let head = &mut lent.state.head;
    head[LAST] = last;
    for cell in &mut head[BANK..RANK + 4] {
        *cell = kept(numbers, &setting, last);
    }
    if numbers.one_in(3) {
        let foreign = setting[BANKS].min(16) as usize;
        head[BANK + foreign..RANK].fill_with(|| numbers.word());
    }
    fill_history(numbers, rows, lent);
    fill_counters(numbers, lent);
    if lent.seeds.len() == 64 && numbers.one_in(2) {
        stand_near_n(numbers, rows, lent);
    }
    fill_threads(numbers, &setting, &mut lent.state);
    if numbers.one_in(8) {
        spoil(numbers, lent);
    }
}

/// A last tick: early, near an epoch turn, around 2^62, around 2^64 - 1 or any.
fn last_tick(numbers: &mut Numbers, setting: &Setting) -> u64 {
    let w = setting[W].clamp(2, 1 << 30);
    match numbers.within(0, 16) {
        0 => (1 << 62) - 1 - numbers.within(0, 3),
        1 => (1 << 62) - 1 - numbers.within(0, 2 * w),
        2 => (1 << 62) + numbers.within(0, 2),
        3 => u64::MAX - numbers.within(0, 2),
        4 => numbers.within(0, 1 << 61),
        5 => 0,
        16 => numbers.word(),
        6..=9 => (w / 2 * numbers.within(1, 9)) - numbers.within(0, 2).min(w / 2),
        _ => numbers.within(0, 4 * w),
    }
}

/// A stored tick that is none or not after the last tick, often near the end
/// of one of the gaps.
fn kept(numbers: &mut Numbers, setting: &Setting, last: u64) -> u64 {
    let near = numbers.within(0, 2);
    let gap = match numbers.within(0, 11) {
        0 => return 0,
        1..=3 => numbers.within(0, 3),
        4 | 5 => setting[TRC].saturating_sub(near),
        6 | 7 => setting[TFAW].saturating_sub(near),
        8 | 9 => setting[TD].saturating_sub(near),
        10 => numbers.within(0, setting[TD].min(1 << 30) * 2),
        _ if numbers.one_in(2) => numbers.word() % last.max(1),
        _ => numbers.within(0, 40),
    };
    last.saturating_add(1).saturating_sub(gap)
}

/// A history whose stored ticks fall when read back, with rows that the calls
/// will ask for, in banks of the setting and one outside.
fn fill_history(numbers: &mut Numbers, rows: &[u16], lent: &mut Lent) {
    let (h, setting) = (lent.places(), lent.setting);
    let state = &mut lent.state;
    let last = state.head[LAST];
    let between = below(numbers, h);
    let place = numbers.pick(&[0, h - 1, between]);
    state.head[PLACE] = place as u64;
    let mut stored: Vec<u64> = (0..h).map(|_| kept(numbers, &setting, last)).collect();
    stored.sort_unstable();
    stored.rotate_right(place);
    let used = h.min(state.ticks.len());
    state.ticks[..used].copy_from_slice(&stored[..used]);
    state.ticks[used..].fill_with(|| numbers.word());
    for word in &mut state.rows {
        let bank = numbers.within(0, setting[BANKS].min(16)) as u32;
        *word = bank * 65_536 + u32::from(numbers.pick(rows));
    }
}

fn below(numbers: &mut Numbers, end: usize) -> usize {
    numbers.within(0, end as u64 - 1) as usize
}

/// Filter counters below, at and above N; in the new width also around 65,536.
fn fill_counters(numbers: &mut Numbers, lent: &mut Lent) {
    let greatest = u64::from(lent.greatest());
    let n = lent.setting[N].min(greatest);
    let style = numbers.within(0, if lent.is_wide() { 6 } else { 4 });
    lent.state.counters.fill_with(|| {
        let counter = match style {
            0 => n,
            1 => numbers.within(0, n + 2),
            2 => numbers.within(n.saturating_sub(1), n + 1),
            3 => numbers.pick(&[0, 1, n, greatest]),
            4 => numbers.word() & greatest,
            5 => numbers.within(65_534, 65_537),
            _ => numbers.pick(&[65_535, 65_536, 131_071, 1 << 20, (1 << 20) + 1, 1 << 31]),
        };
        counter.min(greatest) as u32
    });
}

/// The counters of these rows, in each filter of each bank on its own: one of
/// the four is around N, the others are not below it.
fn stand_near_n(numbers: &mut Numbers, rows: &[u16], lent: &mut Lent) {
    let greatest = u64::from(lent.greatest());
    let n = match lent.is_wide() && numbers.one_in(4) {
        true => 65_536,
        false => lent.setting[N].min(greatest),
    };
    for places in rows.iter().map(|&row| hash(&lent.seeds, row)) {
        for filter in lent.state.counters.chunks_mut(1_024) {
            let least = (n + numbers.within(0, 5)).saturating_sub(4);
            let at = numbers.within(0, 3) as usize;
            for (k, place) in places.into_iter().enumerate() {
                let above = numbers.pick(&[0, 1, 2, 60_000]) * u64::from(k != at);
                if let Some(counter) = filter.get_mut(place) {
                    *counter = (least + above).min(greatest) as u32;
                }
            }
        }
    }
}

/// Index counters below, at and above D, and the requests in flight of each
/// thread.
fn fill_threads(numbers: &mut Numbers, setting: &Setting, state: &mut State) {
    let d = top_of_index(setting) as u32;
    state.threads.fill_with(|| match numbers.within(0, 7) {
        0 => d,
        1 => d + 1,
        2 => d.saturating_sub(1),
        3 => u32::MAX,
        4 => numbers.within(0, u64::from(d)) as u32,
        _ => numbers.within(0, 2) as u32,
    });
    for thread in 0..setting[THREADS].min(32) {
        let cells = in_flight_cells(setting, thread, state.threads.len());
        if !cells.is_empty() {
            fill_in_flight(numbers, setting, &cells, &mut state.threads);
        }
    }
}

/// D, for a setting that is not accepted any number up to 2^24.
fn top_of_index(setting: &Setting) -> u64 {
    setting[L].min(1 << 24).saturating_sub(setting[N])
}

/// The cells of a thread's requests in flight, bank by bank, as far as the
/// buffer has them; none of a thread outside the setting.
pub fn in_flight_cells(setting: &Setting, thread: u64, length: usize) -> Vec<usize> {
    let threads = setting[THREADS].min(32);
    let banks = if thread < threads {
        setting[BANKS].min(16)
    } else {
        0
    };
    (0..banks)
        .map(|bank| ((bank * threads + thread) * 3 + 2) as usize)
        .filter(|&cell| cell < length)
        .collect()
}

/// Requests in flight of a thread, spread over the banks: few, around Q, or as
/// many as the quota where its rounding decides; or any numbers. In one case of
/// eight the sum is greater by 2^32, so that it is small in 32 bits only.
fn fill_in_flight(numbers: &mut Numbers, setting: &Setting, cells: &[usize], threads: &mut [u32]) {
    let q = setting[Q].clamp(1, 256);
    let total = match numbers.within(0, 9) {
        0..=4 => numbers.within(0, 2),
        5 => (q + numbers.within(0, 2)).saturating_sub(1),
        6..=8 => stand_at_half(numbers, q, top_of_index(setting), cells, threads),
        _ => {
            for &cell in cells {
                let any = numbers.word() as u32;
                threads[cell] = numbers.pick(&[0, 1, u32::MAX, any]);
            }
            return;
        }
    };
    for &cell in cells {
        threads[cell] = 0;
    }
    for _ in 0..total {
        threads[numbers.pick(cells)] += 1;
    }
    if cells.len() > 1 && numbers.one_in(8) {
        let first = below(numbers, cells.len());
        let second = (first + 1 + below(numbers, cells.len() - 1)) % cells.len();
        threads[cells[first]] += 1 << 31;
        threads[cells[second]] += 1 << 31;
    }
}

/// Index counters, in each bank, at or next to the one where the quota is a
/// whole number and a half, if there is one; returns that number or one more.
fn stand_at_half(
    numbers: &mut Numbers,
    q: u64,
    d: u64,
    cells: &[usize],
    threads: &mut [u32],
) -> u64 {
    let whole = numbers.within(0, q - 1);
    let c = d - d * (2 * whole + 1) / (2 * q);
    for &cell in cells {
        for counter in &mut threads[cell - 2..cell] {
            *counter = numbers.pick(&[c, c, c + 1, c.saturating_sub(1)]) as u32;
        }
    }
    whole + u64::from(numbers.one_in(4))
}

/// Makes one change that refusal 7 is about, or that lies next to it.
pub fn spoil(numbers: &mut Numbers, lent: &mut Lent) {
    let h = lent.places();
    let banks = lent.setting[BANKS].clamp(1, 16);
    let state = &mut lent.state;
    let after = state.head[LAST].saturating_add(numbers.within(1, 2));
    match numbers.within(0, 5) {
        0 => state.head[PLACE] = numbers.pick(&[h as u64, h as u64 + 1, 1 << 32, u64::MAX]),
        1 => state.head[PLACE] = state.head[PLACE].wrapping_add(1) % h as u64,
        2 => state.head[BANK + numbers.within(0, banks - 1) as usize] = after,
        3 => state.head[RANK + numbers.within(0, 3) as usize] = after,
        _ => {
            let place = below(numbers, h);
            if let Some(&tick) = state.ticks.get(place) {
                let flipped = tick ^ 1 << numbers.within(0, 63);
                state.ticks[place] = numbers.pick(&[after, 0, tick ^ 1, flipped]);
            }
        }
    }
}
