//! Small runs: a setting, memory set up or of any contents, and calls.

use super::{Numbers, BANKS, L, N, Q, TD, THREADS, W};
use second::setting::{history_length, house_seeds, row_bound};
use second::{done, index, request, setup, Config, Setting, State};

/// The kind of a set-up, which only some runs have.
pub const SETUP: u64 = 9;

/// One call of a run: kind 0 is a done, 1 an index reading, `SETUP` a set-up, any
/// other a request.
#[derive(Clone, Copy)]
pub struct Call {
    pub kind: u64,
    pub tick: u64,
    pub bank: u64,
    pub thread: u64,
    pub row: u16,
}

/// A setting, the memory it starts from and the calls.
pub struct Run {
    pub setting: Setting,
    pub seeds: Vec<u16>,
    pub state: State,
    pub calls: Vec<Call>,
}

/// A small setting, accepted or short of its row bound; at times N is above a
/// byte. In one case of three it has the mark of the small profile, if that takes
/// it.
pub fn setting(numbers: &mut Numbers) -> Setting {
    let trc = numbers.within(1, 3);
    let n = if numbers.one_in(20) {
        300
    } else {
        numbers.within(1, 3)
    };
    let w = 2 * (n * trc + numbers.within(4, 20));
    let td = numbers.within(trc, w / 2);
    let tfaw = numbers.within(1, 9);
    let q = numbers.within(1, 5);
    let many = if numbers.one_in(10) { 16 } else { 3 };
    let (banks, threads) = (numbers.within(1, many), numbers.within(1, 2));
    let fits = banks <= 4 && 4 * td.div_ceil(tfaw) <= 1_024;
    let mark = u64::from(fits && numbers.one_in(3));
    let mut setting = [w, trc, tfaw, n, td, 1, q, banks, threads, mark];
    let bound = row_bound(&Config::new(setting, &[])).unwrap() as u64;
    let spare = numbers.within(0, 8);
    setting[L] = if spare == 8 { bound - 1 } else { bound + spare };
    setting
}

/// Memory just long enough for a setting, accepted or not.
pub fn fresh(setting: &Setting) -> State {
    let h = history_length(&Config::new(*setting, &[])).unwrap() as usize;
    let (banks, threads) = (setting[BANKS] as usize, setting[THREADS] as usize);
    State {
        head: [0; 22],
        counters: vec![0; banks * 2048],
        ticks: vec![0; h],
        rows: vec![0; h],
        threads: vec![0; banks * threads * 3],
    }
}

/// Fills memory with contents that are mostly sound.
fn fill(numbers: &mut Numbers, setting: &Setting, state: &mut State) {
    let last = state.head[0];
    let h = state.ticks.len() as u64;
    let mut near = |many| match numbers.within(0, many) {
        0 => last + 2,
        1 => last + 1,
        2 => 0,
        k => (last + 1).saturating_sub(k / 2),
    };
    for cell in 2..22 {
        state.head[cell] = near(40);
    }
    let mut ticks: Vec<u64> = (0..h).map(|_| near(300)).collect();
    ticks.sort_unstable();
    let top = if numbers.one_in(9) { h } else { h - 1 };
    state.head[1] = numbers.within(0, top);
    ticks.rotate_right((state.head[1] % h) as usize);
    state.ticks = ticks;
    for word in &mut state.rows {
        *word = (numbers.within(0, setting[BANKS]) * 65_536 + numbers.within(0, 2)) as u32;
    }
    for cell in &mut state.counters {
        *cell = numbers.within(0, setting[N] + 2) as u32;
    }
    for cell in &mut state.threads {
        let top = if numbers.one_in(5) { 20 } else { 1 };
        *cell = numbers.within(0, top) as u32;
    }
    for thread in 0..setting[THREADS] {
        if numbers.one_in(2) {
            spread(numbers, setting, thread, &mut state.threads);
        }
    }
}

/// Spreads up to Q + 1 requests in flight of a thread over the banks. In one
/// case of four the sum is greater by 2^32.
fn spread(numbers: &mut Numbers, setting: &Setting, thread: u64, cells: &mut [u32]) {
    let place = |bank| ((bank * setting[THREADS] + thread) * 3 + 2) as usize;
    let last = setting[BANKS] - 1;
    for bank in 0..=last {
        cells[place(bank)] = 0;
    }
    for _ in 0..numbers.within(0, setting[Q] + 1) {
        cells[place(numbers.within(0, last))] += 1;
    }
    if last > 0 && numbers.one_in(4) {
        let bank = numbers.within(0, last - 1);
        cells[place(bank)] += 1 << 31;
        cells[place(numbers.within(bank + 1, last))] += 1 << 31;
    }
}

/// A setting with a history of 132 places, that is three blocks of 64 or less.
const LONG: Setting = [80, 1, 1, 1, 33, 8, 3, 1, 1, 0];

/// Fills a long history with large ticks that rise evenly but for one place: a
/// fall by one, a fall to small ticks, or empty places before it.
fn fill_long(numbers: &mut Numbers, state: &mut State) {
    let h = state.ticks.len() as u64;
    let last = 3 << 62;
    let place = numbers.within(0, h - 1);
    let at = match numbers.within(0, 2) {
        0 => h - place.max(1),
        1 => 64,
        _ => numbers.within(1, h - 1),
    };
    let bend = numbers.within(0, 3);
    let stored = |age: u64| match bend {
        0 if age == at => last - 2 * (h - at) - 1,
        1 if age >= at => age,
        2 if age < at => 0,
        _ => last - 2 * (h - 1 - age),
    };
    state.ticks = (0..h).map(stored).collect();
    state.ticks.rotate_right(place as usize);
    state.head[0] = last;
    state.head[1] = place;
}

/// The calls of a run from a first tick on.
fn calls(numbers: &mut Numbers, setting: &Setting, mut tick: u64) -> Vec<Call> {
    let mut call = || {
        tick = match numbers.within(0, 11) {
            0..=4 => tick,
            5..=8 => tick + 1,
            9 => tick + numbers.within(1, setting[TD]),
            10 => (tick / (setting[W] / 2) + numbers.within(1, 3)) * (setting[W] / 2),
            _ => tick.saturating_sub(numbers.within(0, 1)),
        };
        let outside = u64::from(numbers.one_in(20));
        Call {
            kind: numbers.within(0, 5),
            tick,
            bank: numbers.within(0, setting[BANKS] - 1 + outside),
            thread: numbers.within(0, setting[THREADS] - 1),
            row: numbers.within(0, 2) as u16,
        }
    };
    (0..40).map(|_| call()).collect()
}

/// A run on a small setting, at times on one with a long history.
pub fn run(seed: u64) -> Run {
    let numbers = &mut Numbers::new(seed);
    let long = numbers.one_in(8);
    let setting = if long { LONG } else { setting(numbers) };
    run_on(numbers, setting, long)
}

/// A run on a setting; `long` is for the history of the setting that has one.
pub fn run_on(numbers: &mut Numbers, setting: Setting, long: bool) -> Run {
    let mut seeds = house_seeds();
    if numbers.one_in(3) {
        seeds.iter_mut().for_each(|seed| *seed %= 4);
    }
    let mut state = fresh(&setting);
    if long {
        fill_long(numbers, &mut state);
    } else if numbers.one_in(2) {
        state.head[0] = numbers.within(0, 200);
        fill(numbers, &setting, &mut state);
    } else if numbers.one_in(8) {
        state.head[0] = (1 << 62) - numbers.within(1, 20);
    }
    let calls = calls(numbers, &setting, state.head[0]);
    Run {
        setting,
        seeds,
        state,
        calls,
    }
}

/// What a call returns and writes: the refusal and the cells of `out`.
pub fn answer(config: &Config, state: &mut State, call: &Call) -> (u32, [u64; 3]) {
    let Call {
        tick,
        bank,
        thread,
        row,
        ..
    } = *call;
    let mut out = [7; 3];
    let number = match call.kind {
        0 => done(config, state, tick, bank, thread),
        1 => index(config, state, tick, bank, thread, &mut out),
        SETUP => setup(config, state),
        _ => request(config, state, tick, bank, thread, row, &mut out),
    };
    (number, out)
}
