//! The order of activations within one epoch, on memory of any contents. A group of
//! requests is made in several orders, each on the same memory: where the same ones
//! are opened, all filter counters are the same after it. And after a list of any
//! calls the filter counters are those that the second implementation's count gives,
//! one activation after the other, for the requests that were answered opened.

use crate::call::{Answer, Call, Kind};
use crate::contents::fill_near;
use crate::lent::Lent;
use crate::numbers::Numbers;
use crate::settings::{accepted, bound, seeds, BANKS, L, N, TD, TFAW, THREADS, W};
use crate::side::Side;
use crate::twins::any_call;
use second::filter::{after, hash};
use second::setting::accept;
use second::state::LAST;
use second::{Config, Limits, Setting, State};

/// Groups and lists that are tried, and calls of a list.
const GROUPS: u64 = 2_500;
const LISTS: u64 = 2_500;
const CALLS: usize = 24;
/// Orders of a group besides its own.
const ORDERS: usize = 6;
/// Most requests of a group.
const MOST: u64 = 6;
/// Rows that are asked for.
const ROWS: [u16; 6] = [0, 5, 6, 7, 2, 65_535];

/// What the groups reached.
#[derive(Debug, Default)]
pub struct Groups {
    /// Groups with two different rows or more that were opened.
    pub groups: u64,
    /// Orders of these whose counters were compared, and those in which other
    /// requests are opened.
    pub compared: u64,
    pub apart: u64,
    /// Groups all of whose requests were opened.
    pub whole: u64,
    /// Groups with a row that has a counter above N, and groups after which one of a
    /// row that was below N is N.
    pub above: u64,
    pub filled: u64,
}

/// What the lists reached: calls by how they ended.
#[derive(Debug, Default)]
pub struct Lists {
    pub lists: u64,
    pub opened: u64,
    pub held: u64,
    pub others: u64,
    pub refused: u64,
}

/// A request of a group: bank, thread and row.
type Request = (u64, u64, u16);

/// Tries groups of a width on sides that are made from what they work on, and stops
/// at the first difference.
pub fn groups<S: Side>(
    seed: u64,
    limits: Limits,
    make: impl Fn(&Lent) -> S,
) -> Result<Groups, String> {
    let numbers = &mut Numbers::new(seed);
    let mut told = Groups::default();
    for _ in 0..GROUPS {
        let Some(lent) = start(numbers, limits) else {
            continue;
        };
        let (ticks, group) = (ticks(numbers, &lent), group(numbers, &lent.setting));
        let (opened, counters) = carried_out(make(&lent), &ticks, &group);
        if !opened.iter().any(|one| *one != opened[0]) {
            continue;
        }
        told.groups += 1;
        told.whole += u64::from(opened.len() == group.len());
        note_cells(&lent, &counters, &opened, &mut told);
        for _ in 0..ORDERS {
            let other = shuffled(numbers, &group);
            let (others, found) = carried_out(make(&lent), &ticks, &other);
            if others != opened {
                told.apart += 1;
                continue;
            }
            told.compared += 1;
            if let Some(cell) = first_other(&found, &counters) {
                let setting = lent.setting;
                return Err(format!("{cell}: {group:?} and {other:?} on {setting:?}"));
            }
        }
    }
    Ok(told)
}

/// The first counter in which two contents differ.
fn first_other(found: &[u32], wanted: &[u32]) -> Option<String> {
    let place = (0..wanted.len()).find(|&place| found.get(place) != Some(&wanted[place]))?;
    let (found, wanted) = (found.get(place), wanted[place]);
    Some(format!("counters[{place}] is {found:?}, and {wanted}"))
}

/// Memory with odd contents, as long as it must be or longer, at the first tick of an
/// epoch; none where that is too late. Mostly nothing is in flight, and no thread has
/// an index.
fn start(numbers: &mut Numbers, limits: Limits) -> Option<Lent> {
    let setting = spaced(numbers, &limits);
    assert!(accepted(&limits, &setting), "{setting:?}");
    let mut lent = Lent::exact(limits, setting, seeds(numbers));
    let longer = numbers.within(0, 5) as usize;
    let state = &mut lent.state;
    state.counters.resize(state.counters.len() + longer, 0);
    state.threads.resize(state.threads.len() + longer, 0);
    state.ticks.resize(state.ticks.len() + longer, 0);
    state.rows.resize(state.rows.len() + longer, 0);
    fill_near(numbers, &ROWS, &mut lent);
    let (state, epoch) = (&mut lent.state, setting[W] / 2);
    if state.head[LAST] > 1 << 61 {
        return None;
    }
    state.head[LAST] = (state.head[LAST] / epoch + 1) * epoch;
    if !numbers.one_in(4) {
        state.threads.fill(0);
    }
    Some(lent)
}

/// An accepted setting in which so many requests as a group has, each after the gaps
/// of the one before, fit into an epoch; at times with a great threshold.
fn spaced(numbers: &mut Numbers, limits: &Limits) -> Setting {
    let trc = numbers.within(1, 3);
    let (td, tfaw) = (numbers.within(trc, 9), numbers.within(1, 12));
    let n = match numbers.within(0, 7) {
        0 => limits.threshold,
        1 => numbers.within(5, limits.threshold),
        _ => numbers.within(1, 5),
    };
    let w = 2 * (n * trc + (MOST + 3) * td.max(tfaw) + numbers.within(0, 50));
    let (banks, threads) = (numbers.within(1, 3), numbers.within(1, 2));
    let (q, mark) = (numbers.within(1, 6), numbers.within(0, 1));
    let mut setting = [w, trc, tfaw, n, td, 1, q, banks, threads, mark];
    setting[L] = bound(&setting).expect("W is large enough") + numbers.within(0, 9);
    setting
}

/// Ticks for a group, all in the epoch of the last tick: mostly with gaps after which
/// every rule passes, at times close to each other.
fn ticks(numbers: &mut Numbers, lent: &Lent) -> Vec<u64> {
    let gap = lent.setting[TD].max(lent.setting[TFAW]);
    let close = numbers.one_in(4);
    let mut tick = lent.state.head[LAST];
    let mut next = |k| {
        tick += match close && k > 0 {
            true => numbers.within(0, gap),
            false => gap,
        };
        tick
    };
    (0..MOST).map(&mut next).collect()
}

/// Two requests or more, often several for one row.
fn group(numbers: &mut Numbers, setting: &Setting) -> Vec<Request> {
    let rows = numbers.within(2, ROWS.len() as u64) as usize;
    let first = numbers.within(0, (ROWS.len() - rows) as u64) as usize;
    let many = numbers.within(2, MOST);
    let one = |_| {
        let bank = numbers.within(0, setting[BANKS] - 1);
        let thread = numbers.within(0, setting[THREADS] - 1);
        (bank, thread, numbers.pick(&ROWS[first..first + rows]))
    };
    (0..many).map(one).collect()
}

/// Another order.
fn shuffled(numbers: &mut Numbers, group: &[Request]) -> Vec<Request> {
    let mut group = group.to_vec();
    for k in (1..group.len()).rev() {
        group.swap(k, numbers.within(0, k as u64) as usize);
    }
    group
}

/// Makes the requests in this order, with a done after each that is opened. Which
/// rows were opened, sorted, and the filter counters.
fn carried_out(
    mut side: impl Side,
    ticks: &[u64],
    group: &[Request],
) -> (Vec<(usize, u16)>, Vec<u32>) {
    let mut opened = Vec::new();
    for (&tick, &(bank, thread, row)) in ticks.iter().zip(group) {
        let mut call = Call {
            kind: Kind::Request,
            tick,
            bank,
            thread,
            row,
        };
        if is_opened(&call, &side.call(&call)) {
            opened.push((bank as usize, row));
            call.kind = Kind::Done;
            side.call(&call);
        }
    }
    opened.sort_unstable();
    (opened, side.state().counters)
}

fn is_opened(call: &Call, answer: &Answer) -> bool {
    call.is_request() && answer.number == 0 && answer.out[0] == 0
}

/// Notes where the counters of the opened rows stood before, and where they came to.
fn note_cells(lent: &Lent, found: &[u32], opened: &[(usize, u16)], told: &mut Groups) {
    let (n, before) = (lent.setting[N] as u32, &lent.state.counters);
    let of_row = |&(bank, row): &(usize, u16)| {
        let both = move |place| [bank * 2_048 + place, bank * 2_048 + 1_024 + place];
        hash(&lent.seeds, row).into_iter().flat_map(both)
    };
    let cells: Vec<usize> = opened.iter().flat_map(of_row).collect();
    told.above += u64::from(cells.iter().any(|&cell| before[cell] > n));
    let filled = |&cell: &usize| before[cell] < n && found[cell] == n;
    told.filled += u64::from(cells.iter().any(filled));
}

/// Tries lists of calls of a width the same way.
pub fn lists<S: Side>(
    seed: u64,
    limits: Limits,
    make: impl Fn(&Lent) -> S,
) -> Result<Lists, String> {
    let numbers = &mut Numbers::new(seed);
    let mut told = Lists::default();
    for _ in 0..LISTS {
        let Some(lent) = start(numbers, limits) else {
            continue;
        };
        let mut side = make(&lent);
        let opened = called(numbers, &lent.setting, &mut side, &mut told);
        told.lists += 1;
        let wanted = folded(&lent, &opened);
        if let Some(cell) = first_other(&side.state().counters, &wanted) {
            let setting = lent.setting;
            return Err(format!("{cell} wanted: {opened:?} on {setting:?}"));
        }
    }
    Ok(told)
}

/// Makes calls within the epoch of the last tick; the rows that were answered opened,
/// in their order.
fn called(
    numbers: &mut Numbers,
    setting: &Setting,
    side: &mut impl Side,
    told: &mut Lists,
) -> Vec<(usize, u16)> {
    let mut last = side.state().head[LAST];
    let epoch = last / (setting[W] / 2);
    let mut opened = Vec::new();
    for _ in 0..CALLS {
        let mut call = any_call(numbers, setting, last);
        call.row = numbers.pick(&ROWS);
        if call.kind == Kind::Setup {
            call.kind = Kind::Request;
        }
        if call.tick / (setting[W] / 2) > epoch {
            call.tick = last + numbers.within(0, 1);
            call.tick = call.tick.min((epoch + 1) * (setting[W] / 2) - 1);
        }
        let answer = side.call(&call);
        if answer.number == 0 {
            last = call.tick;
        }
        match answer.number {
            0 if is_opened(&call, &answer) => {
                opened.push((call.bank as usize, call.row));
                told.opened += 1;
            }
            0 if call.is_request() => told.held += 1,
            0 => told.others += 1,
            _ => told.refused += 1,
        }
    }
    opened
}

/// The filter counters after these activations, by the second implementation.
fn folded(lent: &Lent, opened: &[(usize, u16)]) -> Vec<u32> {
    let config = Config::new(lent.setting, &lent.seeds).within(lent.limits);
    let before: &State = &lent.state;
    match accept(&config) {
        Ok(rules) => after(&rules, before, opened),
        Err(number) => panic!("{number}: {:?}", lent.setting),
    }
}
