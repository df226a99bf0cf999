//! The bound of a span compared with the second implementation: settings of every
//! kind that the planner is tried with, with delays that are accepted and ones next
//! to them, settings at the bounds of both widths, and spans of every kind.

use crate::edges;
use crate::library;
use crate::memory::Guarded;
use crate::numbers::Numbers;
use crate::planner;
use crate::settings::{accepted, MARK, N, TD, TRC, W};
use second::plan::delays;
use second::span::is_first;
use second::{span_bound, Config, Fault, Setting, NEW, OLD};

/// Settings that are tried, and spans of each.
const SETTINGS: u64 = 20_000;
const SPANS: u64 = 10;
/// What `out` holds before a call.
const OUT: u64 = 0x1111_2222_3333_4444;

/// How many calls got each number, with mark 0 and with mark 1.
#[derive(Debug, Default)]
pub struct Told {
    pub numbers: [[u64; 17]; 2],
    /// Answered spans in the first form and in the second.
    pub forms: [u64; 2],
    /// Answered spans of more than an epoch in the second form.
    pub late: u64,
    /// Answered spans that are 1 longer than whole epochs, of one epoch or more.
    pub whole: u64,
    /// Answered spans of 2^32 ticks or more.
    pub great: u64,
    /// Answered spans of settings that the old width refuses.
    pub wide: u64,
    /// Spans of 0 ticks, of settings that are accepted and of others.
    pub zero: [u64; 2],
}

impl Told {
    fn note(&mut self, setting: &Setting, x: u64, number: u32) {
        if setting[MARK] < 2 {
            self.numbers[setting[MARK] as usize][number as usize] += 1;
        }
        if x == 0 {
            self.zero[usize::from(!accepted(&NEW, setting))] += 1;
        }
        if number != 0 {
            return;
        }
        let (first, epoch) = (is_first(setting, x, Fault::None), setting[W] / 2);
        self.forms[usize::from(!first)] += 1;
        self.late += u64::from(!first && x > epoch);
        self.whole += u64::from(x > epoch && (x - 1).is_multiple_of(epoch));
        self.great += u64::from(x >= 1 << 32);
        self.wide += u64::from(!accepted(&OLD, setting));
    }
}

/// Asks for bounds on both sides, the second implementation with a fault or without,
/// and stops at the first difference.
pub fn compare(seed: u64, fault: Fault) -> Result<Told, String> {
    let numbers = &mut Numbers::new(seed);
    let mut told = Told::default();
    for _ in 0..SETTINGS {
        let setting = any(numbers);
        for _ in 0..SPANS {
            let x = span(numbers, &setting);
            told.note(&setting, x, one(&setting, x, fault)?.0);
        }
    }
    for setting in edges::settings() {
        for x in [1, span(numbers, &setting), u64::MAX] {
            told.note(&setting, x, one(&setting, x, fault)?.0);
        }
    }
    Ok(told)
}

/// A setting that the planner is tried with. In two of three cases it has a delay
/// that is accepted, or one next to those.
fn any(numbers: &mut Numbers) -> Setting {
    let mut setting = planner::any(numbers, &NEW);
    let mut out = [0; 2];
    if !numbers.one_in(3) && delays(&Config::wide(setting, &[]), &mut out) == 0 {
        let [least, greatest] = out;
        let between = numbers.within(least, greatest);
        let last = numbers.pick(&[least, greatest, greatest + 1]);
        setting[TD] = numbers.pick(&[least - 1, least, between, between, last]);
    }
    setting
}

/// A span: short, next to whole epochs, next to the ticks of free activations, next
/// to W, 2^32 or 2^63, the longest, or any.
fn span(numbers: &mut Numbers, setting: &Setting) -> u64 {
    // Words that are far out of range, cut so that their products fit.
    let [w, trc, n] = [W, TRC, N].map(|field| setting[field].clamp(1, 1 << 20));
    let window = setting[W].clamp(2, 1 << 40);
    let near = numbers.within(0, 3);
    let any = numbers.word();
    let after = |ticks: u64| ticks.saturating_add(near).saturating_sub(1);
    match numbers.within(0, 15) {
        0 => near / 2,
        1 => near,
        2..=4 => after(window / 2 * numbers.within(1, 9)),
        5 | 6 => after(n * trc * numbers.within(1, 3)),
        7 => after(window),
        8 => after(1 << 32),
        9 => after(1 << 63),
        10 => u64::MAX - near,
        11 => after(any / (window / 2) * (window / 2)),
        12 => after(window / 2 + n * trc / 2 + any % w),
        13 => numbers.within(1, window),
        _ => any >> numbers.within(0, 63),
    }
}

/// Asks for one bound on both sides and compares; the number and what is written.
pub fn one(setting: &Setting, x: u64, fault: Fault) -> Result<(u32, u64), String> {
    let (words, mut lent) = (Guarded::new(setting), Guarded::new(&[OUT]));
    let number = library::span_bound(&words, x, &mut lent);
    let mut expected = [OUT];
    let wanted = span_bound(setting, x, fault, &mut expected);
    let found = lent.cells()[0];
    if (number, [found]) != (wanted, expected) {
        return Err(format!(
            "{number} {found}, expected {wanted} {expected:?}: X {x}, {setting:?}"
        ));
    }
    if words.cells() != setting || !words.intact() || !lent.intact() {
        return Err(format!(
            "setting or guard cells changed: X {x}, {setting:?}"
        ));
    }
    Ok((number, found))
}

/// The bound of the library for an accepted setting.
pub fn of_library(setting: &Setting, x: u64) -> u64 {
    let (words, mut out) = (Guarded::new(setting), Guarded::new(&[OUT]));
    let number = library::span_bound(&words, x, &mut out);
    assert_eq!(number, 0, "the bound of {x} ticks on {setting:?}");
    out.cells()[0]
}
