//! Spans of every length: the bound against figures worked out by hand from the
//! sentence of document 02, against the row bound at W, and against the formula with
//! counted epochs; the refusals and their order; and wrong bounds, each of which
//! shows.

mod common;

use common::wide::{CHIP, HISTORY, THRESHOLD};
use common::*;
use second::setting::row_bound;
use second::{span_bound, Config, Fault, Setting, NEW};

/// What `out` holds before a call.
const BEFORE: u64 = 777;
/// BlockHammer's timing with an accepted threshold: E is 128,000,000, N * tRC
/// 757,760, and E - N * tRC just 4,096 delays.
const TABLE_ONE: Setting = [256_000_000, 185, 140, 4_096, 31_065, 16_384, 255, 16, 8, 0];

/// The number that the call returns, and `out` after it.
fn found(setting: &Setting, x: u64, fault: Fault) -> (u32, u64) {
    let mut out = [BEFORE];
    (span_bound(setting, x, fault, &mut out), out[0])
}

/// Asserts the bounds of an accepted setting.
fn bounds(setting: &Setting, wanted: &[(u64, u64)]) {
    for &(x, bound) in wanted {
        assert_eq!(found(setting, x, Fault::None), (0, bound), "X {x}");
    }
}

/// E is 20. Up to X 2 the second form holds; F is 2 up to X 21, 4 up to X 61, 6 up
/// to X 101 and 8 from there to X 141.
#[test]
fn setting_s() {
    let wanted = [
        (1, 1),       // X - 1 is 0: 1 + 0
        (2, 2),       // 1 + 1
        (3, 3),       // 2 is F * tRC: 2 + 1 + 0
        (5, 3),       // 3 + floor(2/6)
        (8, 3),       // 3 + floor(5/6)
        (9, 4),       // 3 + floor(6/6)
        (19, 5),      // 3 + floor(16/6)
        (20, 5),      // 3 + floor(17/6)
        (21, 6),      // m is 2 still: 3 + floor(18/6)
        (22, 7),      // m is 3: 5 + floor(17/6)
        (39, 10),     // 5 + floor(34/6)
        (40, 10),     // 5 + floor(35/6), which is B
        (41, 11),     // 5 + floor(36/6)
        (60, 14),     // m is 4: 5 + floor(55/6)
        (61, 14),     // 5 + floor(56/6)
        (62, 16),     // m is 5: 7 + floor(55/6)
        (80, 19),     // 7 + floor(73/6)
        (81, 19),     // 7 + floor(74/6)
        (101, 22),    // m is 6: 7 + floor(94/6)
        (102, 24),    // m is 7: 9 + floor(93/6)
        (141, 31),    // m is 8: 9 + floor(132/6)
        (1_001, 211), // m is 51 and F 52: 53 + floor(948/6)
    ];
    bounds(&S, &wanted);
    bounds(&S, &[(u64::MAX, 3_843_071_682_022_823_255)]);
}

/// The bounds of the table-one setting: each form, and each side of its turns.
#[test]
fn table_one() {
    let wanted = [
        (1, 1),
        (185, 1),         // 1 + floor(184/185)
        (186, 2),         // 1 + floor(185/185)
        (757_760, 4_096), // 1 + floor(757,759/185)
        (757_761, 4_097), // 4,096 + 1 + 0
        (788_825, 4_097), // 4,097 + floor(31,064/31,065)
        (788_826, 4_098),
        (128_000_000, 8_192),  // m is 2: 4,097 + 4,095
        (128_000_001, 8_193),  // 4,097 + 4,096, just
        (128_000_002, 12_264), // m is 3: 8,193 + floor(126,484,481/31,065)
        (255_999_999, 16_384),
        (256_000_000, 16_384), // B
        (256_000_001, 16_385), // 8,193 + 8,192, just
        (384_000_001, 20_505), // m is 4: 8,193 + floor(382,484,480/31,065)
        (384_000_002, 24_577), // m is 5: 12,289 + floor(381,726,721/31,065)
    ];
    bounds(&TABLE_ONE, &wanted);
    bounds(&TABLE_ONE, &[(u64::MAX, 887_201_396_613_024)]);
}

/// A setting with 2 * N * tRC = W - 2, so that the second form holds again just
/// after E: E is 100, N * tRC 99.
#[test]
fn the_second_form_after_an_epoch() {
    let setting = [200, 33, 1, 3, 40, 8, 4, 1, 1, 0];
    let wanted = [
        (99, 3),   // 98 < 99: 1 + floor(98/33)
        (100, 4),  // 99 is F * tRC: 3 + 1 + 0
        (101, 4),  // 4 + floor(1/40)
        (102, 4),  // m is 3 and F * tRC 198: 1 + floor(101/33)
        (133, 5),  // 1 + floor(132/33)
        (198, 6),  // 1 + floor(197/33)
        (199, 7),  // 198 is F * tRC: 6 + 1 + 0
        (200, 7),  // 7 + floor(1/40)
        (239, 8),  // 7 + floor(40/40)
        (301, 9),  // m is 4: 7 + floor(102/40)
        (302, 10), // m is 5 and F * tRC 297: 10 + floor(4/40)
    ];
    bounds(&setting, &wanted);
}

/// The greatest numbers: N 2^20 and tRC 511, with N * tRC just below E.
#[test]
fn great_numbers() {
    let most = [
        1 << 30,
        511,
        65_535,
        1 << 20,
        536_862_720,
        2_097_153,
        255,
        16,
        32,
        0,
    ];
    let wanted = [
        (1, 1),
        (1 << 29, 1_048_577),       // F is 2^20, and 1,048,575 ticks are left
        ((1 << 29) + 1, 1_048_577), // m is 2 still
        ((1 << 29) + 2, 1_050_629), // F * tRC is above: 1 + floor(536,870,913/511)
        (1 << 30, 2_097_153),       // B
        (1 << 32, 5_242_884),       // m is 9 and F 5 * 2^20: F + 1 + 3
        (1 << 63, 9_007_207_862_632_706),
        (u64::MAX, 18_014_415_724_216_836),
    ];
    bounds(&most, &wanted);
}

#[test]
fn at_w_it_is_the_row_bound() {
    let numbers = &mut Numbers::new(3);
    let mut settings = vec![S, TABLE_ONE, CHIP, THRESHOLD, HISTORY];
    settings.extend((0..2_000).map(|_| any(numbers)));
    let mut accepted = 0;
    for setting in settings {
        let (number, bound) = found(&setting, setting[W], Fault::None);
        assert_eq!(number, refusal_within(NEW, setting, &[0; 64]));
        if number == 0 {
            let row_bound = row_bound(&Config::new(setting, &[])).unwrap();
            assert_eq!(u128::from(bound), row_bound, "{setting:?}");
            accepted += 1;
        }
    }
    assert!(accepted > 500, "{accepted}");
}

/// The epochs that X ticks can have a part in, counted one by one: a span that
/// begins with the last tick of an epoch, and then goes through whole ones.
fn epochs(setting: &Setting, x: u64) -> u64 {
    let epoch = setting[W] / 2;
    let (mut many, mut ticks) = (1, 1);
    while ticks < x {
        ticks += epoch;
        many += 1;
    }
    many
}

/// The bound with epochs counted, free activations added one by one for each second
/// epoch that is begun, and delayed ones counted.
fn counted(setting: &Setting, x: u64) -> u64 {
    let [_, trc, _, n, td, ..] = *setting;
    let mut free = 0;
    for epoch in 0..epochs(setting, x) {
        free += if epoch % 2 == 0 { n } else { 0 };
    }
    let mut many = 1;
    let mut at = 0;
    if free * trc < x {
        (many, at) = (free + 1, free * trc);
    }
    let gap = if many > 1 { td } else { trc };
    while at + gap < x {
        at += gap;
        many += 1;
    }
    many
}

#[test]
fn every_span_counted() {
    let numbers = &mut Numbers::new(4);
    let mut spans = 0;
    while spans < 40_000 {
        let setting = any(numbers);
        if refusal_within(NEW, setting, &[0; 64]) != 0 || setting[W] > 200 {
            continue;
        }
        let mut before = 0;
        for x in 1..=3 * setting[W] + 3 {
            let wanted = counted(&setting, x);
            assert_eq!(
                found(&setting, x, Fault::None),
                (0, wanted),
                "{x} {setting:?}"
            );
            assert!(wanted >= before, "{x} {setting:?}");
            spans += 1;
            before = wanted;
        }
    }
}

#[test]
fn refusals_in_their_order() {
    let of = |changes: &[(usize, u64)], x| found(&s_with(changes), x, Fault::None);
    let wrong: [(u32, &[(usize, u64)]); 12] = [
        (1, &[(Q, 0)]),
        (1, &[(W, 41)]),
        (1, &[(N, (1 << 20) + 1)]),
        (1, &[(MARK, 2)]),
        (1, &[(TD, 0), (L, 1)]),
        (2, &[(N, 20), (TD, 21), (L, 1)]),
        (3, &[(TD, 21), (L, 1)]),
        (3, &[(TRC, 7), (TD, 6)]),
        (4, &[(W, 40_000), (TFAW, 1), (TD, 8_193), (L, 1)]),
        (5, &[(L, 9)]),
        (5, &[(L, 9), (BANKS, 5), (MARK, 1)]),
        (16, &[(BANKS, 5), (MARK, 1)]),
    ];
    for (number, changes) in wrong {
        for x in [1, 2, 40, 1 << 32, u64::MAX] {
            assert_eq!(of(changes, x), (number, BEFORE), "{changes:?} X {x}");
        }
        assert_eq!(of(changes, 0), (1, BEFORE), "{changes:?} X 0");
    }
    assert_eq!(of(&[], 0), (1, BEFORE));
    assert_eq!(of(&[(BANKS, 4), (MARK, 1)], 40), (0, 10));
    // The limits are those of the new width.
    assert_eq!(found(&THRESHOLD, 1, Fault::None), (0, 1));
    assert_eq!(found(&HISTORY, 40_000, Fault::None), (0, 9));
    assert_eq!(found(&CHIP, 256_000_000, Fault::None), (0, 1_024));
    assert_eq!(
        found(&with(HISTORY, &[(TD, 8_193)]), 1, Fault::None),
        (4, BEFORE)
    );
}

/// A small setting, mostly accepted, or one around the bounds of refusals.
fn any(numbers: &mut Numbers) -> Setting {
    let trc = numbers.within(1, 6);
    let n = numbers.within(1, 5);
    let w = 2 * (n * trc + numbers.within(0, 12));
    let td = numbers.within(trc.saturating_sub(1), w / 2 + 1);
    let mut setting = [w, trc, numbers.within(1, 9), n, td, 1, 4, 1, 1, 0];
    setting[BANKS] = numbers.within(1, 6);
    setting[MARK] = numbers.within(0, 1);
    let bound = row_bound(&Config::new(setting, &[])).unwrap_or(2 * u128::from(n));
    setting[L] = (bound as u64 + numbers.within(0, 3)).saturating_sub(1);
    match numbers.within(0, 24) {
        0 => setting[MARK] = [2, 256, 1 << 32][numbers.within(0, 2) as usize],
        1 => setting[Q] = [0, 256][numbers.within(0, 1) as usize],
        2 => setting[TD] = (1 << 29) + 1,
        _ => {}
    }
    setting
}

/// Settings at the limits of the new width, and real ones.
fn at_limits() -> Vec<Setting> {
    let mut settings = vec![S, TABLE_ONE, CHIP];
    for n in [32_768, 32_769, 1 << 20, (1 << 20) + 1] {
        settings.push(with(THRESHOLD, &[(N, n)]));
    }
    for (td, mark) in [
        (1_024, 0),
        (1_025, 0),
        (8_192, 0),
        (8_193, 0),
        (256, 1),
        (257, 1),
    ] {
        settings.push(with(HISTORY, &[(TD, td), (MARK, mark), (L, 400)]));
    }
    // Several refusals at once.
    settings.push(with(HISTORY, &[(TD, 8_193), (L, 1)]));
    settings.push(with(HISTORY, &[(BANKS, 5), (MARK, 1), (N, 20_000)]));
    settings.push(s_with(&[(N, 20), (TD, 21)]));
    settings.push(s_with(&[(BANKS, 5), (MARK, 1), (L, 9)]));
    settings
}

/// Spans of every kind for a setting.
fn spans(numbers: &mut Numbers, setting: &Setting) -> Vec<u64> {
    let [w, trc, _, n, ..] = setting.map(|word| word.min(1 << 40));
    let near = numbers.within(0, 3);
    let any = numbers.within(0, (1 << 53) - 1) << numbers.within(0, 11);
    let mut spans = vec![0, 1, 2, trc, trc + 1, w, 1 << 32, 1 << 63, u64::MAX, any];
    for k in [1, 2, 3, 4, 7, 1 << 22] {
        spans.push((k * (w / 2) + near).saturating_sub(1));
        spans.push((k * n * trc + near).saturating_sub(1));
    }
    spans.extend([(1 << 32) + near, (1 << 63) + any % 1_000, u64::MAX - near]);
    spans
}

/// Each wrong bound and each wrong refusal shows.
#[test]
fn wrong_bounds() {
    assert!(Fault::SPAN.len() >= 32 && Fault::SPAN_REFUSALS.len() >= 28);
    let numbers = &mut Numbers::new(5);
    let mut settings = at_limits();
    settings.extend((0..1_500).map(|_| any(numbers)));
    let cases: Vec<(Setting, Vec<u64>)> = settings
        .into_iter()
        .map(|setting| (setting, spans(numbers, &setting)))
        .collect();
    for &fault in [Fault::SPAN, Fault::SPAN_REFUSALS].concat().iter() {
        let shows =
            |setting: &Setting, x: u64| found(setting, x, fault) != found(setting, x, Fault::None);
        let seen = cases
            .iter()
            .any(|(setting, spans)| spans.iter().any(|&x| shows(setting, x)));
        assert!(seen, "{fault:?} does not show");
    }
}

/// `>` for `>=` in the case changes nothing: where X - 1 is F * tRC both forms give
/// F + 1.
#[test]
fn both_forms_at_the_turn() {
    for (setting, f) in [(S, 2), (TABLE_ONE, 4_096), (CHIP, 400)] {
        let x = f * setting[TRC] + 1;
        for fault in [Fault::None, Fault::SpanFirstAlways, Fault::SpanSecondAlways] {
            assert_eq!(found(&setting, x, fault), (0, f + 1), "{fault:?}");
        }
    }
}
