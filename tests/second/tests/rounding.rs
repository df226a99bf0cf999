//! The quota: Q * (D - min(c, D))/D to the nearest whole request, an exact half
//! to the even one; the requests that this decides; and logs whose answers were
//! made with the quota rounded down.

mod common;

use common::*;
use second::quota::quota;
use second::setting::{accept, house_seeds};
use second::{Config, Fault};

/// The quota with this Q and D where the counter is c. N is 1, so that D may be
/// 2 and more.
fn quota_with(fault: Fault, q: u64, d: u64, c: u64) -> u64 {
    let seeds = house_seeds();
    let config = Config::new([4, 1, 1, 1, 2, d + 1, q, 1, 1, 0], &seeds).with(fault);
    let rules = accept(&config).unwrap();
    assert_eq!(rules.d, d);
    quota(&rules, c)
}

fn of(q: u64, d: u64, c: u64) -> u64 {
    quota_with(Fault::None, q, d, c)
}

#[test]
fn an_exact_half_goes_to_the_even_number() {
    assert_eq!(of(1, 8, 4), 0); // 0.5
    assert_eq!(of(2, 8, 2), 2); // 1.5
    assert_eq!(of(3, 8, 4), 2); // 1.5
    assert_eq!(of(4, 8, 3), 2); // 2.5
    assert_eq!(of(5, 8, 4), 2); // 2.5
    assert_eq!(of(4, 8, 1), 4); // 3.5
    assert_eq!(of(5, 10, 1), 4); // 4.5
    assert_eq!(of(1, 2, 1), 0); // 0.5, the least D
    assert_eq!(of(253, 2, 1), 126); // 126.5
    assert_eq!(of(255, 2, 1), 128); // 127.5
}

#[test]
fn another_value_goes_to_the_nearest_number() {
    assert_eq!(of(4, 8, 2), 3); // 3
    assert_eq!(of(4, 10, 2), 3); // 3.2
    assert_eq!(of(4, 9, 1), 4); // 3.56
    assert_eq!(of(5, 9, 1), 4); // 4.44
    assert_eq!(of(1, 8, 3), 1); // 0.625
    assert_eq!(of(1, 8, 5), 0); // 0.375
    assert_eq!(of(3, 8, 1), 3); // 2.625
}

#[test]
fn a_counter_of_d_or_more_gives_0() {
    for c in [8, 9, 100, u64::from(u32::MAX)] {
        assert_eq!(of(4, 8, c), 0);
        assert_eq!(of(255, 8, c), 0);
    }
}

#[test]
fn the_greatest_q_and_d() {
    // 255 * 65,793 = 2^24 - 1, so that the quota is (D - c)/65,793, rounded.
    let d = (1 << 24) - 1;
    assert_eq!((of(255, d, 0), of(255, d, 1)), (255, 255));
    assert_eq!((of(255, d, d - 1), of(255, d, d)), (0, 0));
    for k in 0..255 {
        let below_half = k * 65_793 + 32_896;
        assert_eq!(of(255, d, d - below_half), k);
        assert_eq!(of(255, d, d - below_half - 1), k + 1);
    }
    let d = (1 << 24) - 2;
    for (q, around) in [(255, [128, 128, 127]), (253, [127, 126, 126])] {
        let half = d / 2;
        assert_eq!([half - 1, half, half + 1].map(|c| of(q, d, c)), around);
    }
}

/// No number of requests is nearer, of two at the same distance it is the even
/// one, and the quota falls from Q to 0 as the counter rises.
#[test]
fn every_small_q_d_and_c() {
    for (q, d) in (1..=12).flat_map(|q| (2..=40).map(move |d| (q, d))) {
        assert_eq!((of(q, d, 0), of(q, d, d + 1)), (q, 0));
        for c in 0..=d {
            let twice = (2 * of(q, d, c) * d).abs_diff(2 * q * (d - c));
            assert!(
                twice < d || twice == d && of(q, d, c).is_multiple_of(2),
                "{q} {d} {c}"
            );
            assert!(of(q, d, c + 1) <= of(q, d, c), "{q} {d} {c}");
        }
    }
}

#[test]
fn wrong_roundings() {
    // 0.5, 2.5, 3.2, 3.5, 3.56 and 4.5
    let cases = [
        (1, 8, 4),
        (4, 8, 3),
        (4, 10, 2),
        (4, 8, 1),
        (4, 9, 1),
        (5, 10, 1),
    ];
    let faults = [
        (Fault::None, [0, 2, 3, 4, 4, 4]),
        (Fault::QuotaRoundsDown, [0, 2, 3, 3, 3, 4]),
        (Fault::QuotaRoundsUp, [1, 3, 4, 4, 4, 5]),
        (Fault::QuotaHalfUp, [1, 3, 3, 4, 4, 5]),
        (Fault::QuotaHalfDown, [0, 2, 3, 3, 4, 4]),
        (Fault::QuotaHalfToOdd, [1, 3, 3, 3, 4, 5]),
        (Fault::QuotaKeepsOne, [1, 2, 3, 4, 4, 4]),
    ];
    for (fault, quotas) in faults {
        let found = cases.map(|(q, d, c)| quota_with(fault, q, d, c));
        assert_eq!(found, quotas, "{fault:?}");
    }
}

/// With as many in flight as the value rounded down, a request is held where
/// the value is rounded down, and opened where it is rounded up.
#[test]
fn requests_that_the_rounding_decides() {
    let cases = [
        (1, 8, 4, true),
        (3, 8, 4, false),
        (4, 8, 3, true),
        (4, 8, 1, false),
        (5, 10, 1, true),
        (4, 9, 1, false),
        (4, 10, 2, true),
    ];
    for (q, d, c, held) in cases {
        let mut throttle = Throttle::new(s_with(&[(Q, q), (L, d + 2)]));
        let whole = q * (d - c) / d;
        throttle.state.threads = vec![c as u32, 0, whole as u32];
        let answer = if held { 4 } else { 0 };
        assert_eq!(throttle.five(3), Ok([answer, 0]), "{q} {d} {c}");
    }
}

#[test]
fn a_log_of_the_old_rounding_differs_where_the_two_decide_differently() {
    for [old, new] in where_old_logs_differ(S, Fault::QuotaRoundsDown) {
        assert!(old == 4 && new != 4, "{old} {new}");
    }
}
