//! The sample runs of the specification that concern the model.

mod common;

use common::*;
use second::filter::hash;
use second::setting::{history_length, house_seeds, row_bound};
use second::{Config, Setting};

fn bound_and_length(setting: Setting) -> (Option<u128>, Option<u128>) {
    let config = Config::new(setting, &[]);
    (row_bound(&config), history_length(&config))
}

#[test]
fn bound_and_history_of_s() {
    assert_eq!(bound_and_length(S), (Some(10), Some(8)));
    assert_eq!(refusal(S, &house_seeds()), 0);
    assert_eq!(refusal(s_with(&[(L, 9)]), &house_seeds()), 5);
}

#[test]
fn history_length_where_the_delay_is_no_multiple() {
    let (_, length) = bound_and_length(s_with(&[(TD, 36), (TFAW, 35)]));
    assert_eq!(length, Some(8));
}

#[test]
fn bounds_of_real_settings() {
    let bound = |n, td| {
        let changes = [(W, 256_000_000), (TRC, 185), (N, n), (TD, td)];
        bound_and_length(s_with(&changes)).0
    };
    assert_eq!(bound(4_096, 31_065), Some(16_384));
    assert_eq!(bound(4_096, 31_064), Some(16_385));
    assert_eq!(bound(8_192, 31_065), Some(24_528));
}

#[test]
fn hashes_of_rows_3_and_0() {
    let seeds = house_seeds();
    assert_eq!(seeds.len(), 64);
    assert_eq!(hash(&seeds, 3)[..2], [177, 312]);
    assert_eq!(hash(&seeds, 0), [0; 4]);
}

#[test]
fn activation_of_row_0_adds_1() {
    let mut throttle = Throttle::new(S);
    assert_eq!(throttle.at(0, 0, 0, 0), OPENED);
    let counters = &throttle.state.counters;
    assert_eq!((counters[0], counters[1024]), (1, 1));
    assert_eq!(counters.iter().sum::<u32>(), 2);
}

#[test]
fn row_5_at_0_1_2_7_8() {
    let mut throttle = Throttle::new(S);
    assert_eq!(throttle.five(0), OPENED);
    assert_eq!(throttle.five(1), OPENED);
    assert_eq!(throttle.five(2), wait_row(7));
    assert_eq!(throttle.five(7), OPENED);
    assert_eq!(throttle.index(7, 0, 0), Ok([1, 8, 4]));
    assert_eq!(throttle.state.threads[2], 3);
    assert_eq!(throttle.five(8), wait_row(13));
}

#[test]
fn with_q_3_the_request_at_8_is_held() {
    let mut throttle = Throttle::new(s_with(&[(Q, 3)]));
    for tick in [0, 1, 7] {
        assert_eq!(throttle.five(tick), OPENED);
    }
    assert_eq!(throttle.index(7, 0, 0), Ok([1, 8, 3]));
    assert_eq!(throttle.five(8), QUOTA);
}

#[test]
fn wait_ends_at_the_epoch_turn() {
    let mut throttle = Throttle::new(S);
    for tick in [18, 19, 37] {
        assert_eq!(throttle.five(tick), OPENED);
        assert_eq!(throttle.done(tick, 0, 0), 0);
    }
    assert_eq!(throttle.five(38), wait_row(40));
    assert_eq!(throttle.five(40), OPENED);
}

#[test]
fn wait_goes_on_in_the_new_epoch() {
    let mut throttle = Throttle::new(S);
    assert_eq!(throttle.five(18), OPENED);
    assert_eq!(throttle.five(19), OPENED);
    assert_eq!(throttle.five(21), wait_row(25));
    assert_eq!(throttle.five(25), OPENED);
}

#[test]
fn tick_5_after_6() {
    let mut throttle = Throttle::new(S);
    assert_eq!(throttle.five(6), OPENED);
    assert_eq!(throttle.five(5), Err(9));
    throttle.all_refused(9, 5, 0, 0);
}

#[test]
fn done_on_a_fresh_state() {
    let mut throttle = Throttle::new(S);
    let before = throttle.state.clone();
    assert_eq!(throttle.done(3, 0, 0), 10);
    assert_eq!(throttle.state, before);
}

#[test]
fn bank_then_rank_name_the_cause() {
    let mut throttle = Throttle::new(s_with(&[(BANKS, 4), (THREADS, 2), (TRC, 2), (L, 30)]));
    for (bank, row) in [(0, 1), (1, 2), (2, 3), (3, 4)] {
        assert_eq!(throttle.at(10, bank, 0, row), OPENED);
    }
    assert_eq!(throttle.at(11, 0, 1, 9), Ok([1, 14]));
    assert_eq!(throttle.at(12, 0, 1, 9), Ok([2, 14]));
    assert_eq!(throttle.at(14, 0, 1, 9), OPENED);
    assert_eq!(throttle.state.head[18..], [15, 11, 11, 11]);
}
