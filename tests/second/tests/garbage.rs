//! Lent memory of any contents, and the refusals with their order.

mod common;

use common::*;
use second::setting::{accept, house_seeds};
use second::{setup, Config, State};

#[test]
fn refusals_of_the_setting() {
    let seeds = house_seeds();
    let of = |field, value| refusal(s_with(&[(field, value)]), &seeds);
    for field in 0..10 {
        let least = if field == MARK { 0 } else { 1 };
        assert_eq!(of(field, 0), least);
        assert_eq!(of(field, u64::MAX), 1);
    }
    assert_eq!(of(W, 41), 1);
    assert_eq!(of(W, 2), 2);
    assert_eq!(of(TRC, 10), 2);
    assert_eq!(of(TRC, 9), 3);
    assert_eq!(refusal(s_with(&[(TRC, 7), (L, 60)]), &seeds), 3);
    assert_eq!(of(TD, 21), 3);
    assert_eq!(
        refusal(s_with(&[(W, 1 << 20), (TD, 4097), (TFAW, 4)]), &seeds),
        4
    );
    assert_eq!(
        refusal(s_with(&[(W, 1 << 20), (TD, 4096), (TFAW, 4)]), &seeds),
        5
    );
    let wide = [(W, 1 << 20), (TD, 4096), (TFAW, 4), (L, 1 << 24)];
    assert_eq!(refusal(s_with(&wide), &seeds), 0);
}

#[test]
fn seeds_other_than_64_words_of_ten_bits() {
    let mut seeds = house_seeds();
    assert_eq!(refusal(S, &seeds[..63]), 1);
    seeds.push(0);
    assert_eq!(refusal(S, &seeds), 1);
    seeds.pop();
    seeds[63] = 1023;
    assert_eq!(refusal(S, &seeds), 0);
    seeds[63] = 1024;
    assert_eq!(refusal(S, &seeds), 1);
}

#[test]
fn a_refused_setting_is_refused_by_every_call() {
    let mut throttle = Throttle::new(S);
    throttle.setting[L] = 9;
    throttle.state.counters.clear();
    throttle.all_refused(5, 0, 9, 9);
    assert_eq!(throttle.setup(), 5);
}

#[test]
fn short_buffers() {
    let cut: [fn(&mut State); 4] = [
        |state| state.counters.truncate(2047),
        |state| state.ticks.truncate(7),
        |state| state.rows.truncate(7),
        |state| state.threads.truncate(2),
    ];
    for cut in cut {
        let mut throttle = Throttle::new(S);
        throttle.state.head[1] = 99;
        cut(&mut throttle.state);
        let before = throttle.state.clone();
        throttle.all_refused(6, 0, 9, 9);
        assert_eq!(throttle.setup(), 6);
        assert_eq!(throttle.state, before);
    }
}

#[test]
fn setup_clears_used_parts_and_head_only() {
    let seeds = house_seeds();
    let config = Config::new(S, &seeds);
    let mut state = State {
        head: [u64::MAX; 22],
        counters: vec![7; 2050],
        ticks: vec![7; 10],
        rows: vec![7; 9],
        threads: vec![7; 5],
    };
    assert_eq!(setup(&config, &mut state), 0);
    let mut expected = State::cleared(&accept(&config).unwrap());
    expected.counters.extend([7, 7]);
    expected.ticks.extend([7, 7]);
    expected.rows.push(7);
    expected.threads.extend([7, 7]);
    assert_eq!(state, expected);
}

#[test]
fn the_rest_of_a_buffer_is_never_touched() {
    let mut plain = Throttle::new(S);
    let mut longer = Throttle::new(S);
    longer.state.counters.extend([9; 3000]);
    longer.state.ticks.extend([u64::MAX; 3]);
    longer.state.rows.extend([5; 4]);
    longer.state.threads.extend([3; 6]);
    for tick in [0, 1, 2, 7, 25, 26, 40, 41, 100] {
        assert_eq!(plain.five(tick), longer.five(tick));
        assert_eq!(plain.done(tick, 0, 0), longer.done(tick, 0, 0));
    }
    assert_eq!(longer.state.counters[2048..], [9; 3000]);
    assert_eq!(longer.state.ticks[8..], [u64::MAX; 3]);
    assert_eq!(longer.state.rows[8..], [5; 4]);
    assert_eq!(longer.state.threads[3..], [3; 6]);
    assert_eq!(longer.state.ticks[..8], plain.state.ticks);
}

#[test]
fn an_empty_history_place_is_no_activation_of_row_0() {
    let mut throttle = Throttle::new(S);
    throttle.state.counters[0] = 60_000;
    throttle.state.counters[1024] = 60_000;
    assert_eq!(throttle.at(0, 0, 0, 0), OPENED);
    assert_eq!(
        (throttle.state.counters[0], throttle.state.counters[1024]),
        (60_000, 60_000)
    );
    assert_eq!(throttle.state.threads, [1, 1, 1]);
}

#[test]
fn the_fourth_rank_cell_is_taken_whatever_its_order() {
    let mut throttle = Throttle::new(S);
    throttle.state.head[0] = 9;
    throttle.state.head[18..].copy_from_slice(&[1, 0, 3, 10]);
    assert_eq!(throttle.five(10), Ok([2, 13]));
    throttle.state.head[18..].copy_from_slice(&[10, 11, 11, 1]);
    assert_eq!(throttle.five(10), OPENED);
    assert_eq!(throttle.state.head[18..], [11, 10, 11, 11]);
}

#[test]
fn head_cells_of_banks_outside_the_setting() {
    let mut throttle = Throttle::new(S);
    throttle.state.head[3..18].fill(u64::MAX);
    assert_eq!(throttle.five(4), OPENED);
    assert_eq!(throttle.state.head[2], 5);
    assert_eq!(throttle.state.head[3..18], [u64::MAX; 15]);
    throttle.state.head[2] = 6;
    throttle.all_refused(7, 4, 0, 0);
}

#[test]
fn last_tick_of_2_to_the_62_or_more() {
    for last in [1 << 62, u64::MAX - 1, u64::MAX] {
        let mut throttle = Throttle::new(S);
        throttle.state.head[0] = last;
        throttle.state.ticks.fill(last.saturating_add(1));
        throttle.state.head[18] = last;
        for tick in [0, (1 << 62) - 1, 1 << 62, u64::MAX] {
            throttle.all_refused(9, tick, 0, 0);
        }
    }
    let mut throttle = Throttle::new(S);
    throttle.state.head[0] = u64::MAX - 2;
    throttle.state.head[21] = u64::MAX;
    throttle.all_refused(7, 0, 0, 0);
    throttle.state.head[21] = 0;
    throttle.all_refused(9, 1 << 62, 0, 0);
}

#[test]
fn wait_ticks_beyond_the_limit_are_not_clipped() {
    let top = (1 << 62) - 1;
    let mut throttle = Throttle::new(S);
    throttle.all_refused(9, top + 1, 0, 0);
    for tick in [top - 1, top] {
        assert_eq!(throttle.five(tick), OPENED);
    }
    assert_eq!(throttle.five(top), Ok([1, top + 6]));
}

#[test]
fn index_answers_the_raw_cell() {
    let mut throttle = Throttle::new(S);
    throttle.state.threads = vec![u32::MAX, 3, u32::MAX];
    assert_eq!(throttle.index(0, 0, 0), Ok([u64::from(u32::MAX), 8, 0]));
    assert_eq!(throttle.five(1), Ok([4, 0]));
    assert_eq!(throttle.done(1, 0, 0), 0);
    assert_eq!(throttle.state.threads, [u32::MAX, 3, u32::MAX - 1]);
    assert_eq!(throttle.index(20, 0, 0), Ok([3, 8, 2]));
    assert_eq!(throttle.state.threads, [0, 3, u32::MAX - 1]);
}

#[test]
fn index_counters_stop_at_d() {
    let mut throttle = Throttle::new(S);
    throttle.state.counters.fill(2);
    throttle.state.threads = vec![0, 8, 0];
    assert_eq!(throttle.five(0), OPENED);
    assert_eq!(throttle.state.threads, [1, 8, 1]);
    assert_eq!(throttle.state.head[2], 1);
}

#[test]
fn history_that_rises() {
    let unsound = |place: u64, ticks: [u64; 8]| {
        let mut throttle = Throttle::new(S);
        throttle.state.head[0] = 50;
        throttle.state.head[1] = place;
        throttle.state.ticks = ticks.to_vec();
        throttle.five(60) == Err(7)
    };
    assert!(!unsound(3, [6, 7, 8, 1, 2, 3, 4, 5]));
    assert!(!unsound(3, [6, 6, 6, 6, 6, 6, 6, 6]));
    assert!(!unsound(0, [0, 0, 0, 0, 1, 2, 3, 51]));
    assert!(!unsound(2, [9, 9, 0, 0, 0, 0, 0, 0]));
    assert!(unsound(3, [9, 9, 0, 0, 0, 0, 0, 0]));
    assert!(unsound(0, [0, 0, 0, 0, 1, 2, 3, 52]));
    assert!(unsound(2, [6, 7, 8, 1, 2, 3, 4, 5]));
    assert!(unsound(8, [0; 8]));
    assert!(unsound(u64::MAX, [0; 8]));
}

#[test]
fn refusals_7_to_10_in_their_order() {
    let mut throttle = Throttle::new(S);
    throttle.state.head[0] = 30;
    throttle.all_refused(8, 0, 1, 0);
    throttle.all_refused(8, 0, 0, 1);
    throttle.all_refused(8, 0, u64::MAX, u64::MAX);
    throttle.all_refused(9, 29, 0, 0);
    throttle.state.head[1] = 8;
    throttle.all_refused(7, 0, 9, 9);
    throttle.state.head[1] = 0;
    assert_eq!(throttle.done(30, 0, 0), 10);
}

#[test]
fn a_refused_done_clears_nothing() {
    let mut throttle = Throttle::new(S);
    throttle.state.counters.fill(5);
    throttle.state.threads = vec![4, 4, 0];
    let before = throttle.state.clone();
    assert_eq!(throttle.done(1000, 0, 0), 10);
    assert_eq!(throttle.state, before);
}

#[test]
fn epoch_turns_clear_every_bank_and_thread() {
    let mut throttle = Throttle::new(s_with(&[(BANKS, 2), (THREADS, 2), (L, 30)]));
    throttle.state.counters.fill(5);
    throttle.state.threads.fill(4);
    assert_eq!(throttle.index(20, 0, 0), Ok([4, 28, 3]));
    for bank in throttle.state.counters.chunks(2048) {
        assert_eq!((bank[0], bank[1023], bank[1024], bank[2047]), (0, 0, 5, 5));
    }
    assert_eq!(throttle.state.threads, [0, 4, 4].repeat(4));
    assert_eq!(throttle.index(60, 0, 0), Ok([0, 28, 4]));
    assert!(throttle.state.counters.iter().all(|&counter| counter == 0));
    assert_eq!(throttle.state.threads, [0, 0, 4].repeat(4));
}

#[test]
fn the_activation_at_tick_0_is_kept() {
    let mut throttle = Throttle::new(S);
    assert_eq!(throttle.five(0), OPENED);
    assert_eq!(throttle.state.head[..3], [0, 1, 1]);
    assert_eq!(throttle.five(0), Ok([1, 1]));
}
