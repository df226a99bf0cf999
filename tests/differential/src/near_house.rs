//! Seeds that are nearly the house seeds, and others, each with a name: a table
//! that is made for the house seeds must be taken for none of them.

use crate::numbers::Numbers;
use second::setting::house_seeds;

/// Seeds with a name.
pub type Named = (String, Vec<u16>);

/// The house seeds with one bit of one word changed.
pub fn changed(word: usize, bit: u32) -> Named {
    let mut seeds = house_seeds();
    seeds[word] ^= 1 << bit;
    let name = format!("the house seeds with bit {bit} of word {word} changed");
    (name, seeds)
}

/// Other seeds: of one value, the house seeds in other orders, some of them among
/// random ones, and random ones.
pub fn others(numbers: &mut Numbers) -> Vec<Named> {
    let mut all = vec![
        ("seeds of 0".to_string(), vec![0; 64]),
        ("seeds of 1,023".to_string(), vec![1_023; 64]),
    ];
    all.extend(orders().map(|(name, way)| {
        let mut seeds = house_seeds();
        way(&mut seeds);
        (format!("the house seeds {name}"), seeds)
    }));
    for _ in 0..8 {
        all.push(two_exchanged(numbers));
        all.push(("random seeds".to_string(), random(numbers)));
    }
    for function in 0..4 {
        let (alone, among) = (random(numbers), random(numbers));
        all.extend(parts(function, alone, among));
    }
    all
}

/// A way to bring seeds into another order.
type Way = fn(&mut [u16]);

/// Other orders of the house seeds. Where whole functions change places, a row has
/// the same four counters.
fn orders() -> [(&'static str, Way); 10] {
    [
        ("with functions 0 and 1 exchanged", |seeds| {
            let (first, second) = seeds.split_at_mut(16);
            first.swap_with_slice(&mut second[..16]);
        }),
        ("one function further", |seeds| seeds.rotate_left(16)),
        ("one function back", |seeds| seeds.rotate_right(16)),
        ("backwards", |seeds| seeds.reverse()),
        ("backwards in each function", |seeds| {
            seeds.chunks_mut(16).for_each(|part| part.reverse());
        }),
        ("with the bytes exchanged", |seeds| {
            seeds.chunks_mut(16).for_each(|part| part.rotate_left(8));
        }),
        ("one word further", |seeds| seeds.rotate_left(1)),
        ("with neighbours exchanged", |seeds| {
            seeds.chunks_mut(2).for_each(|two| two.swap(0, 1));
        }),
        ("sorted", |seeds| seeds.sort_unstable()),
        ("bit by bit", |seeds| {
            let house = house_seeds();
            (0..64).for_each(|k| seeds[k] = house[k % 4 * 16 + k / 4]);
        }),
    ]
}

/// The house seeds with two words of one function exchanged.
fn two_exchanged(numbers: &mut Numbers) -> Named {
    let mut seeds = house_seeds();
    let first = numbers.within(0, 3) as usize * 16;
    let one = numbers.within(0, 14) as usize;
    let two = numbers.within(one as u64 + 1, 15) as usize;
    seeds.swap(first + one, first + two);
    let name = format!(
        "the house seeds with words {} and {} exchanged",
        first + one,
        first + two
    );
    (name, seeds)
}

fn random(numbers: &mut Numbers) -> Vec<u16> {
    (0..64).map(|_| numbers.within(0, 1_023) as u16).collect()
}

/// The house seeds of one function among random ones, and all house seeds but
/// those of that function.
fn parts(function: usize, mut alone: Vec<u16>, among: Vec<u16>) -> [Named; 2] {
    let part = function * 16..function * 16 + 16;
    let mut without = house_seeds();
    alone[part.clone()].copy_from_slice(&without[part.clone()]);
    without[part.clone()].copy_from_slice(&among[part]);
    [
        (format!("house seeds in function {function} alone"), alone),
        (format!("house seeds but in function {function}"), without),
    ]
}
