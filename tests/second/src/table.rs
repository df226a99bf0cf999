//! Hash by bytes: a constant table with the hashes of rows under the house seeds.
//! Each of the four functions has 512 words, one for each value of a row's high
//! byte and one for each value of its low byte, and a row's hash is the exclusive
//! or of its two words. The table is taken where all 64 seeds are the house seeds.
//! Under any others the seed rule of `filter` holds, which gives the same hashes
//! under the house seeds too.

use crate::fault::Fault;
use crate::setting::{house_seed, HOUSE};

/// Words of a function.
const FUNCTION: usize = 512;
/// Where the words of the low byte begin among those of a function; those of the
/// high byte stand before them.
const LOW: usize = 256;

/// Word f * 512 + v is function f of the row v * 256, and word f * 512 + 256 + v
/// that of the row v.
pub static WORDS: [u16; 2_048] = words();

/// Makes the words, one bit of the row after the other from the lowest. The bit
/// doubles the values that a byte has: a value in which it is the highest has the
/// word of the value without it, changed by the seed of the bit.
const fn words() -> [u16; 2_048] {
    let mut words = [0; 2_048];
    let mut step = 0;
    while step < 64 {
        let (function, bit) = (step / 16, step % 16);
        let start = function * FUNCTION + if bit < 8 { LOW } else { 0 };
        let known = 1 << (bit % 8);
        let mut value = 0;
        while value < known {
            words[start + known + value] = words[start + value] ^ house_seed(function, bit);
            value += 1;
        }
        step += 1;
    }
    words
}

/// Are these the house seeds? Only a fault leaves some of them out.
pub fn is_house(seeds: &[u16], fault: Fault) -> bool {
    let equal = |k: &usize| seeds[*k] == HOUSE[*k];
    let in_part = |bits: u16| (0..64).all(|k| (seeds[k] ^ HOUSE[k]) & bits == 0);
    if seeds.len() != 64 {
        return false;
    }
    match fault {
        Fault::HouseFirstLeftOut => (1..64).all(|k| equal(&k)),
        Fault::HouseMiddleLeftOut => (0..64).all(|k| k == 29 || equal(&k)),
        Fault::HouseLastLeftOut => (0..63).all(|k| equal(&k)),
        Fault::HouseFirstFunctionOnly => (0..16).all(|k| equal(&k)),
        Fault::HouseLastFunctionLeftOut => (0..48).all(|k| equal(&k)),
        Fault::HouseFirstOfEachOnly => (0..64).step_by(16).all(|k| equal(&k)),
        Fault::HouseInAnyOrder => sorted(seeds) == sorted(&HOUSE),
        Fault::HouseLowBytesOnly => in_part(0x00FF),
        Fault::HouseHighestBitIgnored => in_part(0x01FF),
        Fault::HouseLowestBitIgnored => in_part(0xFFFE),
        Fault::HouseOneMayDiffer => (0..64).filter(equal).count() >= 63,
        Fault::HouseOneIsEnough => (0..64).any(|k| equal(&k)),
        Fault::HouseAlways => true,
        _ => *seeds == HOUSE,
    }
}

fn sorted(seeds: &[u16]) -> Vec<u16> {
    let mut seeds = seeds.to_vec();
    seeds.sort_unstable();
    seeds
}

/// The four counters of a row under the house seeds: for each function the
/// exclusive or of the words of its high and of its low byte.
pub fn hash(row: u16, fault: Fault) -> [usize; 4] {
    let [high, low] = match fault {
        Fault::BytesExchanged => row.to_le_bytes(),
        _ => row.to_be_bytes(),
    };
    std::array::from_fn(|function| {
        let start = function * FUNCTION;
        let first = word(start + usize::from(high), fault);
        let second = word(start + LOW + usize::from(low), fault);
        usize::from(match fault {
            Fault::BytesLowOnly => second,
            Fault::BytesHighOnly => first,
            Fault::BytesOred => first | second,
            Fault::BytesAdded => (first + second) % 1_024,
            _ => first ^ second,
        })
    })
}

/// The word at a place. Only a fault gives another.
fn word(place: usize, fault: Fault) -> u16 {
    match fault {
        Fault::BytesHighAsLow => WORDS[place | LOW],
        Fault::BytesShifted => WORDS[place / 256 * 256 + (place + 1) % 256],
        Fault::BytesZeroForOne if place / FUNCTION == 1 => WORDS[place - FUNCTION],
        Fault::BytesFirstWordWrong if place == 0 => WORDS[place] ^ 1,
        Fault::BytesMiddleWordWrong if place == 1_000 => WORDS[place] ^ 512,
        Fault::BytesLastWordWrong if place == 2_047 => WORDS[place] ^ 16,
        Fault::BytesCut => WORDS[place] % 256,
        _ => WORDS[place],
    }
}
