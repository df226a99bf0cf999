//! Logs for tests of the refusals of a cut-down log: of each number of records, with one
//! damage or two, each with the number that is to come and the one that it comes before.

use crate::cut_logs::{done, held, opened, S, WIDE};
use crate::log::{Record, BLOCK, BODY, MARK_BYTE, RECORDS, SUMS};
use crate::setting::{house_seeds, Setting};
use crate::write::{encode, seal};

/// Numbers of records around whole blocks and around 64.
pub const COUNTS: [usize; 13] = [0, 1, 2, 19, 20, 21, 40, 60, 63, 64, 65, 80, 81];

/// A log with the number that is returned for it, 0 if it is answered, and a number that
/// would be without the first damage, 0 if there is none such.
#[derive(Clone, Debug)]
pub struct Refused {
    pub log: Vec<u8>,
    pub number: u32,
    pub behind: u32,
}

impl Refused {
    fn new(log: Vec<u8>, number: u32, behind: u32) -> Self {
        Refused {
            log,
            number,
            behind,
        }
    }
}

/// How the records of a log end, and where.
#[derive(Clone, Copy, Debug, PartialEq, Eq)]
pub enum End {
    Agrees,
    Differs(usize),
    /// With 8, 9 or 10, where 10 stands at an even place.
    Refused(usize, u32),
}

/// So many records: requests that are opened, each with its done after it, but for one
/// record that ends the run.
pub fn records(many: usize, end: End) -> Vec<Record> {
    let pair = |k: u64| [opened(20 * k, 0, k as u16), done(20 * k + 10, 0)];
    let mut records: Vec<Record> = (0..).flat_map(pair).take(many).collect();
    match end {
        End::Agrees => {}
        End::Differs(place) if place % 2 == 0 => records[place].answer = 3,
        End::Differs(place) => records[place].wait = 1,
        End::Refused(place, 8) => records[place].bank = 200,
        End::Refused(place, 9) => records[place].tick = 1 << 62,
        End::Refused(place, _) => records[place / 2 * 2].kind = 1,
    }
    records
}

/// The log of these records.
fn log(many: usize, end: End) -> Vec<u8> {
    encode(&WIDE, &house_seeds(), &records(many, end))
}

/// 20 for more than 64 records, and else 21 where they do not differ.
fn by_records(many: usize, end: End) -> u32 {
    match end {
        _ if many > 64 => 20,
        End::Differs(_) => 0,
        _ => 21,
    }
}

/// What makes a block unsound.
#[derive(Clone, Copy)]
enum Damage {
    /// The log ends after so many bytes of the block.
    Cut(usize),
    /// A byte of the sums is changed.
    Sum(usize),
    /// A byte is this one, and the sums are written anew.
    Contents(usize, u8),
    /// A byte is this one, and the sums are not.
    Both(usize, u8),
}

impl Damage {
    fn number(self) -> u32 {
        match self {
            Damage::Cut(_) => 11,
            Damage::Sum(_) | Damage::Both(..) => 12,
            Damage::Contents(..) => 13,
        }
    }

    /// The log with this damage of a block.
    fn made(self, log: &[u8], block: usize) -> Vec<u8> {
        let mut log = log.to_vec();
        let start = block * BLOCK;
        match self {
            Damage::Cut(bytes) => log.truncate(start + bytes),
            Damage::Sum(place) => log[start + SUMS + place] ^= 1,
            Damage::Contents(place, byte) => {
                log[start + place] = byte;
                seal(&mut log[start..start + BLOCK]);
            }
            Damage::Both(place, byte) => log[start + place] = byte,
        }
        log
    }
}

/// Damages of block 0; none of them changes the setting.
const OF_FIRST: [Damage; 13] = [
    Damage::Cut(1),
    Damage::Cut(BLOCK - 1),
    Damage::Sum(0),
    Damage::Sum(3),
    Damage::Contents(0, 1),
    Damage::Contents(3, 1),
    Damage::Contents(4, 1),
    Damage::Contents(5, 1),
    Damage::Contents(7, 9),
    Damage::Contents(MARK_BYTE, 2),
    Damage::Contents(MARK_BYTE + 1, 1),
    Damage::Contents(SUMS - 1, 1),
    Damage::Both(6, 1),
];

/// Damages of a block of records: of its number, its count, the zeros after it, a
/// record's kind, answer and zeros, also of the tenth, and the zeros after 20 records.
const OF_LATER: [Damage; 21] = [
    Damage::Cut(1),
    Damage::Cut(BLOCK - 1),
    Damage::Sum(0),
    Damage::Sum(1),
    Damage::Sum(2),
    Damage::Sum(3),
    Damage::Contents(0, 99),
    Damage::Contents(3, 1),
    Damage::Contents(4, 0),
    Damage::Contents(4, 21),
    Damage::Contents(4, 255),
    Damage::Contents(5, 1),
    Damage::Contents(BODY + 20, 2),
    Damage::Contents(BODY + 21, 5),
    Damage::Contents(BODY + 22, 1),
    Damage::Contents(BODY + 23, 1),
    Damage::Contents(BODY + 9 * 24 + 20, 2),
    Damage::Contents(BODY + 9 * 24 + 21, 255),
    Damage::Contents(BODY + 20 * 24, 1),
    Damage::Contents(SUMS - 1, 1),
    Damage::Both(BODY + 21, 5),
];

/// Logs of each number of records, which agree, differ at a place or are refused there.
pub fn counted() -> Vec<Refused> {
    let mut all = Vec::new();
    for many in COUNTS {
        let places = [0, 1, many / 2, many.saturating_sub(1)];
        let mut ends = vec![End::Agrees];
        for place in places.into_iter().filter(|&place| place < many) {
            ends.push(End::Differs(place));
            ends.extend([8, 9, 10].map(|number| End::Refused(place, number)));
        }
        for end in ends {
            let behind = match end {
                End::Differs(_) => 0,
                _ if many <= 64 => 0,
                _ => 21,
            };
            all.push(Refused::new(log(many, end), by_records(many, end), behind));
        }
    }
    all
}

/// Logs with a damaged block, of records that differ first, agree, are refused first, or
/// are too many.
pub fn damaged() -> Vec<Refused> {
    let mut all = Vec::new();
    for (many, end) in kinds() {
        let behind = by_records(many, end);
        for block in 0..=many.div_ceil(RECORDS) {
            let damages: &[Damage] = if block == 0 { &OF_FIRST } else { &OF_LATER };
            for damage in damages {
                let log = damage.made(&log(many, end), block);
                all.push(Refused::new(log, damage.number(), behind));
            }
        }
    }
    all.extend(short_blocks());
    all.extend(empty_blocks());
    all
}

/// Records whose first event is in the first block, in the second, or none; some too many.
fn kinds() -> [(usize, End); 7] {
    [
        (30, End::Differs(0)),
        (30, End::Differs(25)),
        (30, End::Agrees),
        (30, End::Refused(0, 10)),
        (30, End::Refused(3, 8)),
        (85, End::Differs(4)),
        (85, End::Agrees),
    ]
}

/// Blocks of fewer than 20 records that are not the last: the block after is refused, also
/// for a wrong sum or for its end, which come first.
fn short_blocks() -> Vec<Refused> {
    let mut all = Vec::new();
    for (many, fewer) in [(50, 1), (50, 7), (85, 1), (85, 19)] {
        for short in 1..many / RECORDS {
            let mut log = log(many, End::Differs(0));
            let end = BODY + 24 * (RECORDS - fewer);
            let block = &mut log[short * BLOCK..(short + 1) * BLOCK];
            block[4] -= fewer as u8;
            block[end..SUMS].fill(0);
            seal(block);
            for damage in [Damage::Sum(2), Damage::Cut(300)] {
                let log = damage.made(&log, short + 1);
                all.push(Refused::new(log, damage.number(), 13));
            }
            all.push(Refused::new(log, 13, 0));
        }
    }
    all
}

/// A log of block 0 alone and one that differs, each with a block of no records behind.
fn empty_blocks() -> Vec<Refused> {
    let cases = [
        (log(0, End::Agrees), 21),
        (log(RECORDS, End::Differs(0)), 0),
    ];
    let with_block = |(mut log, behind): (Vec<u8>, u32)| {
        let mut block = [0; BLOCK];
        block[0] = (log.len() / BLOCK) as u8;
        seal(&mut block);
        log.extend(block);
        Refused::new(log, 13, behind)
    };
    cases.into_iter().map(with_block).collect()
}

/// Logs with two damaged blocks. Both sums and contents of a block are wrong by
/// `Damage::Both`.
pub fn damaged_twice() -> Vec<Refused> {
    let some = [
        Damage::Sum(1),
        Damage::Contents(5, 1),
        Damage::Both(5, 1),
        Damage::Cut(9),
    ];
    let mut all = Vec::new();
    for (many, end) in kinds() {
        let last = many.div_ceil(RECORDS);
        for (first, second) in [(0, 1), (0, last), (1, last), (last - 1, last)] {
            for (one, two) in some[..3].iter().flat_map(|one| some.map(|two| (*one, two))) {
                let log = one.made(&two.made(&log(many, end), second), first);
                all.push(Refused::new(log, one.number(), two.number()));
            }
        }
    }
    all
}

/// Settings at the limits of the checker and of the small profile, just above them, and
/// such that two refusals are met; with the number of the first and of the second.
pub const SETTINGS: [(Setting, u32, u32); 23] = [
    (S, 0, 0),
    ([40, 1, 4, 2, 6, 10, 4, 4, 1, 1], 0, 0),
    ([1 << 20, 1, 4, 32_768, 6, 1 << 24, 4, 1, 1, 0], 0, 0),
    ([40_000, 1, 1, 2, 1_024, 50, 4, 1, 1, 0], 0, 0),
    ([40_000, 1, 1, 2, 256, 200, 4, 4, 2, 1], 0, 0),
    ([41, 1, 4, 2, 6, 10, 4, 1, 1, 0], 1, 0),
    ([40, 1, 4, 2, 6, 10, 256, 1, 1, 0], 1, 0),
    ([40, 1, 4, 2, 6, 10, 4, 17, 1, 0], 1, 0),
    ([1 << 20, 1, 4, 32_769, 6, 1 << 24, 4, 1, 1, 0], 1, 0),
    ([1 << 22, 1, 4, 1 << 20, 6, 1 << 24, 4, 1, 1, 0], 1, 0),
    ([4, 1, 4, 2, 2, 10, 4, 1, 1, 0], 2, 0),
    ([40, 7, 4, 2, 6, 10, 4, 1, 1, 0], 3, 0),
    ([40, 1, 4, 2, 21, 10, 4, 1, 1, 0], 3, 0),
    ([40_000, 1, 1, 2, 1_025, 50, 4, 1, 1, 0], 4, 0),
    ([40_000, 1, 1, 2, 8_192, 50, 4, 1, 1, 0], 4, 0),
    ([40, 1, 4, 2, 6, 9, 4, 1, 1, 0], 5, 0),
    ([40, 1, 4, 2, 6, 10, 4, 5, 1, 1], 16, 0),
    ([40_000, 1, 1, 2, 257, 200, 4, 4, 1, 1], 16, 0),
    ([4, 1, 4, 2, 2, 10, 0, 1, 1, 0], 1, 2),
    ([4, 1, 4, 2, 3, 10, 4, 1, 1, 0], 2, 3),
    ([4_000, 1, 1, 2, 2_001, 10, 4, 1, 1, 0], 3, 4),
    ([40_000, 1, 1, 2, 1_025, 9, 4, 1, 1, 0], 4, 5),
    ([40, 1, 4, 2, 6, 9, 4, 5, 1, 1], 5, 16),
];

/// Logs of these settings: with records that differ, are too many or agree, and with a
/// damage of block 0, which comes before the setting, or of block 1, which comes after it.
pub fn settings() -> Vec<Refused> {
    let differing = held(3, 2, 4, 0);
    let cases = [
        (vec![differing], 0),
        (vec![differing; 65], 20),
        (vec![opened(3, 0, 2)], 21),
    ];
    let mut all = Vec::new();
    for (setting, number, second) in SETTINGS {
        for (records, then) in &cases {
            let log = encode(&setting, &house_seeds(), records);
            all.push(match (number, second) {
                (0, _) => Refused::new(log.clone(), *then, 0),
                (_, 0) => Refused::new(log.clone(), number, *then),
                _ => Refused::new(log.clone(), number, second),
            });
            for damage in [
                Damage::Sum(1),
                Damage::Contents(5, 1),
                Damage::Contents(MARK_BYTE, 2),
            ] {
                let log = damage.made(&log, 0);
                all.push(Refused::new(log, damage.number(), number));
            }
            for damage in [Damage::Sum(1), Damage::Contents(5, 1), Damage::Cut(9)] {
                let log = damage.made(&log, 1);
                all.push(match number {
                    0 => Refused::new(log, damage.number(), *then),
                    _ => Refused::new(log, number, damage.number()),
                });
            }
        }
    }
    all
}

/// Logs with a seed at its limit and above it.
fn seeds() -> [Refused; 2] {
    [(1_023, 0), (1_024, 1)].map(|(seed, number)| {
        let mut seeds = house_seeds();
        seeds[63] = seed;
        let log = encode(&S, &seeds, &[held(3, 2, 4, 0)]);
        Refused::new(log, number, 0)
    })
}

/// An empty log, and all others.
pub fn all() -> Vec<Refused> {
    let mut all = vec![Refused::new(Vec::new(), 11, 0)];
    all.extend(seeds());
    all.extend(counted());
    all.extend(damaged());
    all.extend(damaged_twice());
    all.extend(settings());
    all
}
