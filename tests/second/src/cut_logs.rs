//! Logs for tests of the cut-down log, each with what it is cut down to and the number of
//! passes, both worked out by hand but for one.

use crate::log::Record;
use crate::setting::{house_seeds, Setting};
use crate::write::encode;

/// Setting S of the sample runs: W 40, tRC 1, tFAW 4, N 2, tD 6, L 10, Q 4, one bank, one
/// thread.
pub const S: Setting = [40, 1, 4, 2, 6, 10, 4, 1, 1, 0];
/// A setting in which no row is held before its 65th activation: B = 129 + 967 = 1,096.
pub const WIDE: Setting = [4_000, 1, 1, 64, 4, 1_100, 255, 1, 1, 0];

/// A log, and what is to come of it.
#[derive(Clone, Debug)]
pub struct Known {
    pub setting: Setting,
    pub records: Vec<Record>,
    /// The records that stay.
    pub left: Vec<usize>,
    /// The passes, with the one that leaves out none.
    pub passes: usize,
}

impl Known {
    fn new(setting: Setting, records: Vec<Record>, left: Vec<usize>, passes: usize) -> Self {
        Known {
            setting,
            records,
            left,
            passes,
        }
    }

    /// The log, under the house seeds.
    pub fn log(&self) -> Vec<u8> {
        encode(&self.setting, &house_seeds(), &self.records)
    }
}

/// A request in a bank that is opened, by thread 0.
pub fn opened(tick: u64, bank: u8, row: u16) -> Record {
    Record {
        tick,
        bank,
        row,
        ..Record::default()
    }
}

/// A request in bank 0 that has this answer, and this wait tick.
pub fn held(tick: u64, row: u16, answer: u8, wait: u64) -> Record {
    Record {
        answer,
        wait,
        ..opened(tick, 0, row)
    }
}

/// A done of thread 0 in a bank.
pub fn done(tick: u64, bank: u8) -> Record {
    Record {
        kind: 1,
        ..opened(tick, bank, 0)
    }
}

/// The example: the done needs the request before it, and the request after it differs
/// alone. The first pass leaves out the done, the second the first request.
pub fn example() -> Known {
    let records = vec![opened(3, 0, 2), done(8, 0), held(16, 2, 4, 0)];
    Known::new(S, records, vec![2], 3)
}

/// So many activations and one more, which the quota holds; without any of them it does
/// not. All stay.
pub fn by_quota(many: u64) -> Known {
    let mut setting = WIDE;
    setting[6] = many;
    let records: Vec<Record> = (0..=many)
        .map(|tick| opened(tick, 0, tick as u16))
        .collect();
    let left = (0..records.len()).collect();
    Known::new(setting, records, left, 1)
}

/// The same with 64 records in all banks of a setting that takes all memory: 16 banks, 32
/// threads and 4,096 history places.
pub fn by_quota_in_all_banks() -> Known {
    let mut known = by_quota(63);
    known.setting = [40_000, 1, 1, 64, 1_024, 200, 63, 16, 32, 0];
    for (k, record) in known.records.iter_mut().enumerate() {
        (record.bank, record.thread) = (k as u8 % 16, 31);
    }
    known
}

/// So many activations of a row, which is then held; without any of them it is not. All
/// stay.
pub fn by_row(many: u64) -> Known {
    let mut setting = WIDE;
    setting[3] = many;
    setting[4] = 100;
    setting[2] = 50;
    let records: Vec<Record> = (0..=many).map(|k| opened(50 * k, 0, 5)).collect();
    let left = (0..records.len()).collect();
    Known::new(setting, records, left, 1)
}

/// Four activations and a fifth, which the rank holds, and two in a bank, which holds the
/// second.
pub fn by_timing() -> [Known; 2] {
    let (mut rank, mut bank) = (WIDE, WIDE);
    rank[2] = 5;
    bank[1] = 4;
    let five = (7..12).map(|tick| opened(tick, 0, 5)).collect();
    let two = vec![opened(7, 0, 5), opened(10, 0, 6)];
    [
        Known::new(rank, five, (0..5).collect(), 1),
        Known::new(bank, two, vec![0, 1], 1),
    ]
}

/// A last record that the rules open, or hold for each of the four reasons, with each
/// answer and a wait tick that is never right. It differs alone: one pass leaves out all
/// others.
pub fn by_answer() -> Vec<Known> {
    let [rank, bank] = by_timing();
    let alone = Known::new(S, vec![opened(3, 0, 2)], vec![0], 1);
    let mut all = Vec::new();
    for known in [alone, bank, rank, by_row(2), by_quota(2)] {
        for answer in 0..=4 {
            let mut records = known.records.clone();
            let last = records.len() - 1;
            (records[last].answer, records[last].wait) = (answer, 1);
            let passes = if last == 0 { 1 } else { 2 };
            all.push(Known::new(known.setting, records, vec![last], passes));
        }
    }
    all
}

/// A done with an answer or a wait tick, which needs its request.
pub fn by_done() -> [Known; 2] {
    [(1, 0), (0, 9)].map(|(answer, wait)| {
        let wrong = Record {
            answer,
            wait,
            ..done(1, 0)
        };
        Known::new(S, vec![opened(0, 0, 5), wrong], vec![0, 1], 1)
    })
}

/// A quota answer that is wrong because of the done before it. Without the done it is
/// right, without the request the done is refused, and the answer alone is wrong: three
/// records stay although one would do.
pub fn not_smallest() -> Known {
    let mut setting = S;
    setting[6] = 1;
    let records = vec![opened(0, 0, 2), done(8, 0), held(16, 2, 4, 0)];
    Known::new(setting, records, vec![0, 1, 2], 1)
}

/// Up to three requests, each in its own bank and each but the last done before the next,
/// and a record that says that a quota of 2 holds it, while one is in flight. A done can
/// go only after a request, and a request only where its done is gone. Of three requests
/// the first pass leaves out the last one, the second the first done, the third the first
/// request and the second done, the fourth the second request.
pub fn chain(requests: u64) -> Known {
    let mut setting = WIDE;
    setting[6] = 2;
    setting[7] = requests;
    let mut records = Vec::new();
    for k in 0..requests {
        records.push(opened(10 * k, k as u8, 5));
        records.push(done(10 * k + 5, k as u8));
    }
    let last = records.len() - 1;
    records[last] = held(10 * requests, 9, 4, 0);
    let passes = [2, 4, 5][requests as usize - 1];
    Known::new(setting, records, vec![last], passes)
}

/// Row 5 twice, two dones, row 5 again, and once more at the turn of the epoch, where a
/// quota of 3 or the row rule holds it. The first pass leaves out the dones; then either
/// of the first two requests can go, and the first one does.
pub fn either_of_two() -> Known {
    let mut setting = S;
    setting[6] = 3;
    let records = vec![
        opened(6, 0, 5),
        opened(11, 0, 5),
        done(13, 0),
        done(14, 0),
        opened(19, 0, 5),
        opened(20, 0, 5),
    ];
    Known::new(setting, records, vec![1, 4, 5], 3)
}

/// Found by a search for many passes. The quota is 3, and 2 in bank 2, whose row 6 is
/// blacklisted when it is opened again (N 1, L 5); the last record says that it is held
/// there while one is in flight. The dones go one by one, each after a request.
pub fn eight_passes() -> Known {
    let records = vec![
        opened(1, 0, 5),
        opened(2, 2, 6),
        done(52, 0),
        opened(152, 2, 6),
        done(153, 2),
        done(154, 2),
        opened(155, 0, 5),
        opened(156, 1, 5),
        done(157, 0),
        opened(158, 1, 4),
        done(159, 1),
        Record {
            bank: 2,
            ..held(159, 9, 4, 0)
        },
    ];
    let setting = [400, 1, 4, 1, 150, 5, 3, 3, 1, 0];
    Known::new(setting, records, vec![11], 8)
}

/// All of these, of up to 64 records; logs of every number of records that all stay.
pub fn all() -> Vec<Known> {
    let mut all = vec![example(), not_smallest(), either_of_two(), eight_passes()];
    all.extend(by_timing());
    all.extend(by_done());
    all.extend(by_answer());
    all.extend((1..=63).map(by_quota));
    all.push(by_quota_in_all_banks());
    all.extend((1..=63).step_by(6).chain([63]).map(by_row));
    all.extend((1..=3).map(chain));
    all
}
