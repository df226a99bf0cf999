//! What logs that are cut down reached: how many records stayed, after how many passes,
//! what differed and why, and which refusals came before which.

use second::cut::{ends, passes};
use second::cut_judge::Verdict;
use second::log::{Record, Run, BLOCK, MARK_BYTE, SEEDS};
use second::setting::HOUSE;
use second::Fault;
use std::collections::BTreeMap;
use std::fmt;

/// How many logs were of each kind. A kind is named in a few words.
#[derive(Default)]
pub struct Told {
    logs: u64,
    kinds: BTreeMap<String, u64>,
}

/// The kinds and how often each was met.
impl fmt::Debug for Told {
    fn fmt(&self, text: &mut fmt::Formatter) -> fmt::Result {
        write!(text, "{} logs, {} kinds", self.logs, self.kinds.len())?;
        let rare = self.kinds.iter().min_by_key(|(_, &many)| many);
        if let Some((kind, many)) = rare {
            write!(text, ", the rarest {kind:?} {many} times")?;
        }
        Ok(())
    }
}

/// Refusals of the setting.
const SETTING: [u32; 6] = [1, 2, 3, 4, 5, 16];

impl Told {
    /// Counts a log, with the number that was returned, what out then holds, and the
    /// refusal that it is known to have behind the first.
    pub fn note(&mut self, log: &[u8], number: u32, out: u64, behind: u32) {
        self.logs += 1;
        match number {
            0 => self.note_answer(log, out),
            21 => self.note_same(log),
            _ => {}
        }
        if number != 0 {
            self.add(format!("{number} before {behind}"));
        }
    }

    /// The kinds among these that were met fewer times.
    pub fn missed(&self, wanted: Vec<String>, least: u64) -> Vec<String> {
        let met = |kind: &String| self.kinds.get(kind).copied().unwrap_or(0);
        wanted
            .into_iter()
            .filter(|kind| met(kind) < least)
            .collect()
    }

    fn add(&mut self, kind: impl Into<String>) {
        *self.kinds.entry(kind.into()).or_default() += 1;
    }

    /// A log that was cut down to these records.
    fn note_answer(&mut self, log: &[u8], out: u64) {
        let (records, verdict) = ends(log).expect("a log that is not refused");
        let left = passes(log).expect("a log that differs");
        let Verdict::Differs(first) = verdict else {
            panic!("the log does not differ");
        };
        let kept: Vec<usize> = (0..64).filter(|place| out >> place & 1 == 1).collect();
        self.add(format!("{} stay", kept.len()));
        self.add(format!("{} passes", left.len()));
        self.add(format!("{} records", records.len()));
        for place in &kept {
            self.add(format!("block {} has one that stays", place / 20 + 1));
        }
        if !kept.contains(&first) {
            self.add("the first that differs goes");
        }
        if kept[..kept.len() - 1]
            .iter()
            .any(|&place| records[place].kind == 1)
        {
            self.add("a right done stays");
        }
        self.add(difference(log, &records[..=first]));
        self.add(if log[MARK_BYTE] == 1 {
            "small profile"
        } else {
            "large profile"
        });
        let house = HOUSE.iter().flat_map(|seed| seed.to_le_bytes());
        let is_house = house.eq(log[SEEDS..MARK_BYTE].iter().copied());
        self.add(if is_house {
            "house seeds"
        } else {
            "other seeds"
        });
    }

    /// A log of records that do not differ.
    fn note_same(&mut self, log: &[u8]) {
        match ends(log) {
            Ok((records, _)) if records.is_empty() => self.add("no records"),
            Ok((_, Verdict::Refused(_, number))) => {
                self.add(format!("refused first with {number}"))
            }
            _ => self.add("all agree"),
        }
    }
}

/// How the last of these records, which differs, does.
fn difference(log: &[u8], records: &[Record]) -> String {
    let mut run = Run::start(&log[..BLOCK], Fault::None).expect("an accepted setting");
    let answers = records.iter().map(|record| run.answer(record));
    let ([answer, _], last) = match (answers.last(), records.last()) {
        (Some(Ok(found)), Some(record)) => (found, record),
        _ => panic!("the record is refused"),
    };
    match last.kind {
        1 => "a done differs".to_string(),
        _ => format!("says {}, is {answer}", last.answer),
    }
}

/// What logs whose selection is known have to meet: every number of records that stay,
/// and every answer beside every answer of the rules.
pub fn of_known() -> Vec<String> {
    let mut wanted: Vec<String> = (1..=64).map(|many| format!("{many} stay")).collect();
    wanted.extend([1, 2, 3, 4, 5, 8].map(|many| format!("{many} passes")));
    wanted.extend((0..25).map(|pair| format!("says {}, is {}", pair / 5, pair % 5)));
    wanted.extend((1..=4).map(|block| format!("block {block} has one that stays")));
    wanted.push("a done differs".to_string());
    wanted.push("a right done stays".to_string());
    wanted
}

/// What listed logs that are refused have to meet: each refusal, each before every one
/// that can stand behind it, and each number of records.
pub fn of_refused() -> Vec<String> {
    let blocks = [11, 12, 13];
    let mut pairs = vec![(11, 0), (20, 0), (21, 0), (20, 21), (11, 13)];
    pairs.extend(
        blocks
            .iter()
            .flat_map(|&number| [(number, 20), (number, 21)]),
    );
    pairs.extend(
        blocks
            .iter()
            .flat_map(|&behind| [(12, behind), (13, behind)]),
    );
    for number in SETTING {
        pairs.extend([(12, number), (13, number), (number, 20), (number, 21)]);
        pairs.extend(blocks.map(|behind| (number, behind)));
    }
    pairs.extend(SETTING.windows(2).map(|two| (two[0], two[1])));
    let before = |(number, behind): (u32, u32)| format!("{number} before {behind}");
    let mut wanted: Vec<String> = pairs.into_iter().map(before).collect();
    let counts = [1, 2, 19, 20, 21, 40, 60, 63, 64];
    wanted.extend(counts.map(|many| format!("{many} records")));
    wanted.extend([8, 9, 10].map(|number| format!("refused first with {number}")));
    wanted.extend(["no records", "all agree", "small profile"].map(String::from));
    wanted
}

/// What short logs at random have to meet.
pub fn of_short() -> Vec<String> {
    let mut wanted: Vec<String> = (1..=5).map(|many| format!("{many} stay")).collect();
    wanted.extend((1..=4).map(|many| format!("{many} passes")));
    wanted.extend((1..=24).map(|many| format!("{many} records")));
    wanted.extend((0..=4).map(|is| format!("says 0, is {is}")));
    wanted.extend((1..=4).map(|says| format!("says {says}, is 0")));
    wanted.extend([8, 9, 10].map(|number| format!("refused first with {number}")));
    let others = [
        "a done differs",
        "a right done stays",
        "the first that differs goes",
        "all agree",
        "block 2 has one that stays",
        "small profile",
        "large profile",
        "house seeds",
        "other seeds",
    ];
    wanted.extend(others.map(String::from));
    wanted
}

/// What long logs at random have to meet.
pub fn of_long() -> Vec<String> {
    let mut wanted = vec!["2 passes".to_string(), "3 passes".to_string()];
    wanted.extend((1..=4).map(|block| format!("block {block} has one that stays")));
    wanted.extend(["1 stay", "2 stay", "20 before 0", "21 before 0"].map(String::from));
    wanted
}

/// What logs of large settings have to meet.
pub fn of_great() -> Vec<String> {
    let some = ["1 stay", "2 stay", "2 passes", "3 passes", "21 before 0"];
    some.map(String::from).to_vec()
}
