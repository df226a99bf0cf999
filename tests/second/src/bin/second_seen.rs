//! Shows that a corpus of logs tells each wrong reading of the profile mark, each
//! wrong hash by bytes and the limits of the new width from the right ones. Standard
//! input names the logs line by line; the report that a log must get stands beside
//! NAME.log in NAME.expected. Every log must get its report, and with each fault of
//! the checker and of the hash some log must get another; so it must with those
//! faults of the other calls that a log can show. Where a log has other than the
//! house seeds it must itself get another report if the table of the house seeds is
//! taken for them.

use second::{log, Fault};
use std::io::{self, BufRead};
use std::path::Path;
use std::process::ExitCode;

/// Wrong calls under the profile mark that logs show; the others show only where
/// a program makes calls that a checker does not make.
const IN_CALLS: usize = 20;
/// Logs with other than the house seeds, by how their names begin, and how many
/// there are at least: two for each of three bits of a seed.
const OTHER_SEEDS: [&str; 2] = ["bytes-changed-", "bytes-seeds-"];
const LEAST_OTHER: usize = 64 * 3 * 2;

/// A log with its name and the report that it must get.
struct Case {
    name: String,
    bytes: Vec<u8>,
    expected: String,
}

impl Case {
    fn read(name: String) -> io::Result<Self> {
        let bytes = std::fs::read(&name)?;
        let expected = std::fs::read_to_string(Path::new(&name).with_extension("expected"))?;
        Ok(Case {
            name,
            bytes,
            expected,
        })
    }

    /// Is it a log about the hash with other than the house seeds?
    fn has_other_seeds(&self) -> bool {
        let name = Path::new(&self.name).file_name();
        let name = name.unwrap_or_default().to_string_lossy();
        OTHER_SEEDS.iter().any(|start| name.starts_with(start))
    }

    /// Does the log get another report?
    fn differs(&self, fault: Fault) -> bool {
        log::check(&self.bytes, fault).to_string() != self.expected
    }
}

/// The logs.
struct Corpus(Vec<Case>);

impl Corpus {
    /// Does every log get its report? The first that does not is named.
    fn reported(&self) -> bool {
        let wrong = self.0.iter().find(|case| case.differs(Fault::None));
        if let Some(case) = wrong {
            println!("{}: the report is not the expected one", case.name);
        }
        wrong.is_none()
    }

    /// Does every log with other than the house seeds show the table? The first
    /// that does not is named.
    fn table_shown(&self) -> bool {
        let other = || self.0.iter().filter(|case| case.has_other_seeds());
        let same = other().find(|case| !case.differs(Fault::HouseAlways));
        println!("{} logs with other than the house seeds", other().count());
        if let Some(case) = same {
            println!("{}: the table does not show", case.name);
        }
        same.is_none() && other().count() >= LEAST_OTHER
    }

    /// The faults with which every log gets its report all the same.
    fn missed(&self, faults: &[Fault]) -> Vec<Fault> {
        let seen = |fault: Fault| self.0.iter().any(|case| case.differs(fault));
        let missed = faults.iter().filter(|&&fault| !seen(fault));
        missed.copied().collect()
    }
}

fn main() -> io::Result<ExitCode> {
    let names = io::stdin().lock().lines();
    let cases = names.map(|name| Case::read(name?));
    let corpus = Corpus(cases.collect::<io::Result<_>>()?);
    println!("{} logs with expected reports", corpus.0.len());
    let right = corpus.reported() & corpus.table_shown();
    let parts = [
        ("readings of the mark", Fault::CHECKER.to_vec()),
        ("limits", Fault::LOG_LIMITS.to_vec()),
        ("hashes", [Fault::TABLE, Fault::HOUSE].concat()),
        ("calls", [Fault::PROFILE, Fault::SMALL].concat()),
    ];
    let mut enough = true;
    for (name, faults) in parts {
        let missed = corpus.missed(&faults);
        let seen = faults.len() - missed.len();
        println!("wrong {name}: {seen} of {} seen", faults.len());
        let least = match name {
            "calls" => IN_CALLS,
            _ => faults.len(),
        };
        if seen < least {
            println!("not seen: {missed:?}");
            enough = false;
        }
    }
    if right && enough {
        return Ok(ExitCode::SUCCESS);
    }
    Ok(ExitCode::FAILURE)
}
