//! Prints the checker's report of each log named on the command line, or named
//! line by line on standard input if there are no arguments. A line `== NAME`
//! stands before each report.

use second::{log, Fault};
use std::io::{self, BufRead, Write};

fn main() -> io::Result<()> {
    let mut paths: Vec<String> = std::env::args().skip(1).collect();
    if paths.is_empty() {
        paths = io::stdin().lock().lines().collect::<io::Result<_>>()?;
    }
    let mut out = io::BufWriter::new(io::stdout().lock());
    for path in paths {
        let bytes = std::fs::read(&path)?;
        write!(out, "== {path}\n{}", log::check(&bytes, Fault::None))?;
    }
    out.flush()
}
