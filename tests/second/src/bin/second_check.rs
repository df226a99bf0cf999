//! Reads a log from standard input and prints the checker's report.

use second::{log, Fault};
use std::io::{self, Read, Write};

fn main() -> io::Result<()> {
    let mut bytes = Vec::new();
    io::stdin().read_to_end(&mut bytes)?;
    write!(io::stdout(), "{}", log::check(&bytes, Fault::None))
}
