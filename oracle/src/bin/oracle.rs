//! Answers requests line by line: reads the asking part of a vector line from standard input (whatever stands
//! after it is not looked at) and writes the whole line with the answer of the Rust, standing alone. A line
//! that cannot be read answers '! reason'.

use oracle::lines::{Case, Reader, alone, ask};
use oracle::model::Reference;
use std::io::{BufRead, Write};

fn main() -> std::io::Result<()> {
    let mut reader = Reader::default();
    let mut out = std::io::stdout().lock();
    for line in std::io::stdin().lock().lines() {
        match reader.asked(line?.trim_end()) {
            Ok(request) => {
                let expected = ask(&Reference, &request);
                writeln!(out, "{}", alone(&Case { request, expected }))?;
            }
            Err(reason) => writeln!(out, "! {reason}")?,
        }
        out.flush()?;
    }
    Ok(())
}
