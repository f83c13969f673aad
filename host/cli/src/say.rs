//! What the commands write to standard output and standard error. Neither is ever a reason to panic.

use anyhow::{Context, Result};
use std::fmt::Display;
use std::io::{self, ErrorKind, Write};

/// A line on standard output.
pub fn say(line: impl Display) -> Result<()> {
    let mut out = io::stdout();
    heard(writeln!(out, "{line}").and_then(|()| out.flush()))
}

/// What became of a write to standard output. A reader who has closed the pipe has heard enough, and the command's end is
/// what it would be without him; a full disk beneath it is an error.
pub fn heard(written: io::Result<()>) -> Result<()> {
    match written {
        Err(error) if error.kind() == ErrorKind::BrokenPipe => Ok(()),
        written => written.context("standard output"),
    }
}

/// A line on standard error. If it cannot be written the exit code alone has to tell it.
pub fn complain(line: &str) {
    let _ = writeln!(io::stderr(), "{line}");
}

/// A count with its noun: 1 layer, 2 layers.
pub fn count(n: impl Into<u64>, noun: &str) -> String {
    let n = n.into();
    format!("{n} {noun}{}", if n == 1 { "" } else { "s" })
}

/// Sides in pixels: 1 x 1 pixel, 3 x 2 pixels.
pub fn sides(width: usize, height: usize) -> String {
    format!("{width} x {height} pixel{}", if (width, height) == (1, 1) { "" } else { "s" })
}

#[cfg(test)]
mod tests {
    use super::*;

    #[test]
    fn one_and_many() {
        assert_eq!([0u64, 1, 2].map(|n| count(n, "layer")), ["0 layers", "1 layer", "2 layers"]);
        assert_eq!((sides(1, 1), sides(1, 2)), ("1 x 1 pixel".to_string(), "1 x 2 pixels".to_string()));
    }

    #[test]
    fn a_closed_pipe_is_no_error() {
        assert!(heard(Err(ErrorKind::BrokenPipe.into())).is_ok());
        assert!(heard(Err(ErrorKind::Other.into())).is_err());
    }
}
