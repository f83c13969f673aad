//! vectors [FILE]: writes the fixed vectors to crates/vectors/stdin, or to FILE.
//!
//! One case a line; a line that starts with '#' is a comment, one that starts with '!' is spoiled: what stands after it
//! must not be taken. Tokens are separated by one space.
//!
//! - NUMBER: small hexadecimal digits without leading zeros. A signed number below zero is '~' and the digits
//!   of its complement, -1 - n: ~0 is -1, ~4 is -5.
//! - LIST: its length, then as many numbers. '=' in its place stands for the list of that name as the last
//!   line that had one left it.
//!
//! ```text
//! F NAME                                                  number operator
//! N wanted INPUT length                                   number OUT
//! B wanted INPUT length                                   number OUT
//! C width height channels DST TABLE ARGS SAMPLES length   number OUT
//! J width height channels DST layers TABLE ARGS SAMPLES WORK0 WORK1 MARK CALLS
//!     {number layer stores finished mark} for each call, then WORK0 WORK1 MARK
//! R TEXT table args                                       number line width height channels layers TABLE ARGS
//! ```
//!
//! What is asked stands first, then what must be answered; oracle/README.md says more of each.

use oracle::cases;
use oracle::lines::{Reader, Request, VECTORS};
use oracle::request::Job;
use std::collections::BTreeMap;

fn main() -> std::io::Result<()> {
    let path = std::env::args().nth(1).unwrap_or(VECTORS.to_string());
    let book = cases::all();
    std::fs::write(&path, &book.text)?;
    report(&book.text);
    Ok(())
}

/// What a program that replays the file has to hold at most: bytes of a line, and numbers of each list.
const LIMITS: [(&str, usize); 15] = [
    ("line", 8191),
    ("name", 128),
    ("narrowing input", 256),
    ("narrowing output", 256),
    ("dst", 256),
    ("table", 320),
    ("args", 128),
    ("samples", 2048),
    ("output", 256),
    ("work", 256),
    ("mark", 4),
    ("calls", 32),
    ("card", 2048),
    ("card table", 320),
    ("card args", 128),
];

/// Counts the cases, and holds the lengths against the limits.
fn report(text: &str) {
    let mut reader = Reader::default();
    let mut kinds: BTreeMap<&str, usize> = BTreeMap::new();
    let mut longest: BTreeMap<&str, usize> = BTreeMap::new();
    let mut seen = |what, n: usize| {
        let entry = longest.entry(what).or_default();
        *entry = n.max(*entry);
    };
    for line in text.lines() {
        seen("line", line.len());
        let case = reader.case(line).expect("a line that was just written");
        let Some(case) = case else { continue };
        *kinds.entry(&line[..1]).or_default() += 1;
        lengths(&case.request, &mut seen);
    }
    println!("{} bytes, cases {kinds:?}", text.len());
    for (what, most) in LIMITS {
        let n = longest.get(what).copied().unwrap_or(0);
        println!("longest {what}: {n} (limit {most})");
        assert!(n <= most, "{what} is over its limit");
    }
}

fn lengths(request: &Request, seen: &mut impl FnMut(&'static str, usize)) {
    match request {
        Request::Name(name) => seen("name", name.len()),
        Request::Narrow { input, length, .. } | Request::Bytes { input, length, .. } => {
            seen("narrowing input", input.len());
            seen("narrowing output", *length);
        }
        Request::Compose { job, length } => {
            seen("output", *length);
            lists(job, seen);
        }
        Request::Calls { job, memory, calls } => {
            seen("work", memory.work[0].len().max(memory.work[1].len()));
            seen("mark", memory.mark.len());
            // A job number and an allowance each.
            seen("calls", 2 * calls.len());
            lists(job, seen);
        }
        Request::Card { text, table, args } => {
            seen("card", text.len());
            seen("card table", *table);
            seen("card args", *args);
        }
    }
}

fn lists(job: &Job, seen: &mut impl FnMut(&'static str, usize)) {
    seen("dst", job.dst.len());
    seen("table", job.table.len());
    seen("args", job.args.len());
    seen("samples", job.samples.len());
}
