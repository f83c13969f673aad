//! misread [FILE [COUNT]]: replays the fixed vectors on the restatement of documents 01 and 02. Without a misreading every
//! line must agree; with each of the misreadings, one at a time, some line must not, unless the misreading is
//! named as equivalent: then every line must, and COUNT random compositions besides. Ends with a count, and
//! with status 1 if any of this fails.

use oracle::compare::{agrees, answered, expected};
use oracle::lines::{Case, Reader, VECTORS, alone};
use oracle::random::Random;
use oracle::restated::{Reading, Restated, wrong};

fn cases(path: &str) -> Vec<(usize, Case)> {
    let text = std::fs::read_to_string(path).unwrap_or_else(|e| panic!("{path}: {e}"));
    let mut reader = Reader::default();
    let lines = text.lines().enumerate();
    let read = lines.filter_map(|(i, line)| {
        let case = reader.case(line).unwrap_or_else(|e| panic!("{path}, line {}: {e}", i + 1));
        case.map(|case| (i + 1, case))
    });
    read.collect()
}

/// The lines on which a reading answers otherwise; the second list has those on which it runs out of a list's
/// bounds and gives no answer.
fn caught(cases: &[(usize, Case)], reading: Reading) -> (Vec<usize>, Vec<usize>) {
    let side = Restated { reading };
    let (mut otherwise, mut none) = (Vec::new(), Vec::new());
    for (line, case) in cases {
        match answered(&side, &case.request) {
            Some(outcome) if outcome == case.expected => {}
            Some(_) => otherwise.push(*line),
            None => none.push(*line),
        }
    }
    (otherwise, none)
}

/// A random composition on which a reading disagrees.
fn found_at_random(count: u64, reading: Reading) -> Option<Case> {
    let side = Restated { reading };
    let mut random = Random::new(count);
    (0..count).map(|_| expected(random.composition())).find(|case| !agrees(&side, case))
}

fn main() {
    let cases = cases(&std::env::args().nth(1).unwrap_or(VECTORS.to_string()));
    let count =
        std::env::args().nth(2).map_or(Ok(0), |n| n.parse()).expect("misread [FILE [COUNT]]: COUNT is a number");
    std::panic::set_hook(Box::new(|_| {}));
    let (right, none) = caught(&cases, Reading::RIGHT);
    let right = [right, none].concat();
    println!("no misreading: {} of {} cases disagree {right:?}", right.len(), cases.len());
    let (mut found, mut equal, mut bad) = (0, 0, right.len());
    for (misreading, group, text) in wrong::all() {
        let (lines, none) = caught(&cases, Reading { wrong: Some(misreading) });
        let what = format!("{group}: {misreading:?}: {text}");
        match (lines.first().or(none.first()), wrong::equivalent(misreading)) {
            (Some(first), None) => {
                found += 1;
                let (n, no_answer) = (lines.len(), none.len());
                println!("caught by {n:5} cases and {no_answer:3} with no answer, first line {first:5}: {what}");
            }
            (None, Some(reason)) => match found_at_random(count, Reading { wrong: Some(misreading) }) {
                None => {
                    equal += 1;
                    println!("equivalent: {what}: {reason}");
                }
                Some(case) => {
                    bad += 1;
                    println!("NOT EQUIVALENT, by {}: {what}: {reason}", alone(&case));
                }
            },
            (Some(first), Some(reason)) => {
                bad += 1;
                println!("NOT EQUIVALENT, line {first}: {what}: {reason}");
            }
            (None, None) => {
                bad += 1;
                println!("NOT CAUGHT: {what}");
            }
        }
    }
    println!("{found} misreadings caught, {equal} equivalent, {bad} failures");
    std::process::exit((bad > 0) as i32)
}
