//! replay [FILE]: puts the cases of a file of vectors ('-': of standard input) to the static library that
//! the feature `tray` links, or else to the restatement, and prints each line that is answered otherwise.

use oracle::compare::{agrees, answered};
use oracle::lines::{Case, Reader, VECTORS, alone};
use oracle::ours;
use oracle::request::Side;
use oracle::restated::{Reading, Restated};

fn main() {
    let path = std::env::args().nth(1).unwrap_or(VECTORS.to_string());
    let text = match path.as_str() {
        "-" => std::io::read_to_string(std::io::stdin()),
        file => std::fs::read_to_string(file),
    };
    let text = text.unwrap_or_else(|e| panic!("{path}: {e}"));
    let side: Box<dyn Side> = ours::linked().unwrap_or(Box::new(Restated { reading: Reading::RIGHT }));
    let mut reader = Reader::default();
    let (mut cases, mut bad, mut spoiled) = (0, 0, 0);
    for (i, line) in text.lines().enumerate() {
        if let Some(rest) = line.strip_prefix('!') {
            spoiled += 1;
            if matches!(Reader::default().case(rest), Ok(Some(case)) if agrees(&*side, &case)) {
                bad += 1;
                println!("line {} is spoiled, and is taken: {rest}", i + 1);
            }
        }
        let case = reader.case(line).unwrap_or_else(|e| panic!("{path}, line {}: {e}", i + 1));
        let Some(case) = case else { continue };
        cases += 1;
        if !agrees(&*side, &case) {
            bad += 1;
            println!("line {}: {}", i + 1, alone(&case));
            if let Some(got) = answered(&*side, &case.request) {
                println!("answered: {}", alone(&Case { request: case.request, expected: got }));
            }
        }
    }
    println!("{cases} cases and {spoiled} spoiled lines, {bad} answered otherwise");
    std::process::exit((bad > 0) as i32)
}
