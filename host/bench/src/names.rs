//! The time that a name takes: the library's `from_name` and the Rust's, on the 83 names and on texts that are none.

use crate::turns::{Side, median, so_many};
use oracle::composite::CompositeOp;
use oracle::reference;
use std::hint::black_box;
use tray::raw;

/// Texts of 3, 8 and 16 letters that begin as names do.
const UNKNOWN: [[&str; 4]; 3] = [
    ["ove", "dis", "cop", "sub"],
    ["overlays", "linearly", "darkened", "softbulb"],
    ["modulussubtracts", "darkenintensitys", "lightenintensive", "copymagentablack"],
];

/// Texts asked in a turn, and turns.
const ASKED: usize = 1000;
const TURNS: usize = 501;

/// Texts that are asked one after the other.
struct Asked<'a, F> {
    texts: &'a [&'a str],
    ask: F,
}

impl<T, F: Fn(&str) -> T> Side for Asked<'_, F> {
    fn run(&mut self) {
        for text in self.texts {
            black_box((self.ask)(black_box(text)));
        }
    }
}

fn ours(text: &str) -> Option<u64> {
    let mut operator = 0;
    (raw::from_name(text.as_bytes(), &mut operator) == 0).then_some(operator)
}

/// One line: our time a text in nanoseconds, and as a part of the Rust's.
fn line(title: &str, texts: &[&str]) {
    let same = texts.iter().all(|text| ours(text) == reference::from_name(text.as_bytes()));
    assert!(same, "{title}: another answer");
    let mut library = Asked { texts, ask: ours };
    let mut rust = Asked { texts, ask: CompositeOp::from_name };
    let turns = so_many(TURNS, ASKED / texts.len(), [Some(&mut library), Some(&mut rust)]);
    let each = median(turns.iter().map(|[library, _]| *library)) * 1e9 / texts.len() as f64;
    println!("| {title} | {each:.0} | {:.2} |", median(turns.iter().map(|[library, rust]| library / rust)));
}

pub fn table() {
    println!("\n| names | ours, ns each | ours / the Rust |\n|---|---:|---:|");
    line("the 83 names", &reference::names().collect::<Vec<_>>());
    for texts in UNKNOWN {
        line(&format!("unknown, {} letters", texts[0].len()), &texts);
    }
}
