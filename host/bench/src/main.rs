//! Times the proved library's job call against the Rust's `compose_float`, both on one thread, and prints the tables of
//! README.md. Both compose the same layer on the same destination, four channels each; the results are compared word by
//! word. Ours is a job of one layer from its begin: two phases, all its stores and marks. The Rust's buffers are made anew in
//! each call; it is timed with the allocator as a process starts, and in another process with one that gives no memory
//! back. There pixman and ImageMagick are timed too, where they are installed, for the operators that they have. Each
//! ratio is of times taken in turn in the same process: ours is timed in both, and never against a time of the other.
//!
//! All layers have the full window, which cuts nothing; `bench windows` measures what another one spares.
//!
//!     bench [SIDE..]        sides of the square pictures: 64 1024 2048 without any
//!     bench windows         some operators under a full, a small and an empty window, at 1024²
//!     bench names           the library's `from_name` against the Rust's

mod allocator;
mod clock;
mod inputs;
mod names;
mod others;
mod ratios;
mod tables;
mod turns;
mod windows;

use inputs::Pair;
use ratios::{Ratios, Work};
use std::process::Command;
use tables::Row;
use tray::Operator;

/// The numbers of the 68 operators.
fn carried() -> Vec<usize> {
    Operator::ALL.iter().filter(|operator| operator.carried()).map(|operator| operator.number() as usize).collect()
}

/// One side under one setting of the allocator, in a process of its own: what came before would change its state.
fn part(side: usize, keep: bool) {
    if keep {
        allocator::keep();
    }
    let pair = Pair::new(side);
    let (images, mut work) = (pair.images(), Work::new(&pair));
    for operator in carried() {
        let ratios = ratios::measured(&pair, &images, &mut work, operator, keep);
        println!("{}", ratios.map(|ratio| ratio.to_string()).join(" "));
    }
}

/// The lines of such a process.
fn ask(side: usize, keep: bool) -> Vec<Ratios> {
    let this = std::env::current_exe().expect("this program");
    let asked = Command::new(this).args(["part", &side.to_string(), &keep.to_string()]).output().expect("a process");
    assert!(asked.status.success(), "{}", String::from_utf8_lossy(&asked.stderr));
    let number = |text: &str| text.parse().expect("a number");
    let line = |line: &str| line.split(' ').map(number).collect::<Vec<f64>>().try_into().expect("a number for each");
    String::from_utf8_lossy(&asked.stdout).lines().map(line).collect()
}

/// The rows of one side, an operator each.
fn column(side: usize) -> Vec<Row> {
    let (as_it_is, keeping) = (ask(side, false), ask(side, true));
    eprintln!("{side} x {side} measured");
    let row = |(&[rust, ..], &[kept, ref others @ ..]): (&Ratios, &Ratios)| Row { rust, kept, others: *others };
    as_it_is.iter().zip(&keeping).map(row).collect()
}

/// The processor's name.
fn processor() -> String {
    let text = std::fs::read_to_string("/proc/cpuinfo").unwrap_or_default();
    let name = text.lines().find_map(|line| line.strip_prefix("model name"));
    name.map_or("unknown", |line| line.trim_start_matches([' ', '\t', ':'])).to_string()
}

/// How the numbers of the tables were measured.
fn heading() {
    println!("{}; one thread; processor time, each ratio the median of the turns of one process", processor());
}

/// The tables of README.md, with a column for each of the sides.
fn compared(sides: &[usize]) {
    for library in others::LIBRARIES.iter().filter(|library| !library.is_there()) {
        eprintln!("{} is not installed (Debian's {}): its row is left out", library.name, library.package);
    }
    heading();
    let columns: Vec<Vec<Row>> = sides.iter().map(|side| column(*side)).collect();
    tables::summary(sides, &columns);
    tables::operators(sides, &columns);
    tables::stacks(&[64, 128, 256, 512, 1024, 2048]);
}

fn main() {
    let words: Vec<String> = std::env::args().skip(1).collect();
    let number = |text: &String| {
        text.parse().ok().filter(|side| (1..=tray::SIDE as usize).contains(side)).unwrap_or_else(|| {
            eprintln!(
                "bench [SIDE..], bench windows or bench names: a side is a number from 1 to {}, not {text}",
                tray::SIDE
            );
            std::process::exit(2)
        })
    };
    match &words[..] {
        [] => compared(&[64, 1024, 2048]),
        [kind, side, keep] if kind == "part" => part(number(side), keep == "true"),
        [kind] if kind == "windows" => {
            heading();
            windows::table(1024);
        }
        [kind] if kind == "names" => {
            heading();
            names::table();
        }
        given => compared(&given.iter().map(number).collect::<Vec<_>>()),
    }
}
