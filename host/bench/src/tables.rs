//! The tables, in Markdown, as README.md has them.

use crate::inputs::{Pair, composite};
use crate::others::{self, LIBRARIES};
use crate::ratios::{Ours, Work};
use crate::turns::{median, turns};
use tray::Operator::{self, Difference, In, Multiply, Over, Overlay, Plus, Screen, Xor};
use tray::{Layer, Stack};

/// Our time on one operator: as a part of the Rust's, of the Rust's that keeps its memory, and of the other libraries',
/// NaN where one has not the operator.
pub struct Row {
    pub rust: f64,
    pub kept: f64,
    pub others: [f64; others::COUNT],
}

/// The first two lines, with a column for each side of the pictures.
fn head(title: &str, sides: &[usize]) {
    let columns: String = sides.iter().map(|side| format!(" {side}² |")).collect();
    println!("\n| {title} |{columns}\n|---|{}", "---:|".repeat(sides.len()));
}

/// A line, with a cell for each of the columns.
fn line(title: &str, columns: &[Vec<Row>], cell: impl Fn(&[Row]) -> String) {
    let cells: String = columns.iter().map(|column| format!(" {} |", cell(column))).collect();
    println!("| {title} |{cells}");
}

fn name(place: usize) -> &'static str {
    composite(crate::carried()[place]).op.name()
}

/// The largest ratio of a column, and whose it is.
fn largest(ratios: impl Iterator<Item = f64>) -> String {
    let (place, ratio) = ratios.enumerate().max_by(|a, b| a.1.total_cmp(&b.1)).expect("68 operators");
    format!("{ratio:.2} ({})", name(place))
}

/// The median of those operators that the library has, and how many they are.
fn shared(ratios: impl Iterator<Item = f64>) -> String {
    let has: Vec<f64> = ratios.filter(|ratio| !ratio.is_nan()).collect();
    format!("{:.2} ({} operators)", median(has.iter().copied()), has.len())
}

/// One column a side of the pictures; all operators together.
pub fn summary(sides: &[usize], columns: &[Vec<Row>]) {
    head("ours / the Rust", sides);
    let as_it_is: fn(&Row) -> f64 = |row| row.rust;
    let keeping: fn(&Row) -> f64 = |row| row.kept;
    for (ratio, if_kept) in [(as_it_is, ""), (keeping, ", if the Rust keeps its memory between calls")] {
        let title = |what: &str| format!("{what}{if_kept}");
        line(&title("median of the 68 operators"), columns, |c| format!("{:.2}", median(c.iter().map(ratio))));
        line(&title("largest"), columns, |c| largest(c.iter().map(ratio)));
        let slower = |c: &[Row]| c.iter().filter(|row| ratio(row) > 1.0).count().to_string();
        line(&title("slower operators"), columns, slower);
    }
    for (k, library) in LIBRARIES.iter().enumerate().filter(|(_, library)| library.is_there()) {
        let title = format!("median against {} {}, the operators that it has", library.name, library.version);
        line(&title, columns, |c| shared(c.iter().map(|row| row.others[k])));
    }
}

/// One column a side of the pictures; the operators in the order of their numbers.
pub fn operators(sides: &[usize], columns: &[Vec<Row>]) {
    head("operator", sides);
    for place in 0..crate::carried().len() {
        line(name(place), columns, |c| format!("{:.2}, {:.2}", c[place].rust, c[place].kept));
    }
}

/// The layers' operators, twice over.
const LAYERS: [Operator; 8] = [Over, Multiply, Screen, Overlay, In, Xor, Plus, Difference];

/// A job of sixteen layers on growing pictures.
pub fn stacks(sides: &[usize]) {
    println!("\n| side | pixels | ms | ns a pixel and layer |\n|---:|---:|---:|---:|");
    for side in sides {
        let pair = Pair::new(*side);
        let pixels = pair.pixels();
        let layer = |k: usize| Layer::new(LAYERS[k % 8], pair.source());
        let stack = Stack::new(&(0..16).map(layer).collect::<Vec<_>>());
        let mut ours = Ours { pair: &pair, stack, work: &mut Work::new(&pair), from: 0 };
        let time = median(turns(16 * pixels, [Some(&mut ours)]).iter().map(|[time]| *time));
        println!("| {side} | {pixels} | {:.2} | {:.2} |", time * 1e3, time * 1e9 / (16 * pixels) as f64);
    }
}
