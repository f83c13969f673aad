//! The sides of a comparison take turns in one process.

use crate::clock;

/// One side of a comparison.
pub trait Side {
    /// What comes before a turn and is not timed.
    fn prepare(&mut self) {}

    /// What is timed: one composition, or some names.
    fn run(&mut self);
}

/// How often a picture of so many pixels is composed: turns, and compositions a turn.
fn effort(pixels: usize) -> (usize, usize) {
    match pixels {
        0..=10_000 => (25, 8),
        10_001..=2_000_000 => (7, 1),
        _ => (5, 1),
    }
}

/// Seconds a run.
fn time(side: &mut dyn Side, batch: usize) -> f64 {
    side.prepare();
    let start = clock::now();
    (0..batch).for_each(|_| side.run());
    (clock::now() - start) / batch as f64
}

/// The times of a composition of so many pixels.
pub fn turns<const N: usize>(pixels: usize, sides: [Option<&mut dyn Side>; N]) -> Vec<[f64; N]> {
    let (count, batch) = effort(pixels);
    so_many(count, batch, sides)
}

/// The times of each turn, in which the sides follow each other; NaN for a side that is not there.
pub fn so_many<const N: usize>(count: usize, batch: usize, mut sides: [Option<&mut dyn Side>; N]) -> Vec<[f64; N]> {
    let mut turn = || sides.each_mut().map(|side| side.as_mut().map_or(f64::NAN, |side| time(*side, batch)));
    (0..count).map(|_| turn()).collect()
}

pub fn median(values: impl Iterator<Item = f64>) -> f64 {
    let mut values: Vec<f64> = values.collect();
    values.sort_by(f64::total_cmp);
    let middle = values.len() / 2;
    if values.len() % 2 == 1 { values[middle] } else { (values[middle - 1] + values[middle]) / 2.0 }
}
