//! Argument counts 0 to 4, with finite and other values, for the operators that read them and one that
//! does not.

use super::book::Book;
use super::layer::{Row, arguments};
use crate::request::Job;

/// Mathematics, Blend, Dissolve, ChangeMask, Threshold, Displace, Distort, Modulate; Over reads none.
const READERS: [(i64, f32); 9] =
    [(44, 1.0), (45, 100.0), (46, 100.0), (62, 0.25), (64, 0.25), (65, 3.0), (66, 3.0), (69, 100.0), (0, 1.0)];

/// Four arguments, as parts of what the operator expects.
const GIVEN: [[f32; 4]; 9] = [
    [0.3, 0.7, -0.2, 0.1],
    [f32::NAN, 0.6, 0.5, 0.25],
    [0.4, f32::NAN, f32::INFINITY, 0.25],
    [f32::INFINITY, f32::NEG_INFINITY, f32::NAN, 0.1],
    [0.0, 0.0, 0.0, 0.0],
    [-0.0, -0.0, -0.0, -0.0],
    [1.5, -0.5, 2.0, -1.0],
    [f32::NEG_INFINITY, 0.33, 0.1, f32::INFINITY],
    [1e38, 1e-42, f32::MAX, -f32::MAX],
];

pub fn put(book: &mut Book) {
    book.note("arguments: each count, finite and other values; those past the count are not read");
    let channel = |i: usize| [0.1f32, 0.9, 0.35, 0.6, 0.5, 0.2, 1.0, 0.0, 0.75, 0.4, 0.05, 0.85, 0.3][i % 13].to_bits();
    let dst: Vec<u32> = (0..16).map(channel).collect();
    let mut samples: Vec<u32> = (0..16).map(|i| channel(i * 5 + 2)).collect();
    // A pixel like the destination's, one near it, and one with an infinite and a NaN channel.
    samples[0..4].copy_from_slice(&dst[0..4]);
    samples[4..8].copy_from_slice(&[dst[4] + 1, dst[5], dst[6] - 1, dst[7]]);
    samples[12] = f32::INFINITY.to_bits();
    samples[13] = 0x7fc0_0123;
    let mut job = Job { width: 2, height: 2, channels: 4, dst, layers: 1, samples, ..Job::default() };
    for (operator, scale) in READERS {
        for given in GIVEN {
            for count in 0..=4 {
                let scaled = given.map(|v| (v * scale).to_bits());
                let mut row = Row::new(operator, (2, 2, 4));
                row.count = count;
                job.table = row.numbers().to_vec();
                job.args = arguments(&scaled);
                if count > 0 || given == GIVEN[0] {
                    book.compose(&job);
                }
            }
        }
    }
}
