//! One operator by each side, in this process.

use crate::inputs::{Pair, composite};
use crate::others::{self, Composition};
use crate::turns::{Side, median, turns};
use oracle::composite::Composite;
use oracle::deep::FloatImage;
use std::hint::black_box;
use tray::{JobNumber, Memory, Stack};

const NAN: u32 = 0x7fc0_0000;

/// The number of every job here: one is finished before the next begins.
const NUMBER: JobNumber = JobNumber(1);

/// A job's memory.
pub struct Work([Vec<u32>; 2]);

impl Work {
    pub fn new(pair: &Pair) -> Self {
        Work([vec![0; 4 * pair.pixels()], vec![0; 4 * pair.pixels()]])
    }

    /// The picture that a job of one layer leaves.
    pub fn picture(&self) -> &[u32] {
        &self.0[1]
    }
}

/// The library's job call, from a position to the end.
pub struct Ours<'a> {
    pub pair: &'a Pair,
    pub stack: Stack,
    pub work: &'a mut Work,
    pub from: u64,
}

impl Side for Ours<'_> {
    fn run(&mut self) {
        let [work0, work1] = &mut self.work.0;
        let inputs = self.pair.inputs(&self.stack);
        let mut mark = [0; 2];
        tray::begin(&mut mark, NUMBER);
        mark[0] = self.from;
        let memory = Memory { work0, work1, mark: &mut mark };
        let done = tray::job(black_box(&inputs), black_box(NUMBER), u64::MAX, memory);
        assert!(done.expect("no fault").finished);
    }
}

/// The Rust's `compose_float`.
struct Rust<'a> {
    composite: Composite,
    images: &'a [FloatImage; 2],
}

impl Rust<'_> {
    fn result(&self) -> FloatImage {
        let [dst, src] = self.images;
        self.composite.compose_float(black_box(dst), black_box(src))
    }
}

impl Side for Rust<'_> {
    fn run(&mut self) {
        drop(black_box(self.result()));
    }
}

/// Our time as a part of the Rust's, and of each other library's: NaN where one has not the operator.
pub type Ratios = [f64; 1 + others::COUNT];

/// A ratio is the median of the ratios of the turns. The two times of a turn are taken one after the other, so that what
/// slows the processor for a while slows both and leaves their ratio; a turn in which only one was disturbed lies at an
/// end and not in the middle. The shortest times of each side may be those of different moments, and would favour the
/// side with more luck. The results are compared first; with this every side's memory has been used before it is timed.
pub fn measured(pair: &Pair, images: &[FloatImage; 2], work: &mut Work, operator: usize, with_others: bool) -> Ratios {
    let mut ours = Ours { pair, stack: pair.stack(operator), work, from: 0 };
    let mut rust = Rust { composite: composite(operator), images };
    ours.run();
    let same = |(word, value): (&u32, &f32)| *word == value.to_bits() || *word == NAN && value.is_nan();
    let equal = ours.work.picture().iter().zip(rust.result().samples()).all(same);
    assert!(equal, "{}: another result", rust.composite.op.name());
    let wanted = |library| if with_others { Composition::new(library, pair, operator) } else { None };
    let mut others = others::LIBRARIES.map(wanted);
    let [pixman, magick] = others.each_mut().map(|other| other.as_mut().map(|other| other as &mut dyn Side));
    let turns = turns(pair.pixels(), [Some(&mut ours), Some(&mut rust), pixman, magick]);
    std::array::from_fn(|k| median(turns.iter().map(|turn| turn[0] / turn[1 + k])))
}
