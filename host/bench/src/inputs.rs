//! The pictures that are measured, and one layer as both sides read it.

use oracle::composite::{Composite, CompositeOp};
use oracle::deep::FloatImage;
use tray::{Inputs, Layer, Operator, Source, Stack};

/// Numbers that look random and are the same in each run.
pub struct Numbers(u64);

impl Numbers {
    pub fn new(seed: u64) -> Self {
        Numbers(seed)
    }

    /// The next value from 0 to 1. One in sixteen is 0 and one in sixteen is 1, as flat parts of a picture are.
    pub fn sample(&mut self) -> f32 {
        self.0 = self.0.wrapping_mul(6364136223846793005).wrapping_add(1442695040888963407);
        let n = self.0 >> 40;
        match n % 16 {
            0 => 0.0,
            1 => 1.0,
            _ => n as f32 / (1 << 24) as f32,
        }
    }
}

/// A destination and a source of four channels and the same sides.
pub struct Pair {
    pub side: usize,
    pub dst: Vec<u32>,
    pub src: Vec<u32>,
}

impl Pair {
    pub fn new(side: usize) -> Self {
        let mut numbers = Numbers::new(side as u64);
        let mut words = || (0..4 * side * side).map(|_| numbers.sample().to_bits()).collect();
        Pair { side, dst: words(), src: words() }
    }

    pub fn pixels(&self) -> usize {
        self.side * self.side
    }

    /// The pictures as the Rust has them.
    pub fn images(&self) -> [FloatImage; 2] {
        let side = self.side as u32;
        [&self.dst, &self.src].map(|words| {
            let samples = words.iter().map(|w| f32::from_bits(*w)).collect();
            FloatImage::from_samples(side, side, 4, samples).expect("four samples a pixel")
        })
    }

    pub fn source(&self) -> Source {
        Source { first: 0, width: self.side as i64, height: self.side as i64, channels: 4 }
    }

    pub fn inputs<'a>(&'a self, stack: &'a Stack) -> Inputs<'a> {
        let side = self.side as i64;
        Inputs {
            width: side,
            height: side,
            channels: 4,
            dst: &self.dst,
            layers: stack.layers(),
            table: &stack.table,
            args: &stack.args,
            samples: &self.src,
        }
    }

    /// One layer of the operator over the whole destination.
    pub fn stack(&self, operator: usize) -> Stack {
        Stack::new(&[Layer::new(Operator::ALL[operator], self.source())])
    }
}

/// The same layer for the Rust.
pub fn composite(operator: usize) -> Composite {
    Composite::new(CompositeOp::ALL[operator]).with_outside_overlay(false)
}
