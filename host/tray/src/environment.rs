//! The floating-point environment of the calling thread. The library's samples are those of binary32 with subnormal
//! numbers, each operation rounded to the nearest value, ties to even: the environment in which C and Rust programs
//! start. A thread can leave it (on x86-64 by bits of the register MXCSR, which gcc's -ffast-math sets when a program
//! starts), and then the same call gives other bits, and a job that such a worker takes up becomes a mixture. Trapped
//! exceptions are not looked for: a trap ends the process as a kill does, and changes no sample.

use crate::layer::{Inputs, ARGUMENTS, COLUMNS};
use crate::operator::Operator;
use crate::raw;
use std::error::Error;
use std::fmt;

/// How the calling thread's arithmetic differs from the library's.
#[derive(Clone, Copy, Debug, PartialEq, Eq, Hash)]
pub enum Environment {
    /// Subnormal operands or results count as zero.
    FlushesSubnormals,
    /// Another rounding than to the nearest value, ties to even.
    RoundsOtherwise,
}

impl fmt::Display for Environment {
    fn fmt(&self, f: &mut fmt::Formatter) -> fmt::Result {
        let does = match self {
            Environment::FlushesSubnormals => "flushes subnormal numbers to zero",
            Environment::RoundsOtherwise => "does not round to the nearest value, ties to even",
        };
        write!(f, "this thread's floating-point environment {does}; nothing was written")
    }
}

impl Error for Environment {}

/// One pixel on another by Plus, all channels written: the operator, gravity, offsets, flags, then the source's
/// start, sides and channels, no argument, and a window of that pixel.
const PLUS: [i64; COLUMNS] = [Operator::Plus as i64, 0, 0, 0, 60, 0, 1, 1, 4, 0, 0, 0, 1, 1];

/// The words of 1, and of a half and the two floats after it, which lie 2^-24 apart.
const ONE: u32 = 0x3f80_0000;
const HALF: u32 = 0x3f00_0000;
const AFTER_HALF: u32 = HALF + 1;
const EVEN_AFTER_HALF: u32 = HALF + 2;

/// The word of 2^-25, half of that distance.
const TIE: u32 = 0x3300_0000;

/// Sees by a composition of one pixel whether the calling thread computes as the library needs it: [`crate::compose`],
/// [`crate::narrow`], [`crate::narrow_bytes`] and [`crate::job`] ask this first. The answer is for the calling thread.
///
/// Red is the sum of the least subnormal number and itself. Green and blue are ties: a half is even, and rounding up leaves
/// it; the float after it is odd, and rounding down or towards zero stays there.
pub fn environment() -> Result<(), Environment> {
    let (source, dst) = ([1, TIE, TIE, ONE], [1, HALF, AFTER_HALF, ONE]);
    let inputs = Inputs {
        width: 1,
        height: 1,
        channels: 4,
        dst: &dst,
        layers: 1,
        table: &PLUS,
        args: &[0; ARGUMENTS],
        samples: &source,
    };
    let mut out = [0; 4];
    assert_eq!(raw::compose(&inputs, &mut out), 0, "the library accepts this pixel");
    match out {
        [2, HALF, EVEN_AFTER_HALF, ONE] => Ok(()),
        [2, ..] => Err(Environment::RoundsOtherwise),
        _ => Err(Environment::FlushesSubnormals),
    }
}
