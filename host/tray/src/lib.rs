//! A safe interface to the proved tray compositor (libtray.a; the C interface is include/tray.h).
//!
//! Pictures, source samples and arguments are words: the bits of an `f32`. A host that has samples lends the same memory by
//! [`words`] and [`words_mut`], and reads a result by [`floats`]. A call borrows every list for its duration and writes only
//! what it borrows mutably; a refused call writes nothing.
//!
//! ```
//! use tray::{compose, words, words_mut, Inputs, Layer, Operator, Source, Stack};
//!
//! // A red pixel, half transparent, over a blue one.
//! let (red, blue) = ([1.0, 0.0, 0.0, 0.5], [0.0, 0.0, 1.0, 1.0]);
//! let pixel = Source { first: 0, width: 1, height: 1, channels: 4 };
//! let Stack { table, args } = &Stack::new(&[Layer::new(Operator::Over, pixel)]);
//! let (dst, samples) = (words(&blue), words(&red));
//! let inputs = Inputs { width: 1, height: 1, channels: 4, dst, layers: 1, table, args, samples };
//! let mut out = [0.0; 4];
//! compose(&inputs, words_mut(&mut out))?;
//! assert_eq!(out, [0.5, 0.0, 0.5, 1.0]);
//!
//! // Operators have names, as a person or a file writes them.
//! assert_eq!("Soft-Light".parse(), Ok(Operator::SoftLight));
//! # Ok::<(), Box<dyn std::error::Error>>(())
//! ```
//!
//! A job ([`job`]) lives in two work buffers and a mark, which has the position and the job's number ([`JobNumber`], [`begin`]). A
//! call may be cut at any moment, by SIGKILL for instance: the next call with the same inputs, the same number and the same
//! memory takes the job up at its position, and a call with a number that differs is refused. Its caller sees to two things:
//! the stopped worker is gone before the next call starts, and nothing else writes the job's memory until it is finished.
//! examples/job.rs is a host with such a job.
//!
//! A layer writes within its window ([`Window`]), and a pixel off it keeps its bits. A card ([`Card`]) is a job as text, which
//! people keep and edit.
//!
//! A call that computes asks first whether the calling thread's arithmetic is the library's ([`environment`]).

#![deny(missing_docs)]

mod card;
mod environment;
mod fault;
mod gravity;
mod job;
mod layer;
mod memory;
mod operator;
pub mod raw;
mod window;

pub use card::Card;
pub use environment::{environment, Environment};
pub use fault::{CardFault, Error, Fault, NoCard, Refusal};
pub use gravity::{Gravity, UnknownGravity};
pub use job::{begin, job, phase, total, JobNumber, Progress};
pub use layer::{Flags, Inputs, Layer, Source, Stack, ARGUMENTS, COLUMNS, LAYERS, OFFSET, SIDE};
pub use memory::Memory;
pub use operator::{from_name, Argument, ArgumentDefault, Operator};
pub use raw::{floats, floats_mut, words, words_mut};
pub use window::Window;

/// One layer on one destination. `out` has four words a pixel of the destination.
pub fn compose(inputs: &Inputs, out: &mut [u32]) -> Result<(), Error<Fault>> {
    environment()?;
    Ok(Fault::check(raw::compose(inputs, out))?)
}

/// A picture of four channels narrowed to `wanted` of them (1, 3 or 4). `out` has `wanted` words a pixel. One channel is the
/// gray, 0.212656 red + 0.715158 green + 0.072186 blue, which is the intensity that the operators use; three leave out alpha.
pub fn narrow(wanted: i64, input: &[u32], out: &mut [u32]) -> Result<(), Error<Fault>> {
    environment()?;
    Ok(Fault::check(raw::narrow(wanted, input, out))?)
}

/// The same as bytes, 0 to 255.
pub fn narrow_bytes(wanted: i64, input: &[u32], out: &mut [u8]) -> Result<(), Error<Fault>> {
    environment()?;
    Ok(Fault::check(raw::narrow_bytes(wanted, input, out))?)
}
