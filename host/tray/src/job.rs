//! The resumable job.

use crate::environment::environment;
use crate::fault::{Error, Fault, Refusal};
use crate::layer::Inputs;
use crate::memory::Memory;
use crate::raw;
use std::fmt;

/// An accepted call: the stores it made, and whether the job is finished.
#[derive(Clone, Copy, Debug, PartialEq, Eq)]
pub struct Progress {
    /// Five a pixel: four samples and the mark's position.
    pub stores: u64,
    /// The picture stands in work buffer (layers mod 2).
    pub finished: bool,
}

/// The number of a job, which tells its mark from another job's: it stands in the mark beside the position ([`begin`]), every call
/// carries it, and a call whose number is not the mark's is refused ([`Fault::JobNumber`]). Each job has one of its own: 64 random
/// bits, or a number that was never used before. 0 is a number like any other. It is shown in sixteen hexadecimal digits.
#[derive(Clone, Copy, Debug, PartialEq, Eq)]
pub struct JobNumber(pub u64);

impl fmt::Display for JobNumber {
    fn fmt(&self, f: &mut fmt::Formatter) -> fmt::Result {
        write!(f, "{:016x}", self.0)
    }
}

/// Begins a job's mark, before the job's first call: position 0, and then the number, in this order also for a process that is
/// killed between the two. It then leaves position 0 under the number that stood there: this job's calls refuse it, and the job of
/// that number would start anew. In the other order an earlier job's position could stand under this job's number, and the
/// picture would be a mixture. The library writes the position alone; the number is never written by a call.
pub fn begin(mark: &mut [u64; 2], number: JobNumber) {
    raw::begin(mark, number.0);
}

/// Goes on from the mark with up to `allowance` stores, five a pixel; `u64::MAX` runs to the end. The mark must be one that has
/// begun ([`begin`]) with this number.
pub fn job(inputs: &Inputs, number: JobNumber, allowance: u64, memory: Memory) -> Result<Progress, Error<Refusal>> {
    environment()?;
    let (mut layer, mut stores, mut finished) = (0, 0, 0);
    match Fault::check(raw::job(inputs, number.0, allowance, memory, &mut layer, &mut stores, &mut finished)) {
        Ok(()) => Ok(Progress { stores, finished: finished != 0 }),
        Err(fault) => Err(Refusal { fault, layer }.into()),
    }
}

/// The position of a finished job, for sides and layers that the library accepts: a pixel of the widened destination and of each
/// layer counts one.
pub fn total(width: u64, height: u64, layers: u64) -> u64 {
    (layers + 1) * width * height
}

/// The phase that a position lies in and its pixels written so far. Phase 0 widens the destination, phase k writes layer
/// k - 1 into work buffer k mod 2. A finished job's picture is in work buffer (layers mod 2).
pub fn phase(position: u64, width: u64, height: u64) -> (u64, u64) {
    match width * height {
        0 => (0, 0),
        pixels => (position / pixels, position % pixels),
    }
}
