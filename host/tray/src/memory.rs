//! What a job's calls write.

/// Two work buffers of 4 × width × height words each, which may begin with any content, and the mark, a list of two numbers that
/// [`begin`](crate::begin) writes.
#[derive(Debug)]
pub struct Memory<'a> {
    /// The pictures of even phases: the widened destination, then those of layers 1, 3, ..
    pub work0: &'a mut [u32],
    /// The pictures of odd phases: those of layers 0, 2, ..
    pub work1: &'a mut [u32],
    /// The position, which is how many pixels are written, over all phases; and the job's number, which no call writes.
    pub mark: &'a mut [u64],
}
