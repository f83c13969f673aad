//! The C interface (include/tray.h), call for call, over borrowed lists and with the library's own numbers as answers; the two
//! stores that begin a mark; and samples seen as words and words as samples. All unsafe code of the crate is here: each call
//! hands the pointers and lengths of borrowed lists to the library, which reads and writes only these, and keeps none of them.

use crate::layer::Inputs;
use crate::memory::Memory;
use std::mem::{align_of, size_of};
use std::{ptr, slice};

extern "C" {
    fn tray_from_name(name: *const u8, name_length: usize, operator: *mut u64) -> u64;
    fn tray_compose(
        width: i64,
        height: i64,
        channels: i64,
        dst: *const u32,
        dst_length: usize,
        table: *const i64,
        table_length: usize,
        args: *const u32,
        args_length: usize,
        samples: *const u32,
        samples_length: usize,
        out: *mut u32,
        out_length: usize,
    ) -> u64;
    fn tray_narrow(wanted: i64, input: *const u32, input_length: usize, out: *mut u32, out_length: usize) -> u64;
    fn tray_narrow_bytes(wanted: i64, input: *const u32, input_length: usize, out: *mut u8, out_length: usize) -> u64;
    fn tray_job(
        width: i64,
        height: i64,
        channels: i64,
        dst: *const u32,
        dst_length: usize,
        layers: i64,
        table: *const i64,
        table_length: usize,
        args: *const u32,
        args_length: usize,
        samples: *const u32,
        samples_length: usize,
        job_number: u64,
        allowance: u64,
        work0: *mut u32,
        work0_length: usize,
        work1: *mut u32,
        work1_length: usize,
        mark: *mut u64,
        mark_length: usize,
        layer: *mut u64,
        stores: *mut u64,
        finished: *mut u64,
    ) -> u64;
    fn tray_read_card(
        text: *const u8,
        text_length: usize,
        table: *mut i64,
        table_length: usize,
        args: *mut u32,
        args_length: usize,
        line: *mut u64,
        width: *mut i64,
        height: *mut i64,
        channels: *mut i64,
        layers: *mut i64,
    ) -> u64;
}

/// A call that begins with a job's inputs, a list as its pointer and its length; the count of layers stands after the
/// destination in a call that has it, and the other parameters follow.
macro_rules! with_inputs {
    ($call:ident, $inputs:ident $(, $layers:ident)?; $($others:expr),+) => {
        $call(
            $inputs.width,
            $inputs.height,
            $inputs.channels,
            $inputs.dst.as_ptr(),
            $inputs.dst.len(),
            $($inputs.$layers,)?
            $inputs.table.as_ptr(),
            $inputs.table.len(),
            $inputs.args.as_ptr(),
            $inputs.args.len(),
            $inputs.samples.as_ptr(),
            $inputs.samples.len(),
            $($others),+
        )
    };
}

/// `tray_from_name`: the answer is 0 or 3; the operator's number is written only with 0.
pub fn from_name(name: &[u8], operator: &mut u64) -> u64 {
    unsafe { tray_from_name(name.as_ptr(), name.len(), operator) }
}

/// `tray_compose`.
pub fn compose(inputs: &Inputs, out: &mut [u32]) -> u64 {
    unsafe { with_inputs!(tray_compose, inputs; out.as_mut_ptr(), out.len()) }
}

/// `tray_narrow`.
pub fn narrow(wanted: i64, input: &[u32], out: &mut [u32]) -> u64 {
    unsafe { tray_narrow(wanted, input.as_ptr(), input.len(), out.as_mut_ptr(), out.len()) }
}

/// `tray_narrow_bytes`.
pub fn narrow_bytes(wanted: i64, input: &[u32], out: &mut [u8]) -> u64 {
    unsafe { tray_narrow_bytes(wanted, input.as_ptr(), input.len(), out.as_mut_ptr(), out.len()) }
}

/// `tray_job`: the answer is the fault's number; the other three are written as include/tray.h says.
pub fn job(
    inputs: &Inputs,
    number: u64,
    allowance: u64,
    memory: Memory,
    layer: &mut u64,
    stores: &mut u64,
    finished: &mut u64,
) -> u64 {
    let Memory { work0, work1, mark } = memory;
    unsafe {
        with_inputs!(
            tray_job, inputs, layers;
            number, allowance,
            work0.as_mut_ptr(), work0.len(),
            work1.as_mut_ptr(), work1.len(),
            mark.as_mut_ptr(), mark.len(),
            layer, stores, finished
        )
    }
}

/// The two stores that begin a mark, the position before the number. A compiler may exchange plain stores, or make one of them;
/// volatile ones it leaves as they stand, so that a process that is killed between them has made the first and not the second.
pub(crate) fn begin(mark: &mut [u64; 2], number: u64) {
    let [position, job_number] = mark;
    unsafe {
        ptr::write_volatile(position, 0);
        ptr::write_volatile(job_number, number);
    }
}

/// What `tray_read_card` answers besides its number: each call writes all five.
#[derive(Clone, Copy, Debug, Default, PartialEq, Eq)]
pub struct CardAnswers {
    /// The line at fault, counted from 1; 0 where the lists have another length, and where there is no fault.
    pub line: u64,
    /// The destination's pixels in a row.
    pub width: i64,
    /// The destination's rows.
    pub height: i64,
    /// The destination's channels.
    pub channels: i64,
    /// The count of layers.
    pub layers: i64,
}

/// `tray_read_card`: the answer is 0 or 12; table and arguments are written only with 0.
pub fn read_card(text: &[u8], table: &mut [i64], args: &mut [u32], answers: &mut CardAnswers) -> u64 {
    let CardAnswers { line, width, height, channels, layers } = answers;
    unsafe {
        tray_read_card(
            text.as_ptr(),
            text.len(),
            table.as_mut_ptr(),
            table.len(),
            args.as_mut_ptr(),
            args.len(),
            line,
            width,
            height,
            channels,
            layers,
        )
    }
}

// `f32` and `u32` have one size and one alignment, and every pattern of bits is a value of both: a list of one is a list of
// the other for as long as it is borrowed. No sample is moved or computed with, so that a NaN keeps its bits.
const _: () = assert!(align_of::<f32>() == align_of::<u32>() && size_of::<f32>() == size_of::<u32>());

/// Samples as the library's words: the same memory, all bits kept.
pub fn words(samples: &[f32]) -> &[u32] {
    unsafe { slice::from_raw_parts(samples.as_ptr().cast(), samples.len()) }
}

/// Samples lent as words to be written: the same memory, all bits kept.
pub fn words_mut(samples: &mut [f32]) -> &mut [u32] {
    unsafe { slice::from_raw_parts_mut(samples.as_mut_ptr().cast(), samples.len()) }
}

/// Words as samples: the same memory, all bits kept.
pub fn floats(words: &[u32]) -> &[f32] {
    unsafe { slice::from_raw_parts(words.as_ptr().cast(), words.len()) }
}

/// Words lent as samples to be written: the same memory, all bits kept.
pub fn floats_mut(words: &mut [u32]) -> &mut [f32] {
    unsafe { slice::from_raw_parts_mut(words.as_mut_ptr().cast(), words.len()) }
}
