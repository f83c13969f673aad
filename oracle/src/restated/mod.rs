//! Document 01 worked out a second time, with no line of the Rust: float steps, operators, placing, names,
//! narrowing, faults and the job, one store after the other; the gray, the card, the window, the list of the names and
//! the job number as document 02 has them. Each place where a reader may go wrong has a switch (`wrong.rs`); with none
//! set this agrees with the Rust and its model on every request.

// A negated comparison is another one where an operand is NaN, and some misreadings are just that.
#![allow(clippy::neg_cmp_op_on_partial_ord)]

mod blend;
mod card;
mod checks;
mod convention;
mod hsl;
mod job;
mod layer;
mod names;
mod narrow;
mod number;
mod operator;
mod pixel;
mod place;
mod sites;
mod steps;
mod window;
pub mod wrong;

pub use wrong::{Reading, Wrong};

use crate::request::{Answer, Call, CardAnswer, Job, Memory, Side};

/// This module as a side of a comparison.
pub struct Restated {
    pub reading: Reading,
}

impl Side for Restated {
    fn from_name(&self, name: &[u8]) -> Option<u64> {
        self.reading.from_name(name)
    }

    fn compose(&self, job: &Job, out: &mut [u32]) -> u64 {
        let reading = self.reading;
        let job = Job { layers: 1, ..job.clone() };
        let job = reading.sheet(&job, Wrong::SingleTenNumbers);
        if let Some((number, _)) = reading.inputs(&job) {
            return number;
        }
        let channels = if reading.is(Wrong::OutputByChannels) { job.channels } else { 4 };
        if out.len() as i64 != job.width * job.height * channels {
            return 9;
        }
        if let Some((number, _)) = reading.windows_by(&job, &[Wrong::WindowsAfterWork, Wrong::WindowsAfterMark]) {
            return number;
        }
        reading.single(&job, out);
        0
    }

    fn narrow(&self, wanted: i64, input: &[u32], out: &mut [u32]) -> u64 {
        if self.reading.narrowing(wanted, input.len(), out.len()) {
            return 11;
        }
        out.copy_from_slice(&self.reading.narrowed(wanted, input));
        0
    }

    fn narrow_bytes(&self, wanted: i64, input: &[u32], out: &mut [u8]) -> u64 {
        if self.reading.narrowing(wanted, input.len(), out.len()) {
            return 11;
        }
        let old = self.reading.is(Wrong::GrayBytesWeights);
        let reading = if old { Reading { wrong: Some(Wrong::LumaWeights) } } else { self.reading };
        for (byte, word) in out.iter_mut().zip(reading.narrowed(wanted, input)) {
            *byte = self.reading.byte(f32::from_bits(word));
        }
        0
    }

    fn call(&self, job: &Job, call: Call, memory: &mut Memory) -> Answer {
        self.reading.call(&self.reading.sheet(job, Wrong::JobTenNumbers), call, memory)
    }

    fn read_card(&self, text: &[u8], table: &mut [i64], args: &mut [u32]) -> CardAnswer {
        self.reading.read_card(text, table, args)
    }
}
