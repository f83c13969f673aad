//! What a layer is laid on and what it is: the destination widened, and a layer from its row of the table. And one layer laid
//! by itself.

use super::operator::Op;
use super::place::{Beneath, Row};
use super::window::holds;
use super::wrong::{Reading, Wrong};
use crate::request::{ARGUMENTS, COLUMNS, Job, WHOLE, WINDOW, floats};
use std::borrow::Cow;

impl Reading {
    /// Layer `k` of a job whose inputs have no fault.
    pub fn layer<'a>(self, job: &'a Job, k: usize) -> Row<'a> {
        let row = &job.table[k * COLUMNS..][..COLUMNS];
        let start = if self.is(Wrong::SourceFromZero) { 0 } else { row[5] as usize };
        let count = if self.is(Wrong::ArgumentsPastCount) { ARGUMENTS } else { row[9] as usize };
        let first = if self.is(Wrong::ArgumentsOfFirstLayer) { 0 } else { k * ARGUMENTS };
        Row {
            op: Op::ALL[row[0] as usize],
            gravity: row[1],
            right: row[2],
            down: row[3],
            flags: row[4],
            width: row[6],
            height: row[7],
            channels: row[8],
            source: &job.samples[start.min(job.samples.len())..],
            args: floats(&job.args[first..first + count]),
            window: self.window(job, k),
        }
    }

    /// The inputs as they are; by a misreading a sheet of ten numbers a layer gets windows.
    pub fn sheet(self, job: &Job, ten: Wrong) -> Cow<'_, Job> {
        if !self.is(ten) || job.table.len() as i64 != job.layers.saturating_mul(WINDOW as i64) {
            return Cow::Borrowed(job);
        }
        let table = job.table.chunks(WINDOW).flat_map(|row| [row, &WHOLE].concat()).collect();
        Cow::Owned(Job { table, ..job.clone() })
    }

    /// A single composition without a fault.
    pub fn single(self, job: &Job, out: &mut [u32]) {
        let words = self.widened_dst(job);
        let beneath = Beneath { width: job.width, height: job.height, words: &words };
        let mut row = self.layer(job, 0);
        if self.is(Wrong::WindowNotSingle) {
            row.window = WHOLE;
        }
        for i in 0..job.width * job.height {
            let (x, y) = (i % job.width, i / job.width);
            if holds(row.window, x, y) || !self.is(Wrong::WindowLeavesOutput) {
                out[i as usize * 4..][..4].copy_from_slice(&self.cell(&row, &beneath, x, y));
            }
        }
    }

    /// The destination, widened.
    pub fn widened_dst(self, job: &Job) -> Vec<u32> {
        (0..job.width * job.height).flat_map(|i| self.widened(job.channels, &job.dst, i)).collect()
    }
}
