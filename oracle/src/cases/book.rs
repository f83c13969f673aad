//! The file of the vectors: notes, and requests with their answers.

use crate::compare::expected;
use crate::lines::{Outcome, Request, Writer};
use crate::request::{Call, Job, Memory, under};

/// The lines of the file, as they are made.
#[derive(Default)]
pub struct Book {
    writer: Writer,
    pub text: String,
    noted: String,
}

impl Book {
    /// A comment, once for the cases that follow under it.
    pub fn note(&mut self, text: &str) {
        if self.noted != text {
            self.text += &format!("# {text}\n");
            self.noted = text.to_string();
        }
    }

    /// A request and its answer, as a line.
    pub fn put(&mut self, request: Request) -> Outcome {
        let case = expected(request);
        self.text += &self.writer.line(&case);
        self.text.push('\n');
        case.expected
    }

    /// A single composition into an output of this length.
    pub fn single(&mut self, job: &Job, length: usize) {
        self.put(Request::Compose { job: job.clone(), length });
    }

    /// A single composition into an output of the right length.
    pub fn compose(&mut self, job: &Job) {
        let area = job.width.max(0).saturating_mul(job.height.max(0)).min(1 << 14);
        self.single(job, 4 * area as usize);
    }

    /// Calls of a job under the mark's own number (0 where it has none), and the memory after them.
    pub fn calls(&mut self, job: &Job, memory: &Memory, allowances: &[u64]) -> Memory {
        let number = memory.mark.get(1).copied().unwrap_or(0);
        self.numbered(job, memory, &under(number, allowances))
    }

    /// Calls of a job under any numbers, and the memory after them.
    pub fn numbered(&mut self, job: &Job, memory: &Memory, calls: &[Call]) -> Memory {
        let request = Request::Calls { job: job.clone(), memory: memory.clone(), calls: calls.to_vec() };
        match self.put(request) {
            Outcome::Calls { memory, .. } => memory,
            _ => unreachable!("calls answer as calls"),
        }
    }
}
