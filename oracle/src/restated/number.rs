//! Document 02's job number (A.5) a second time: a mark has the position of a job's work and the job's number, and a call
//! that carries a number unlike it is refused as 14, after every other fault. No call writes the number.

use super::checks::Fault;
use super::wrong::{Reading, Wrong};
use crate::request::{Answer, Call, Job, Memory};

/// The position of a finished job.
fn finished(job: &Job) -> u64 {
    (job.layers as u64).wrapping_add(1).wrapping_mul(pixels(job))
}

fn pixels(job: &Job) -> u64 {
    (job.width as u64).wrapping_mul(job.height as u64)
}

impl Reading {
    /// The two numbers of a call as they are meant.
    fn carried(self, call: Call) -> Call {
        match self.wrong {
            Some(Wrong::NumberIsAllowance) => Call { job_number: call.allowance, allowance: call.job_number },
            _ => call,
        }
    }

    /// Whether a call's number is taken for the mark's.
    fn same(self, call: u64, mark: u64) -> bool {
        match self.wrong {
            Some(Wrong::NumberUnchecked) => true,
            Some(Wrong::NumberLow32Bits) => call as u32 == mark as u32,
            Some(Wrong::NumberHigh32Bits) => call >> 32 == mark >> 32,
            Some(Wrong::NumberLow16Bits) => call as u16 == mark as u16,
            Some(Wrong::NumberWithoutSign) => call << 1 == mark << 1,
            Some(Wrong::NumberWithoutLowest) => call >> 1 == mark >> 1,
            Some(Wrong::NumberParity) => call % 2 == mark % 2,
            Some(Wrong::NumberInDouble) => call as f64 == mark as f64,
            Some(Wrong::NumberLater) => call >= mark,
            Some(Wrong::NumberEarlier) => call <= mark,
            Some(Wrong::NumberZeroCall) => call == 0 || call == mark,
            Some(Wrong::NumberZeroMark) => mark == 0 || call == mark,
            _ => call == mark,
        }
    }

    /// Whether the numbers are compared at this mark.
    fn looks(self, job: &Job, call: Call, mark: &[u64]) -> bool {
        let (position, number) = (mark[0], mark[1]);
        match self.wrong {
            Some(Wrong::NumberNotFresh | Wrong::NumberTakenFresh) => position != 0,
            Some(Wrong::NumberFreshOnly) => position == 0,
            Some(Wrong::NumberNotBlank | Wrong::NumberTakenBlank) => position != 0 || number != 0,
            Some(Wrong::NumberNotFinished) => position != finished(job) || pixels(job) == 0,
            Some(Wrong::NumberFinishedOnly) => position == finished(job),
            Some(Wrong::NumberNotIdle) => call.allowance != 0,
            Some(Wrong::NumberNotEmpty) => pixels(job) != 0,
            Some(Wrong::NumberNotWithinPhase) => position % pixels(job).max(1) == 0,
            Some(Wrong::NumberTaken | Wrong::NumberRestarts) => false,
            _ => true,
        }
    }

    /// Fault 14, where the list has a second number.
    pub fn number(self, job: &Job, call: Call, memory: &Memory) -> Option<Fault> {
        let mark = &memory.mark;
        if mark.len() < 2 {
            return None;
        }
        let held = if self.is(Wrong::NumberOfPosition) { mark[0] } else { mark[1] };
        if !self.looks(job, call, mark) || self.same(call.job_number, held) {
            return None;
        }
        match self.wrong {
            Some(Wrong::NumberAsMark) => Some((10, 0)),
            Some(Wrong::NumberOfLastLayer) => Some((14, (job.layers as u64).wrapping_sub(1))),
            _ => Some((14, 0)),
        }
    }

    /// Fault 14 before its place, by the misreadings that look at it there.
    pub fn number_early(self, job: &Job, call: Call, memory: &Memory) -> Option<Fault> {
        let accepted = || self.inputs(job).is_none();
        let reached = match self.wrong {
            Some(Wrong::NumberFirst) => true,
            Some(Wrong::NumberBeforeTray) => self.stack(job),
            Some(Wrong::NumberBeforeLayers) => self.stack(job) && self.tray(job),
            Some(Wrong::NumberBeforeWork) => accepted(),
            Some(Wrong::NumberBeforeMark) => accepted() && self.work(job, memory),
            Some(Wrong::NumberBeforeBound) => accepted() && self.work(job, memory) && memory.mark.len() == 2,
            _ => false,
        };
        if reached { self.number(job, call, memory) } else { None }
    }

    /// The list lent as mark as it is read, position first.
    fn read_mark(self, mark: &mut Vec<u64>) {
        match self.wrong {
            Some(Wrong::MarkExchanged) if mark.len() == 2 => mark.swap(0, 1),
            Some(Wrong::MarkOfOne) if mark.len() == 1 => mark.push(0),
            _ => {}
        }
    }

    /// What an accepted call does to the mark before its first store.
    fn taken(self, call: Call, mark: &mut [u64]) {
        match self.wrong {
            Some(Wrong::NumberTaken) => mark[1] = call.job_number,
            Some(Wrong::NumberTakenFresh | Wrong::NumberTakenBlank) if mark[0] == 0 => mark[1] = call.job_number,
            Some(Wrong::NumberRestarts) if mark[1] != call.job_number => {
                (mark[0], mark[1]) = (0, call.job_number);
            }
            Some(Wrong::NumberRaised) => mark[1] = mark[1].wrapping_add(1),
            _ => {}
        }
    }

    /// What it does to it after its last store.
    fn left(self, answer: &Answer, mark: &mut [u64]) {
        match self.wrong {
            Some(Wrong::PositionTwice) if answer.stores >= 5 => mark[1] = mark[0],
            Some(Wrong::NumberReleased) if answer.finished => mark[1] = 0,
            _ => {}
        }
    }

    /// A refused call: nothing is written, and nothing answered but the number and the layer.
    fn refused(self, (number, layer): Fault, job: &Job, call: Call, memory: &mut Memory) -> Answer {
        let answer = Answer::refused(number, layer);
        let end = finished(job);
        match self.wrong {
            Some(Wrong::RefusalResetsMark) => memory.mark.fill(0),
            Some(Wrong::RefusalFinished) => {
                return Answer { finished: memory.mark.first() == Some(&end), ..answer };
            }
            _ => {}
        }
        if number != 14 {
            return answer;
        }
        match self.wrong {
            Some(Wrong::NumberResets) => memory.mark[0] = 0,
            Some(Wrong::NumberNamed) => memory.mark[1] = call.job_number,
            Some(Wrong::NumberBegins) => (memory.mark[0], memory.mark[1]) = (0, call.job_number),
            Some(Wrong::NumberFinished) => return Answer { finished: memory.mark[0] == end, ..answer },
            Some(Wrong::NumberStores) => {
                return Answer { stores: call.allowance.min((end - memory.mark[0]) * 5), ..answer };
            }
            Some(Wrong::NumberAfterStores) => {
                self.accepted(job, call.allowance, memory);
            }
            _ => {}
        }
        answer
    }

    /// A call of a job.
    pub fn call(self, job: &Job, call: Call, memory: &mut Memory) -> Answer {
        let call = self.carried(call);
        let length = memory.mark.len();
        self.read_mark(&mut memory.mark);
        let answer = match self.fault(job, call, memory) {
            Some(fault) => self.refused(fault, job, call, memory),
            None => {
                self.taken(call, &mut memory.mark);
                let answer = self.accepted(job, call.allowance, memory);
                self.left(&answer, &mut memory.mark);
                answer
            }
        };
        self.read_mark(&mut memory.mark);
        memory.mark.truncate(length);
        answer
    }
}
