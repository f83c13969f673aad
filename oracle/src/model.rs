//! Document 01 above the compiled Rust: the table of faults, single compositions, narrowing, and the job
//! with its phases, work pictures, mark, allowance and answer; document 02's job number. Every pixel comes from
//! `reference`, where a layer has a window by way of `window`.

use crate::request::{ARGUMENTS, Answer, COLUMNS, Call, CardAnswer, Job, LAYERS, Layer, Memory, Picture, Side, WINDOW};
use crate::{card, reference, window};

const SIDE: i64 = 2048;
const OFFSET: i64 = 1_000_000;
const OPERATORS: i64 = 70;
const INTERPOLATE: i64 = 43;
const BLUR: i64 = 67;

/// A refusal: its number and its layer.
pub type Fault = (u64, u64);

/// The count of samples of a picture whose sides and channels are in order.
fn size(width: i64, height: i64, channels: i64) -> Option<i128> {
    let side = |n: i64| (0..=SIDE).contains(&n);
    let good = side(width) && side(height) && [1, 3, 4].contains(&channels);
    good.then(|| width as i128 * height as i128 * channels as i128)
}

/// Faults 3 to 8 and 13 of one row of the table.
fn row_fault(row: &[i64], samples: usize) -> Option<u64> {
    let &[operator, gravity, right, down, flags, start, width, height, channels, count, ref window @ ..] = row else {
        unreachable!("a row has fourteen numbers")
    };
    let placed = |offset: i64| (-OFFSET..=OFFSET).contains(&offset);
    let source = || {
        let size = size(width, height, channels)?;
        (start >= 0 && start as i128 + size <= samples as i128).then_some(())
    };
    if !(0..OPERATORS).contains(&operator) {
        return Some(3);
    }
    if operator == INTERPOLATE || operator == BLUR {
        return Some(4);
    }
    if !(0..=9).contains(&gravity) || !placed(right) || !placed(down) {
        return Some(5);
    }
    if !(0..=63).contains(&flags) {
        return Some(6);
    }
    if source().is_none() {
        return Some(7);
    }
    if !(0..=ARGUMENTS as i64).contains(&count) {
        return Some(8);
    }
    if !window.iter().all(|n| (0..=SIDE).contains(n)) {
        return Some(13);
    }
    None
}

/// Faults 1 to 8 and 13 of a job's inputs, in the documents' order.
pub fn inputs_fault(job: &Job) -> Option<Fault> {
    let layers = job.layers;
    if !(1..=LAYERS as i64).contains(&layers)
        || job.table.len() as i64 != COLUMNS as i64 * layers
        || job.args.len() as i64 != ARGUMENTS as i64 * layers
    {
        return Some((1, 0));
    }
    if size(job.width, job.height, job.channels) != Some(job.dst.len() as i128) {
        return Some((2, 0));
    }
    let rows = job.table.chunks_exact(COLUMNS);
    rows.enumerate().find_map(|(k, row)| row_fault(row, job.samples.len()).map(|number| (number, k as u64)))
}

/// Faults 9, 10 and 14, for inputs without a fault.
fn memory_fault(job: &Job, job_number: u64, memory: &Memory) -> Option<Fault> {
    let pixels = (job.width * job.height) as u64;
    if memory.work.iter().any(|work| work.len() as u64 != 4 * pixels) {
        return Some((9, 0));
    }
    match memory.mark[..] {
        [position, number] if position <= (job.layers as u64 + 1) * pixels => (number != job_number).then_some((14, 0)),
        _ => Some((10, 0)),
    }
}

/// Layer `k` of a job whose inputs have no fault.
pub fn layer(job: &Job, k: usize) -> Layer {
    let row = &job.table[k * COLUMNS..][..COLUMNS];
    let (start, count) = (row[5] as usize, row[9] as usize);
    let size = (row[6] * row[7] * row[8]) as usize;
    Layer {
        operator: row[0] as usize,
        gravity: row[1] as usize,
        offset: (row[2], row[3]),
        flags: row[4] as u32,
        source: Picture {
            width: row[6] as u32,
            height: row[7] as u32,
            channels: row[8] as usize,
            words: job.samples[start..start + size].to_vec(),
        },
        args: job.args[k * ARGUMENTS..][..count].to_vec(),
        window: row[WINDOW..].try_into().expect("a window has four numbers"),
    }
}

fn destination(job: &Job) -> Picture {
    Picture {
        width: job.width as u32,
        height: job.height as u32,
        channels: job.channels as usize,
        words: job.dst.clone(),
    }
}

/// What phase `k` writes, with the work pictures as they are.
fn phase(job: &Job, k: u64, work: &[Vec<u32>; 2]) -> Vec<u32> {
    match k {
        0 => reference::widen(&destination(job)),
        _ => {
            let beneath = Picture {
                width: job.width as u32,
                height: job.height as u32,
                channels: 4,
                words: work[(k as usize - 1) % 2].clone(),
            };
            window::compose(&beneath, &layer(job, k as usize - 1))
        }
    }
}

/// One accepted call: whole pixels while five stores are left, then up to four stores of the next one.
fn accepted(job: &Job, allowance: u64, memory: &mut Memory) -> Answer {
    let pixels = (job.width * job.height) as u64;
    let end = (job.layers as u64 + 1) * pixels;
    let mut left = allowance;
    let mut stores = 0;
    while memory.mark[0] < end && left > 0 {
        let k = memory.mark[0] / pixels;
        let picture = phase(job, k, &memory.work);
        let work = &mut memory.work[k as usize % 2];
        while memory.mark[0] < (k + 1) * pixels && left > 0 {
            let at = (memory.mark[0] - k * pixels) as usize * 4;
            let channels = left.min(4) as usize;
            work[at..at + channels].copy_from_slice(&picture[at..at + channels]);
            stores += channels as u64;
            left -= channels as u64;
            if left == 0 {
                break;
            }
            memory.mark[0] += 1;
            stores += 1;
            left -= 1;
        }
    }
    Answer { number: 0, layer: 0, stores, finished: memory.mark[0] == end }
}

/// Fault 11: the length that narrowing wants of its output, if the rest is in order.
fn narrowed(wanted: i64, input: usize) -> Option<usize> {
    ([1, 3, 4].contains(&wanted) && input.is_multiple_of(4)).then_some(input / 4 * wanted as usize)
}

/// The reference: the compiled Rust with document 01 around it, and document 02's windows, job numbers and card.
pub struct Reference;

impl Side for Reference {
    fn from_name(&self, name: &[u8]) -> Option<u64> {
        reference::from_name(name)
    }

    fn compose(&self, job: &Job, out: &mut [u32]) -> u64 {
        let job = Job { layers: 1, ..job.clone() };
        if let Some((number, _)) = inputs_fault(&job) {
            return number;
        }
        if out.len() as i64 != 4 * job.width * job.height {
            return 9;
        }
        out.copy_from_slice(&window::compose(&destination(&job), &layer(&job, 0)));
        0
    }

    fn narrow(&self, wanted: i64, input: &[u32], out: &mut [u32]) -> u64 {
        if narrowed(wanted, input.len()) != Some(out.len()) {
            return 11;
        }
        out.copy_from_slice(&reference::narrow(wanted as usize, input));
        0
    }

    fn narrow_bytes(&self, wanted: i64, input: &[u32], out: &mut [u8]) -> u64 {
        if narrowed(wanted, input.len()) != Some(out.len()) {
            return 11;
        }
        out.copy_from_slice(&reference::bytes(&reference::narrow(wanted as usize, input)));
        0
    }

    fn call(&self, job: &Job, call: Call, memory: &mut Memory) -> Answer {
        match inputs_fault(job).or_else(|| memory_fault(job, call.job_number, memory)) {
            Some((number, layer)) => Answer::refused(number, layer),
            None => accepted(job, call.allowance, memory),
        }
    }

    fn read_card(&self, text: &[u8], table: &mut [i64], args: &mut [u32]) -> CardAnswer {
        card::read_card(text, table, args)
    }
}
