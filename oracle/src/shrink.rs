//! The smallest request that still fails: one simplification after the other, as long as the failure stays.

use crate::lines::Request;
use crate::request::{ARGUMENTS, COLUMNS, Call, Job, LAYERS, Memory, WHOLE, WINDOW};

const ONE: u32 = 0x3f80_0000;

/// A picture of `channels` without its last column or row.
fn cropped(words: &[u32], width: i64, channels: i64, column: bool) -> Vec<u32> {
    let row = (width * channels) as usize;
    match column {
        true => words.chunks(row).flat_map(|r| r[..r.len() - channels as usize].to_vec()).collect(),
        false => words[..words.len() - row].to_vec(),
    }
}

/// Whether the tray's sides fit its samples, so that it can be cropped.
fn sized(job: &Job) -> bool {
    let side = |n: i64| (0..=2048).contains(&n);
    let plain = side(job.width) && side(job.height) && (1..=4).contains(&job.channels);
    plain && job.dst.len() as i64 == job.width * job.height * job.channels
}

fn crops(job: &Job, memory: Option<&Memory>) -> Vec<(Job, Memory)> {
    let mut out = Vec::new();
    let pixels = |w: &Vec<u32>| w.len() as i64 == job.width * job.height * 4;
    let blank = Memory::default();
    let fits = memory.is_none_or(|m| m.work.iter().all(pixels));
    for column in [true, false] {
        let side = if column { job.width } else { job.height };
        if !sized(job) || !fits || side < 1 || job.dst.is_empty() {
            continue;
        }
        let mut small = job.clone();
        small.dst = cropped(&job.dst, job.width, job.channels, column);
        *(if column { &mut small.width } else { &mut small.height }) -= 1;
        let memory = memory.unwrap_or(&blank);
        let work = memory.work.clone().map(|w| if w.is_empty() { w } else { cropped(&w, job.width, 4, column) });
        out.push((small, Memory { work, mark: memory.mark.clone() }));
    }
    out
}

/// Jobs with simpler numbers in their rows. The simplest window holds every tray, and stays.
fn simpler_rows(job: &Job) -> Vec<Job> {
    let mut out = Vec::new();
    for (k, row) in job.table.chunks_exact(COLUMNS).enumerate() {
        let whole = row[WINDOW..] == WHOLE;
        if !whole {
            let mut small = job.clone();
            small.table[k * COLUMNS + WINDOW..][..4].copy_from_slice(&WHOLE);
            out.push(small);
        }
        for (i, n) in row.iter().enumerate().filter(|(i, _)| *i != 0 && (*i < WINDOW || !whole)) {
            for simple in [0, 1, n / 2, n - n.signum()] {
                if simple.unsigned_abs() < n.unsigned_abs() {
                    let mut small = job.clone();
                    small.table[k * COLUMNS + i] = simple;
                    out.push(small);
                }
            }
        }
    }
    out
}

/// Jobs with a layer less, or with simpler numbers in their lists.
fn simpler(job: &Job) -> Vec<Job> {
    let mut out = Vec::new();
    let layers = job.layers as usize;
    if job.layers > 1 && job.table.len() == layers * COLUMNS && job.args.len() == layers * ARGUMENTS {
        for k in 0..layers {
            let mut small = job.clone();
            small.layers -= 1;
            small.table.drain(k * COLUMNS..(k + 1) * COLUMNS);
            small.args.drain(k * ARGUMENTS..(k + 1) * ARGUMENTS);
            out.push(small);
        }
    }
    if !job.samples.is_empty() {
        let mut small = job.clone();
        small.samples.pop();
        out.push(small);
    }
    out.extend(simpler_rows(job));
    type List = fn(&mut Job) -> &mut Vec<u32>;
    let lists: [List; 3] = [|j| &mut j.dst, |j| &mut j.args, |j| &mut j.samples];
    for list in lists {
        let length = list(&mut job.clone()).len();
        for i in 0..length {
            let word = list(&mut job.clone())[i];
            let choices: &[u32] = if word == 0 {
                &[]
            } else if word == ONE {
                &[0]
            } else {
                &[0, ONE]
            };
            for simple in choices {
                let mut small = job.clone();
                list(&mut small)[i] = *simple;
                out.push(small);
            }
        }
    }
    out
}

fn shorter<T: Clone>(list: &[T]) -> Vec<Vec<T>> {
    (0..list.len())
        .map(|i| {
            let mut small = list.to_vec();
            small.remove(i);
            small
        })
        .collect()
}

/// Texts with a line or a byte less; lists of the right lengths.
fn smaller_cards(text: &[u8], table: usize, args: usize) -> Vec<Request> {
    let made = |text: Vec<u8>| Request::Card { text, table, args };
    let lines: Vec<&[u8]> = text.split_inclusive(|byte| *byte == b'\n').collect();
    let mut out: Vec<Request> = shorter(&lines).iter().map(|lines| made(lines.concat())).collect();
    out.extend(shorter(text).into_iter().map(made));
    let right = (LAYERS * COLUMNS, LAYERS * ARGUMENTS);
    if (table, args) != right {
        out.push(Request::Card { text: text.to_vec(), table: right.0, args: right.1 });
    }
    out
}

/// A number halved and less by one; none of 0.
fn less(n: u64) -> impl Iterator<Item = u64> {
    [n / 2, n.wrapping_sub(1)].into_iter().filter(move |_| n > 0)
}

/// The same job number made less wherever it stands, in the mark and in the calls, so that what agreed still does.
fn renumbered(memory: &Memory, calls: &[Call]) -> Vec<(Memory, Vec<Call>)> {
    let mut out = Vec::new();
    let held = memory.mark.get(1).copied();
    for number in held.into_iter().chain(calls.iter().map(|call| call.job_number)) {
        for small in less(number) {
            let (mut memory, mut calls) = (memory.clone(), calls.to_vec());
            memory.mark.iter_mut().skip(1).take(1).filter(|n| **n == number).for_each(|n| *n = small);
            calls.iter_mut().filter(|call| call.job_number == number).for_each(|call| call.job_number = small);
            out.push((memory, calls));
        }
    }
    out
}

/// Memory with a list of zeros.
fn blank_memories(memory: &Memory) -> Vec<Memory> {
    let mut out = Vec::new();
    for w in 0..2 {
        if memory.work[w].iter().any(|word| *word != 0) {
            let mut blank = memory.clone();
            blank.work[w].fill(0);
            out.push(blank);
        }
    }
    for i in (0..memory.mark.len()).filter(|i| memory.mark[*i] != 0) {
        let mut blank = memory.clone();
        blank.mark[i] = 0;
        out.push(blank);
    }
    out
}

/// Fewer calls, a smaller job, smaller allowances and job numbers, blank memory.
fn smaller_calls(job: &Job, memory: &Memory, calls: &[Call]) -> Vec<Request> {
    let made = |job: &Job, memory: Memory, calls: Vec<Call>| Request::Calls { job: job.clone(), memory, calls };
    let mut out: Vec<Request> = Vec::new();
    if calls.len() > 1 {
        out.extend(shorter(calls).into_iter().map(|calls| made(job, memory.clone(), calls)));
    }
    out.extend(crops(job, Some(memory)).into_iter().map(|(job, memory)| made(&job, memory, calls.to_vec())));
    out.extend(simpler(job).iter().map(|job| made(job, memory.clone(), calls.to_vec())));
    for i in 0..calls.len() {
        for allowance in less(calls[i].allowance) {
            let mut small = calls.to_vec();
            small[i].allowance = allowance;
            out.push(made(job, memory.clone(), small));
        }
    }
    out.extend(renumbered(memory, calls).into_iter().map(|(memory, calls)| made(job, memory, calls)));
    out.extend(blank_memories(memory).into_iter().map(|blank| made(job, blank, calls.to_vec())));
    out
}

fn smaller(request: &Request) -> Vec<Request> {
    match request {
        Request::Name(name) => shorter(name).into_iter().map(Request::Name).collect(),
        Request::Narrow { wanted, input, length } | Request::Bytes { wanted, input, length } => {
            let bytes = matches!(request, Request::Bytes { .. });
            let made = |wanted, input, length| match bytes {
                true => Request::Bytes { wanted, input, length },
                false => Request::Narrow { wanted, input, length },
            };
            let step = (*wanted).clamp(0, 4) as usize;
            let mut out = Vec::new();
            for i in 0..input.len() / 4 {
                let mut small = input.clone();
                small.drain(i * 4..i * 4 + 4);
                out.push(made(*wanted, small, length.saturating_sub(step)));
            }
            for i in (0..input.len()).filter(|i| input[*i] != 0) {
                let mut small = input.clone();
                small[i] = 0;
                out.push(made(*wanted, small, *length));
            }
            out
        }
        Request::Compose { job, length } => {
            let area = |job: &Job| (job.width * job.height * 4) as usize;
            let mut out = Vec::new();
            if sized(job) && *length == area(job) {
                out.extend(crops(job, None).into_iter().map(|(job, _)| Request::Compose { length: area(&job), job }));
            }
            out.extend(simpler(job).into_iter().map(|job| Request::Compose { job, length: *length }));
            out
        }
        Request::Calls { job, memory, calls } => smaller_calls(job, memory, calls),
        Request::Card { text, table, args } => smaller_cards(text, *table, *args),
    }
}

/// Shrinks a request for which `fails` holds. The work is bounded, so the result may not be the least.
pub fn shrink(request: Request, fails: impl Fn(&Request) -> bool) -> Request {
    let mut least = request;
    let mut tries = 100_000u32;
    loop {
        let found = smaller(&least).into_iter().find(|small| {
            tries = tries.saturating_sub(1);
            tries > 0 && fails(small)
        });
        match found {
            Some(small) => least = small,
            None => return least,
        }
    }
}
