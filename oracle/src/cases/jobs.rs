//! Whole jobs: their calls with allowances, answers and marks, cut at every store, refused calls among them,
//! and calls on memory that no job reaches.

use super::book::Book;
use super::layer::Row;
use crate::random::{Random, carried};
use crate::request::{COLUMNS, Job, Memory};

pub const ALL: u64 = u64::MAX;

/// The number of most jobs: more than every position that they reach, and short, so that the lines are.
pub const NUMBER: u64 = 0xf7;

/// Work buffers with content of their own, at position 0.
pub fn fresh(job: &Job) -> Memory {
    let size = (job.width * job.height * 4) as u32;
    let words = |first: u32| (first..first + size).collect();
    Memory { work: [words(0x100), words(0x300)], mark: vec![0, NUMBER] }
}

/// A job of the given operators, on a tray and with sources that tell their pixels apart.
pub fn stacked(random: &mut Random, (width, height, channels): (i64, i64, i64), operators: &[i64]) -> Job {
    let value = |random: &mut Random| (random.below(256) as f32 / 255.0).to_bits();
    let dst = (0..width * height * channels).map(|_| value(random)).collect();
    let mut job = Job { width, height, channels, dst, layers: operators.len() as i64, ..Job::default() };
    for (k, operator) in operators.iter().enumerate() {
        let source = [(2, 2, 4), (width, height, 3), (3, 1, 1), (1, height, 4)][k % 4];
        let mut row = Row::new(*operator, source);
        row.gravity = random.below(10) as i64;
        (row.right, row.down) = (random.below(3) as i64 - 1, random.below(3) as i64 - 1);
        row.flags = [62, 63, 60, 62, 61, 46][k % 6];
        row.start = job.samples.len() as i64;
        row.count = random.below(3) as i64;
        job.table.extend(row.numbers());
        job.samples.extend((0..source.0 * source.1 * source.2).map(|_| value(random)));
        let scale = if [45, 46, 69].contains(operator) { 90.0 } else { 2.0 };
        job.args.extend((0..4).map(|_| (random.below(100) as f32 / 100.0 * scale).to_bits()));
    }
    job
}

pub fn put(book: &mut Book) {
    let mut random = Random::new(23);
    trials(book, &mut random);
    every_cut(book, &mut random);
    refused_between(book, &mut random);
    elsewhere(book, &mut random);
    book.note("jobs: every operator as a layer, allowances of several sizes");
    let operators: Vec<i64> = carried().collect();
    for part in operators.chunks(4) {
        let channels = [1, 3, 4][random.below(3) as usize];
        let job = stacked(&mut random, (3, 2, channels), part);
        book.calls(&job, &fresh(&job), &[13, 0, 4, 41, 5, 26, ALL, 3]);
    }
    book.note("jobs: map layers, which read the whole picture beneath, at each phase's start, middle and end");
    for operators in [&[65, 66][..], &[17, 65, 65], &[66, 0, 66, 65]] {
        let job = stacked(&mut random, (4, 3, 4), operators);
        book.calls(&job, &fresh(&job), &[60, 1, 33, 26, 30, 31, 60, ALL]);
    }
    book.note("jobs: sixteen layers, and sides that are not alike");
    let sixteen: Vec<i64> = (0..16).map(|k| operators[(k * 13 + 5) % operators.len()]).collect();
    for size in [(2, 2, 3), (5, 1, 1), (1, 6, 4)] {
        let job = stacked(&mut random, size, &sixteen);
        book.calls(&job, &fresh(&job), &[99, 77, 1, 2, 3, 4, 5, 6, ALL, ALL]);
    }
    let job = stacked(&mut random, (6, 5, 3), &[0, 13, 52]);
    book.calls(&job, &fresh(&job), &[151, 299, 7, ALL]);
}

fn trials(book: &mut Book, random: &mut Random) {
    book.note("jobs: document 01's trial, two pixels and one layer, calls of 7, 7 and 100 stores");
    let job = stacked(random, (2, 1, 3), &[0]);
    let done = book.calls(&job, &fresh(&job), &[7, 7, 100]);
    book.note("jobs: a finished mark answers finished with no store");
    book.calls(&job, &done, &[0, 1, 5, ALL]);
    book.note("jobs: an empty tray is finished with no store");
    for (width, height) in [(0, 0), (0, 7), (7, 0)] {
        let job = stacked(random, (width, height, 4), &[0, 65, 16]);
        book.calls(&job, &fresh(&job), &[0, 1, 100]);
    }
    book.note("jobs: large allowances");
    for allowance in [1 << 32, (1 << 32) + 3, 1 << 63, ALL, 19, 20, 21] {
        book.calls(&job, &fresh(&job), &[allowance]);
    }
}

fn every_cut(book: &mut Book, random: &mut Random) {
    book.note("jobs: cut after each store, then taken up to the end");
    let job = stacked(random, (2, 1, 4), &[13, 66]);
    for n in 0..=31 {
        book.calls(&job, &fresh(&job), &[n]);
        book.calls(&job, &fresh(&job), &[n, 3, 4, 9, ALL]);
    }
    book.note("jobs: one store at a time gains nothing; five at a time a pixel");
    book.calls(&job, &fresh(&job), &[1; 12]);
    book.calls(&job, &fresh(&job), &[4; 6]);
    book.calls(&job, &fresh(&job), &[5; 8]);
    book.calls(&job, &fresh(&job), &[6; 7]);
    book.note("jobs: two layers of one operator with arguments of their own");
    for operator in [44, 45, 64, 65] {
        let mut job = stacked(random, (2, 2, 3), &[operator, operator]);
        (job.table[9], job.table[COLUMNS + 9]) = (2, 2);
        book.calls(&job, &fresh(&job), &[17, ALL]);
    }
    book.note("jobs: NaN patterns of the tray through phases that keep them and phases that store them");
    for channels in [1, 3, 4] {
        let mut job = stacked(random, (3, 1, channels), &[17, 18, 0]);
        let patterns = [0x7fc0_0abc, 0xff80_0001, 0x7f80_0001, 0xffff_ffff];
        for (i, word) in job.dst.iter_mut().enumerate().step_by(2) {
            *word = patterns[i / 2 % 4];
        }
        for (row, (flags, right)) in job.table.chunks_exact_mut(COLUMNS).zip([(60, 1), (28, 2), (60, -1)]) {
            (row[4], row[2]) = (flags, right);
        }
        book.calls(&job, &fresh(&job), &[16, 12, 20, ALL]);
    }
}

fn refused_between(book: &mut Book, random: &mut Random) {
    book.note("jobs: refused calls between a job's own, each finding what the last one left");
    let job = stacked(random, (3, 2, 4), &[4, 66, 31]);
    let mut bad = job.clone();
    bad.table[2 * COLUMNS] = 43;
    let other = Job { width: 2, height: 3, layers: 4, ..job.clone() };
    let mut memory = fresh(&job);
    for allowance in [8, 27, 30, 41, 2, 50] {
        memory = book.calls(&job, &memory, &[allowance]);
        memory = book.calls(&bad, &memory, &[allowance, ALL]);
        memory = book.calls(&other, &memory, &[3]);
        let short = Memory { work: [memory.work[0].clone(), memory.work[1][1..].to_vec()], mark: memory.mark.clone() };
        book.calls(&job, &short, &[5]);
    }
    book.calls(&job, &memory, &[ALL, 0]);
}

fn elsewhere(book: &mut Book, random: &mut Random) {
    book.note("jobs: marks and work pictures that no job of these inputs has left: each phase reads what it finds");
    let job = stacked(random, (3, 2, 3), &[0, 65, 22, 48]);
    for position in [1, 5, 6, 7, 11, 12, 13, 18, 23, 24, 29, 30] {
        let mark = vec![position, NUMBER];
        let memory = Memory { work: [random.words(24), random.words(24)], mark: mark.clone() };
        book.calls(&job, &memory, &[9, 33, 0]);
        book.calls(&job, &Memory { mark, ..fresh(&job) }, &[ALL]);
    }
}
