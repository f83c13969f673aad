//! Each fault at its limit and just past it, in each place of the table, alone and with others.

use super::book::Book;
use super::layer::Row;
use crate::request::{COLUMNS, Call, Job, Memory, WINDOW};

const LAYERS: usize = 4;

/// The job's number, past the mark's bound, and a wrong one.
const NUMBER: u64 = 15;
const WRONG: u64 = 3;

/// Two pixels, four layers, eight samples; every layer reads two samples of its own.
fn base() -> (Job, Memory) {
    let mut table = Vec::new();
    for k in 0..LAYERS as i64 {
        let mut row = Row::new([0, 5, 6, 7][k as usize], (2, 1, 1));
        (row.start, row.count) = (2 * k, k);
        table.extend(row.numbers());
    }
    let word = |i: u32| 0x3e00_0000 + (i << 20);
    let job = Job {
        width: 2,
        height: 1,
        channels: 1,
        dst: vec![word(1), word(4)],
        layers: LAYERS as i64,
        table,
        args: vec![0x3f80_0000; LAYERS * 4],
        samples: (0..8).map(word).collect(),
    };
    let memory = Memory { work: [(1..9).collect(), (11..19).collect()], mark: vec![0, NUMBER] };
    (job, memory)
}

/// A number of a row put in its place.
type Change = (usize, i64);

/// What a row may have in its columns: values within document 01's limits and past them, fault by fault.
fn changes() -> Vec<Vec<Change>> {
    let column = |c: usize, values: &[i64]| values.iter().map(|v| vec![(c, *v)]).collect::<Vec<_>>();
    let far = [i64::MIN, i64::MAX];
    let mut out = Vec::new();
    out.extend(column(0, &[-1, 0, 1, 69, 70, 71, i64::MIN, i64::MAX]));
    out.extend(column(0, &[42, 43, 44, 66, 67, 68]));
    out.extend(column(1, &[-1, 0, 1, 9, 10, i64::MIN, i64::MAX]));
    for c in [2, 3] {
        out.extend(column(c, &[-1_000_001, -1_000_000, 1_000_000, 1_000_001, far[0], far[1]]));
    }
    out.extend(column(4, &[-1, 0, 63, 64, 255, far[0], far[1]]));
    // The source: its start, its sides and channels, its end against the eight samples.
    out.extend(column(5, &[-1, -2, 0, 5, 6, 7, 8, 9, far[0], far[1], i64::MAX - 1, i64::MAX - 2]));
    out.extend(column(6, &[-1, 0, 1, 2, 8, 9, 2048, 2049, far[0], far[1], 1 << 32, 1 << 62]));
    out.extend(column(7, &[-1, 0, 1, 2, 4, 5, 2048, 2049, far[0], far[1], 1 << 32, 1 << 62]));
    out.extend(column(8, &[-1, 0, 1, 2, 3, 4, 5, far[0], far[1]]));
    for start in [7, 8, 9, -1, i64::MAX] {
        out.push(vec![(5, start), (6, 0)]);
        out.push(vec![(5, start), (7, 0)]);
        out.push(vec![(5, start), (6, 1)]);
    }
    for (side, other) in [(2048, 0), (2049, 0), (-1, 0), (-1, -1), (-1, -2), (1 << 32, 1 << 32), (0, 2049), (0, -1)] {
        out.push(vec![(6, side), (7, other)]);
        out.push(vec![(6, other), (7, side)]);
    }
    for (start, channels, width) in
        [(0, 4, 2), (1, 4, 2), (0, 3, 2), (2, 3, 2), (3, 3, 2), (0, 3, 3), (4, 4, 1), (5, 4, 1)]
    {
        out.push(vec![(5, start), (8, channels), (6, width)]);
    }
    out.extend(column(9, &[-1, 0, 4, 5, far[0], far[1]]));
    out
}

/// What a window's numbers may be, and what is 13.
const WITHIN: [i64; 4] = [0, 1, 2047, 2048];
const PAST: [i64; 8] = [-1, 2049, -2049, 1 << 32, (1 << 32) + 5, i64::MIN + 2048, i64::MIN, i64::MAX];

/// A fault of each number 3 to 8, and of 13.
const FAULTS: [(u64, Change); 7] =
    [(3, (0, 70)), (4, (0, 43)), (5, (2, 1_000_001)), (6, (4, 64)), (7, (5, 100)), (8, (9, 5)), (13, (12, 2049))];

fn set(job: &mut Job, layer: usize, changes: &[Change]) {
    for (column, value) in changes {
        job.table[layer * COLUMNS + column] = *value;
    }
}

pub fn put(book: &mut Book) {
    let (job, memory) = base();
    stack(book, &job, &memory);
    tray(book, &job, &memory);
    book.note("refusals: 3 to 8 at their limits and past them, in each layer");
    for layer in 0..LAYERS {
        for change in changes() {
            let mut job = job.clone();
            set(&mut job, layer, &change);
            book.calls(&job, &memory, &[7]);
        }
    }
    windows(book, &job, &memory);
    lent(book, &job, &memory);
    several(book, &job, &memory);
    single(book, &job);
}

/// The job with its sheet cut to other counts of numbers a layer.
fn cut_rows(job: &Job, columns: usize) -> Job {
    let rows = job.table.chunks(COLUMNS);
    let table = rows.flat_map(|row| row.iter().copied().cycle().take(columns)).collect();
    Job { table, ..job.clone() }
}

fn stack(book: &mut Book, job: &Job, memory: &Memory) {
    book.note("refusals: 1, the count of layers and the lengths of sheet and arguments");
    for layers in [-1, 0, 1, 2, 3, 4, 5, 16, 17, i64::MIN, i64::MAX, 1 << 32] {
        book.calls(&Job { layers, ..job.clone() }, memory, &[7]);
    }
    let rows = |n: usize| Job {
        layers: n as i64,
        table: job.table.iter().copied().cycle().take(n * COLUMNS).collect(),
        args: vec![0; n * 4],
        ..job.clone()
    };
    for n in [0, 1, 15, 16, 17, 22] {
        book.calls(&rows(n), memory, &[7]);
    }
    for columns in [9, 10, 13, 15] {
        book.calls(&cut_rows(job, columns), memory, &[7]);
    }
    for length in [0, 14, 55, 57, 70, 112] {
        let table = job.table.iter().copied().cycle().take(length).collect();
        book.calls(&Job { table, ..job.clone() }, memory, &[7]);
    }
    for length in [0, 4, 15, 17, 20, 32] {
        book.calls(&Job { args: vec![0; length], ..job.clone() }, memory, &[7]);
    }
    book.calls(&Job { layers: -1, table: vec![], args: vec![], ..job.clone() }, memory, &[7]);
}

fn tray(book: &mut Book, job: &Job, memory: &Memory) {
    book.note("refusals: 2, the tray's sides, channels and length");
    let sized = |width, height, channels, length| {
        let dst = job.dst.iter().copied().cycle().take(length).collect();
        Job { width, height, channels, dst, ..job.clone() }
    };
    let none = Memory { work: [vec![], vec![]], mark: memory.mark.clone() };
    for far in [0, 2048, 2049, -1, i64::MIN, i64::MAX] {
        for (width, height) in [(far, 0), (0, far), (far, 1), (1, far), (far, far)] {
            book.calls(&sized(width, height, 1, 0), &none, &[7]);
        }
    }
    for (width, height) in [(-1, -2), (-2, -1), (1 << 32, 1 << 32), (1 << 31, 1 << 33), (2049, 2049)] {
        book.calls(&sized(width, height, 1, 2), memory, &[7]);
    }
    for channels in [-1, 0, 1, 2, 3, 4, 5, i64::MIN, i64::MAX] {
        for length in [0, 2, 4, 6, 8, 10] {
            book.calls(&sized(2, 1, channels, length), memory, &[7]);
        }
    }
    for length in [0, 1, 2, 3, 4] {
        book.calls(&sized(2, 1, 1, length), memory, &[7]);
    }
    for (width, height) in [(1, 2), (1, 1), (2, 2), (3, 1), (0, 2), (2, 0)] {
        book.calls(&sized(width, height, 1, 2), memory, &[7]);
    }
    book.note("refusals: the tray's longest sides, accepted");
    for (width, height) in [(2048, 0), (0, 2048), (2047, 0), (0, 0)] {
        book.calls(&sized(width, height, 4, 0), &none, &[0, 1, 9]);
    }
}

fn windows(book: &mut Book, job: &Job, memory: &Memory) {
    book.note("refusals: 13, each of a window's numbers past its limits, in the first, a middle and the last layer");
    for (layer, numbers) in [(0, [-1, 2049]), (1, [i64::MIN, (1 << 32) + 5]), (LAYERS - 1, [-2049, i64::MAX])] {
        for i in 0..4 {
            for number in numbers {
                let mut bad = job.clone();
                set(&mut bad, layer, &[(WINDOW + i, number)]);
                book.calls(&bad, memory, &[7]);
            }
        }
    }
    book.note("refusals: 13, limits that are accepted; sums and windows past the tray are none");
    for window in [[2048; 4], [2047, 0, 2, 2048], [2, 1, 1, 1], [0; 4], [1, 0, 2, 1], [0, 2048, 1, 0]] {
        let mut job = job.clone();
        for layer in [0, 3] {
            set(&mut job, layer, &[0, 1, 2, 3].map(|i| (WINDOW + i, window[i])));
        }
        book.calls(&job, memory, &[7]);
    }
}

fn lent(book: &mut Book, job: &Job, memory: &Memory) {
    book.note("refusals: 9 and 10, the work pictures and the mark");
    for (first, second) in [(7, 8), (8, 7), (9, 8), (8, 9), (0, 8), (8, 0), (2, 2), (16, 16), (7, 9), (0, 0), (8, 8)] {
        let work = [first, second].map(|n| (1..=n).collect());
        book.calls(job, &Memory { work, mark: memory.mark.clone() }, &[7]);
    }
    let with = |mark: &[u64]| Memory { work: memory.work.clone(), mark: mark.to_vec() };
    for position in [0, 1, 7, 8, 9, 10, 11, 12, 49, 50, 51, 1 << 32, 1 << 63, u64::MAX] {
        book.calls(job, &with(&[position, NUMBER]), &[7, 0]);
    }
    for mark in [&[][..], &[0], &[10], &[0, 0, 0], &[0, 0, 99], &[10, 0, 0], &[11, 0, 0], &[3, 3, 3, 3]] {
        book.calls(job, &with(mark), &[7]);
    }
    let none = |mark: &[u64]| Memory { work: [vec![], vec![]], mark: mark.to_vec() };
    let empty = Job { width: 0, height: 3, dst: vec![], ..job.clone() };
    for mark in [&[0, NUMBER][..], &[1, NUMBER], &[2, NUMBER], &[u64::MAX, NUMBER], &[], &[0], &[0, 0, 0]] {
        book.calls(&empty, &none(mark), &[0, 7]);
    }
    book.calls(&empty, &with(&memory.mark), &[7]);
    book.calls(&empty, &Memory { work: [vec![1], vec![]], mark: memory.mark.clone() }, &[7]);
}

/// Two faults of a row's numbers, in one layer or in two, and faults of rows with those of the rest, under the job's
/// number and under a wrong one.
fn several(book: &mut Book, job: &Job, memory: &Memory) {
    book.note("refusals: several faults at once, the first in document 01's order answers");
    for (a, first) in FAULTS {
        for (b, second) in FAULTS {
            for (i, j) in [(0, 0), (0, 1), (1, 0), (2, 3), (3, 1)] {
                if (a, i) == (b, j) || first.0 == second.0 && i == j {
                    continue;
                }
                let mut bad = job.clone();
                set(&mut bad, i, &[first]);
                set(&mut bad, j, &[second]);
                book.calls(&bad, memory, &[7]);
            }
        }
    }
    let mut every = job.clone();
    set(&mut every, 1, &[(0, 67), (1, 10), (4, -1), (6, -1), (9, 9), (10, -1), (13, 9999)]);
    set(&mut every, 0, &[(9, -1)]);
    set(&mut every, 2, &[(0, -1)]);
    book.calls(&every, memory, &[7]);
    for row in [None, Some((0, 70)), Some((5, -1)), Some((9, 5)), Some((11, -1))] {
        for rest in 1..32u32 {
            let mut bad = job.clone();
            let mut lent = memory.clone();
            if let Some(change) = row {
                set(&mut bad, rest as usize % LAYERS, &[change]);
            }
            if rest & 1 != 0 {
                bad.args.pop();
            }
            if rest & 2 != 0 {
                bad.dst.push(0);
            }
            if rest & 4 != 0 {
                lent.work[0].pop();
            }
            if rest & 8 != 0 {
                lent.work[1].push(0);
            }
            if rest & 16 != 0 {
                lent.mark = vec![11, NUMBER];
            }
            book.numbered(&bad, &lent, &[NUMBER, WRONG].map(|job_number| Call { job_number, allowance: 7 }));
        }
    }
}

/// The same faults of a single composition.
fn single(book: &mut Book, four: &Job) {
    book.note("refusals: a single composition");
    let job = Job { layers: 1, table: four.table[..COLUMNS].to_vec(), args: vec![0; 4], ..four.clone() };
    for change in changes() {
        let mut job = job.clone();
        set(&mut job, 0, &change);
        book.single(&job, 8);
    }
    for i in 0..4 {
        for number in WITHIN.into_iter().chain(PAST) {
            let mut job = job.clone();
            set(&mut job, 0, &[(WINDOW + i, number)]);
            book.single(&job, 8);
        }
    }
    for length in [0, 1, 2, 6, 7, 8, 9, 16] {
        book.single(&job, length);
    }
    single_lists(book, &job);
    single_several(book, &job);
    single_tray(book, &job);
}

/// Other lengths of sheet and arguments.
fn single_lists(book: &mut Book, job: &Job) {
    for length in [0, 9, 10, 11, 13, 15, 20, 28] {
        let table = job.table.iter().copied().cycle().take(length).collect();
        book.single(&Job { table, ..job.clone() }, 8);
    }
    for length in [0, 3, 5, 8] {
        book.single(&Job { args: vec![0; length], ..job.clone() }, 8);
    }
    for rows in [0, 2] {
        book.single(&Job { table: job.table.repeat(rows), args: vec![0; 4 * rows], ..job.clone() }, 8);
    }
}

fn single_several(book: &mut Book, job: &Job) {
    for (a, first) in FAULTS {
        for (b, second) in FAULTS {
            if a < b && first.0 != second.0 {
                let mut bad = job.clone();
                set(&mut bad, 0, &[first, second]);
                book.single(&bad, 8);
            }
        }
        let mut bad = job.clone();
        set(&mut bad, 0, &[first]);
        book.single(&bad, 7);
        book.single(&Job { channels: 2, ..bad.clone() }, 8);
        book.single(&Job { args: vec![], channels: 2, ..bad }, 8);
    }
}

fn single_tray(book: &mut Book, job: &Job) {
    let shape = |width, height, channels, length| {
        let dst = job.dst.iter().copied().cycle().take(length).collect();
        Job { width, height, channels, dst, ..job.clone() }
    };
    for (width, height, channels, length, out) in [
        (2048, 0, 1, 0, 0),
        (0, 2048, 4, 0, 0),
        (2049, 0, 1, 0, 0),
        (0, 2049, 1, 0, 0),
        (-1, 0, 1, 0, 0),
        (0, -1, 1, 0, 0),
        (2, 1, 2, 4, 8),
        (2, 1, 0, 0, 8),
        (2, 1, 5, 10, 8),
        (2, 1, 3, 6, 8),
        (2, 1, 3, 6, 6),
        (2, 1, 1, 2, 2),
        (2, 1, 4, 8, 8),
        (2, 1, 1, 1, 8),
        (2, 1, 1, 3, 8),
        (1 << 32, 1 << 32, 1, 0, 0),
        (i64::MIN, 1, 1, 0, 0),
        (1, i64::MAX, 1, 0, 0),
        (0, 0, 1, 0, 0),
        (0, 0, 1, 0, 1),
    ] {
        book.single(&shape(width, height, channels, length), out);
    }
}
