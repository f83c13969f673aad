//! Job numbers: calls that carry the mark's number and others, at every kind of position, with every kind of mark, beside
//! each fault and between a job's own calls; a mark that another job has left. Words are small numbers as bits, so that
//! lines stay short.

use super::book::Book;
use super::jobs::ALL;
use super::layer::Row;
use crate::request::{COLUMNS, Call, Job, Memory, WINDOW, under};

/// A job's number, past every position within the bound, and another job's.
const OWN: u64 = 0x51;
const OTHER: u64 = 0x50;

/// Pairs of numbers that some comparison takes for one: the mark's and the call's.
const PAIRS: [(u64, u64); 22] = [
    (0, 1),
    (1, 0),
    (0, ALL),
    (ALL, 0),
    (0, 1 << 63),
    (1 << 63, 0),
    (0, 1 << 32),
    (1 << 32, 0),
    (1, 2),
    (2, 1),
    (5, (1 << 32) + 5),
    ((7 << 32) + 5, (8 << 32) + 5),
    ((7 << 32) + 5, (7 << 32) + 6),
    ((7 << 32) + 5, (5 << 32) + 7),
    (1 << 53, (1 << 53) + 1),
    (ALL, ALL - 1),
    (ALL - 1, ALL),
    (ALL, i64::MAX as u64),
    (ALL, u32::MAX as u64),
    (1, (1 << 63) + 1),
    (3, ALL - 2),
    (0x10001, 1),
];

/// Two pixels and two layers: a finished position is 6.
fn job(first: u32) -> Job {
    let row = |k: i64| {
        let mut row = Row::new([17, 18][k as usize], (1, 1, 1));
        (row.start, row.right, row.flags) = (k, k, 60);
        row.numbers()
    };
    Job {
        width: 2,
        height: 1,
        channels: 1,
        dst: vec![first, first + 1],
        layers: 2,
        table: [row(0), row(1)].concat(),
        args: vec![0; 8],
        samples: vec![first + 2, first + 3],
    }
}

/// The same with no pixel.
fn empty((width, height): (i64, i64)) -> Job {
    Job { width, height, dst: vec![], ..job(0x20) }
}

fn with_mark(mark: &[u64]) -> Memory {
    Memory { work: [(1..9).collect(), (0x11..0x19).collect()], mark: mark.to_vec() }
}

fn no_pixels(mark: &[u64]) -> Memory {
    Memory { work: [vec![], vec![]], mark: mark.to_vec() }
}

/// Calls as pairs of a job number and an allowance.
fn calls(pairs: &[(u64, u64)]) -> Vec<Call> {
    pairs.iter().map(|&(job_number, allowance)| Call { job_number, allowance }).collect()
}

pub fn put(book: &mut Book) {
    let job = job(0x20);
    book.note("job numbers: a wrong one at each position, with allowances of 0, some and no end; then the job's own");
    for position in 0..=6 {
        let asked = [(OTHER, 0), (OTHER, 7), (OTHER, ALL), (0, 7), (OWN, 0), (OWN, 7)];
        book.numbered(&job, &with_mark(&[position, OWN]), &calls(&asked));
    }
    alike(book, &job);
    trays(book);
    marks(book, &job);
    faults(book, &job);
    between(book, &job);
    taken_up(book, &job);
}

fn alike(book: &mut Book, job: &Job) {
    book.note("job numbers: pairs that are nearly alike, at position 0, within the work and at its end");
    for (mark, call) in PAIRS {
        for position in [0, 3, 6] {
            book.numbered(job, &with_mark(&[position, mark]), &calls(&[(call, 0), (call, 9), (mark, 6)]));
        }
    }
    book.note("job numbers: one bit off");
    for held in [0, 0x9b5d_72e1_0f8c_46a3] {
        for bits in [0..16, 16..32, 32..48, 48..64] {
            let asked: Vec<(u64, u64)> = bits.map(|bit| (held ^ (1 << bit), ALL)).collect();
            book.numbered(job, &with_mark(&[2, held]), &calls(&asked));
        }
    }
    book.note("job numbers: one throughout, whatever it is");
    for number in [0, 1, 6, 7, u32::MAX as u64, 1 << 32, (1 << 53) + 1, i64::MAX as u64, 1 << 63, ALL - 1, ALL] {
        book.numbered(job, &with_mark(&[0, number]), &under(number, &[3, 11, 0, 9, ALL, 1]));
    }
}

fn trays(book: &mut Book) {
    book.note("job numbers: an empty tray, whose mark is fresh and finished");
    for sides in [(0, 0), (0, 3), (3, 0), (2048, 0)] {
        for (own, other) in [(OWN, OTHER), (0, 1), (1, 0), (1 << 32, 0), (ALL, ALL >> 1)] {
            let asked = [(other, 0), (other, 7), (other, ALL), (own, 0), (own, 7)];
            book.numbered(&empty(sides), &no_pixels(&[0, own]), &calls(&asked));
        }
        for mark in [&[1, OWN][..], &[1, OTHER], &[ALL, OWN], &[], &[0], &[OWN], &[0, OWN, OWN], &[OWN, 0]] {
            book.numbered(&empty(sides), &no_pixels(mark), &calls(&[(OWN, 0), (OWN, 7), (0, 7)]));
        }
    }
}

fn marks(book: &mut Book, job: &Job) {
    book.note("job numbers: positions at the bound and past it, under the job's number and a wrong one: 10 before 14");
    let asked = calls(&[(OWN, 7), (OTHER, 7), (0, ALL), (OWN, 0)]);
    for position in [0, 5, 6, 7] {
        for number in [OWN, OTHER, 0, 3, 6, 7] {
            book.numbered(job, &with_mark(&[position, number]), &asked);
        }
    }
    for position in [8, 30, u32::MAX as u64, 1 << 32, (1 << 32) + 3, 1 << 63, (1 << 63) + 3, ALL - 1, ALL] {
        for number in [OWN, OTHER] {
            book.numbered(job, &with_mark(&[position, number]), &asked);
        }
    }
    book.note("job numbers: a mark of no, one, three or four numbers");
    book.numbered(job, &with_mark(&[]), &asked);
    for position in [0, 3, 6, 7, OWN, ALL] {
        for rest in [&[][..], &[OWN, 0], &[OWN, OWN], &[OTHER, OWN], &[0, 0, 0], &[OWN, OWN, OWN], &[OTHER, 3, OWN]] {
            let mark = [&[position], rest].concat();
            book.numbered(job, &with_mark(&mark), &calls(&[(OWN, 7), (OTHER, 0), (0, 7), (position, ALL)]));
        }
    }
    book.note("job numbers: position and number exchanged, equal, or taken for the allowance");
    for mark in [[3, 5], [5, 3], [3, 3], [0, 5], [5, 0], [6, 4], [4, 6], [OWN, 3], [3, OWN]] {
        let asked = [(mark[0], 0), (mark[0], mark[1]), (mark[1], mark[0]), (mark[1], 11)];
        book.numbered(job, &with_mark(&mark), &calls(&asked));
    }
}

/// Inputs with a fault of each number 1 to 8 and 13, in each layer.
fn faulty(job: &Job) -> Vec<Job> {
    let mut out = vec![
        Job { layers: 0, ..job.clone() },
        Job { args: vec![0; 7], ..job.clone() },
        Job { channels: 2, ..job.clone() },
        Job { dst: vec![1], ..job.clone() },
    ];
    for layer in 0..2 {
        for (column, number) in [(0, 70), (0, 43), (1, 10), (4, 64), (5, 2), (9, 5), (WINDOW, -1), (WINDOW + 3, 2049)] {
            let mut bad = job.clone();
            bad.table[layer * COLUMNS + column] = number;
            out.push(bad);
        }
    }
    out
}

fn faults(book: &mut Book, job: &Job) {
    book.note("job numbers: a wrong one beside each other fault, which answers; then the job's own");
    let asked = calls(&[(OTHER, 7), (OTHER, 0), (OWN, ALL)]);
    for bad in faulty(job) {
        for mark in [&[0, OWN][..], &[6, OWN], &[7, OWN], &[3]] {
            book.numbered(&bad, &with_mark(mark), &asked);
        }
    }
    for mark in [&[0, OWN][..], &[3, OWN], &[6, OWN], &[7, OWN], &[0, OWN, OWN], &[0]] {
        for work in [(7, 8), (8, 9), (0, 0)] {
            let work = [work.0, work.1].map(|n| (1..=n).collect());
            book.numbered(job, &Memory { work, mark: mark.to_vec() }, &asked);
        }
    }
    for bad in [Job { layers: 17, ..empty((0, 3)) }, Job { channels: 5, ..empty((3, 0)) }] {
        book.numbered(&bad, &no_pixels(&[0, OWN]), &asked);
    }
    let memory = Memory { work: [vec![], vec![1]], mark: vec![0, OWN] };
    book.numbered(&empty((0, 3)), &memory, &asked);
}

fn between(book: &mut Book, job: &Job) {
    book.note("job numbers: calls of another job between a job's own change nothing, and the job goes on");
    for (own, other) in [(OWN, OTHER), (0, 1), (1, 0), (0x9b5d_72e1_0f8c_46a3, 0x9b5d_72e1_0f8c_46a2), (ALL, 1 << 63)] {
        let list =
            [(own, 3), (other, ALL), (own, 8), (other, 0), (own, 6), (other, 5), (own, 9), (other, 1), (own, ALL)];
        let more = [(other, ALL), (own, ALL), (other, 0), (own, 0)];
        let memory = book.numbered(job, &with_mark(&[0, own]), &calls(&[&list[..], &more].concat()));
        book.numbered(job, &memory, &calls(&[(other, 0), (other, ALL), (own, 5)]));
    }
    book.note("job numbers: cut after each store, another job's calls beside the job's");
    for n in 0..=30 {
        book.numbered(
            job,
            &with_mark(&[0, OWN]),
            &calls(&[(OTHER, n), (OWN, n), (OTHER, ALL), (OWN, ALL), (OTHER, n)]),
        );
    }
}

/// A job of the same dimensions takes up what another has left.
fn taken_up(book: &mut Book, first: &Job) {
    book.note("job numbers: a mark that a job of the same dimensions has left, before and after it is made anew");
    let second = job(0x60);
    for stores in [0, 4, 5, 13, 20, 29, 30] {
        let left = book.numbered(first, &with_mark(&[0, OTHER]), &under(OTHER, &[stores]));
        let left = book.numbered(&second, &left, &under(OWN, &[0, 7, ALL]));
        let position_first = Memory { mark: vec![0, OTHER], ..left.clone() };
        book.numbered(&second, &position_first, &calls(&[(OWN, 7), (OTHER, 0)]));
        let anew = Memory { mark: vec![0, OWN], ..left.clone() };
        let anew = book.numbered(&second, &anew, &calls(&[(OWN, 7), (OTHER, ALL), (OWN, ALL)]));
        book.numbered(first, &anew, &under(OTHER, &[ALL]));
        // The number before the position: what must not be left, since the service takes it.
        let number_first = Memory { mark: vec![left.mark[0], OWN], ..left };
        book.numbered(&second, &number_first, &under(OWN, &[ALL]));
    }
}
