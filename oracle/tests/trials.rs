//! Document 01's trial values, asked of the compiled Rust and of the restatement.

use oracle::lines::{Outcome, Request, ask};
use oracle::model::Reference;
use oracle::request::{Call, Job, Memory, Side, WHOLE, words};
use oracle::restated::{Reading, Restated};

const RESTATED: Restated = Restated { reading: Reading::RIGHT };
const SIDES: [&dyn Side; 2] = [&Reference, &RESTATED];

/// A row with the window that holds every tray.
fn row(numbers: [i64; 10]) -> Vec<i64> {
    [&numbers[..], &WHOLE].concat()
}

fn one(operator: i64, s: [f32; 4], d: [f32; 4]) -> Job {
    Job {
        width: 1,
        height: 1,
        channels: 4,
        dst: words(&d),
        layers: 1,
        table: row([operator, 0, 0, 0, 62, 0, 1, 1, 4, 0]),
        args: vec![0; 4],
        samples: words(&s),
    }
}

fn pixel(operator: i64, s: [f32; 4], d: [f32; 4], expected: [f32; 4]) {
    for side in SIDES {
        let request = Request::Compose { job: one(operator, s, d), length: 4 };
        assert_eq!(ask(side, &request), Outcome::Words { number: 0, out: words(&expected) });
    }
}

#[test]
fn pixels() {
    pixel(0, [1.0, 0.0, 0.0, 0.5], [0.0, 0.0, 1.0, 1.0], [0.5, 0.0, 0.5, 1.0]);
    pixel(0, [0.9, 0.9, 0.9, 0.0], [0.25, 0.5, 0.75, 0.0], [0.25, 0.5, 0.75, 0.0]);
    pixel(1, [1.0; 4], [0.3, 0.3, 0.3, 0.5], [0.5; 4]);
    pixel(15, [0.0, 0.0, 0.0, 1.0], [1.0; 4], [0.0, 0.0, 0.0, 1.0]);
    pixel(27, [0.75, 0.75, 0.75, 1.0], [0.5, 0.5, 0.5, 1.0], [0.75, 0.75, 0.75, 1.0]);
}

#[test]
fn wraps() {
    // The alpha of ModulusAdd is wrap(sa + da), that of ModulusSubtract wrap(sa - da).
    let alpha = |operator: i64, sa: f32, da: f32, wrapped: f32| {
        for side in SIDES {
            let mut out = [0; 4];
            assert_eq!(side.compose(&one(operator, [0.0, 0.0, 0.0, sa], [0.0, 0.0, 0.0, da]), &mut out), 0);
            assert_eq!(out[3], wrapped.to_bits());
        }
    };
    alpha(27, 1.0, 1.0, 1.0);
    alpha(27, -1.0, 0.0, -0.0);
    alpha(27, 1.0, 0.25, 0.25);
    alpha(28, 0.0, 1e-10, 1.0);
}

#[test]
fn places() {
    // Src of a source whose samples count from 1, onto a row of zeros: the first sample tells the corner.
    let corner = |tray: i64, source: i64, gravity: i64, flags: i64, right: i64| {
        let job = Job {
            width: tray,
            height: 1,
            channels: 1,
            dst: vec![0; tray as usize],
            layers: 1,
            table: row([17, gravity, right, 0, flags, 0, source, 1, 1, 0]),
            args: vec![0; 4],
            samples: (1..=source as u32).collect(),
        };
        SIDES.map(|side| match ask(side, &Request::Compose { job: job.clone(), length: 4 * tray as usize }) {
            Outcome::Words { number: 0, out } => out.chunks(4).map(|p| p[0]).collect::<Vec<_>>(),
            other => panic!("{other:?}"),
        })
    };
    for row in corner(4, 7, 5, 60, 0) {
        assert_eq!(row, [2, 3, 4, 5], "centre -1");
    }
    for row in corner(7, 4, 5, 60, 0) {
        assert_eq!(row, [0, 1, 2, 3, 4, 0, 0], "centre 1");
    }
    for row in corner(4, 3, 0, 61, 1) {
        assert_eq!(row, [3, 1, 2, 3], "tile: column 0 reads 2");
    }
}

#[test]
fn roots_and_bytes() {
    // Rmse of differences 2, 1 and 1: the root of 2.
    let root = f32::from_bits(0x3fb5_04f3);
    pixel(47, [2.0, 1.0, 1.0, 1.0], [0.0, 0.0, 0.0, 1.0], [root, root, root, 1.0]);
    for side in SIDES {
        let mut out = [9; 8];
        let input = words(&[0.5, f32::NAN, 1.0, 0.0, 2.0, -1.0, f32::INFINITY, 0.25]);
        assert_eq!(side.narrow_bytes(4, &input, &mut out), 0);
        assert_eq!(out, [128, 0, 255, 0, 255, 0, 255, 64]);
    }
}

#[test]
fn names() {
    for side in SIDES {
        assert_eq!(side.from_name(b"Soft-Light"), Some(13));
        assert_eq!(side.from_name(b"SRC over"), Some(0));
        assert_eq!(side.from_name(b"minus"), Some(23));
        assert_eq!(side.from_name(b""), None);
    }
}

#[test]
fn calls() {
    let job = Job { width: 2, dst: vec![0; 8], samples: vec![0; 4], ..one(0, [0.0; 4], [0.0; 4]) };
    for side in SIDES {
        let mut memory = Memory { work: [vec![0; 8], vec![0; 8]], mark: vec![0, 9] };
        for (allowance, made, position, finished) in [(7, 7, 1, false), (7, 7, 2, false), (100, 10, 4, true)] {
            let answer = side.call(&job, Call { job_number: 9, allowance }, &mut memory);
            assert_eq!((answer.number, answer.stores, answer.finished), (0, made, finished));
            assert_eq!(memory.mark, [position, 9]);
        }
    }
}
