//! Document 02, A.3: the window, asked of the model and of the restatement.

use oracle::lines::{Outcome, Request, ask};
use oracle::model::{Reference, inputs_fault, layer};
use oracle::random::Random;
use oracle::reference;
use oracle::request::{COLUMNS, Call, Job, Memory, Picture, Side, WHOLE, WINDOW, Window};
use oracle::restated::{Reading, Restated};

const RESTATED: Restated = Restated { reading: Reading::RIGHT };
const SIDES: [&dyn Side; 2] = [&Reference, &RESTATED];

const CLEAR: i64 = 16;
const SRC: i64 = 17;
const DISTORT: i64 = 66;

/// A tray of 3 by 2 gray pixels 1 to 6 (as bits), with layers of one sample, 9, on every pixel by tile.
fn tiled(layers: &[(i64, Window)]) -> Job {
    let row = |(operator, window): &(i64, Window)| [&[*operator, 0, 0, 0, 61, 0, 1, 1, 1, 0][..], window].concat();
    Job {
        width: 3,
        height: 2,
        channels: 1,
        dst: (1..=6).collect(),
        layers: layers.len() as i64,
        table: layers.iter().flat_map(row).collect(),
        args: vec![0; 4 * layers.len()],
        samples: vec![9],
    }
}

/// The reds of a single composition.
fn reds(side: &dyn Side, job: &Job) -> Vec<u32> {
    match ask(side, &Request::Compose { job: job.clone(), length: 24 }) {
        Outcome::Words { number: 0, out } => out.chunks(4).map(|pixel| pixel[0]).collect(),
        other => panic!("{other:?}"),
    }
}

#[test]
fn pixels() {
    for side in SIDES {
        for (window, painted) in [
            (WHOLE, [9, 9, 9, 9, 9, 9]),
            ([0, 0, 3, 2], [9, 9, 9, 9, 9, 9]),
            ([1, 0, 1, 2], [1, 9, 3, 4, 9, 6]),
            ([0, 1, 2, 1], [1, 2, 3, 9, 9, 6]),
            ([2, 1, 1, 1], [1, 2, 3, 4, 5, 9]),
            ([2, 1, 2048, 2048], [1, 2, 3, 4, 5, 9]),
            ([1, 1, 0, 1], [1, 2, 3, 4, 5, 6]),
            ([1, 1, 1, 0], [1, 2, 3, 4, 5, 6]),
            ([3, 0, 2048, 2048], [1, 2, 3, 4, 5, 6]),
            ([2048, 2048, 2048, 2048], [1, 2, 3, 4, 5, 6]),
        ] {
            assert_eq!(reds(side, &tiled(&[(SRC, window)])), painted, "{window:?}");
        }
    }
}

/// A map writes in its window and reads past it: Distort to the last pixel.
#[test]
fn map() {
    let mut job = tiled(&[(DISTORT, [0, 0, 1, 1])]);
    (job.samples[0], job.table[9]) = (1f32.to_bits(), 1);
    job.args[0] = 5f32.to_bits();
    for side in SIDES {
        assert_eq!(reds(side, &job), [6, 2, 3, 4, 5, 6]);
    }
}

/// The second layer keeps what the first has written, and not the tray.
#[test]
fn layers() {
    let job = tiled(&[(SRC, [0, 0, 2, 1]), (CLEAR, [1, 0, 1, 2])]);
    for side in SIDES {
        let mut memory = Memory { work: [vec![7; 24], vec![8; 24]], mark: vec![0, 4] };
        let answer = side.call(&job, Call { job_number: 4, allowance: 90 }, &mut memory);
        assert_eq!((answer.number, answer.stores, answer.finished), (0, 90, true));
        assert_eq!(memory.work[0].chunks(4).map(|pixel| pixel[0]).collect::<Vec<_>>(), [9, 0, 3, 4, 0, 6]);
        assert_eq!(memory.work[1].chunks(4).map(|pixel| pixel[0]).collect::<Vec<_>>(), [9, 9, 3, 4, 5, 6]);
    }
}

/// 13 stands after 8 in its layer, before the next layer and before 9.
#[test]
fn order() {
    let whole = tiled(&[(SRC, WHOLE); 3]);
    let fault = |changes: &[(usize, usize, i64)], work: usize| {
        let mut job = whole.clone();
        changes.iter().for_each(|(layer, column, number)| job.table[layer * COLUMNS + column] = *number);
        SIDES.map(|side| {
            let mut memory = Memory { work: [vec![0; work], vec![0; 24]], mark: vec![99, 4] };
            let answer = side.call(&job, Call { job_number: 4, allowance: 5 }, &mut memory);
            (answer.number, answer.layer)
        })
    };
    for column in WINDOW..COLUMNS {
        for number in [-1, 2049, 1 << 32, i64::MIN, i64::MAX] {
            for layer in 0..3 {
                assert_eq!(fault(&[(layer, column, number)], 23), [(13, layer as u64); 2]);
            }
        }
        for number in [0, 2048] {
            assert_eq!(fault(&[(1, column, number)], 23), [(9, 0); 2]);
        }
        assert_eq!(fault(&[(1, column, -1), (1, 9, 5)], 24), [(8, 1); 2]);
        assert_eq!(fault(&[(1, column, -1), (2, 0, 70)], 24), [(13, 1); 2]);
        assert_eq!(fault(&[(1, column, -1), (0, 9, 5)], 24), [(8, 0); 2]);
    }
    assert_eq!(fault(&[], 24), [(10, 0); 2]);
}

/// A sheet of ten numbers a layer is refused as 1, also in a single composition.
#[test]
fn columns() {
    let mut job = tiled(&[(SRC, WHOLE)]);
    for length in [10, 13, 15] {
        job.table.resize(length, 0);
        for side in SIDES {
            assert_eq!(side.compose(&job, &mut [0; 24]), 1);
            assert_eq!(side.call(&job, Call { job_number: 0, allowance: 5 }, &mut Memory::default()).number, 1);
        }
    }
}

/// A single composition is the Rust's in the window, and the widened tray's bits off it.
#[test]
fn the_rust_with_pixels_put_back() {
    let mut random = Random::new(3);
    let (mut kept, mut accepted) = (0, 0);
    for _ in 0..20_000 {
        let Request::Compose { job, length } = random.composition() else { unreachable!("a composition") };
        if inputs_fault(&job).is_some() || length as i64 != 4 * job.width * job.height {
            continue;
        }
        accepted += 1;
        let (width, height, channels) = (job.width as u32, job.height as u32, job.channels as usize);
        let tray = Picture { width, height, channels, words: job.dst.clone() };
        let (painted, widened) = (reference::compose(&tray, &layer(&job, 0)), reference::widen(&tray));
        let mut out = vec![0; length];
        assert_eq!(Reference.compose(&job, &mut out), 0);
        let [left, top, columns, rows]: Window = job.table[WINDOW..].try_into().unwrap();
        for i in 0..length / 4 {
            let (x, y) = ((i as i64) % job.width, (i as i64) / job.width);
            let inside = left <= x && x < left + columns && top <= y && y < top + rows;
            kept += !inside as u32;
            let right = if inside { &painted } else { &widened };
            assert_eq!(out[4 * i..4 * i + 4], right[4 * i..4 * i + 4], "{job:?}");
        }
    }
    assert!(accepted > 15_000 && kept > 30_000, "{accepted} compositions, {kept} pixels");
}
