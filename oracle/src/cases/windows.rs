//! Windows: what a layer leaves off its window, by every kind of window, placing, tile, overlay, mask and map, in single
//! compositions and in jobs that are cut. Most words are small numbers as bits, so that the lines stay short.

use super::book::Book;
use super::jobs::{fresh, stacked};
use super::layer::{Row, pairs};
use crate::random::{Random, carried};
use crate::request::{COLUMNS, Job, WINDOW, Window};

const SRC: i64 = 17;
const OVER: i64 = 0;
const CLEAR: i64 = 16;
const DISPLACE: i64 = 65;
const DISTORT: i64 = 66;

/// The tray of most cases.
const TRAY: (i64, i64, i64) = (4, 3, 4);

/// Windows on that tray that hold all of it, nothing, one pixel, what is off it, what is past it.
const SIMPLE: [Window; 19] = [
    [0, 0, 2048, 2048],
    [0, 0, 4, 3],
    [0, 0, 0, 0],
    [1, 1, 0, 2],
    [1, 1, 2, 0],
    [2048, 2048, 0, 0],
    [0, 0, 1, 1],
    [2, 1, 1, 1],
    [3, 2, 1, 1],
    [4, 0, 1, 3],
    [0, 3, 4, 1],
    [4, 3, 1, 1],
    [2048, 0, 2048, 2048],
    [2048, 2048, 2048, 2048],
    [3, 0, 2, 3],
    [0, 2, 4, 9],
    [2, 1, 2048, 2048],
    [2, 0, 2, 2048],
    [0, 1, 2048, 2],
];

/// Windows that cut the tray on several sides.
const CUT: [Window; 6] = [[1, 0, 2, 2], [1, 1, 3, 1], [0, 1, 3, 2], [2, 0, 1, 3], [1, 2, 2, 1], [1, 1, 2, 2]];

/// A job of one layer whose samples tell every pixel from every other.
fn scene(dst: (i64, i64, i64), row: Row) -> Job {
    let count = |(w, h, c): (i64, i64, i64)| (w * h * c) as u32;
    Job {
        width: dst.0,
        height: dst.1,
        channels: dst.2,
        dst: (0..count(dst)).map(|i| 0x10 + i).collect(),
        layers: 1,
        table: row.numbers().to_vec(),
        args: vec![0; 4],
        samples: (0..count((row.width, row.height, row.channels))).map(|i| 0x400 + i).collect(),
    }
}

fn windowed(operator: i64, source: (i64, i64, i64), window: Window) -> Row {
    Row { window, ..Row::new(operator, source) }
}

pub fn put(book: &mut Book) {
    kinds(book);
    placed(book);
    channels(book);
    masks(book);
    maps(book);
    book.note("windows: every operator, a pixel in the window and one off it");
    let pair = ([0.25, 0.75, 0.5, 0.75], [0.5, 0.25, 1.0, 0.5]);
    for operator in carried() {
        let mut job = pairs(operator, &[pair; 2], &[]);
        job.table[WINDOW..].copy_from_slice(&[operator % 2, 0, 1, 1]);
        book.compose(&job);
    }
    let mut random = Random::new(31);
    cuts(book);
    stacks(book, &mut random);
    drawn(book, &mut random);
}

fn kinds(book: &mut Book) {
    book.note("windows: whole, empty, of one pixel, off the tray, past it, cutting it; overlay, and tiles");
    let put = |book: &mut Book, window, flags| {
        let mut row = windowed(SRC, (2, 2, 4), window);
        (row.right, row.down, row.flags) = (1, 1, flags);
        book.compose(&scene(TRAY, row));
    };
    for window in SIMPLE.into_iter().chain(CUT) {
        put(book, window, 62);
        put(book, window, 61);
    }
    book.note("windows: without overlay, and tiles under overlay");
    for window in CUT {
        put(book, window, 60);
        put(book, window, 63);
    }
    book.note("windows: an empty source, and an empty tray");
    for (dst, source) in [(TRAY, (0, 0, 4)), (TRAY, (2, 0, 4)), ((0, 3, 4), (1, 1, 4)), ((3, 0, 4), (1, 1, 4))] {
        for flags in [60, 63] {
            let mut row = windowed(CLEAR, source, CUT[5]);
            row.flags = flags;
            book.compose(&scene(dst, row));
        }
    }
}

fn placed(book: &mut Book) {
    book.note("windows: each gravity, which goes by the tray; offsets and tiles that start off the window");
    for gravity in 0..=9 {
        let mut row = windowed(SRC, (3, 2, 4), CUT[gravity as usize % CUT.len()]);
        (row.gravity, row.flags) = (gravity, 60);
        book.compose(&scene(TRAY, row));
        (row.flags, row.right, row.down) = (61, -1, gravity - 4);
        book.compose(&scene(TRAY, row));
    }
    book.note("windows: larger trays, and the longest sides");
    for (dst, window) in [((8, 8, 4), [2, 3, 4, 2]), ((16, 4, 4), [5, 1, 10, 2]), ((3, 21, 4), [1, 4, 1, 16])] {
        let mut row = windowed(SRC, (2, 3, 4), window);
        (row.flags, row.right) = (61, 1);
        book.compose(&scene(dst, row));
    }
    for (dst, window) in
        [((2048, 0, 1), [0, 0, 2048, 0]), ((2, 1, 1), [1, 0, 2048, 2048]), ((1, 2, 1), [0, 1, 2047, 1])]
    {
        book.compose(&scene(dst, windowed(SRC, (1, 1, 1), window)));
    }
}

/// NaN patterns in every third word of a list.
fn patterned(words: &mut [u32], first: usize) {
    let patterns = [0x7fc0_0001, 0xffff_ffff, 0x7f80_0001, 0xff80_0001, 0x7fc0_0000, 0x8000_0000];
    for (i, word) in words.iter_mut().enumerate().skip(first).step_by(3) {
        *word = patterns[i % patterns.len()];
    }
}

fn channels(book: &mut Book) {
    book.note("windows: channel counts of tray and source; NaN patterns are kept off the window and stored in it");
    for dst in [1, 3, 4] {
        for (source, operator, flags) in [(1, OVER, 62), (3, SRC, 60), (4, SRC, 62), (4, 18, 63), (3, 57, 22)] {
            let mut row = windowed(operator, (2, 2, source), [1, 0, 1, 2]);
            (row.flags, row.right) = (flags, 1);
            let mut job = scene((3, 2, dst), row);
            patterned(&mut job.dst, source as usize % 3);
            patterned(&mut job.samples, dst as usize % 3);
            book.compose(&job);
        }
    }
}

fn masks(book: &mut Book) {
    book.note("windows: each choice of channels, NaN patterns in the window and off it");
    for channels in 0..16 {
        let mut row = windowed(SRC, (2, 1, 4), [1, 0, 1, 1]);
        row.flags = channels * 4 + 2 + channels % 2;
        let mut job = scene((3, 1, 4), row);
        patterned(&mut job.dst, 0);
        book.compose(&job);
    }
}

/// A map of the tray's sides whose places are whole, between pixels, and off the tray.
fn map(operator: i64, window: Window, flags: i64) -> Job {
    let mut row = windowed(operator, TRAY, window);
    (row.flags, row.count) = (flags, 2);
    let mut job = scene(TRAY, row);
    // Parts of the two sides: 3 and 2 are the last column and row.
    for (i, pixel) in job.samples.chunks_exact_mut(4).enumerate() {
        let [x, y] = [(i * 5 + 3) % 9, (i * 7 + 1) % 9].map(|eighths| eighths as f32 / 8.0);
        (pixel[0], pixel[1]) = (x.to_bits(), y.to_bits());
    }
    job.args = [3.0f32, 2.0, 9.0, 9.0].map(f32::to_bits).to_vec();
    job
}

fn maps(book: &mut Book) {
    book.note("windows: maps, which read the whole picture and write in the window");
    for operator in [DISPLACE, DISTORT] {
        for window in CUT.into_iter().chain([SIMPLE[2], SIMPLE[7], SIMPLE[9], SIMPLE[16]]) {
            book.compose(&map(operator, window, 62));
        }
        for flags in [61, 42] {
            let mut job = map(operator, CUT[5], flags);
            patterned(&mut job.dst, 1);
            book.compose(&job);
        }
    }
}

/// The windows of a job's layers put in their places.
fn with_windows(mut job: Job, windows: &[Window]) -> Job {
    for (row, window) in job.table.chunks_exact_mut(COLUMNS).zip(windows) {
        row[WINDOW..].copy_from_slice(window);
    }
    job
}

/// Layers of Src and Clear on three pixels.
fn small_stack(operators: &[i64], windows: &[Window]) -> Job {
    let rows = operators.iter().enumerate().flat_map(|(k, operator)| {
        let mut row = Row::new(*operator, (2, 1, 4));
        (row.start, row.right) = (4 * k as i64, k as i64 % 2);
        row.numbers()
    });
    let job = Job {
        width: 3,
        height: 1,
        channels: 4,
        dst: (0..12).map(|i| 0x10 + i).collect(),
        layers: operators.len() as i64,
        table: rows.collect(),
        args: vec![0; 4 * operators.len()],
        samples: (0..4 * operators.len() as u32 + 4).map(|i| 0x900 + i).collect(),
    };
    with_windows(job, windows)
}

fn cuts(book: &mut Book) {
    book.note("windows: a job cut after each store, then taken up to the end; a pixel off the window is five stores");
    let job = small_stack(&[SRC, CLEAR], &[[1, 0, 1, 1], [2, 0, 9, 1]]);
    for n in 0..=46 {
        book.calls(&job, &fresh(&job), &[n, n % 7, u64::MAX]);
    }
    book.note("windows: calls refused by 13 between a job's own");
    let mut memory = fresh(&job);
    for (i, allowance) in [4, 9, 13, 17].into_iter().enumerate() {
        memory = book.calls(&job, &memory, &[allowance]);
        let mut bad = job.clone();
        bad.table[i % 2 * COLUMNS + WINDOW + i] = [-1, 2049][i % 2];
        memory = book.calls(&bad, &memory, &[allowance]);
    }
    book.calls(&job, &memory, &[u64::MAX]);
}

fn stacks(book: &mut Book, random: &mut Random) {
    book.note("windows: layers with windows of their own, each seen through those above it");
    let (all, none) = ([0, 0, 2048, 2048], [0, 0, 0, 0]);
    for windows in [
        [all, [1, 0, 1, 1], [2, 0, 1, 1]],
        [[0, 0, 1, 1], all, [1, 0, 1, 1]],
        [[1, 0, 2, 1], [0, 0, 2, 1], none],
        [none, [0, 0, 1, 1], all],
        [[2, 0, 1, 1], none, [0, 0, 2, 1]],
    ] {
        for operators in [[SRC, SRC, SRC], [SRC, CLEAR, 18]] {
            let job = small_stack(&operators, &windows);
            book.calls(&job, &fresh(&job), &[u64::MAX]);
        }
    }
    book.note("windows: map layers over and under windows, taken up within their phases");
    for (operators, windows) in [
        (&[DISTORT, DISPLACE][..], &[[0, 0, 2, 3], [1, 1, 3, 1]][..]),
        (&[SRC, DISPLACE, DISTORT], &[[1, 0, 1, 3], [0, 1, 4, 1], [2, 0, 2, 2]]),
        (&[DISPLACE, OVER, DISTORT], &[[3, 2, 1, 1], [0, 0, 4, 2], all]),
    ] {
        let job = with_windows(stacked(random, (4, 3, 4), operators), windows);
        book.calls(&job, &fresh(&job), &[62, 31, 0, 44, u64::MAX]);
    }
}

/// A window somewhere about a tray of 3 by 2.
fn any_window(random: &mut Random) -> Window {
    [4, 3, 4, 3].map(|most| random.below(most) as i64)
}

fn drawn(book: &mut Book, random: &mut Random) {
    book.note("windows: any layers with any windows, cut at random");
    let operators: Vec<i64> = carried().collect();
    for channels in [1, 3, 4, 1, 3, 4, 4, 4, 1, 3] {
        let layers = 2 + random.below(3) as usize;
        let chosen: Vec<i64> = (0..layers).map(|_| random.pick(&operators)).collect();
        let windows: Vec<Window> = (0..layers).map(|_| any_window(random)).collect();
        let mut job = with_windows(stacked(random, (3, 2, channels), &chosen), &windows);
        patterned(&mut job.dst, random.below(3) as usize);
        let total = 30 * (layers as u64 + 1);
        let mut memory = fresh(&job);
        for _ in 0..2 {
            let allowances: Vec<u64> = (0..3).map(|_| random.below(total / 4)).collect();
            memory = book.calls(&job, &memory, &allowances);
        }
        book.calls(&job, &memory, &[u64::MAX]);
    }
}
