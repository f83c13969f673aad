//! Every carried operator on the same pictures: special values against each other in colours and in alphas,
//! bytes, values between 0 and 1 and around them.

use super::book::Book;
use super::layer::Row;
use crate::random::{Random, carried};
use crate::request::Job;

const SIDE: usize = 8;

/// Three lists of eight values: every pair of one list meets in one of the colour channels.
const COLOURS: [[u32; 8]; 3] = [
    // NaN with a payload, infinity, -0, 0, a subnormal, 0.5, 1, 1.5
    [0x7fc1_2345, 0x7f80_0000, 0x8000_0000, 0, 0x0000_1234, 0x3f00_0000, 0x3f80_0000, 0x3fc0_0000],
    // -infinity, -0.25, 0.25, just below 0.5, just above 0.5, just below 1, 2, a large one
    [0xff80_0000, 0xbe80_0000, 0x3e80_0000, 0x3eff_ffff, 0x3f00_0001, 0x3f7f_ffff, 0x4000_0000, 0x7e99_9999],
    // a signalling NaN, -1e-10, 0.1, 0.3, 0.6, 0.9, 1, -1.5
    [0x7f80_0001, 0xaedb_e6ff, 0x3dcc_cccd, 0x3e99_999a, 0x3f19_999a, 0x3f66_6666, 0x3f80_0000, 0xbfc0_0000],
];

/// Alphas that meet each other: a NaN, infinity, -0.5, -0, 0, 0.5, 1, 2.
const ALPHAS: [u32; 8] = [0x7fc0_0001, 0x7f80_0000, 0xbf00_0000, 0x8000_0000, 0, 0x3f00_0000, 0x3f80_0000, 0x4000_0000];

fn picture(words: impl Fn(usize, usize) -> [u32; 4]) -> Vec<u32> {
    (0..SIDE * SIDE).flat_map(|i| words(i % SIDE, i / SIDE)).collect()
}

/// One round: every operator on one pair of pictures.
fn round(book: &mut Book, text: &str, dst: Vec<u32>, samples: Vec<u32>) {
    book.note(&format!("operators: {text}"));
    let (width, height) = (SIDE as i64, (dst.len() / 4 / SIDE) as i64);
    let mut job = Job { width, height, channels: 4, dst, layers: 1, samples, ..Job::default() };
    job.args = vec![0x3f80_0000; 4];
    for operator in carried() {
        job.table = Row::new(operator, (width, height, 4)).numbers().to_vec();
        book.compose(&job);
    }
}

fn colours(book: &mut Book, text: &str, alphas: &[u32]) {
    let n = alphas.len();
    let source = picture(|x, y| [COLOURS[0][x], COLOURS[1][x], COLOURS[2][x], alphas[(x + 2 * y) % n]]);
    let dst = picture(|x, y| [COLOURS[0][y], COLOURS[1][y], COLOURS[2][y], alphas[(3 * x + y + 1) % n]]);
    round(book, text, dst, source);
}

pub fn put(book: &mut Book) {
    colours(book, "special colours against each other, opaque", &[0x3f80_0000]);
    colours(
        book,
        "special colours against each other, partly covered",
        &[0x3f00_0000, 0x3e80_0000, 0x3f80_0000, 0x3f4c_cccd, 0],
    );
    let plain = |i: usize| {
        [[0x3e80_0000, 0x3f00_0000, 0x3f80_0000], [0x3f66_6666, 0x3e99_999a, 0], [0, 0x3f19_999a, 0x3f4c_cccd]][i % 3]
    };
    let source = picture(|x, y| {
        let [r, g, b] = plain(x + y);
        [r, g, b, ALPHAS[x]]
    });
    let dst = picture(|x, y| {
        let [r, g, b] = plain(x + 1 + 2 * y);
        [r, g, b, ALPHAS[y]]
    });
    round(book, "special alphas against each other", dst, source);
    let mut random = Random::new(7);
    let mut drawn = |rows, draw: &dyn Fn(u64) -> u32| picture_of(&mut random, rows, draw);
    // Fewer rows: the whole file has to fit into the room of the program that replays it.
    let byte = |n: u64| ((n % 256) as f32 / 255.0).to_bits();
    let (dst, samples) = (drawn(6, &byte), drawn(6, &byte));
    round(book, "bytes", dst, samples);
    let unit = |n: u64| ((n % (1 << 24)) as f32 / (1 << 24) as f32).to_bits();
    let (dst, samples) = (drawn(5, &unit), drawn(5, &unit));
    round(book, "between 0 and 1", dst, samples);
    let around = |n: u64| ((n % (1 << 20)) as f32 / (1 << 18) as f32 - 1.5).to_bits();
    let (dst, samples) = (drawn(6, &around), drawn(6, &around));
    round(book, "from -1.5 to 2.5", dst, samples);
}

fn picture_of(random: &mut Random, rows: usize, draw: &dyn Fn(u64) -> u32) -> Vec<u32> {
    (0..SIDE * rows * 4).map(|_| draw(random.bits() >> 8)).collect()
}
