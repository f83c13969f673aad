//! Where a source lands: gravities, offsets, tiles, overlay, flags, channel counts, empty and narrow sides.

use super::book::Book;
use super::layer::Row;
use crate::random::Random;
use crate::request::Job;

/// A job of one layer whose samples tell every pixel from every other.
fn scene(dst: (i64, i64, i64), row: Row) -> Job {
    let word = |base: f32, i: i64| (base + i as f32 / 64.0).to_bits();
    let count = |(w, h, c): (i64, i64, i64)| w * h * c;
    let mut samples: Vec<u32> = (0..row.start).map(|i| word(8.0, i)).collect();
    samples.extend((0..count((row.width, row.height, row.channels))).map(|i| word(1.0, i)));
    Job {
        width: dst.0,
        height: dst.1,
        channels: dst.2,
        dst: (0..count(dst)).map(|i| word(-4.0, i)).collect(),
        layers: 1,
        table: row.numbers().to_vec(),
        args: vec![0; 4],
        samples,
    }
}

const SRC: i64 = 17;
const OVER: i64 = 0;

pub fn put(book: &mut Book) {
    book.note("placing: each gravity, tile and overlay, sources smaller and larger by odd and even amounts");
    for (dst, source) in [((4, 3), (7, 2)), ((5, 4), (2, 3)), ((4, 4), (1, 1)), ((3, 5), (4, 8)), ((1, 1), (3, 2))] {
        for gravity in 0..=9 {
            for flags in [60, 61, 62, 63] {
                let mut row = Row::new(SRC, (source.0, source.1, 1));
                (row.gravity, row.flags) = (gravity, flags);
                book.compose(&scene((dst.0, dst.1, 1), row));
            }
        }
    }
    book.note("placing: offsets, alone and with gravity");
    for (right, down) in [(1, 0), (0, 1), (-1, -2), (2, -1), (3, 3), (-7, 5), (1_000_000, 0), (-1_000_000, 1_000_000)] {
        for gravity in [0, 1, 3, 5, 6, 9] {
            for flags in [60, 61, 62] {
                let mut row = Row::new(SRC, (3, 2, 1));
                (row.right, row.down, row.gravity, row.flags) = (right, down, gravity, flags);
                book.compose(&scene((4, 3, 1), row));
            }
        }
    }
    sides(book);
    channels(book);
    flags(book);
}

fn sides(book: &mut Book) {
    book.note("placing: empty and one-pixel sides; a tile without pixels is no tile; Src and Clear wipe under overlay");
    for source in [(0, 0), (0, 2), (2, 0), (1, 1), (1, 3), (3, 1)] {
        for operator in [OVER, 16, SRC, 18, 20, 65] {
            for flags in [60, 61, 62, 63] {
                let mut row = Row::new(operator, (source.0, source.1, 4));
                (row.flags, row.right) = (flags, 1);
                book.compose(&scene((3, 2, 4), row));
            }
        }
    }
    book.note("placing: empty and narrow trays");
    for dst in [(0, 0), (0, 3), (3, 0), (1, 1), (1, 4), (4, 1)] {
        for operator in [OVER, SRC, 65, 66] {
            for flags in [60, 63] {
                let mut row = Row::new(operator, (2, 2, 3));
                (row.flags, row.gravity) = (flags, 5);
                book.compose(&scene((dst.0, dst.1, 3), row));
            }
        }
    }
    book.note("placing: the longest sides, of the tray and of the source");
    for (dst, source) in [
        ((2048, 0), (1, 1)),
        ((0, 2048), (1, 1)),
        ((2, 1), (2048, 1)),
        ((1, 2), (1, 2048)),
        ((2, 2), (2048, 0)),
        ((2, 2), (0, 2048)),
    ] {
        let mut row = Row::new(SRC, (source.0, source.1, 1));
        row.gravity = 9;
        let mut job = scene((dst.0, dst.1, 1), row);
        // Short words, so that the line stays short.
        for (i, word) in job.samples.iter_mut().enumerate() {
            *word = i as u32 % 13;
        }
        book.compose(&job);
    }
}

fn channels(book: &mut Book) {
    book.note("placing: channel counts of tray and source, NaN patterns in both, a start inside the samples");
    let mut random = Random::new(5);
    for dst in [1, 3, 4] {
        for source in [1, 3, 4] {
            for (operator, flags) in [(OVER, 62), (SRC, 62), (SRC, 60), (18, 62), (57, 62), (21, 63)] {
                let mut row = Row::new(operator, (2, 2, source));
                (row.flags, row.right, row.start) = (flags, 1, 3);
                let mut job = scene((3, 2, dst), row);
                for words in [&mut job.dst, &mut job.samples] {
                    let patterns = [0x7fc0_0001, 0xffff_ffff, 0x7f80_0001, 0xff80_0000, 0x8000_0000];
                    let at = random.below(3) as usize;
                    for (i, word) in words.iter_mut().enumerate().skip(at).step_by(4) {
                        *word = patterns[i % 5];
                    }
                }
                book.compose(&job);
            }
        }
    }
}

fn flags(book: &mut Book) {
    book.note("placing: all 64 flags, NaN patterns kept where a flag is off and stored where it is on");
    for operator in [OVER, 16, 53] {
        for flags in 0..64 {
            let mut row = Row::new(operator, (2, 1, 4));
            (row.flags, row.right) = (flags, 1);
            let mut job = scene((4, 1, 4), row);
            job.dst[4..8].copy_from_slice(&[0x7fc0_0abc, 0x7f80_0001, 0xffc0_0000, 0xffff_ffff]);
            job.dst[12..16].copy_from_slice(&[0x7fc0_0def, 0x3f00_0000, 0xff80_0001, 0x3f00_0000]);
            book.compose(&job);
        }
    }
}
