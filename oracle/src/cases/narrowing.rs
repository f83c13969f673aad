//! Narrowing to words and to bytes, and fault 11.

use super::book::Book;
use crate::lines::Request;
use crate::random::{Random, SPECIAL};

fn both(book: &mut Book, wanted: i64, input: &[u32], length: usize) {
    book.put(Request::Narrow { wanted, input: input.to_vec(), length });
    book.put(Request::Bytes { wanted, input: input.to_vec(), length });
}

fn each_width(book: &mut Book, input: &[u32]) {
    for wanted in [1, 3, 4] {
        both(book, wanted, input, input.len() / 4 * wanted as usize);
    }
}

/// Values at which the byte step turns: those whose 255-fold is a half, and their neighbours.
fn halves() -> Vec<u32> {
    let mut out = Vec::new();
    for code in 0..255 {
        let near = ((code as f32 + 0.5) / 255.0).to_bits();
        let at = (near - 3..=near + 3).find(|w| f32::from_bits(*w) * 255.0 == code as f32 + 0.5);
        if code < 4 || code % 17 == 0 || code > 250 || code == 127 {
            let at = at.unwrap_or(near);
            out.extend([at - 1, at, at + 1]);
        }
    }
    out
}

pub fn put(book: &mut Book) {
    book.note("narrowing: special words in every channel");
    let mut rolled = Vec::new();
    for shift in [0, 5, 11, 22] {
        rolled.extend((0..SPECIAL.len()).map(|i| SPECIAL[(i * 7 + shift) % SPECIAL.len()]));
    }
    each_width(book, &rolled);
    book.note("narrowing: three equal values, whose luma is not always the value; 58/255 among them");
    let grays = (0..=255).filter(|code| code % 9 == 4).flat_map(|code| {
        let word = (code as f32 / 255.0).to_bits();
        [word, word, word, 0x3f80_0000]
    });
    each_width(book, &grays.collect::<Vec<_>>());
    book.note("narrowing: bytes at their halves, beside them, and out of range");
    let mut turns = halves();
    turns.extend([0x3eff_ffffu32, 0x3f00_0000, 0x3f00_0001, 0x3b00_8080, 0x3b00_8081, 0x3b00_8082]);
    turns.resize(turns.len().next_multiple_of(4), 0x3f80_0001);
    both(book, 4, &turns, turns.len());
    book.note("narrowing: any words");
    let mut random = Random::new(11);
    for _ in 0..12 {
        let input = random.words(32);
        each_width(book, &input);
    }
    book.note("narrowing: the 256 grays of bytes, and each colour alone");
    let opaque = |[r, g, b]: [f32; 3]| [r, g, b, 1.0].map(f32::to_bits);
    let grays: Vec<u32> = (0..=255).flat_map(|code| opaque([code as f32 / 255.0; 3])).collect();
    let alone = |c: usize| (0..20).map(move |n| opaque([0, 1, 2].map(|i| if i == c { n as f32 / 19.0 } else { 0.0 })));
    let colours: Vec<u32> = (0..3).flat_map(alone).flatten().collect();
    for input in grays.chunks(256).chain([&colours[..]]) {
        both(book, 1, input, input.len() / 4);
    }
    book.note("narrowing: nothing, and fault 11");
    each_width(book, &[]);
    let input = random.words(12);
    for wanted in [0, 1, 2, 3, 4, 5, -1, -4, 255, 1 << 32, i64::MAX, i64::MIN] {
        for length in [0, 3, 6, 9, 12] {
            both(book, wanted, &input, length);
        }
    }
    for (wanted, right) in [(1, 3), (3, 9), (4, 12)] {
        for length in [right - 1, right, right + 1, 2 * right] {
            both(book, wanted, &input, length);
        }
    }
    for short in 9..12 {
        for (wanted, length) in [(1, 2), (1, 3), (3, 6), (3, 9), (4, 8), (4, 12), (4, short)] {
            both(book, wanted, &input[..short], length);
        }
    }
    for wanted in [0, 1, 2, 3, 4, -1] {
        both(book, wanted, &[], 0);
        both(book, wanted, &[], 1);
        both(book, wanted, &input[..1], 0);
    }
}
