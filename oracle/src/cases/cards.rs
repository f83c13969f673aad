//! Cards: every name, numbers and arguments at their limits, near misses of the form, the line that is answered, the lists.

use super::book::Book;
use crate::card::{Card, CardLayer};
use crate::lines::{Outcome, Request};
use crate::random::Random;
use crate::reference;
use crate::request::{ARGUMENTS, COLUMNS, LAYERS};

pub const TRAY: &str = "(tray 1 2 1 3)\n";
/// Document 02's own two lines.
pub const CARD: &str = "(tray 1 2 1 3)\n(layer over (place 0 3 -2) (flags 62) (source 0 2 1 3) (args 3f000000))\n";
/// A layer line that is soon read.
const PLAIN: &str = "(layer in (place 0 0 0) (flags 0) (source 0 0 0 0) (args))\n";

/// What a number may be, and what it may not.
const IN_FORM: [&str; 16] = [
    "0",
    "1",
    "10",
    "-1",
    "-4567",
    "99999",
    "100000",
    "2147483648",
    "-2147483649",
    "4294967295",
    "4294967296",
    "999999999",
    "1000000000",
    "-1000000000",
    "9999999999",
    "-9999999999",
];
const OUT_OF_FORM: [&str; 25] = [
    "",
    "-",
    "-0",
    "00",
    "01",
    "-01",
    "+1",
    "--1",
    "10000000000",
    "-10000000000",
    "09999999999",
    "99999999999",
    "4294967297000000000",
    "18446744073709551617",
    "-18446744073709551615",
    "1.0",
    "1e3",
    "0x1",
    "1_000",
    "a",
    "A",
    "/",
    ":",
    "\u{661}",
    "1\0",
];

const NOT_ARGUMENTS: [&str; 17] = [
    "(args )",
    "(args  3f000000)",
    "(args 3f000000 )",
    "(args 3f00000)",
    "(args 3f000000 3f00000)",
    "(args 3f0000000)",
    "(args 03f000000)",
    "(args 3F000000)",
    "(args 3f00000A)",
    "(args 3f00000g)",
    "(args 3f00000`)",
    "(args 3f00000/)",
    "(args 3f00000:)",
    "(args 0x3f0000)",
    "(args -3f00000)",
    "(args 3f000000,3f000000)",
    "(args 00000001 00000002 00000003 00000004 00000005)",
];

const NOT_NAMES: [&str; 17] = [
    "",
    "Over",
    "OVER",
    "ov-er",
    "over-",
    "-over",
    "soft-light",
    "soft_light",
    "src over",
    "ove",
    "overr",
    "softlight2",
    "undefined",
    "0",
    "13",
    "over over",
    "ov\u{e9}r",
];

/// A piece of document 02's card, and what stands in its place: nothing of this is in form.
const NEAR: [(&str, &str); 53] = [
    ("(tray 1", "(tray 0"),
    ("(tray 1", "(tray 2"),
    ("(tray 1", "(tray 01"),
    ("(tray 1", "(tray +1"),
    ("(tray 1", "(tray 10"),
    ("(tray 1", "(tray"),
    ("(tray 1", "(tray "),
    ("(tray 1", "(tray 1 1"),
    ("(tray 1", "(tray 4294967297"),
    ("(tray", "(Tray"),
    ("(tray", "( tray"),
    ("(tray", "tray"),
    ("(tray", " (tray"),
    ("(tray", "\n(tray"),
    ("(tray", "\u{feff}(tray"),
    ("(tray", "\0(tray"),
    ("(tray", "# a card\n(tray"),
    ("(tray 1 2", "(tray  1 2"),
    ("(tray 1 2", "(tray\t1 2"),
    ("1 3)", "1 3 )"),
    ("1 3)", "1 3 4)"),
    ("1 3)", "1)"),
    ("1 3)", "1 3"),
    ("1 3)", "1 3]"),
    ("1 3)\n", "1 3) \n"),
    ("1 3)\n", "1 3)\r\n"),
    ("1 3)\n", "1 3)\r"),
    ("1 3)\n", "1 3)\n\n"),
    ("1 3)\n", "1 3) "),
    ("1 3)\n", "1 3)"),
    ("1 3)\n", "1 3)\n(tray 1 2 1 3)\n"),
    ("(layer", "(Layer"),
    ("(layer", " (layer"),
    ("(layer over", "(layer  over"),
    ("(layer over", "(over"),
    ("(layer over", "(layer\nover"),
    (" (place", "(place"),
    (" (place", "  (place"),
    ("(place 0 3 -2)", "(place 0 3)"),
    ("(place 0 3 -2)", "(place 0 3 -2 0)"),
    ("(place 0 3 -2) (flags 62)", "(flags 62) (place 0 3 -2)"),
    ("(flags 62) ", ""),
    ("(flags 62)", "(flags)"),
    ("(flags 62)", "(flags 62 0)"),
    ("(source 0 2 1 3)", "(source 0 2 1)"),
    ("(source 0 2 1 3)", "(source 0 2 1 3 0)"),
    (" (args 3f000000)", ""),
    (" (args 3f000000)", " (window 0 0 24 24) (args 3f000000)"),
    ("3f000000))", "3f000000)"),
    ("3f000000))", "3f000000)))"),
    ("3f000000))", "3f000000) )"),
    ("3f000000))", "3f000000)) ; half"),
    ("3f000000))", "3f000000))(layer"),
];

/// Bytes behind document 02's card: a line without its end, or an empty one.
const BEHIND: [&[u8]; 13] = [
    b"\n",
    b"\n\n",
    b" ",
    b" \n",
    b"\t\n",
    b"\r",
    b"\r\n",
    b"\0",
    b"\0\n",
    b"\0\0(layer\n",
    b"\x1a",
    b"\xff\n",
    b"(layer over (place 0 3 -2) (flags 62) (source 0 2 1 3) (args))",
];

impl Book {
    /// A text, with lists of the lengths that they must have; and whether it is accepted, which must not surprise.
    fn card(&mut self, text: impl AsRef<[u8]>, accepted: bool) {
        let request = Request::Card { text: text.as_ref().to_vec(), table: LAYERS * COLUMNS, args: LAYERS * ARGUMENTS };
        let outcome = self.put(request);
        let right = matches!(outcome, Outcome::Card { answer, .. } if (answer.number == 0) == accepted);
        assert!(right, "\"{}\" is not accepted: {accepted}", text.as_ref().escape_ascii());
    }

    fn accepted(&mut self, text: impl AsRef<[u8]>) {
        self.card(text, true);
    }

    fn refused(&mut self, text: impl AsRef<[u8]>) {
        self.card(text, false);
    }
}

/// A text with something else in the place of a piece.
fn edited(text: &str, piece: &str, other: &str) -> String {
    assert!(text.contains(piece), "{piece:?} is not in {text:?}");
    text.replacen(piece, other, 1)
}

/// A card of plain layers, some lines of which, counted from 1, are others.
fn plain(layers: usize, others: &[(usize, &str)]) -> String {
    let mut lines = vec![TRAY];
    lines.resize(1 + layers, PLAIN);
    for (line, other) in others {
        lines[line - 1] = other;
    }
    lines.concat()
}

/// A layer none of whose numbers is another's.
fn distinct(name: &str, k: i64) -> CardLayer {
    let n = |i: i64| if (i + k) % 3 == 0 { -(16 * k + i) } else { 16 * k + i };
    CardLayer {
        name: name.to_string(),
        place: [n(1), n(2), n(3)],
        flags: n(4),
        source: [n(5), n(6), n(7), n(8)],
        args: (0..k as u32 % 5).map(|i| 0x1001 * (16 * k as u32 + i)).collect(),
    }
}

fn names(book: &mut Book) {
    book.note("cards: the 83 names");
    let names: Vec<&str> = reference::names().collect();
    for (i, names) in names.chunks(LAYERS).enumerate() {
        let layers = names.iter().zip(1 + i as i64..).map(|(name, k)| distinct(name, k)).collect();
        book.accepted(Card { tray: [11, 22, 33], layers }.print());
    }
    book.note("cards: what is no name here");
    for name in NOT_NAMES {
        book.refused(edited(CARD, "over", name));
    }
}

fn numbers(book: &mut Book) {
    book.note("cards: numbers in form, each as another of the tray's three");
    let of_tray = |i: usize, number: &str| {
        let [width, height, channels] = [0, 1, 2].map(|place| if place == i % 3 { number } else { "7" });
        format!("(tray 1 {width} {height} {channels})\n")
    };
    for (i, number) in IN_FORM.iter().enumerate() {
        book.accepted(of_tray(i, number));
    }
    book.note("cards: numbers out of form");
    for (i, number) in OUT_OF_FORM.iter().enumerate() {
        book.refused(of_tray(i, number));
    }
    book.note("cards: each number of a layer at its limits, and past them");
    let of_layer = |[g, r, d, f, s, w, h, c]: [&str; 8]| {
        format!("{TRAY}(layer xor (place {g} {r} {d}) (flags {f}) (source {s} {w} {h} {c}) (args))\n")
    };
    book.accepted(of_layer(["9999999999"; 8]));
    book.accepted(of_layer(["-9999999999"; 8]));
    for i in 0..8 {
        for number in ["10000000000", "01", "-0"] {
            let mut numbers = ["5"; 8];
            numbers[i] = number;
            book.refused(of_layer(numbers));
        }
    }
}

fn arguments(book: &mut Book) {
    let layer = |args: &str| edited(CARD, "(args 3f000000)", args);
    book.note("cards: arguments in form");
    for args in [
        "(args)",
        "(args 00000000)",
        "(args ffffffff)",
        "(args 01234567 89abcdef)",
        "(args 80000000 7fc00000 7fc12345)",
        "(args 7f800001 ff800001 ffc00001 7fffffff)",
    ] {
        book.accepted(layer(args));
    }
    book.note("cards: arguments out of form");
    for args in NOT_ARGUMENTS {
        book.refused(layer(args));
    }
}

fn form(book: &mut Book) {
    book.note("cards: document 02's own, and one without layers");
    book.accepted(CARD);
    book.accepted(TRAY);
    book.note("cards: near misses of document 02's own");
    for (piece, other) in NEAR {
        book.refused(edited(CARD, piece, other));
    }
    book.note("cards: without their end, and with more behind it");
    for length in [0, 1, TRAY.len() - 1, TRAY.len() + 1, CARD.len() - 2, CARD.len() - 1] {
        book.refused(&CARD[..length]);
    }
    for behind in BEHIND {
        book.refused([CARD.as_bytes(), behind].concat());
    }
    book.note("cards: bytes that are no text");
    for text in ["\n", "\0", " ", "\r\n", "(", ")", "()\n", "(tray)\n", PLAIN] {
        book.refused(text);
    }
    for byte in [0, 127, 128, 138, 160, 255] {
        let mut text = CARD.as_bytes().to_vec();
        text[byte as usize % CARD.len()] = byte;
        book.refused(text);
    }
}

fn lines(book: &mut Book) {
    let bad = "(layer in)\n";
    book.note("cards: the first line that is out of form");
    for others in [
        &[(1, bad)][..],
        &[(2, bad)],
        &[(3, bad)],
        &[(4, bad)],
        &[(2, bad), (4, bad)],
        &[(1, bad), (3, bad)],
        &[(1, PLAIN), (2, TRAY)],
        &[(3, "\n")],
        &[(4, "\n")],
    ] {
        book.refused(plain(3, others));
    }
    book.note("cards: fifteen, sixteen, seventeen and eighteen layers");
    for layers in 15..=18 {
        book.card(plain(layers, &[]), layers <= LAYERS);
    }
    for line in [1, 3, 17, 18] {
        book.refused(plain(17, &[(line, bad)]));
    }
    book.refused(plain(18, &[(19, bad)]));
    for behind in ["\n", "(", PLAIN.trim_end()] {
        book.refused(plain(16, &[]) + behind);
    }
    book.refused(plain(16, &[]).trim_end());
}

fn lists(book: &mut Book) {
    book.note("cards: lists of other lengths");
    let mut put = |text: &str, table, args| _ = book.put(Request::Card { text: text.into(), table, args });
    for (table, args) in [
        (0, 0),
        (14, 4),
        (160, 64),
        (223, 64),
        (225, 64),
        (224, 63),
        (224, 65),
        (320, 128),
        (0, 64),
        (224, 0),
        (160, 40),
    ] {
        put(CARD, table, args);
        put("", table, args);
    }
    put(TRAY, 0, 0);
    put("(tray 2 2 1 3)\n", 223, 64);
}

pub fn put(book: &mut Book) {
    form(book);
    names(book);
    numbers(book);
    arguments(book);
    lines(book);
    lists(book);
    book.note("cards: any texts");
    let mut random = Random::new(12);
    let short = std::iter::repeat_with(|| random.card())
        .filter(|request| matches!(request, Request::Card { text, .. } if text.len() < 400));
    short.take(16).for_each(|request| _ = book.put(request));
}
