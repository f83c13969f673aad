//! Random texts for the reader of cards: half are what a card prints, most others are that with one small change, and the
//! rest is what only looks like a card.

use crate::card::{Card, CardLayer, MOST};
use crate::lines::Request;
use crate::random::{Random, SPECIAL};
use crate::request::{ARGUMENTS, COLUMNS, LAYERS};

/// Numbers at the limits of jobs, of 32 bits and of ten digits.
const NUMBERS: [i64; 20] = [
    0,
    1,
    9,
    10,
    16,
    62,
    63,
    64,
    2048,
    2049,
    1_000_000,
    1_000_001,
    999_999_999,
    1_000_000_000,
    2_147_483_647,
    2_147_483_648,
    4_294_967_295,
    4_294_967_296,
    MOST - 1,
    MOST,
];

/// What may stand in the place of a word of the card.
const WORDS: [&str; 48] = [
    "",
    "0",
    "-0",
    "00",
    "01",
    "-01",
    "+1",
    "--1",
    "-",
    "1.0",
    "1e3",
    "0x1",
    "1_000",
    "9999999999",
    "-9999999999",
    "10000000000",
    "-10000000000",
    "09999999999",
    "99999999999999999999",
    "18446744073709551617",
    "-18446744073709551615",
    "3f000000",
    "3F000000",
    "3f00000",
    "3f0000000",
    "0x3f0000",
    "7fc00001",
    "ffffffff",
    "tray",
    "layer",
    "place",
    "flags",
    "source",
    "args",
    "Args",
    "window",
    "Over",
    "OVER",
    "soft-light",
    "soft_light",
    "src over",
    "overlay",
    "over-",
    "interpolate",
    "blur",
    "undefined",
    "13",
    "\u{fc}ber",
];

/// What may stand in the place of a space, a bracket or a line's end.
const GAPS: [&str; 24] = [
    "", " ", "  ", "\t", "\n", "\n\n", "\r\n", "\r", " \n", "\n ", "(", ")", " (", "( ", ") ", " )", "))", "((", ") (",
    ")\n(", "\0", "\u{a0}", "[", ";",
];

/// Bytes that have a meaning in a card, and their neighbours.
const BYTES: &[u8] = b"\0\x09\x0a\x0b\x0d \"'()*+,-./0123456789:;@AFGOZ[\\]^_`abcdefgoyz{}~\x7f\x80\x8a\xa0\xc2\xff";

const EDITIONS: [&str; 10] = ["0", "2", "01", "1 1", "-1", "+1", "10", "1.0", "", "9999999999"];

/// Lengths of the table and of the arguments, the right ones among them.
const TABLES: [usize; 13] = [0, 1, 13, 14, 64, 160, 210, 223, 224, 224, 225, 238, 320];
const ARGS: [usize; 11] = [0, 1, 4, 60, 63, 64, 64, 65, 68, 80, 128];

fn is_word(byte: u8) -> bool {
    byte.is_ascii_alphanumeric() || b"-_+.".contains(&byte)
}

impl Random {
    /// A place in a list, or just behind it.
    fn place<T>(&mut self, list: &[T]) -> usize {
        self.below(list.len() as u64 + 1) as usize
    }

    fn card_number(&mut self) -> i64 {
        let n = match self.below(5) {
            0 => self.pick(&NUMBERS),
            1 => {
                let least = 10i64.pow(self.below(10) as u32);
                least + self.below(9 * least as u64) as i64
            }
            2 => self.below(3000) as i64,
            _ => self.below(10) as i64,
        };
        if self.one_in(4) { -n } else { n }
    }

    fn card_numbers<const N: usize>(&mut self) -> [i64; N] {
        [0; N].map(|_| self.card_number())
    }

    fn card_argument(&mut self) -> u32 {
        if self.one_in(2) { self.pick(&SPECIAL) } else { self.bits() as u32 }
    }

    pub fn card_layer(&mut self) -> CardLayer {
        CardLayer {
            name: self.known_name().to_string(),
            place: self.card_numbers(),
            flags: self.card_number(),
            source: self.card_numbers(),
            args: (0..self.below(ARGUMENTS as u64 + 1)).map(|_| self.card_argument()).collect(),
        }
    }

    /// A card as a value; now and then with a layer too many.
    pub fn card_value(&mut self) -> Card {
        let layers = match self.below(40) {
            0 => 15,
            1 => 16,
            2 => 17,
            3 => 17 + self.below(3),
            4..8 => self.below(17),
            _ => self.below(4),
        };
        Card { tray: self.card_numbers(), layers: (0..layers).map(|_| self.card_layer()).collect() }
    }

    fn card_byte(&mut self) -> u8 {
        if self.one_in(4) { self.bits() as u8 } else { self.pick(BYTES) }
    }

    /// One byte changed, dropped, doubled, moved or put in.
    fn edit_byte(&mut self, text: &mut Vec<u8>) {
        let byte = self.card_byte();
        let to = self.place(text);
        if text.is_empty() || self.one_in(6) {
            return text.insert(to, byte);
        }
        let at = self.below(text.len() as u64) as usize;
        match self.below(6) {
            0 | 1 => text[at] = byte,
            2 => text[at] ^= 0x20,
            3 => _ = text.remove(at),
            4 => text.insert(at, text[at]),
            _ => {
                let moved = text.remove(at);
                text.insert(to.min(text.len()), moved);
            }
        }
    }

    /// A word spelt otherwise, or another in its place.
    fn other_word(&mut self, word: &[u8]) -> Vec<u8> {
        match self.below(9) {
            0 => [b"0", word].concat(),
            1 => [b"-", word].concat(),
            2 => word.to_ascii_uppercase(),
            3 => word[..word.len() - 1].to_vec(),
            4 => [word, &[self.card_byte()]].concat(),
            5 => self.known_name().into(),
            6 => (0..1 + self.below(12)).map(|_| self.pick(b"0123456789")).collect(),
            7 => format!("{:08x}", self.card_argument()).into(),
            _ => self.pick(&WORDS).into(),
        }
    }

    fn edit_word(&mut self, text: &mut Vec<u8>) {
        let starts = (0..text.len()).filter(|i| is_word(text[*i]) && (*i == 0 || !is_word(text[*i - 1])));
        let starts: Vec<usize> = starts.collect();
        if starts.is_empty() {
            return self.edit_byte(text);
        }
        let start = self.pick(&starts);
        let length = text[start..].iter().take_while(|byte| is_word(**byte)).count();
        let other = self.other_word(&text[start..start + length]);
        text.splice(start..start + length, other);
    }

    /// What stands between two words.
    fn edit_gap(&mut self, text: &mut Vec<u8>) {
        let gaps: Vec<usize> = (0..text.len()).filter(|i| b" ()\n".contains(&text[*i])).collect();
        if gaps.is_empty() {
            return self.edit_byte(text);
        }
        let at = self.pick(&gaps);
        text.splice(at..at + 1, self.pick(&GAPS).bytes());
    }

    /// A form inside a layer's dropped, doubled or moved.
    fn edit_form(&mut self, text: &mut Vec<u8>) {
        let starts: Vec<usize> = (0..text.len()).filter(|i| text[*i..].starts_with(b" (")).collect();
        if starts.is_empty() {
            return self.edit_gap(text);
        }
        let (from, to) = (self.pick(&starts), self.pick(&starts));
        let length = text[from..].split_inclusive(|byte| *byte == b')').next().map_or(0, <[u8]>::len);
        let form = text[from..from + length].to_vec();
        match self.below(3) {
            0 => _ = text.drain(from..from + length),
            1 => _ = text.splice(to..to, form),
            _ => {
                text.drain(from..from + length);
                let to = if to > from { to.max(from + length) - length } else { to };
                text.splice(to..to, form);
            }
        }
    }

    /// Lines exchanged, dropped, doubled, moved or put in.
    fn edit_line(&mut self, text: &mut Vec<u8>) {
        let mut lines: Vec<Vec<u8>> = text.split_inclusive(|byte| *byte == b'\n').map(<[u8]>::to_vec).collect();
        let count = lines.len() as u64;
        let (i, j) = (self.below(count.max(1)) as usize, self.below(count.max(1)) as usize);
        match self.below(7) {
            0 => lines.insert(i, b"\n".to_vec()),
            1 => lines.push(Card { tray: self.card_numbers(), layers: Vec::new() }.print().into()),
            _ if count == 0 => lines.push(b" ".to_vec()),
            2 => _ = lines.remove(i),
            3 => lines.insert(j, lines[i].clone()),
            4 => {
                let moved = lines.remove(i);
                lines.insert(j, moved);
            }
            _ => lines.swap(i, j),
        }
        *text = lines.concat();
    }

    /// Other arguments, out of form in part.
    fn edit_args(&mut self, text: &mut Vec<u8>) {
        let places: Vec<usize> = (0..text.len()).filter(|i| text[*i..].starts_with(b"(args")).collect();
        if places.is_empty() {
            return self.edit_word(text);
        }
        let start = self.pick(&places) + b"(args".len();
        let length = text[start..].iter().take_while(|byte| **byte != b')').count();
        let mut args = String::new();
        for _ in 0..self.below(6) {
            let word = self.card_argument();
            args += &match self.below(12) {
                0 => format!(" {word:08X}"),
                1 => format!(" {:07x}", word >> 4),
                2 => format!(" {word:09x}"),
                3 => format!("  {word:08x}"),
                _ => format!(" {word:08x}"),
            };
        }
        if self.one_in(8) {
            args.push(' ');
        }
        text.splice(start..start + length, args.bytes());
    }

    fn edit_edition(&mut self, text: &mut Vec<u8>) {
        match text.strip_prefix(b"(tray 1 ") {
            Some(rest) => *text = [format!("(tray {} ", self.pick(&EDITIONS)).as_bytes(), rest].concat(),
            None => self.edit_word(text),
        }
    }

    /// The text's end: cut, or with more behind it.
    fn edit_end(&mut self, text: &mut Vec<u8>) {
        match self.below(5) {
            0 | 1 => _ = text.pop(),
            2 => text.truncate(self.place(text)),
            3 => text.push(self.card_byte()),
            _ => text.extend(self.pick(&GAPS).bytes()),
        }
    }

    /// What an editor may do to the whole of a text.
    fn edit_all(&mut self, text: &mut Vec<u8>) {
        let with = |byte: u8, other: &[u8]| text.split(|b| *b == byte).collect::<Vec<_>>().join(other);
        *text = match self.below(5) {
            0 => with(b'\n', b"\r\n"),
            1 => with(b' ', b"\t"),
            2 => text.to_ascii_uppercase(),
            3 => ["\u{feff}".as_bytes(), text].concat(),
            _ => [text, &b"\n"[..]].concat(),
        };
    }

    fn edit_card(&mut self, text: &mut Vec<u8>) {
        match self.below(20) {
            0..5 => self.edit_byte(text),
            5..8 => self.edit_word(text),
            8..10 => self.edit_gap(text),
            10..12 => self.edit_form(text),
            12..14 => self.edit_line(text),
            14..16 => self.edit_args(text),
            16 => self.edit_edition(text),
            17 => self.edit_all(text),
            _ => self.edit_end(text),
        }
    }

    /// Words and gaps of a card, in any order.
    fn card_tokens(&mut self) -> Vec<u8> {
        let mut text = String::new();
        for _ in 0..self.below(30) {
            match self.below(4) {
                0 => text += self.pick(&GAPS),
                1 => text += &format!(" {}", self.card_number()),
                2 => {
                    text +=
                        self.pick(&["(tray 1", "(layer over", " (place", " (flags", " (source", " (args", ")", "))\n"])
                }
                _ => text += self.pick(&WORDS),
            }
        }
        text.into()
    }

    /// A text to be read, and the lengths of the lists that are lent, which are seldom wrong.
    pub fn card(&mut self) -> Request {
        let mut text = match self.below(40) {
            0 => self.card_tokens(),
            1 => (0..self.below(24)).map(|_| self.card_byte()).collect(),
            2 if self.one_in(4) => Vec::new(),
            _ => self.card_value().print().into(),
        };
        let edits = match self.below(20) {
            0..10 => 0,
            10..18 => 1,
            _ => 2 + self.below(3),
        };
        for _ in 0..edits {
            self.edit_card(&mut text);
        }
        let (mut table, mut args) = (LAYERS * COLUMNS, LAYERS * ARGUMENTS);
        if self.one_in(25) {
            (table, args) = (self.pick(&TABLES), self.pick(&ARGS));
        }
        Request::Card { text, table, args }
    }
}
