//! Document 02's card (A.2), a job as text. `Card` is one as a value, with the text that it prints. To read a text, what each
//! line can be the print of is taken from its words, and printed: the line is in form if that is the line. So no rule on
//! digits, spaces, brackets or line ends stands here beside the printer.

use crate::reference;
use crate::request::{ARGUMENTS, COLUMNS, CardAnswer, LAYERS};

/// The largest number of ten digits.
pub const MOST: i64 = 9_999_999_999;

/// The tray's width, height and channels; the layers, the lowest first.
#[derive(Clone, Debug, PartialEq, Default)]
pub struct Card {
    pub tray: [i64; 3],
    pub layers: Vec<CardLayer>,
}

#[derive(Clone, Debug, PartialEq)]
pub struct CardLayer {
    pub name: String,
    /// Gravity and the two offsets, to the right and down.
    pub place: [i64; 3],
    pub flags: i64,
    /// Start, width, height and channels.
    pub source: [i64; 4],
    pub args: Vec<u32>,
}

fn tray_line([width, height, channels]: [i64; 3]) -> String {
    format!("(tray 1 {width} {height} {channels})\n")
}

fn layer_line(layer: &CardLayer) -> String {
    let CardLayer { name, place: [gravity, right, down], flags, source, args } = layer;
    let [start, width, height, channels] = source;
    let args: String = args.iter().map(|word| format!(" {word:08x}")).collect();
    format!(
        "(layer {name} (place {gravity} {right} {down}) (flags {flags}) \
        (source {start} {width} {height} {channels}) (args{args}))\n"
    )
}

impl Card {
    /// The text. Whether it is in form depends on the value: its names, its numbers and how many layers and arguments it has.
    pub fn print(&self) -> String {
        tray_line(self.tray) + &self.layers.iter().map(layer_line).collect::<String>()
    }
}

/// The words of a line, without the brackets, spaces and line ends between them.
fn words(line: &[u8]) -> Option<Vec<&str>> {
    let line = std::str::from_utf8(line).ok()?;
    Some(line.split(['(', ')', ' ', '\n']).filter(|word| !word.is_empty()).collect())
}

/// A number of at most ten digits, in any spelling that Rust takes.
fn number(word: &str) -> Option<i64> {
    word.parse().ok().filter(|n| (-MOST..=MOST).contains(n))
}

fn numbers<const N: usize>(words: [&str; N]) -> Option<[i64; N]> {
    words.into_iter().map(number).collect::<Option<Vec<i64>>>()?.try_into().ok()
}

fn tray_of(line: &[u8]) -> Option<[i64; 3]> {
    let words = words(line)?;
    let ["tray", "1", width, height, channels] = words[..] else { return None };
    numbers([width, height, channels]).filter(|tray| tray_line(*tray).as_bytes() == line)
}

fn layer_of(line: &[u8]) -> Option<CardLayer> {
    let words = words(line)?;
    let ["layer", name, "place", g, r, d, "flags", flags, "source", s, w, h, c, "args", ref args @ ..] = words[..]
    else {
        return None;
    };
    let layer = CardLayer {
        name: name.to_string(),
        place: numbers([g, r, d])?,
        flags: number(flags)?,
        source: numbers([s, w, h, c])?,
        args: args.iter().map(|word| u32::from_str_radix(word, 16).ok()).collect::<Option<Vec<u32>>>()?,
    };
    let known = reference::names().any(|known| known == name);
    (known && args.len() <= ARGUMENTS && layer_line(&layer).as_bytes() == line).then_some(layer)
}

/// The card that prints a text. Where none does: the first line, counted from 1, that is out of form or has a layer too many.
pub fn read(text: &[u8]) -> Result<Card, u64> {
    let mut lines = text.split_inclusive(|byte| *byte == b'\n');
    let tray = lines.next().and_then(tray_of).ok_or(1u64)?;
    let mut layers = Vec::new();
    for (line, number) in lines.zip(2u64..) {
        let layer = layer_of(line).filter(|_| layers.len() < LAYERS);
        layers.push(layer.ok_or(number)?);
    }
    Ok(Card { tray, layers })
}

impl CardLayer {
    /// The numbers of the layer's row. Edition 1 has no windows: the row's holds every tray (A.3).
    fn row(&self) -> [i64; COLUMNS] {
        let operator = reference::from_name(self.name.as_bytes()).expect("a name that the card's reader takes") as i64;
        let [gravity, right, down] = self.place;
        let [start, width, height, channels] = self.source;
        let count = self.args.len() as i64;
        [operator, gravity, right, down, self.flags, start, width, height, channels, count, 0, 0, 2048, 2048]
    }
}

/// Reads a text into the lists: both are as they were if it is refused.
pub fn read_card(text: &[u8], table: &mut [i64], args: &mut [u32]) -> CardAnswer {
    if table.len() != LAYERS * COLUMNS || args.len() != LAYERS * ARGUMENTS {
        return CardAnswer::refused(0);
    }
    let card = match read(text) {
        Ok(card) => card,
        Err(line) => return CardAnswer::refused(line),
    };
    table.fill(0);
    args.fill(0);
    for (k, layer) in card.layers.iter().enumerate() {
        table[k * COLUMNS..][..COLUMNS].copy_from_slice(&layer.row());
        args[k * ARGUMENTS..][..layer.args.len()].copy_from_slice(&layer.args);
    }
    let [width, height, channels] = card.tray;
    CardAnswer { number: 0, line: 0, width, height, channels, layers: card.layers.len() as i64 }
}
