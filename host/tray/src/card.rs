//! A job as text, which people keep and edit. The library reads it; what is printed here counts only if the library reads
//! the same in it.

use crate::fault::{CardFault, Error, Fault, NoCard, Refusal};
use crate::job::{job, JobNumber};
use crate::layer::{Inputs, Layer, Stack, ARGUMENTS, COLUMNS, LAYERS, SIDE};
use crate::memory::Memory;
use crate::operator::Operator;
use crate::raw::{self, CardAnswers};
use crate::window::Window;
use std::str::FromStr;

/// A card: a job as text, without its samples. One form a line, each line ended by a line feed:
///
/// ```text
/// (tray 1 2 1 3)
/// (layer over (place 0 3 -2) (flags 62) (source 0 2 1 3) (args 3f000000))
/// ```
///
/// The first line has the edition, which is 1, and the destination's width, height and channels. Then each layer has one, the
/// lowest first: its operator, by a name or an alias in small letters; gravity, right and down; flags; its source's start in
/// the samples, width, height and channels; and the bits of its arguments. include/tray.h has the form in full. It has no windows:
/// each layer that is read has the full one, and a job with any other is not printed.
///
/// The numbers are the card's own, whether a job takes them or not: [`Card::check`] asks that, and so does each call.
///
/// ```
/// use tray::{Card, Operator};
///
/// let text = "(tray 1 2 1 3)\n(layer over (place 0 3 -2) (flags 62) (source 0 2 1 3) (args 3f000000))\n";
/// let card = Card::read(text.as_bytes())?;
/// assert_eq!((card.width, card.height, card.channels, card.stack.layers()), (2, 1, 3, 1));
/// assert_eq!(card.to_layers()?[0].operator, Operator::Over);
/// assert_eq!(card.to_text()?, text);
/// card.check()?;
///
/// // What is out of form is refused with its line.
/// let said = Card::read(b"(tray 1 2 1 3)\n(layer Over)\n").unwrap_err().to_string();
/// assert_eq!(said, "refused: 12 CARD at line 2: a line out of form, or a layer too many");
/// # Ok::<(), Box<dyn std::error::Error>>(())
/// ```
#[derive(Clone, Debug, PartialEq)]
pub struct Card {
    /// The destination's pixels in a row.
    pub width: i64,
    /// The destination's rows.
    pub height: i64,
    /// The destination's channels.
    pub channels: i64,
    /// The layers as a job's calls read them; arguments that are not given are 0.
    pub stack: Stack,
}

impl Card {
    /// The card that the library reads in a text.
    pub fn read(text: &[u8]) -> Result<Self, CardFault> {
        let (mut table, mut args) = (vec![0; LAYERS * COLUMNS], vec![0; LAYERS * ARGUMENTS]);
        let mut answers = CardAnswers::default();
        let answer = Fault::check(raw::read_card(text, &mut table, &mut args, &mut answers));
        let CardAnswers { line, width, height, channels, layers } = answers;
        answer.map_err(|_| CardFault { line })?;
        table.truncate(layers as usize * COLUMNS);
        args.truncate(layers as usize * ARGUMENTS);
        Ok(Card { width, height, channels, stack: Stack { table, args } })
    }

    /// Its text, in which the library has read this very card. A card that no text says is refused with the first line that
    /// would be wrong: a number of more than ten digits, an operator without a name, more than four arguments, a layer too
    /// many. So is a layer whose window is not [`Window::FULL`], even where it holds all pixels of this destination, since
    /// another is read back. Arguments that do not count, which no call reads, are left out.
    pub fn to_text(&self) -> Result<String, NoCard> {
        if !self.stack.is_whole() {
            return Err(CardFault { line: 0 }.into());
        }
        let windows = self.stack.rows().map(|(row, _)| Window::of_row(row));
        if let Some((layer, window)) = (0..).zip(windows).find(|(_, window)| *window != Window::FULL) {
            return Err(NoCard::Window { layer, window });
        }
        let mut text = format!("(tray 1 {} {} {})\n", self.width, self.height, self.channels);
        text.extend(self.stack.rows().map(layer_line));
        match self.first_difference(&Card::read(text.as_bytes())?) {
            None => Ok(text),
            Some(line) => Err(CardFault { line }.into()),
        }
    }

    /// The first line that would be another in another card.
    fn first_difference(&self, other: &Card) -> Option<u64> {
        let numbers = |card: &Card| (card.width, card.height, card.channels, card.stack.layers());
        if numbers(self) != numbers(other) {
            return Some(1);
        }
        let mut layers = self.stack.rows().zip(other.stack.rows());
        let other = layers.position(|(ours, theirs)| ours.0 != theirs.0 || counted(ours) != counted(theirs));
        other.map(|layer| layer as u64 + 2)
    }

    /// The layers, if each number is one that [`Layer`] has a value for; [`Card::stack`] has them all. A gravity that is not
    /// 0 to 9 and flags that are not 0 to 63 are refused as the library refuses them.
    pub fn to_layers(&self) -> Result<Vec<Layer>, Refusal> {
        if !self.stack.is_whole() {
            return Err(Refusal { fault: Fault::Stack, layer: 0 });
        }
        let layer = |(k, (row, words))| Layer::of_row(row, words).map_err(|fault| Refusal { fault, layer: k as u64 });
        self.stack.rows().enumerate().map(layer).collect()
    }

    /// The inputs of its job, with the samples of the destination and of the sources.
    pub fn inputs<'a>(&'a self, dst: &'a [u32], samples: &'a [u32]) -> Inputs<'a> {
        let Card { width, height, channels, ref stack } = *self;
        let Stack { table, args } = stack;
        Inputs { width, height, channels, dst, layers: stack.layers(), table, args, samples }
    }

    /// What a job's calls say of its numbers, before there are any samples: the first fault that they would be refused for
    /// whatever the samples. Only whether these hold each source is left open.
    pub fn check(&self) -> Result<(), Error<Refusal>> {
        let mut card = self.clone();
        let mut most = 0;
        for row in card.stack.table.chunks_exact_mut(COLUMNS) {
            // A source that begins at 0 lies in as many samples as it has.
            row[5] = row[5].min(0);
            most = most.max(samples_of(row[6], row[7], row[8]));
        }
        let (dst, samples) = (vec![0; samples_of(self.width, self.height, self.channels)], vec![0; most]);
        let memory = Memory { work0: &mut [], work1: &mut [], mark: &mut [0, 0] };
        match job(&card.inputs(&dst, &samples), JobNumber(0), 0, memory) {
            // What a job's calls write is looked at last.
            Err(Error::Refused(Refusal { fault: Fault::Work, .. })) => Ok(()),
            answer => answer.map(drop),
        }
    }
}

/// As [`Card::read`] reads it.
impl FromStr for Card {
    type Err = CardFault;

    fn from_str(text: &str) -> Result<Self, CardFault> {
        Card::read(text.as_bytes())
    }
}

/// The arguments that count of a row's.
fn counted<'a>((row, words): (&[i64], &'a [u32])) -> &'a [u32] {
    &words[..row[9].clamp(0, ARGUMENTS as i64) as usize]
}

/// A layer's line. An operator that has no name stands as its number, which the library does not read.
fn layer_line((row, words): (&[i64], &[u32])) -> String {
    let operator = u64::try_from(row[0]).ok().and_then(|number| Operator::try_from(number).ok());
    let name = operator.map_or(row[0].to_string(), |operator| operator.name().to_string());
    let [gravity, right, down, flags] = [row[1], row[2], row[3], row[4]];
    let [first, width, height, channels] = [row[5], row[6], row[7], row[8]];
    let args: String = counted((row, words)).iter().map(|word| format!(" {word:08x}")).collect();
    format!(
        "(layer {name} (place {gravity} {right} {down}) (flags {flags}) \
        (source {first} {width} {height} {channels}) (args{args}))\n"
    )
}

/// The samples of a picture whose numbers the library takes; any other is refused before its samples are counted.
fn samples_of(width: i64, height: i64, channels: i64) -> usize {
    let sides = 0..=SIDE as i64;
    match sides.contains(&width) && sides.contains(&height) && [1, 3, 4].contains(&channels) {
        true => (width * height * channels) as usize,
        false => 0,
    }
}
