//! A job's inputs. The fields are the library's own numbers, signed and unchecked: the library decides what it refuses.

use crate::fault::Fault;
use crate::gravity::Gravity;
use crate::operator::Operator;
use crate::raw::floats;
use crate::window::Window;

/// Numbers a layer in the table.
pub const COLUMNS: usize = 14;

/// Arguments a layer; fewer may count.
pub const ARGUMENTS: usize = 4;

/// The most layers of a job.
pub const LAYERS: usize = 16;

/// The longest side of a destination or a source, and the largest number of a window.
pub const SIDE: u64 = 2048;

/// The largest offset, to either side.
pub const OFFSET: i64 = 1_000_000;

/// Which channels a layer writes, whether its source repeats, and whether it is used off its source.
#[derive(Clone, Copy, Debug, PartialEq, Eq)]
pub struct Flags {
    /// The source repeats in all directions.
    pub tile: bool,
    /// Off the source the operator runs on a transparent black pixel; without it the destination's is kept.
    pub overlay: bool,
    /// Red, green, blue, alpha: those that are written. The others keep the destination's bits.
    pub channels: [bool; 4],
}

/// All channels, no tile, no overlay.
impl Default for Flags {
    fn default() -> Self {
        Flags::ALL_CHANNELS
    }
}

impl Flags {
    /// All channels, no tile, no overlay.
    pub const ALL_CHANNELS: Flags = Flags { tile: false, overlay: false, channels: [true; 4] };

    /// The table's number, 0 to 63.
    pub fn number(self) -> i64 {
        let [red, green, blue, alpha] = self.channels;
        let bits = [self.tile, self.overlay, red, green, blue, alpha];
        bits.iter().enumerate().map(|(i, on)| (*on as i64) << i).sum()
    }
}

/// The flags of a number; [`Fault::Flags`] for one that is not 0 to 63, as the library answers.
impl TryFrom<i64> for Flags {
    type Error = Fault;

    fn try_from(number: i64) -> Result<Self, Fault> {
        let on = |bit: i64| (number >> bit) & 1 == 1;
        match number {
            0..=63 => Ok(Flags { tile: on(0), overlay: on(1), channels: [on(2), on(3), on(4), on(5)] }),
            _ => Err(Fault::Flags),
        }
    }
}

/// A source picture's place in the samples. It has no default: a source is a picture that the host has.
#[derive(Clone, Copy, Debug, PartialEq, Eq)]
pub struct Source {
    /// Its first sample in [`Inputs::samples`].
    pub first: i64,
    /// Pixels in a row.
    pub width: i64,
    /// Rows.
    pub height: i64,
    /// 1 is gray, 3 are red, green and blue, 4 have alpha too.
    pub channels: i64,
}

impl Source {
    /// The place after its last sample, for numbers that the library accepts.
    pub fn end(&self) -> i64 {
        self.first + self.width * self.height * self.channels
    }
}

/// One layer of a job, or of a single composition.
#[derive(Clone, Debug, PartialEq)]
pub struct Layer {
    /// What is computed of source and destination.
    pub operator: Operator,
    /// Where the source lies before the offset.
    pub gravity: Gravity,
    /// Right and down, in pixels.
    pub offset: (i64, i64),
    /// What is written, and where.
    pub flags: Flags,
    /// The source's place in the samples.
    pub source: Source,
    /// Those of [`Operator::arguments`], as many as are given. At most four are kept; the library refuses a layer with more.
    pub arguments: Vec<f32>,
    /// The destination's pixels that may be written; the others keep their bits.
    pub window: Window,
}

impl Layer {
    /// A layer whose source lies at the destination's upper left corner, and which may write everywhere.
    pub fn new(operator: Operator, source: Source) -> Self {
        Layer {
            operator,
            gravity: Gravity::default(),
            offset: (0, 0),
            flags: Flags::default(),
            source,
            arguments: vec![],
            window: Window::default(),
        }
    }

    fn row(&self) -> [i64; COLUMNS] {
        let Source { first, width, height, channels } = self.source;
        let [window_left, window_top, window_width, window_height] = self.window.numbers();
        [
            self.operator.number() as i64,
            self.gravity.number() as i64,
            self.offset.0,
            self.offset.1,
            self.flags.number(),
            first,
            width,
            height,
            channels,
            self.arguments.len() as i64,
            window_left,
            window_top,
            window_width,
            window_height,
        ]
    }

    /// The layer of a row and its arguments, or the library's fault of a number that this type has no value for. The
    /// arguments are taken by their bits.
    pub(crate) fn of_row(row: &[i64], words: &[u32]) -> Result<Self, Fault> {
        let natural = |number: i64, fault: Fault| u64::try_from(number).map_err(|_| fault);
        let count = usize::try_from(row[9]).ok().filter(|count| *count <= ARGUMENTS).ok_or(Fault::Arguments);
        Ok(Layer {
            operator: natural(row[0], Fault::Operator)?.try_into()?,
            gravity: natural(row[1], Fault::Placing)?.try_into()?,
            offset: (row[2], row[3]),
            flags: row[4].try_into()?,
            source: Source { first: row[5], width: row[6], height: row[7], channels: row[8] },
            arguments: floats(words)[..count?].to_vec(),
            window: Window::of_row(row),
        })
    }

    fn words(&self) -> [u32; ARGUMENTS] {
        let mut words = [0; ARGUMENTS];
        for (word, value) in words.iter_mut().zip(&self.arguments) {
            *word = value.to_bits();
        }
        words
    }
}

/// Layers as the library reads them, the lowest first.
#[derive(Clone, Debug, Default, PartialEq)]
pub struct Stack {
    /// Fourteen numbers a layer ([`COLUMNS`]).
    pub table: Vec<i64>,
    /// The bits of four arguments a layer ([`ARGUMENTS`]).
    pub args: Vec<u32>,
}

impl Stack {
    /// The layers' rows and arguments.
    pub fn new(layers: &[Layer]) -> Self {
        Stack {
            table: layers.iter().flat_map(Layer::row).collect(),
            args: layers.iter().flat_map(Layer::words).collect(),
        }
    }

    /// The count of layers.
    pub fn layers(&self) -> i64 {
        (self.table.len() / COLUMNS) as i64
    }

    /// Whether the lists have the numbers and arguments of as many layers, and no more.
    pub(crate) fn is_whole(&self) -> bool {
        let layers = self.table.len() / COLUMNS;
        (self.table.len(), self.args.len()) == (layers * COLUMNS, layers * ARGUMENTS)
    }

    /// A row and its arguments for each layer.
    pub(crate) fn rows(&self) -> impl Iterator<Item = (&[i64], &[u32])> {
        self.table.chunks_exact(COLUMNS).zip(self.args.chunks_exact(ARGUMENTS))
    }
}

/// What a job, or a single composition, is about. It is lent for reading: no call writes it.
#[derive(Clone, Copy, Debug)]
pub struct Inputs<'a> {
    /// The destination's pixels in a row.
    pub width: i64,
    /// The destination's rows.
    pub height: i64,
    /// The destination's channels: 1, 3 or 4.
    pub channels: i64,
    /// The destination's samples, row by row.
    pub dst: &'a [u32],
    /// The count of layers; a single composition has one and does not read it.
    pub layers: i64,
    /// The layers' numbers, as [`Stack::table`].
    pub table: &'a [i64],
    /// The layers' arguments, as [`Stack::args`].
    pub args: &'a [u32],
    /// The sources' samples.
    pub samples: &'a [u32],
}
