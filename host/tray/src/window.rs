//! Where a layer may write.

use std::fmt;

/// The destination's pixels that a layer may write: those with `left` ≤ x < `left + width` and `top` ≤ y < `top + height`. Any
/// other keeps its bits, whatever tiling, overlay and the operator say. It cuts nothing else: the source is placed and repeated,
/// and Displace and Distort read the destination, as without it. It may reach past the destination; one without width or
/// height keeps everything. The library takes numbers from 0 to 2048 ([`SIDE`](crate::SIDE)).
///
/// ```
/// use tray::{compose, words, words_mut, Flags, Inputs, Layer, Operator, Source, Stack, Window};
///
/// // One white pixel, repeated over a row of four black ones, of which the first and the last are kept.
/// let (white, black) = ([1.0; 4], [0.0; 16]);
/// let pixel = Source { first: 0, width: 1, height: 1, channels: 4 };
/// let layer = Layer {
///     flags: Flags { tile: true, ..Flags::default() },
///     window: Window { left: 1, width: 2, ..Window::FULL },
///     ..Layer::new(Operator::Over, pixel)
/// };
/// let Stack { table, args } = &Stack::new(&[layer]);
/// let (dst, samples) = (words(&black), words(&white));
/// let inputs = Inputs { width: 4, height: 1, channels: 4, dst, layers: 1, table, args, samples };
/// let mut out = [0.5; 16];
/// compose(&inputs, words_mut(&mut out))?;
/// assert_eq!(out, [0.0, 0.0, 0.0, 0.0, 1.0, 1.0, 1.0, 1.0, 1.0, 1.0, 1.0, 1.0, 0.0, 0.0, 0.0, 0.0]);
/// # Ok::<(), Box<dyn std::error::Error>>(())
/// ```
#[derive(Clone, Copy, Debug, PartialEq, Eq)]
pub struct Window {
    /// The first column.
    pub left: i64,
    /// The first row.
    pub top: i64,
    /// Columns.
    pub width: i64,
    /// Rows.
    pub height: i64,
}

/// The full window.
impl Default for Window {
    fn default() -> Self {
        Window::FULL
    }
}

impl Window {
    /// 0, 0, 2048, 2048: all pixels of any destination. It cuts nothing, as if there were no windows, and a card's layers have it.
    pub const FULL: Window = Window { left: 0, top: 0, width: 2048, height: 2048 };

    /// The table's four numbers.
    pub fn numbers(self) -> [i64; 4] {
        [self.left, self.top, self.width, self.height]
    }

    /// The window in a layer's row, which is one of [`COLUMNS`](crate::COLUMNS) numbers of the table.
    pub fn of_row(row: &[i64]) -> Self {
        Window { left: row[10], top: row[11], width: row[12], height: row[13] }
    }
}

/// As the command `tray` has it: `LEFT,TOP,WIDTH,HEIGHT`.
impl fmt::Display for Window {
    fn fmt(&self, f: &mut fmt::Formatter) -> fmt::Result {
        write!(f, "{},{},{},{}", self.left, self.top, self.width, self.height)
    }
}
