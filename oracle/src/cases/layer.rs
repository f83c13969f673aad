//! One layer as the cases write it: its row of the table, its arguments, and a job of single pixels.

use crate::request::{ARGUMENTS, COLUMNS, Job, WHOLE, Window};

/// Overlay on and every channel on.
const PLAIN: i64 = 62;

/// A row of the table.
#[derive(Clone, Copy)]
pub struct Row {
    pub operator: i64,
    pub gravity: i64,
    pub right: i64,
    pub down: i64,
    pub flags: i64,
    pub start: i64,
    pub width: i64,
    pub height: i64,
    pub channels: i64,
    pub count: i64,
    pub window: Window,
}

impl Row {
    pub fn new(operator: i64, (width, height, channels): (i64, i64, i64)) -> Self {
        Row {
            operator,
            gravity: 0,
            right: 0,
            down: 0,
            flags: PLAIN,
            start: 0,
            width,
            height,
            channels,
            count: 0,
            window: WHOLE,
        }
    }

    pub fn numbers(self) -> [i64; COLUMNS] {
        let [left, top, width, height] = self.window;
        [
            self.operator,
            self.gravity,
            self.right,
            self.down,
            self.flags,
            self.start,
            self.width,
            self.height,
            self.channels,
            self.count,
            left,
            top,
            width,
            height,
        ]
    }
}

/// The arguments of one layer, those past the count a value that must not be read.
pub fn arguments(given: &[u32]) -> Vec<u32> {
    let mut four = given.to_vec();
    four.resize(ARGUMENTS, 0x4120_0000);
    four
}

/// A pixel of the source and one of the destination.
type Pair = ([f32; 4], [f32; 4]);

/// Single pixels by one operator: a picture one row high, a pair of pixels a column.
pub fn pairs(operator: i64, pixels: &[Pair], given: &[f32]) -> Job {
    let width = pixels.len() as i64;
    let words = |side: fn(&Pair) -> [f32; 4]| -> Vec<u32> {
        pixels.iter().flat_map(|pair| side(pair).map(f32::to_bits)).collect()
    };
    let given: Vec<u32> = given.iter().map(|v| v.to_bits()).collect();
    let mut row = Row::new(operator, (width, 1, 4));
    row.count = given.len() as i64;
    Job {
        width,
        height: 1,
        channels: 4,
        dst: words(|pair| pair.1),
        layers: 1,
        table: row.numbers().to_vec(),
        args: arguments(&given),
        samples: words(|pair| pair.0),
    }
}
