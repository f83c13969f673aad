//! A picture in words.

/// `channels` words a pixel (1, 3 or 4), row by row.
#[derive(Clone, Debug, PartialEq)]
pub struct Picture {
    pub width: usize,
    pub height: usize,
    pub channels: usize,
    pub words: Vec<u32>,
}
