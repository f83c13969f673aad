//! One cell of a layer's result: where the source lands, what is written and what is kept, and the two maps. The window is
//! in window.rs.

use super::operator::Op;
use super::pixel::Pixel;
use super::sites::{Clamp, Default};
use super::wrong::{Reading, Wrong};
use crate::request::{NAN, Window};

/// A layer, read from its row of the table.
#[derive(Clone)]
pub struct Row<'a> {
    pub op: Op,
    pub gravity: i64,
    pub right: i64,
    pub down: i64,
    pub flags: i64,
    pub width: i64,
    pub height: i64,
    pub channels: i64,
    pub source: &'a [u32],
    pub args: Vec<f32>,
    pub window: Window,
}

/// The picture beneath: four words a pixel.
#[derive(Clone, Copy)]
pub struct Beneath<'a> {
    pub width: i64,
    pub height: i64,
    pub words: &'a [u32],
}

impl Beneath<'_> {
    pub fn at(&self, x: i64, y: i64) -> [u32; 4] {
        let i = ((y * self.width + x) * 4) as usize;
        self.words[i..i + 4].try_into().unwrap()
    }
}

fn values(words: [u32; 4]) -> Pixel {
    words.map(f32::from_bits)
}

pub fn stored(v: f32) -> u32 {
    if v.is_nan() { NAN } else { v.to_bits() }
}

/// What a pixel of the source is for a cell.
pub enum Spot {
    On(i64, i64),
    Off,
    Kept,
    OffWindow,
}

impl Reading {
    /// Pixel `i` of a picture of one, three or four channels, as four words.
    pub fn widened(self, channels: i64, words: &[u32], i: i64) -> [u32; 4] {
        let at = |c: i64| words[(i * channels + c) as usize];
        let one = if self.is(Wrong::WidenTransparent) { 0 } else { 1f32.to_bits() };
        let out = match channels {
            1 if self.is(Wrong::WidenRedOnly) => [at(0), 0, 0, one],
            1 => [at(0), at(0), at(0), one],
            3 => [at(0), at(1), at(2), one],
            _ => [at(0), at(1), at(2), at(3)],
        };
        if self.is(Wrong::WidenStoresNan) { out.map(|w| stored(f32::from_bits(w))) } else { out }
    }

    /// Half of tray side less source side, cut towards zero.
    fn centre(self, tray: i64, source: i64) -> i64 {
        let room = tray - source;
        match self.wrong {
            Some(Wrong::CentreBySides) => tray / 2 - source / 2,
            Some(Wrong::CentreDown) => room.div_euclid(2),
            Some(Wrong::CentreUp) => -(-room).div_euclid(2),
            Some(Wrong::CentreRounded) => (room as f64 / 2.0).round() as i64,
            _ => room / 2,
        }
    }

    /// The corner of a source on a destination.
    pub fn corner(self, row: &Row, beneath: &Beneath) -> (i64, i64) {
        let [left, top, width, height] = self.ground(row, beneath);
        let along = |part: i64, tray: i64, source: i64| match part {
            0 => 0,
            1 => self.centre(tray, source),
            _ => tray - source,
        };
        let (mut column, mut line) = match row.gravity {
            0 => (0, 0),
            g => ((g - 1) % 3, (g - 1) / 3),
        };
        if self.is(Wrong::GravityTurned) {
            (column, line) = (line, column);
        }
        if row.gravity == 0 && self.is(Wrong::GravityNoneCentre) {
            (column, line) = (1, 1);
        }
        let x = left + along(column, width, row.width);
        let y = top + along(line, height, row.height);
        match self.wrong {
            Some(Wrong::OffsetOnlyWithoutGravity) if row.gravity != 0 => (x, y),
            Some(Wrong::OffsetTurned) => (x + row.down, y + row.right),
            Some(Wrong::OffsetInward) => {
                let sign = |part: i64| if part == 2 { -1 } else { 1 };
                (x + sign(column) * row.right, y + sign(line) * row.down)
            }
            Some(Wrong::TileUnmoved) if row.flags & 1 != 0 => (0, 0),
            _ => (x + row.right, y + row.down),
        }
    }

    /// Where the source lands, whatever the window is.
    fn landing(self, row: &Row, beneath: &Beneath, x: i64, y: i64) -> Spot {
        let (left, top) = self.corner(row, beneath);
        let (mut sx, mut sy) = (x - left, y - top);
        let some = row.width > 0 && row.height > 0;
        let (tile_bit, overlay_bit) = if self.is(Wrong::FlagsExchanged) { (2, 1) } else { (1, 2) };
        let tile = row.flags & tile_bit != 0;
        if tile && some {
            let rest = |n: i64, m: i64| if self.is(Wrong::TileByRemainder) { n % m } else { n.rem_euclid(m) };
            (sx, sy) = (rest(sx, row.width), rest(sy, row.height));
        }
        if tile && !some && self.is(Wrong::TileOfNothingKeeps) {
            return Spot::Kept;
        }
        if tile && !some && self.is(Wrong::TileOfNothingWrites) {
            return Spot::Off;
        }
        let overlay = row.flags & overlay_bit != 0;
        if (0..row.width).contains(&sx) && (0..row.height).contains(&sy) {
            Spot::On(sx, sy)
        } else if overlay != self.is(Wrong::OverlayTurned) {
            Spot::Off
        } else {
            Spot::Kept
        }
    }

    fn spot(self, row: &Row, beneath: &Beneath, x: i64, y: i64) -> Spot {
        let landing = self.landing(row, beneath, x, y);
        match self.in_window(row, beneath, &landing, (x, y)) {
            true => landing,
            false if row.flags & 2 != 0 && self.is(Wrong::WindowOffSource) => Spot::Off,
            false => Spot::OffWindow,
        }
    }

    /// A cell of the layer's result.
    pub fn cell(self, row: &Row, beneath: &Beneath, x: i64, y: i64) -> [u32; 4] {
        let under = beneath.at(x, y);
        let source = match self.spot(row, beneath, x, y) {
            Spot::On(sx, sy) => self.widened(row.channels, row.source, sy * row.width + sx),
            Spot::Off if self.is(Wrong::OffOpaque) => [0, 0, 0, 1f32.to_bits()],
            Spot::Off => [0; 4],
            Spot::Kept if self.is(Wrong::KeptPixelStored) => return values(under).map(stored),
            Spot::Kept => return under,
            Spot::OffWindow => return self.off_window(row, beneath, (x, y)),
        };
        let (s, d) = (values(source), values(under));
        let op = match self.wrong {
            Some(Wrong::Neighbour(other)) if other == row.op => Op::ALL[(other as usize + 1) % 70],
            _ => row.op,
        };
        let mut result = match op {
            _ if self.is(Wrong::PictureUnchanged) => return under,
            _ if self.is(Wrong::PictureAlwaysBlack) => return [0, 0, 0, 1f32.to_bits()],
            _ if op.is_map() => self.map(op, row, beneath, (x, y), s, d),
            _ => self.pixel(op, s, d, &row.args),
        };
        if op == Op::CopyAlpha && row.channels < 4 && self.is(Wrong::CopyAlphaIntensity) {
            result[3] = self.intensity(s);
        }
        let mut out = under;
        for c in 0..4 {
            if self.on(row.flags, c) || self.window_writes(row, beneath) {
                out[c] = self.word(result[c], source[c], under[c]);
            } else if self.is(Wrong::KeptChannelStored) {
                out[c] = stored(d[c]);
            }
        }
        out
    }

    fn on(self, flags: i64, c: usize) -> bool {
        let bit = match self.wrong {
            Some(Wrong::FlagsTurned) => 5 - c,
            Some(Wrong::AlphaAlwaysOn) if c == 3 => return true,
            _ => 2 + c,
        };
        flags >> bit & 1 == 1
    }

    /// The word of a written channel.
    fn word(self, v: f32, source: u32, under: u32) -> u32 {
        if self.is(Wrong::HandedThroughBits) && v.is_nan() && (v.to_bits() == under || v.to_bits() == source) {
            return v.to_bits();
        }
        stored(v)
    }

    fn map(self, op: Op, row: &Row, beneath: &Beneath, (x, y): (i64, i64), s: Pixel, d: Pixel) -> Pixel {
        let across = self.arg(&row.args, 0, Default::MapAcross, 20.0);
        let default = match self.wrong {
            Some(Wrong::MapDownTwenty) => 20.0,
            Some(Wrong::MapDownRaw) => row.args.first().copied().unwrap_or(20.0),
            _ => across,
        };
        let down = self.arg(&row.args, 1, Default::MapDown, default);
        let place = |at: i64, v: f32, by: f32, side: i64| match op {
            Op::Displace if self.is(Wrong::DisplaceExpanded) => at as f32 + (v * by - 0.5 * by),
            Op::Displace if self.is(Wrong::DisplaceUncentred) => at as f32 + v * by,
            Op::Displace => at as f32 + (v - 0.5) * by,
            _ if self.is(Wrong::DistortByComment) => v * side as f32,
            _ => v * by,
        };
        let px = place(x, s[0], across, beneath.width);
        let py = place(y, s[1], down, beneath.height);
        let (px, py) = if self.is(Wrong::MapTurned) { (py, px) } else { (px, py) };
        let mut out = self.bilinear(row, beneath, px, py);
        if self.is(Wrong::MapKeepsAlpha) {
            out[3] = d[3];
        }
        out
    }

    /// A coordinate: the two neighbours and the fraction between them.
    fn axis(self, v: f32, side: i64) -> (i64, i64, f32) {
        let last = side - 1;
        let v = match v.is_nan() {
            true if self.is(Wrong::MapNanLast) => last as f32,
            true => 0.0,
            false => self.clamp(Clamp::Coordinate, v, last as f32),
        };
        let low = v as f64 as i64;
        let high = (low + 1).min(last);
        match self.wrong {
            Some(Wrong::MapNearest) => {
                let near = (v as f64).round() as i64;
                (near, near, 0.0)
            }
            _ => (low, high, v - low as f32),
        }
    }

    fn bilinear(self, row: &Row, beneath: &Beneath, px: f32, py: f32) -> Pixel {
        let (x0, x1, fx) = self.axis(px, beneath.width);
        let (y0, y1, fy) = self.axis(py, beneath.height);
        let at = |x: i64, y: i64| values(self.read(row, beneath, x, y));
        let (p00, p10, p01, p11) = (at(x0, y0), at(x1, y0), at(x0, y1), at(x1, y1));
        let mut out = [0.0; 4];
        for c in 0..4 {
            let weigh = |p: f32, wx: f32, wy: f32| match self.wrong {
                Some(Wrong::MapWeightsFirst) => p * (wx * wy),
                Some(Wrong::MapRowsFirst) => (p * wy) * wx,
                Some(Wrong::MapShortcut) if wx == 0.0 || wy == 0.0 => 0.0,
                _ => (p * wx) * wy,
            };
            let a = weigh(p00[c], 1.0 - fx, 1.0 - fy);
            let b = weigh(p10[c], fx, 1.0 - fy);
            let e = weigh(p01[c], 1.0 - fx, fy);
            let f = weigh(p11[c], fx, fy);
            out[c] = match self.wrong {
                Some(Wrong::MapColumnsFirst) => ((a + e) + b) + f,
                Some(Wrong::MapPairs) => (a + b) + (e + f),
                Some(Wrong::MapFromZero) => (((0.0 + a) + b) + e) + f,
                Some(Wrong::MapLerp) => {
                    let top = p00[c] + (p10[c] - p00[c]) * fx;
                    let bottom = p01[c] + (p11[c] - p01[c]) * fx;
                    top + (bottom - top) * fy
                }
                _ => ((a + b) + e) + f,
            };
        }
        out
    }
}
