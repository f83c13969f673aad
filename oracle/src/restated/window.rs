//! Document 02's window (A.3) a second time: a layer writes a pixel that its window holds and that is, besides, on its
//! source or under overlay. It cuts what is written and nothing else: placing, tiling and a map's reads go by the whole tray.

use super::place::{Beneath, Row, Spot, stored};
use super::wrong::{Reading, Wrong};
use crate::request::{COLUMNS, Job, WHOLE, WINDOW, Window};

/// Whether the window holds the pixel, in exact integers.
pub fn holds([left, top, width, height]: Window, x: i64, y: i64) -> bool {
    axis_holds(left, width, x) && axis_holds(top, height, y)
}

/// One axis: `start <= at < start + length`.
fn axis_holds(start: i64, length: i64, at: i64) -> bool {
    let from_start = at as i128 - start as i128;
    from_start >= 0 && from_start < length as i128
}

/// What two windows both hold.
fn both([left, top, width, height]: Window, [l, t, w, h]: Window) -> Window {
    let axis = |a: i64, a_length: i64, b: i64, b_length: i64| {
        let start = a.max(b);
        (start, (a.saturating_add(a_length).min(b.saturating_add(b_length)) - start).max(0))
    };
    let ((left, width), (top, height)) = (axis(left, width, l, w), axis(top, height, t, h));
    [left, top, width, height]
}

impl Reading {
    /// The window of layer `k`.
    pub fn window(self, job: &Job, k: usize) -> Window {
        let of = |k: usize| -> Window { job.table[k * COLUMNS + WINDOW..][..4].try_into().unwrap() };
        let window = match self.wrong {
            Some(Wrong::WindowOfLayerBelow) => of(k.saturating_sub(1)),
            Some(Wrong::WindowOfLayerAbove) => of((k + 1).min(job.layers as usize - 1)),
            Some(Wrong::WindowOfFirstLayer) => of(0),
            Some(Wrong::WindowOnFirstLayerOnly) if k > 0 => WHOLE,
            Some(Wrong::WindowNested) => (0..=k).map(of).fold(WHOLE, both),
            _ => of(k),
        };
        self.edges(window)
    }

    /// The four numbers as they are meant.
    fn edges(self, window: Window) -> Window {
        let [left, top, width, height] = window;
        match self.wrong {
            Some(Wrong::WindowRightInside) => [left, top, width + 1, height],
            Some(Wrong::WindowBottomInside) => [left, top, width, height + 1],
            Some(Wrong::WindowLeftOutside) => [left + 1, top, width - 1, height],
            Some(Wrong::WindowTopOutside) => [left, top + 1, width, height - 1],
            Some(Wrong::WindowSidesTurned) => [left, top, height, width],
            Some(Wrong::WindowCornerTurned) => [top, left, width, height],
            Some(Wrong::WindowEnds) => [left, top, width - left, height - top],
            Some(Wrong::WindowLastPixel) => [left, top, width - left + 1, height - top + 1],
            Some(Wrong::WindowColumnsOnly) => [left, 0, width, 2048],
            Some(Wrong::WindowRowsOnly) => [0, top, 2048, height],
            Some(Wrong::WindowEmptyPaints) if width == 0 || height == 0 => WHOLE,
            Some(Wrong::WindowOfZerosPaints) if window == [0; 4] => WHOLE,
            Some(Wrong::WindowZeroIsOpen) => {
                let open = |n: i64| if n == 0 { 2048 } else { n };
                [left, top, open(width), open(height)]
            }
            _ => window,
        }
    }

    /// Whether the window lets a layer write a pixel that it reaches like this.
    pub fn in_window(self, row: &Row, beneath: &Beneath, landing: &Spot, (x, y): (i64, i64)) -> bool {
        let from_corner = || {
            let (left, top) = self.corner(row, beneath);
            holds(row.window, x - left, y - top)
        };
        let [left, top, width, height] = row.window;
        match (self.wrong, landing) {
            (Some(Wrong::WindowTilePaints), _) if row.flags & 1 != 0 => true,
            (Some(Wrong::WindowOverlayPaints), Spot::Off) => true,
            (Some(Wrong::WindowNotOnMaps), _) if row.op.is_map() => true,
            (Some(Wrong::WindowFromCorner), _) => from_corner(),
            (Some(Wrong::WindowOfSource), Spot::On(sx, sy)) => holds(row.window, *sx, *sy),
            (Some(Wrong::WindowOfSource), _) => from_corner(),
            (Some(Wrong::WindowEither), _) => axis_holds(left, width, x) || axis_holds(top, height, y),
            (Some(Wrong::WindowTurnedRound), _) => !holds(row.window, x, y),
            _ => holds(row.window, x, y),
        }
    }

    /// What a pixel off the window has: the bits beneath.
    pub fn off_window(self, row: &Row, beneath: &Beneath, (x, y): (i64, i64)) -> [u32; 4] {
        let under = beneath.at(x, y);
        match self.wrong {
            Some(Wrong::WindowClears) => [0; 4],
            Some(Wrong::WindowStoresNan) => under.map(|word| stored(f32::from_bits(word))),
            Some(Wrong::WindowOverColours) => {
                let [red, green, blue, _] = under;
                let whole = Row { window: WHOLE, ..row.clone() };
                [red, green, blue, self.cell(&whole, beneath, x, y)[3]]
            }
            _ => under,
        }
    }

    /// Whether a channel is written although its flag is off.
    pub fn window_writes(self, row: &Row, beneath: &Beneath) -> bool {
        let tray = [0, 0, beneath.width, beneath.height];
        self.is(Wrong::WindowWritesChannels) && both(row.window, tray) != tray
    }

    /// What the placing goes by, a corner and two sides: the tray's.
    pub fn ground(self, row: &Row, beneath: &Beneath) -> Window {
        let tray = [0, 0, beneath.width, beneath.height];
        let [left, top, width, height] = both(row.window, tray);
        match self.wrong {
            Some(Wrong::WindowGravity) => [0, 0, width, height],
            Some(Wrong::WindowOrigin) => [left, top, beneath.width, beneath.height],
            Some(Wrong::WindowPlaces) => [left, top, width, height],
            Some(Wrong::WindowTiles) if row.flags & 1 != 0 => [left, top, beneath.width, beneath.height],
            _ => tray,
        }
    }

    /// A pixel of the picture beneath as a map reads it, in the window or off it.
    pub fn read(self, row: &Row, beneath: &Beneath, x: i64, y: i64) -> [u32; 4] {
        let [left, top, width, height] = both(row.window, [0, 0, beneath.width, beneath.height]);
        match self.wrong {
            Some(Wrong::WindowClampsMaps) if width > 0 && height > 0 => {
                beneath.at(x.clamp(left, left + width - 1), y.clamp(top, top + height - 1))
            }
            Some(Wrong::WindowBlanksMaps) if !holds(row.window, x, y) => [0; 4],
            _ => beneath.at(x, y),
        }
    }
}
