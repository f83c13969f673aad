//! Document 02's window (A.3) above the Rust, which has none: a layer is composed as the Rust composes it, then the pixels
//! off its window are put back from the picture beneath, NaN patterns included.

use crate::reference;
use crate::request::{Layer, Picture, Window};

/// Whether a window holds the pixel (x, y) of the tray.
pub fn holds([left, top, width, height]: Window, x: i64, y: i64) -> bool {
    (left..left + width).contains(&x) && (top..top + height).contains(&y)
}

/// The pixels of a picture that are off a window, by their places.
pub fn off(window: Window, width: i64, height: i64) -> impl Iterator<Item = usize> {
    let places = (0..width * height).filter(move |i| !holds(window, i % width, i / width));
    places.map(|i| i as usize)
}

/// The layer on the picture, four channels.
pub fn compose(beneath: &Picture, layer: &Layer) -> Vec<u32> {
    let mut out = reference::compose(beneath, layer);
    let kept = reference::widen(beneath);
    for i in off(layer.window, beneath.width.into(), beneath.height.into()) {
        out[4 * i..][..4].copy_from_slice(&kept[4 * i..][..4]);
    }
    out
}
