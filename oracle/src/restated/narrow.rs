//! Narrowing to gray, or to the first channels.

use super::wrong::{Reading, Wrong};
use crate::request::NAN;

impl Reading {
    /// A picture of four channels as `wanted` of them: 1, 3 or 4.
    pub fn narrowed(self, wanted: i64, input: &[u32]) -> Vec<u32> {
        let mut out = Vec::new();
        for pixel in input.chunks(4) {
            match wanted {
                1 => {
                    let [colour @ .., alpha] = [0, 1, 2, 3].map(|c| f32::from_bits(pixel[c]));
                    let luma = self.luma(colour);
                    let luma = if self.is(Wrong::LumaByAlpha) { luma * alpha } else { luma };
                    let kept = self.is(Wrong::NarrowKeepsNan);
                    out.push(if luma.is_nan() && !kept { NAN } else { luma.to_bits() });
                }
                _ => out.extend_from_slice(&pixel[..wanted as usize]),
            }
        }
        if self.is(Wrong::NarrowStoresNan) {
            out = out.into_iter().map(|w| if f32::from_bits(w).is_nan() { NAN } else { w }).collect();
        }
        out
    }
}
