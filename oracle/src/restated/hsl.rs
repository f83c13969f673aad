//! The two conversions between red, green, blue and hue, saturation, lightness.

use super::sites::Rem;
use super::wrong::{Reading, Wrong};

#[derive(Clone, Copy)]
pub struct Hsl {
    pub h: f32,
    pub s: f32,
    pub l: f32,
}

impl Reading {
    pub fn rgb_to_hsl(self, [r, g, b]: [f32; 3]) -> Hsl {
        let turned = self.is(Wrong::HslTurned);
        let max = if turned { self.larger(b, self.larger(g, r)) } else { self.larger(self.larger(r, g), b) };
        let min = if turned { self.smaller(b, self.smaller(g, r)) } else { self.smaller(self.smaller(r, g), b) };
        let l = if self.is(Wrong::LightnessHalved) { max * 0.5 + min * 0.5 } else { (max + min) * 0.5 };
        let d = max - min;
        let gray = match self.wrong {
            Some(Wrong::HslGrayNan) => !(d > 1e-6),
            Some(Wrong::HslGrayBelow) => d < 1e-6,
            Some(Wrong::HslGrayZero) => d <= 0.0,
            _ => d <= 1e-6,
        };
        if gray {
            return Hsl { h: 0.0, s: 0.0, l };
        }
        let light = if self.is(Wrong::HslHalfLight) { l >= 0.5 } else { l > 0.5 };
        let s = match light {
            true if self.is(Wrong::HslSaturationGrouped) => d / (2.0 - (max + min)),
            true => d / ((2.0 - max) - min),
            false => d / (max + min),
        };
        let red = max == r || r.is_nan() && self.is(Wrong::HslNanRed);
        let sector = match () {
            _ if red && self.is(Wrong::HueUnwrapped) => (g - b) / d,
            _ if red => self.rem_euclid(Rem::Hue, (g - b) / d, 6.0),
            _ if max == g => (b - r) / d + 2.0,
            _ => (r - g) / d + 4.0,
        };
        Hsl { h: sector / 6.0, s, l }
    }

    pub fn hsl_to_rgb(self, Hsl { h, s, l }: Hsl) -> [f32; 3] {
        let gray = if self.is(Wrong::RgbGrayNan) { !(s > 0.0) } else { s <= 0.0 };
        if gray {
            return [l; 3];
        }
        let dark = if self.is(Wrong::RgbHalfDark) { l <= 0.5 } else { l < 0.5 };
        let q = match dark {
            true if self.is(Wrong::RgbDarkExpanded) => l + l * s,
            true => l * (1.0 + s),
            false if self.is(Wrong::RgbLightGrouped) => l + (s - l * s),
            false => (l + s) - l * s,
        };
        let p = 2.0 * l - q;
        let third = 1.0f32 / 3.0;
        [self.tone(h + third, p, q), self.tone(h, p, q), self.tone(h - third, p, q)]
    }

    fn tone(self, t: f32, p: f32, q: f32) -> f32 {
        let t = self.rem_euclid(Rem::Sector, t, 1.0);
        if t.is_nan() && self.is(Wrong::ToneNanFirst) {
            return p + (q - p) * 6.0 * t;
        }
        if t.is_nan() && self.is(Wrong::ToneNanSecond) {
            return q;
        }
        let half = if self.is(Wrong::ToneHalfUp) { t <= 0.5 } else { t < 0.5 };
        if t < 1.0 / 6.0 {
            if self.is(Wrong::ToneRiseGrouped) { p + (q - p) * (6.0 * t) } else { p + ((q - p) * 6.0) * t }
        } else if half {
            q
        } else if t < 2.0 / 3.0 {
            let rest = 2.0 / 3.0 - t;
            match self.wrong {
                Some(Wrong::ToneFallSixFirst) => p + ((q - p) * 6.0) * rest,
                Some(Wrong::ToneFallGrouped) => p + (q - p) * (rest * 6.0),
                _ => p + ((q - p) * rest) * 6.0,
            }
        } else {
            p
        }
    }
}
