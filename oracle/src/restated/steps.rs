//! Document 01's float steps, from its words alone: smaller, larger, clamp, `rem_euclid`, the square root by
//! whole-number squares, the absolute value on bits, floor and the byte step on the exact value. And the gray, from
//! document 02's.

use super::sites::{Abs, Clamp, Rem};
use super::wrong::{Reading, Wrong};

/// Red, green and blue in a pixel's intensity and, by document 02, in its gray.
pub const WEIGHTS: [f32; 3] = [0.212_656, 0.715_158, 0.072_186];
/// What deep.rs weighs the gray with.
pub const REC_601: [f32; 3] = [0.299, 0.587, 0.114];

impl Reading {
    pub fn smaller(self, a: f32, b: f32) -> f32 {
        if a.is_nan() {
            return if self.is(Wrong::SmallerFirstNan) { a } else { b };
        }
        if b.is_nan() {
            return if self.is(Wrong::SmallerSecondNan) { b } else { a };
        }
        if b < a || b == a && self.is(Wrong::SmallerEqualSecond) { b } else { a }
    }

    pub fn larger(self, a: f32, b: f32) -> f32 {
        if a.is_nan() {
            return if self.is(Wrong::LargerFirstNan) { a } else { b };
        }
        if b.is_nan() {
            return if self.is(Wrong::LargerSecondNan) { b } else { a };
        }
        if b > a || b == a && self.is(Wrong::LargerEqualSecond) { b } else { a }
    }

    pub fn clamp(self, place: Clamp, v: f32, most: f32) -> f32 {
        if v.is_nan() {
            return if self.is(Wrong::ClampNan(place)) { 0.0 } else { v };
        }
        if v < 0.0 || v == 0.0 && self.is(Wrong::ClampZero(place)) {
            0.0
        } else if v > most {
            most
        } else {
            v
        }
    }

    pub fn rem_euclid(self, place: Rem, v: f32, m: f32) -> f32 {
        if v.is_infinite() && self.is(Wrong::RemInfinity(place)) {
            return 0.0;
        }
        if self.is(Wrong::RemByFloor(place)) {
            return v - m * (v / m).floor();
        }
        let rest = v % m;
        if rest == 0.0 && self.is(Wrong::RemZero(place)) {
            return 0.0;
        }
        let sum = if rest < 0.0 { rest + m } else { rest };
        if sum == m && self.is(Wrong::RemBelow(place)) { 0.0 } else { sum }
    }

    /// The nearest f32: the whole part of a root of at least 25 bits, rounded by what is left.
    pub fn sqrt(self, v: f32) -> f32 {
        if v.is_nan() || v < 0.0 {
            return f32::NAN;
        }
        if v == 0.0 || v.is_infinite() {
            return v;
        }
        let bits = v.to_bits();
        let (mut mantissa, mut exponent) = match bits >> 23 {
            0 => (bits as u128, -149),
            e => ((bits & 0x7f_ffff | 0x80_0000) as u128, e as i32 - 150),
        };
        if bits >> 23 == 0 && self.is(Wrong::RootOfSubnormal) {
            return 0.0;
        }
        // Even exponent, and enough digits for a root of 32 bits or more.
        let shift = 64 + exponent.rem_euclid(2);
        mantissa <<= shift;
        exponent -= shift;
        let root = mantissa.isqrt();
        let exact = root * root == mantissa;
        // The value is root x 2^(exponent / 2), a little more where it is not exact: f64 holds `kept` of it.
        let extra = 128 - root.leading_zeros() - 24;
        let (mut kept, rest) = (root >> extra, root & ((1 << extra) - 1));
        let half = 1u128 << (extra - 1);
        let up = rest > half || rest == half && (!exact || kept % 2 == 1);
        if up && !self.is(Wrong::RootCut) {
            kept += 1;
        }
        (kept as f64 * 2f64.powi(exponent / 2 + extra as i32)) as f32
    }

    pub fn abs(self, place: Abs, v: f32) -> f32 {
        if self.is(Wrong::AbsByTest(place)) {
            return if v < 0.0 { -v } else { v };
        }
        f32::from_bits(v.to_bits() & 0x7fff_ffff)
    }

    /// `luma` of a colour, as document 02 has it.
    pub fn luma(self, c: [f32; 3]) -> f32 {
        let mut weights = WEIGHTS;
        match self.wrong {
            Some(Wrong::LumaWeights) => weights = REC_601,
            Some(Wrong::LumaRed) => weights[0] = REC_601[0],
            Some(Wrong::LumaGreen) => weights[1] = REC_601[1],
            Some(Wrong::LumaBlue) => weights[2] = REC_601[2],
            Some(Wrong::LumaFourDigits) => weights = [0.2126, 0.7152, 0.0722],
            _ => {}
        }
        let [r, g, b] = [0, 1, 2].map(|i| weights[i] * c[i]);
        match self.wrong {
            Some(Wrong::LumaOfGray) if c[0] == c[1] && c[1] == c[2] => c[0],
            Some(Wrong::LumaGrouped) => r + (g + b),
            Some(Wrong::LumaBlueFirst) => r + b + g,
            Some(Wrong::LumaFused) => weights[2].mul_add(c[2], weights[1].mul_add(c[1], r)),
            Some(Wrong::LumaInDouble) => (0..3).map(|i| weights[i] as f64 * c[i] as f64).sum::<f64>() as f32,
            _ => r + g + b,
        }
    }

    /// `narrow_u8` of a sample.
    pub fn byte(self, v: f32) -> u8 {
        if v.is_nan() {
            return if self.is(Wrong::ByteOfNan) { 255 } else { 0 };
        }
        let v = self.clamp(Clamp::Byte, v, 1.0) * 255.0;
        let exact = v as f64;
        let whole = exact.floor();
        let up = match exact - whole {
            _ if self.is(Wrong::ByteCut) => false,
            _ if self.is(Wrong::ByteByHalfAdded) => return (v + 0.5) as u8,
            half if half == 0.5 && self.is(Wrong::ByteHalfEven) => whole % 2.0 == 1.0,
            half if half == 0.5 && self.is(Wrong::ByteHalfDown) => false,
            rest => rest >= 0.5,
        };
        whole as u8 + up as u8
    }
}
