//! One pixel by one operator: `pixel` of the Rust, from document 01 and the Rust's formulas.

use super::hsl::Hsl;
use super::operator::Op;
use super::sites::{Abs, Clamp, Default};
use super::steps::{REC_601, WEIGHTS};
use super::wrong::{Reading, Wrong};

pub type Pixel = [f32; 4];

fn colour(p: Pixel) -> [f32; 3] {
    [p[0], p[1], p[2]]
}

fn with_alpha([r, g, b]: [f32; 3], a: f32) -> Pixel {
    [r, g, b, a]
}

/// Each colour channel of a pair of pixels, with an alpha of its own.
fn each(s: Pixel, d: Pixel, a: f32, f: impl Fn(f32, f32) -> f32) -> Pixel {
    [f(s[0], d[0]), f(s[1], d[1]), f(s[2], d[2]), a]
}

impl Reading {
    /// An argument, or its default where it is missing or not finite.
    pub fn arg(self, args: &[f32], i: usize, which: Default, default: f32) -> f32 {
        let default = if self.is(Wrong::Default(which)) { default + 1.0 } else { default };
        match args.get(i) {
            Some(v) if v.is_finite() => *v,
            Some(v) if self.is(Wrong::ArgumentRaw) => *v,
            Some(v) if v.is_infinite() && self.is(Wrong::ArgumentInfinite) => *v,
            _ => default,
        }
    }

    pub fn pixel(self, op: Op, s: Pixel, d: Pixel, args: &[f32]) -> Pixel {
        let (sa, da) = (s[3], d[3]);
        match op {
            _ if op.is_mathematical() => self.mathematical(op, s, d, args),
            Op::Clear if self.is(Wrong::ClearColourOnly) => [0.0, 0.0, 0.0, da],
            Op::Clear => [0.0; 4],
            Op::Src => s,
            Op::Over => self.over(s, d),
            Op::DstOver => self.dst_over(s, d),
            Op::In => self.inside(s, sa, da),
            Op::Out => self.inside(s, sa, 1.0 - da),
            Op::DstIn => self.straight(d, sa * da),
            Op::DstOut if self.is(Wrong::DstOutGrouped) => self.straight(d, da - da * sa),
            Op::DstOut => self.straight(d, da * (1.0 - sa)),
            Op::Atop => self.atop(s, d),
            Op::DstAtop if self.is(Wrong::DstAtopByAtop) => self.atop(d, s),
            Op::DstAtop if self.is(Wrong::DstAtopGrouped) => {
                each(s, d, sa, |s, d| d * (da * sa) + s * (sa * (1.0 - da)))
            }
            Op::DstAtop => each(s, d, sa, |s, d| (d * da) * sa + (s * sa) * (1.0 - da)),
            Op::Xor => self.xor(s, d),
            Op::Plus => self.plus(s, d),
            Op::Blend => self.weighted(s, d, args),
            Op::Dissolve => self.dissolve(s, d, args),
            Op::Rmse => self.rmse(s, d),
            Op::DarkenIntensity => {
                let (i, j) = (self.intensity(s), self.intensity(d));
                let (i, j) = if self.is(Wrong::IntensityUnweighted) { (i, j) } else { (i * sa, j * da) };
                let darker = match self.wrong {
                    Some(Wrong::IntensityNanSource) => !(i >= j),
                    Some(Wrong::IntensityEqualSource) => i <= j,
                    _ => i < j,
                };
                if darker { s } else { d }
            }
            Op::LightenIntensity => {
                let (i, j) = (self.intensity(s), self.intensity(d));
                let (i, j) = if self.is(Wrong::IntensityUnweighted) { (i, j) } else { (i * sa, j * da) };
                let lighter = match self.wrong {
                    Some(Wrong::IntensityNanSource) => !(i <= j),
                    Some(Wrong::IntensityEqualSource) => i >= j,
                    _ => i > j,
                };
                if lighter { s } else { d }
            }
            Op::Hue | Op::Saturate | Op::Luminize | Op::Colorize => self.by_component(op, s, d),
            Op::CopyRed | Op::CopyCyan => [s[0], d[1], d[2], da],
            Op::CopyGreen | Op::CopyMagenta => [d[0], s[1], d[2], da],
            Op::CopyBlue | Op::CopyYellow => [d[0], d[1], s[2], da],
            Op::CopyAlpha => with_alpha(colour(d), sa),
            Op::CopyBlack if self.is(Wrong::CopyBlackUnionAlpha) => {
                with_alpha([self.intensity(s); 3], self.union(sa, da))
            }
            Op::CopyBlack => with_alpha([self.intensity(s); 3], da),
            Op::Intensity if self.is(Wrong::IntensityKeepsAlpha) => with_alpha([self.intensity(s); 3], da),
            Op::Intensity => with_alpha([self.intensity(s); 3], self.union(sa, da)),
            Op::ChangeMask => self.change_mask(s, d, args),
            Op::Bumpmap => {
                let i = self.intensity(s);
                with_alpha(colour(d).map(|c| c * i), da)
            }
            Op::Threshold => self.threshold(s, d, args),
            Op::Modulate => self.modulate(s, d, args),
            _ => d,
        }
    }

    pub fn over(self, s: Pixel, d: Pixel) -> Pixel {
        let (sa, da) = (s[3], d[3]);
        let a = if self.is(Wrong::OverByUnion) { sa + da - sa * da } else { sa + da * (1.0 - sa) };
        let transparent = match self.wrong {
            Some(Wrong::OverNanTransparent) => !(a > 0.0),
            Some(Wrong::OverOnlyZero) => a == 0.0,
            _ => a <= 0.0,
        };
        if transparent {
            return match self.wrong {
                Some(Wrong::OverKeepsAlpha) => with_alpha(colour(d), a),
                Some(Wrong::OverTransparentBlack) => [0.0; 4],
                Some(Wrong::OverTransparentSource) => with_alpha(colour(s), 0.0),
                _ => with_alpha(colour(d), 0.0),
            };
        }
        each(s, d, a, |s, d| match self.wrong {
            Some(Wrong::OverNotDivided) => s * sa + (d * da) * (1.0 - sa),
            Some(Wrong::OverGrouped) => (s * sa + d * (da * (1.0 - sa))) / a,
            Some(Wrong::OverReciprocal) => (s * sa + (d * da) * (1.0 - sa)) * (1.0 / a),
            Some(Wrong::OverFused) => f32::mul_add(s, sa, (d * da) * (1.0 - sa)) / a,
            _ => (s * sa + (d * da) * (1.0 - sa)) / a,
        })
    }

    fn dst_over(self, s: Pixel, d: Pixel) -> Pixel {
        let out = self.over(d, s);
        if out[3] <= 0.0 && !self.is(Wrong::DstOverTransparentSource) { with_alpha(colour(d), 0.0) } else { out }
    }

    /// In and Out: the source by its alpha times what it is let through.
    fn inside(self, s: Pixel, sa: f32, part: f32) -> Pixel {
        let a = sa * part;
        match self.wrong {
            Some(Wrong::InGrouped) => with_alpha(colour(s).map(|c| (c * sa) * part), a),
            Some(Wrong::InStraight) => with_alpha(colour(s), a),
            _ => with_alpha(colour(s).map(|c| c * a), a),
        }
    }

    /// DstIn and DstOut: the destination's straight colour.
    fn straight(self, d: Pixel, a: f32) -> Pixel {
        let clear = match self.wrong {
            Some(Wrong::StraightNanClear) => !(a > 0.0),
            Some(Wrong::StraightOnlyZero) => a == 0.0,
            Some(Wrong::StraightNeverClear) => false,
            _ => a <= 0.0,
        };
        match clear {
            true => [0.0; 4],
            false if self.is(Wrong::StraightMultiplied) => with_alpha(colour(d).map(|c| c * a), a),
            false => with_alpha(colour(d), a),
        }
    }

    fn atop(self, s: Pixel, d: Pixel) -> Pixel {
        let (sa, da) = (s[3], d[3]);
        let a = if self.is(Wrong::AtopSummedAlpha) { sa * da + da * (1.0 - sa) } else { da };
        each(s, d, a, |s, d| match self.wrong {
            Some(Wrong::AtopGrouped) => s * (sa * da) + (d * da) * (1.0 - sa),
            Some(Wrong::AtopStraight) => s * sa + d * (1.0 - sa),
            _ => (s * sa) * da + (d * da) * (1.0 - sa),
        })
    }

    fn xor(self, s: Pixel, d: Pixel) -> Pixel {
        let (sa, da) = (s[3], d[3]);
        let a = sa * (1.0 - da) + da * (1.0 - sa);
        each(s, d, a, |s, d| {
            let v = if self.is(Wrong::XorGrouped) {
                s * (sa * (1.0 - da)) + d * (da * (1.0 - sa))
            } else {
                (s * sa) * (1.0 - da) + (d * da) * (1.0 - sa)
            };
            if self.is(Wrong::XorDivided) && a > 0.0 { v / a } else { v }
        })
    }

    /// `min(1.0)`, by which a NaN becomes 1.
    fn capped(self, keeps_nan: Wrong, v: f32) -> f32 {
        if v.is_nan() && self.is(keeps_nan) { v } else { self.smaller(v, 1.0) }
    }

    fn plus(self, s: Pixel, d: Pixel) -> Pixel {
        let (sa, da) = (s[3], d[3]);
        let a = self.capped(Wrong::PlusAlphaNan, sa + da);
        each(s, d, a, |s, d| {
            let v = self.capped(Wrong::PlusColourNan, s * sa + d * da);
            if self.is(Wrong::PlusNotBelowZero) && v < 0.0 { 0.0 } else { v }
        })
    }

    fn weighted(self, s: Pixel, d: Pixel, args: &[f32]) -> Pixel {
        let (sa, da) = (s[3], d[3]);
        let a = self.arg(args, 0, Default::BlendSource, 50.0) / 100.0;
        let rest = 100.0 - a * 100.0;
        let b = match self.wrong {
            Some(Wrong::BlendRestShort) => self.arg(args, 1, Default::BlendDst, (1.0 - a) * 100.0) / 100.0,
            Some(Wrong::BlendRestPlain) if !args.get(1).is_some_and(|v| v.is_finite()) => 1.0 - a,
            _ => self.arg(args, 1, Default::BlendDst, rest) / 100.0,
        };
        let alpha = self.capped(Wrong::BlendAlphaNan, sa * a + da * b);
        each(s, d, alpha, |s, d| {
            let v = s * a + d * b;
            if self.is(Wrong::BlendColourCapped) { self.smaller(v, 1.0) } else { v }
        })
    }

    fn dissolve(self, s: Pixel, d: Pixel, args: &[f32]) -> Pixel {
        let a = self.arg(args, 0, Default::DissolveSource, 50.0) / 100.0;
        let b = self.arg(args, 1, Default::DissolveDst, 100.0) / 100.0;
        let sa = self.capped(Wrong::DissolveSourceNan, s[3] * a);
        let da = self.capped(Wrong::DissolveDstNan, d[3] * b);
        self.over(with_alpha(colour(s), sa), with_alpha(colour(d), da))
    }

    fn rmse(self, s: Pixel, d: Pixel) -> Pixel {
        let square = |c: usize| (s[c] - d[c]) * (s[c] - d[c]);
        let sum = match self.wrong {
            Some(Wrong::RmseGrouped) => square(0) + (square(1) + square(2)),
            Some(Wrong::RmseFromNegativeZero) => ((-0.0 + square(0)) + square(1)) + square(2),
            _ => (square(0) + square(1)) + square(2),
        };
        let mean = match self.wrong {
            Some(Wrong::RmseByThird) => sum * (1.0 / 3.0),
            Some(Wrong::RmseOfFour) => (sum + square(3)) / 4.0,
            _ => sum / 3.0,
        };
        with_alpha([self.sqrt(mean); 3], self.union(s[3], d[3]))
    }

    pub fn intensity(self, p: Pixel) -> f32 {
        let weights = if self.is(Wrong::IntensityByLuma) { REC_601 } else { WEIGHTS };
        let [r, g, b] = [0, 1, 2].map(|i| weights[i] * p[i]);
        if self.is(Wrong::IntensityGrouped) { r + (g + b) } else { (r + g) + b }
    }

    fn by_component(self, op: Op, s: Pixel, d: Pixel) -> Pixel {
        let (sa, da) = (s[3], d[3]);
        let (from, to) = (self.rgb_to_hsl(colour(s)), self.rgb_to_hsl(colour(d)));
        let mixed = match op {
            Op::Hue => Hsl { h: from.h, ..to },
            Op::Saturate => Hsl { s: from.s, ..to },
            Op::Luminize => Hsl { l: from.l, ..to },
            _ if self.is(Wrong::ColorizeLightness) => from,
            _ => Hsl { l: to.l, ..from },
        };
        let v = with_alpha(self.hsl_to_rgb(mixed), 1.0);
        let a = self.union(sa, da);
        let divides = if self.is(Wrong::ComponentNanDivides) { !(a <= 0.0) } else { a > 0.0 };
        each(v, d, a, |v, d| match divides {
            true if self.is(Wrong::ComponentGrouped) => (v * sa + d * (da * (1.0 - sa))) / a,
            true => (v * sa + (d * da) * (1.0 - sa)) / a,
            false => 0.0,
        })
    }

    fn change_mask(self, s: Pixel, d: Pixel, args: &[f32]) -> Pixel {
        let fuzz = self.arg(args, 0, Default::Fuzz, 0.0);
        let channels = if self.is(Wrong::MaskColoursOnly) { 3 } else { 4 };
        let near = |c: usize| {
            let apart = self.abs(Abs::ChangeMask, s[c] - d[c]);
            match self.wrong {
                Some(Wrong::MaskNanSame) => !(apart > fuzz + 1e-6),
                Some(Wrong::MaskExact) => apart <= fuzz,
                Some(Wrong::MaskBelow) => apart < fuzz + 1e-6,
                _ => apart <= fuzz + 1e-6,
            }
        };
        if (0..channels).all(near) { with_alpha(colour(d), 0.0) } else { d }
    }

    fn threshold(self, s: Pixel, d: Pixel, args: &[f32]) -> Pixel {
        let threshold = self.arg(args, 0, Default::Threshold, 0.05);
        let amount = self.arg(args, 1, Default::Amount, 1.0);
        each(s, d, d[3], |s, d| {
            let delta = s - d;
            let size = self.abs(Abs::Threshold, delta);
            let moves = match self.wrong {
                Some(Wrong::ThresholdNanMoves) => !(size < threshold),
                Some(Wrong::ThresholdAbove) => size > threshold,
                _ => size >= threshold,
            };
            if moves { d + delta * amount } else { d }
        })
    }

    fn modulate(self, s: Pixel, d: Pixel, args: &[f32]) -> Pixel {
        let bright = self.arg(args, 0, Default::Brightness, 100.0) / 100.0;
        let satur = self.arg(args, 1, Default::Saturation, 100.0) / 100.0;
        let i = self.intensity(s) - 0.5;
        let factor =
            |by: f32| if self.is(Wrong::ModulateGrouped) { 1.0 + 2.0 * (i * by) } else { 1.0 + (2.0 * i) * by };
        let to = self.rgb_to_hsl(colour(d));
        let l = self.clamp(Clamp::Lightness, to.l * factor(bright), 1.0);
        let sat = self.clamp(Clamp::Saturation, to.s * factor(satur), 1.0);
        with_alpha(self.hsl_to_rgb(Hsl { h: to.h, s: sat, l }), d[3])
    }
}
