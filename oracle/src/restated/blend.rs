//! The mathematical operators: B(s, d), and what becomes of it in each convention.

use super::convention::Convention;
use super::operator::Op;
use super::sites::{Abs, Clamp, Rem};
use super::wrong::{Reading, Wrong};

impl Reading {
    fn convention(self, op: Op) -> Convention {
        if let Some(Wrong::Convention(other, wrong)) = self.wrong
            && other == op
        {
            return wrong;
        }
        Convention::of(op)
    }

    /// The union alpha.
    pub fn union(self, sa: f32, da: f32) -> f32 {
        if self.is(Wrong::UnionAsOver) {
            return sa + da * (1.0 - sa);
        }
        if self.is(Wrong::UnionGrouped) {
            return sa + (da - sa * da);
        }
        (sa + da) - sa * da
    }

    pub fn wrap(self, v: f32) -> f32 {
        let rest = self.rem_euclid(Rem::Wrap, v, 1.0);
        let whole = v >= 1.0 && rest == 0.0 && !self.is(Wrong::WrapWholeToZero);
        if whole || rest == 0.0 && v <= -1.0 && self.is(Wrong::WrapBelowToOne) { 1.0 } else { rest }
    }

    pub fn mathematical(self, op: Op, s: [f32; 4], d: [f32; 4], args: &[f32]) -> [f32; 4] {
        let (sa, da) = (s[3], d[3]);
        let a = self.union(sa, da);
        let mut out = [0.0; 4];
        for c in 0..3 {
            let v = self.channel(op, (s[c], sa), (d[c], da), a, args);
            out[c] = if self.is(Wrong::ResultUnclamped) { v } else { self.clamp(Clamp::Result, v, 1.0) };
        }
        out[3] = match op {
            _ if self.is(Wrong::ModulusUnionAlpha) => a,
            Op::ModulusAdd => self.wrap(sa + da),
            Op::ModulusSubtract => self.wrap(if self.is(Wrong::ModulusSubtractTurned) { da - sa } else { sa - da }),
            _ => a,
        };
        out
    }

    fn channel(self, op: Op, (s, sa): (f32, f32), (d, da): (f32, f32), a: f32, args: &[f32]) -> f32 {
        let terms = if self.is(Wrong::TermsColourFirst) {
            (s * sa) * (1.0 - da) + (d * da) * (1.0 - sa)
        } else if self.is(Wrong::TermsGrouped) {
            sa * ((1.0 - da) * s) + da * ((1.0 - sa) * d)
        } else {
            (sa * (1.0 - da)) * s + (da * (1.0 - sa)) * d
        };
        let covered = |b: f32| if self.is(Wrong::CoveredGrouped) { sa * (da * b) } else { (sa * da) * b };
        match self.convention(op) {
            Convention::Premult => covered(self.blend(op, s, d, args)) + terms,
            Convention::Divided => {
                let b = if self.is(Wrong::DividedClampsBlend) {
                    self.blend(op, s, d, args)
                } else {
                    self.raw(op, s, d, args)
                };
                let v = covered(b) + terms;
                let divides = if self.is(Wrong::DividedNanDivides) { !(a <= 0.0) } else { a > 0.0 };
                match divides {
                    true if self.is(Wrong::DividedNotDivided) => v,
                    true => v / a,
                    false => 0.0,
                }
            }
            Convention::OnPremult => self.blend(op, s * sa, d * da, args) + terms,
            Convention::PremultOnly => {
                let b = self.blend(op, s * sa, d * da, args);
                if op == Op::Exclusion && self.is(Wrong::ExclusionUncovered) { b + terms } else { b }
            }
        }
    }

    fn blend(self, op: Op, s: f32, d: f32, args: &[f32]) -> f32 {
        let raw = self.raw(op, s, d, args);
        if self.is(Wrong::BlendUnclamped) { raw } else { self.clamp(Clamp::Blend, raw, 1.0) }
    }

    /// B(s, d).
    fn raw(self, op: Op, s: f32, d: f32, args: &[f32]) -> f32 {
        let is = |wrong| self.is(wrong);
        let (s2, one) = (2.0 * s, 1.0f32);
        match op {
            Op::Multiply => s * d,
            Op::Screen if is(Wrong::ScreenByProduct) => one - (one - s) * (one - d),
            Op::Screen if is(Wrong::ScreenGrouped) => s + (d - s * d),
            Op::Screen => (s + d) - s * d,
            Op::Overlay if is(Wrong::OverlayAsHardLight) => self.hard_light(s, d),
            Op::Overlay => self.hard_light(d, s),
            Op::Darken if is(Wrong::DarkenTurned) => self.smaller(d, s),
            Op::Darken => self.smaller(s, d),
            Op::Lighten if is(Wrong::LightenTurned) => self.larger(d, s),
            Op::Lighten => self.larger(s, d),
            Op::Difference => self.abs(Abs::Difference, s - d),
            Op::HardLight => self.hard_light(s, d),
            Op::SoftLight => self.soft_light(s, d),
            Op::ColorDodge | Op::SoftDodge => self.color_dodge(s, d),
            Op::ColorBurn | Op::SoftBurn => self.color_burn(s, d),
            Op::MinusDst if is(Wrong::MinusTurned) => d - s,
            Op::MinusSrc if is(Wrong::MinusTurned) => s - d,
            Op::MinusDst => s - d,
            Op::MinusSrc => d - s,
            Op::DivideDst if is(Wrong::DivideTurned) => self.divide(d, s),
            Op::DivideSrc if is(Wrong::DivideTurned) => self.divide(s, d),
            Op::DivideDst => self.divide(s, d),
            Op::DivideSrc => self.divide(d, s),
            Op::Exclusion if is(Wrong::ExclusionGrouped) => (s + d) - 2.0 * (s * d),
            Op::Exclusion => (s + d) - s2 * d,
            Op::LinearBurn => (s + d) - one,
            Op::LinearDodge => s + d,
            Op::LinearLight if is(Wrong::LinearLightGrouped) => d + (s2 - one),
            Op::LinearLight => (d + s2) - one,
            Op::VividLight => self.vivid_light(s, d),
            Op::PinLight => self.pin_light(s, d),
            Op::HardMix => {
                let v = self.vivid_light(s, d);
                let v = self.clamp(Clamp::Blend, v, 1.0);
                let low = if is(Wrong::HardMixHalfLow) { v <= 0.5 } else { v < 0.5 };
                if low { 0.0 } else { 1.0 }
            }
            Op::PegtopLight if is(Wrong::PegtopSquared) => (one - s2) * (d * d) + s2 * d,
            Op::PegtopLight if is(Wrong::PegtopDoubled) => ((one - s2) * d) * d + 2.0 * (s * d),
            Op::PegtopLight => ((one - s2) * d) * d + s2 * d,
            Op::Stamp if is(Wrong::StampByComment) => (d + s2) - one,
            Op::Stamp => (s + d) - one,
            Op::Freeze => {
                let (s, d) = if is(Wrong::FreezeByComment) { (d, s) } else { (s, d) };
                let black = if is(Wrong::FreezeNanBlack) { !(d > 0.0) } else { d <= 0.0 };
                match () {
                    _ if black => 0.0,
                    _ if is(Wrong::FreezeGrouped) => one - (one - s) * ((one - s) / d),
                    _ => one - ((one - s) * (one - s)) / d,
                }
            }
            Op::Reflect => {
                let (s, d) = if is(Wrong::ReflectByComment) { (d, s) } else { (s, d) };
                let white = if is(Wrong::ReflectNanWhite) { !(d < 1.0) } else { d >= 1.0 };
                match () {
                    _ if white => 1.0,
                    _ if is(Wrong::ReflectGrouped) => s * (s / (one - d)),
                    _ => (s * s) / (one - d),
                }
            }
            Op::Negate if is(Wrong::NegateGrouped) => one - self.abs(Abs::Negate, one - (s + d)),
            Op::Negate => one - self.abs(Abs::Negate, (one - s) - d),
            Op::Mathematics => self.mathematics(s, d, args),
            Op::ModulusAdd if is(Wrong::ModulusWrapsColour) => self.wrap(s + d),
            Op::ModulusSubtract if is(Wrong::ModulusWrapsColour) => self.wrap(s - d),
            Op::ModulusAdd | Op::ModulusSubtract => s,
            _ => unreachable!("{op:?} is no mathematical operator"),
        }
    }

    fn hard_light(self, s: f32, d: f32) -> f32 {
        let low = if self.is(Wrong::HardLightHalfLow) { s <= 0.5 } else { s < 0.5 };
        if low {
            return if self.is(Wrong::HardLightDoubled) { 2.0 * (s * d) } else { (2.0 * s) * d };
        }
        let s = 2.0 * s - 1.0;
        if self.is(Wrong::HardLightGrouped) { s + (d - s * d) } else { (s + d) - s * d }
    }

    fn soft_light(self, s: f32, d: f32) -> f32 {
        let low = if self.is(Wrong::SoftLightHalfHigh) { s < 0.5 } else { s <= 0.5 };
        if low {
            return if self.is(Wrong::SoftLightGrouped) {
                d - (1.0 - 2.0 * s) * (d * (1.0 - d))
            } else {
                d - ((1.0 - 2.0 * s) * d) * (1.0 - d)
            };
        }
        let quarter = if self.is(Wrong::SoftLightQuarterHigh) { d < 0.25 } else { d <= 0.25 };
        let curve = if quarter { ((16.0 * d - 12.0) * d + 4.0) * d } else { self.sqrt(d) };
        d + (2.0 * s - 1.0) * (curve - d)
    }

    fn color_dodge(self, s: f32, d: f32) -> f32 {
        let (black, white) = (d <= 0.0, s >= 1.0);
        let capped = |v: f32| if self.is(Wrong::DodgeKeepsNan) && v.is_nan() { v } else { self.smaller(v, 1.0) };
        match () {
            _ if self.is(Wrong::DodgeWhiteFirst) && white => 1.0,
            _ if black => 0.0,
            _ if white => 1.0,
            _ => capped(d / (1.0 - s)),
        }
    }

    fn color_burn(self, s: f32, d: f32) -> f32 {
        let (black, white) = (s <= 0.0, d >= 1.0);
        let capped = |v: f32| if self.is(Wrong::BurnKeepsNan) && v.is_nan() { v } else { self.smaller(v, 1.0) };
        match () {
            _ if self.is(Wrong::BurnWhiteFirst) && white => 1.0,
            _ if black => 0.0,
            _ if white => 1.0,
            _ => 1.0 - capped((1.0 - d) / s),
        }
    }

    fn vivid_light(self, s: f32, d: f32) -> f32 {
        let low = if self.is(Wrong::VividLightHalfLow) { s <= 0.5 } else { s < 0.5 };
        if low { self.color_burn(2.0 * s, d) } else { self.color_dodge(2.0 * s - 1.0, d) }
    }

    fn pin_light(self, s: f32, d: f32) -> f32 {
        let low = if self.is(Wrong::PinLightHalfLow) { s <= 0.5 } else { s < 0.5 };
        let turned = self.is(Wrong::PinLightTurned);
        match low {
            true if turned => self.smaller(2.0 * s, d),
            true => self.smaller(d, 2.0 * s),
            false if turned => self.larger(2.0 * s - 1.0, d),
            false => self.larger(d, 2.0 * s - 1.0),
        }
    }

    fn divide(self, num: f32, den: f32) -> f32 {
        let (zero, none) = match self.is(Wrong::DivideNanBlack) {
            true => (!(num > 0.0), den <= 0.0),
            false => (num <= 0.0, den <= 0.0),
        };
        let none = if self.is(Wrong::DivideOnlyZero) { den == 0.0 } else { none };
        match none {
            true if zero => 0.0,
            true => 1.0,
            false => num / den,
        }
    }

    /// Raw arguments; a missing one is 0 and still takes part.
    fn mathematics(self, s: f32, d: f32, args: &[f32]) -> f32 {
        let a = |i: usize| match args.get(i) {
            Some(v) if self.is(Wrong::MathematicsFiniteOnly) && !v.is_finite() => 0.0,
            Some(v) => *v,
            None => 0.0,
        };
        if self.is(Wrong::MathematicsSkipsMissing) {
            let terms = [a(0) * s * d, a(1) * s, a(2) * d, a(3)];
            let given = &terms[..args.len()];
            return given.iter().copied().reduce(|x, y| x + y).unwrap_or(0.0);
        }
        if self.is(Wrong::MathematicsGrouped) {
            return a(0) * (s * d) + a(1) * s + a(2) * d + a(3);
        }
        (((a(0) * s) * d + a(1) * s) + a(2) * d) + a(3)
    }
}
