//! The operators in the order of `CompositeOp::ALL`.

macro_rules! operators {
    ($($name:ident)*) => {
        #[derive(Clone, Copy, PartialEq, Eq, Debug)]
        pub enum Op { $($name),* }
        impl Op {
            pub const ALL: &'static [Op] = &[$(Op::$name),*];
        }
        pub const NAMES: &[&str] = &[$(stringify!($name)),*];
    };
}

operators! {
    Over In Out Atop Xor Plus Multiply Screen Overlay Darken
    Lighten Difference HardLight SoftLight ColorDodge ColorBurn Clear Src Dst DstOver
    DstIn DstOut DstAtop MinusDst MinusSrc DivideDst DivideSrc ModulusAdd ModulusSubtract Exclusion
    LinearBurn LinearDodge LinearLight VividLight PinLight HardMix PegtopLight SoftBurn SoftDodge Stamp
    Freeze Reflect Negate Interpolate Mathematics Blend Dissolve Rmse DarkenIntensity LightenIntensity
    Hue Saturate Luminize Colorize CopyRed CopyGreen CopyBlue CopyAlpha CopyCyan CopyMagenta
    CopyYellow CopyBlack ChangeMask Bumpmap Threshold Displace Distort Blur Intensity Modulate
}

impl Op {
    pub fn is_map(self) -> bool {
        matches!(self, Op::Displace | Op::Distort)
    }

    pub fn is_mathematical(self) -> bool {
        let n = self as usize;
        let blends = (Op::Multiply as usize..=Op::ColorBurn as usize).contains(&n);
        blends || (Op::MinusDst as usize..=Op::Mathematics as usize).contains(&n)
    }
}
