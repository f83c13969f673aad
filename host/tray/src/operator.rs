//! The operators: one table of their numbers, names, aliases, arguments and meanings, for code and for people. What a name
//! or an argument does is decided by the library; tests/operators.rs compares every row with it.

use crate::fault::Fault;
use crate::raw;
use std::fmt;
use std::str::FromStr;
use ArgumentDefault::{First, Rest, Value};

/// What counts for an argument that is not given.
#[derive(Clone, Copy, Debug, PartialEq)]
pub enum ArgumentDefault {
    /// This value.
    Value(f32),
    /// The same as the first argument.
    First,
    /// 100 less the first argument.
    Rest,
}

impl ArgumentDefault {
    /// The default, if `first` counts for the first argument; with the library's roundings.
    pub fn value(self, first: f32) -> f32 {
        match self {
            Value(value) => value,
            First => first,
            Rest => 100.0 - first / 100.0 * 100.0,
        }
    }
}

/// In words: `50`, `the first argument`, `100 less the first argument`.
impl fmt::Display for ArgumentDefault {
    fn fmt(&self, f: &mut fmt::Formatter) -> fmt::Result {
        match self {
            Value(value) => value.fmt(f),
            First => f.write_str("the first argument"),
            Rest => f.write_str("100 less the first argument"),
        }
    }
}

/// One argument of an operator.
#[derive(Clone, Copy, Debug, PartialEq)]
pub struct Argument {
    /// A word for it; meanings have it in capitals.
    pub name: &'static str,
    /// What it is, with its unit.
    pub meaning: &'static str,
    /// What counts where it is not given.
    pub default: ArgumentDefault,
}

/// What is known of an operator besides its number.
struct Row {
    name: &'static str,
    aliases: &'static [&'static str],
    arguments: &'static [Argument],
    meaning: &'static str,
}

/// The enum, the list of all and the table from one list of rows: number, variant, name, aliases, arguments, meaning.
macro_rules! operators {
    ($($number:literal $variant:ident $name:literal [$($alias:literal),*]
        [$(($argument:literal, $unit:literal, $default:expr)),*] $meaning:literal;)*) => {
        /// An operator; the discriminants are the library's numbers. In the meanings S and D are a colour of the source and
        /// of the destination; how alpha counts is each operator's own (include/tray.h, docs/DIFFERENCES.md).
        ///
        /// There is no default operator, as the Rust has none: a layer names its own.
        #[derive(Clone, Copy, Debug, PartialEq, Eq, PartialOrd, Ord, Hash)]
        pub enum Operator {
            $(#[doc = concat!("`", $name, "`: ", $meaning, ".")] $variant = $number,)*
        }

        impl Operator {
            /// All operators, each at its number.
            pub const ALL: [Operator; 70] = [$(Operator::$variant),*];
        }

        static ROWS: [Row; Operator::ALL.len()] = [$(Row {
            name: $name,
            aliases: &[$($alias),*],
            arguments: &[$(Argument { name: $argument, meaning: $unit, default: $default }),*],
            meaning: $meaning,
        }),*];
    };
}

operators! {
    0 Over "over" ["srcover"] [] "the source over the destination";
    1 In "in" ["srcin"] [] "the source where the destination is";
    2 Out "out" ["srcout"] [] "the source where the destination is not";
    3 Atop "atop" ["srcatop"] [] "the source where the destination is, over the destination";
    4 Xor "xor" [] [] "each of the two where the other is not";
    5 Plus "plus" [] [] "the sum of both, at most 1";
    6 Multiply "multiply" [] [] "S x D";
    7 Screen "screen" [] [] "S + D - S x D";
    8 Overlay "overlay" [] [] "hardlight with S and D exchanged";
    9 Darken "darken" [] [] "the smaller of S and D, each times its alpha";
    10 Lighten "lighten" [] [] "the larger of S and D";
    11 Difference "difference" [] [] "|S - D|";
    12 HardLight "hardlight" [] [] "2 x S x D where S is below a half, else screen by 2 x S - 1";
    13 SoftLight "softlight" [] [] "W3C's soft light";
    14 ColorDodge "colordodge" [] [] "D / (1 - S), at most 1";
    15 ColorBurn "colorburn" [] [] "1 - (1 - D) / S, at least 0";
    16 Clear "clear" [] [] "transparent black";
    17 Src "src" ["copy", "replace"] [] "the source";
    18 Dst "dst" ["none"] [] "the destination";
    19 DstOver "dstover" [] [] "the destination over the source";
    20 DstIn "dstin" [] [] "the destination where the source is";
    21 DstOut "dstout" [] [] "the destination where the source is not";
    22 DstAtop "dstatop" [] [] "the destination where the source is, over the source";
    23 MinusDst "minusdst" ["minus"] [] "S - D";
    24 MinusSrc "minussrc" [] [] "D - S";
    25 DivideDst "dividedst" ["divide"] [] "S / D";
    26 DivideSrc "dividesrc" [] [] "D / S";
    27 ModulusAdd "modulusadd" ["add"] [] "the source's colour times its alpha; the sum of the alphas wrapped at 1";
    28 ModulusSubtract "modulussubtract" ["subtract"] []
        "the source's colour times its alpha; the difference of the alphas wrapped at 1";
    29 Exclusion "exclusion" [] [] "S + D - 2 x S x D";
    30 LinearBurn "linearburn" [] [] "S + D - 1";
    31 LinearDodge "lineardodge" [] [] "S + D";
    32 LinearLight "linearlight" [] [] "D + 2 x S - 1";
    33 VividLight "vividlight" [] [] "colorburn by 2 x S where S is below a half, else colordodge by 2 x S - 1";
    34 PinLight "pinlight" [] [] "the smaller of D and 2 x S where S is below a half, else the larger of D and 2 x S - 1";
    35 HardMix "hardmix" [] [] "0 where vividlight is below a half, else 1";
    36 PegtopLight "pegtoplight" [] [] "(1 - 2 x S) x D x D + 2 x S x D";
    37 SoftBurn "softburn" [] [] "as colorburn";
    38 SoftDodge "softdodge" [] [] "as colordodge";
    39 Stamp "stamp" [] [] "S + D - 1";
    40 Freeze "freeze" [] [] "1 - (1 - S) x (1 - S) / D";
    41 Reflect "reflect" [] [] "S x S / (1 - D)";
    42 Negate "negate" [] [] "1 - |1 - S - D|";
    43 Interpolate "interpolate" [] [] "a cosine curve of both";
    44 Mathematics "mathematics" [] [
        ("product", "factor of S x D", Value(0.0)),
        ("source", "factor of S", Value(0.0)),
        ("destination", "factor of D", Value(0.0)),
        ("constant", "what is added", Value(0.0))
    ] "PRODUCT x S x D + SOURCE x S + DESTINATION x D + CONSTANT";
    45 Blend "blend" ["average"] [
        ("source", "percent of the source", Value(50.0)),
        ("destination", "percent of the destination", Rest)
    ] "the weighted sum of both";
    46 Dissolve "dissolve" [] [
        ("source", "percent of the source's alpha", Value(50.0)),
        ("destination", "percent of the destination's alpha", Value(100.0))
    ] "over, with both alphas scaled before";
    47 Rmse "rmse" [] [] "the root of the mean square of the three differences, in each colour";
    48 DarkenIntensity "darkenintensity" [] [] "the pixel with the smaller intensity times alpha";
    49 LightenIntensity "lightenintensity" [] [] "the pixel with the larger intensity times alpha";
    50 Hue "hue" [] [] "the source's hue, the destination's saturation and lightness";
    51 Saturate "saturate" [] [] "the source's saturation, the destination's hue and lightness";
    52 Luminize "luminize" [] [] "the source's lightness, the destination's hue and saturation";
    53 Colorize "colorize" [] [] "the source's hue and saturation, the destination's lightness";
    54 CopyRed "copyred" [] [] "the source's red, the rest as it was";
    55 CopyGreen "copygreen" [] [] "the source's green, the rest as it was";
    56 CopyBlue "copyblue" [] [] "the source's blue, the rest as it was";
    57 CopyAlpha "copyalpha" ["copyopacity"] [] "the source's alpha, the rest as it was";
    58 CopyCyan "copycyan" [] [] "as copyred";
    59 CopyMagenta "copymagenta" [] [] "as copygreen";
    60 CopyYellow "copyyellow" [] [] "as copyblue";
    61 CopyBlack "copyblack" [] [] "the source's intensity in each colour, alpha as it was";
    62 ChangeMask "changemask" [] [
        ("fuzz", "how far apart two samples may lie and count as equal", Value(0.0))
    ] "the destination, transparent where its four samples equal the source's";
    63 Bumpmap "bumpmap" [] [] "the destination's colours times the source's intensity";
    64 Threshold "threshold" [] [
        ("threshold", "least difference that moves a colour", Value(0.05)),
        ("amount", "part of the difference by which it moves", Value(1.0))
    ] "the destination, its colours moved to the source's where they differ enough";
    65 Displace "displace" [] [
        ("x", "the place read lies (red - 1/2) x X to the right", Value(20.0)),
        ("y", "and (green - 1/2) x Y down", First)
    ] "the destination, read beside each pixel as the source's red and green say";
    66 Distort "distort" [] [
        ("x", "the column read is red x X", Value(20.0)),
        ("y", "the row read is green x Y", First)
    ] "the destination, read where the source's red and green say";
    67 Blur "blur" [] [] "the destination blurred as the source says";
    68 Intensity "intensity" [] [] "the source's intensity in each colour";
    69 Modulate "modulate" [] [
        ("brightness", "percent of the effect on lightness", Value(100.0)),
        ("saturation", "percent of the effect on saturation", Value(100.0))
    ] "the destination, its lightness and saturation scaled by the source's intensity";
}

impl Operator {
    fn row(self) -> &'static Row {
        &ROWS[self as usize]
    }

    /// The library's number, 0 to 69.
    pub fn number(self) -> u64 {
        self as u64
    }

    /// The library's own name: small letters, nothing between its words.
    pub fn name(self) -> &'static str {
        self.row().name
    }

    /// Other names that the library reads as this operator.
    pub fn aliases(self) -> &'static [&'static str] {
        self.row().aliases
    }

    /// What it does, in a few words.
    pub fn meaning(self) -> &'static str {
        self.row().meaning
    }

    /// The arguments that it reads, in their order; of a layer's further ones it reads none. An argument that is missing or
    /// not finite counts as its default; Mathematics takes one that is not finite as it is.
    pub fn arguments(self) -> &'static [Argument] {
        self.row().arguments
    }

    /// Whether the library composes with it. Interpolate and Blur are names that it knows and layers that it refuses, as
    /// [`Fault::Curve`].
    pub fn carried(self) -> bool {
        !matches!(self, Operator::Interpolate | Operator::Blur)
    }
}

/// The operator that `name` spells, as the library reads it: `-`, `_`, space and the difference of capitals do not count.
/// A name is bytes, in any encoding; [`str::parse`] does the same for text.
pub fn from_name(name: &[u8]) -> Result<Operator, Fault> {
    let mut number = 0;
    Fault::check(raw::from_name(name, &mut number))?;
    Operator::try_from(number)
}

/// As [`from_name`] reads it.
impl FromStr for Operator {
    type Err = Fault;

    fn from_str(name: &str) -> Result<Self, Fault> {
        from_name(name.as_bytes())
    }
}

/// The operator of a number; [`Fault::Operator`] for one above 69, as the library answers.
impl TryFrom<u64> for Operator {
    type Error = Fault;

    fn try_from(number: u64) -> Result<Self, Fault> {
        let known = usize::try_from(number).ok().and_then(|n| Operator::ALL.get(n));
        known.copied().ok_or(Fault::Operator)
    }
}

/// Its name.
impl fmt::Display for Operator {
    fn fmt(&self, f: &mut fmt::Formatter) -> fmt::Result {
        f.pad(self.name())
    }
}
