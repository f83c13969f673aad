//! The sites that are misread one at a time: where a step stands in the formulas, the arguments that have a default, the
//! bounds of the table of faults. Each kind has the list of its sites.

macro_rules! sites {
    ($($(#[$about:meta])* $kind:ident: $($site:ident)+;)+) => {
        $(
            $(#[$about])*
            #[derive(Clone, Copy, PartialEq, Eq, Debug)]
            pub enum $kind { $($site),+ }
            impl $kind {
                pub const ALL: &'static [$kind] = &[$($kind::$site),+];
            }
        )+
    };
}

sites! {
    /// Where a clamp to 0..1, or a coordinate's, stands.
    Clamp: Blend Result Lightness Saturation Coordinate Byte;

    /// Where a `rem_euclid` stands.
    Rem: Wrap Hue Sector;

    /// Where an absolute value stands.
    Abs: Difference Negate ChangeMask Threshold;

    /// The arguments that have a default.
    Default: BlendSource BlendDst DissolveSource DissolveDst Fuzz Threshold Amount Brightness Saturation MapAcross
        MapDown;

    /// The bounds of the table of faults.
    Bound: LayersLow LayersHigh WidthLow WidthHigh HeightLow HeightHigh OperatorLow OperatorHigh GravityLow GravityHigh
        RightLow RightHigh DownLow DownHigh FlagsLow FlagsHigh SourceWidthLow SourceWidthHigh SourceHeightLow
        SourceHeightHigh CountLow CountHigh LeftLow LeftHigh TopLow TopHigh WindowWidthLow WindowWidthHigh WindowHeightLow
        WindowHeightHigh;
}
