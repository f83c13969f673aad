//! The misreadings: every place where documents 01 and 02 or the Rust can be read wrongly, one switch each, with what
//! the wrong reader takes it for. `equivalent` names those that change no answer, with the reason.

use super::convention::Convention;
use super::operator::Op;
use super::sites::{Abs, Bound, Clamp, Default, Rem};

/// How the documents are read: as they say, or with one misreading.
#[derive(Clone, Copy, Debug)]
pub struct Reading {
    pub wrong: Option<Wrong>,
}

impl Reading {
    pub const RIGHT: Reading = Reading { wrong: None };

    pub fn is(self, wrong: Wrong) -> bool {
        self.wrong == Some(wrong)
    }
}

macro_rules! misreadings {
    ($($group:literal: $($name:ident $text:literal)+;)+) => {
        #[derive(Clone, Copy, PartialEq, Eq, Debug)]
        pub enum Wrong {
            $($($name,)+)+
            ClampNan(Clamp),
            ClampZero(Clamp),
            RemZero(Rem),
            RemInfinity(Rem),
            RemBelow(Rem),
            RemByFloor(Rem),
            AbsByTest(Abs),
            Default(Default),
            Convention(Op, Convention),
            Neighbour(Op),
            AliasUnknown(usize),
            NameSeam(usize),
            Strict(Bound),
            Loose(Bound),
            RowOrder(usize),
            CardShape(usize),
            CardColumns(usize),
        }
        const SINGLE: &[(Wrong, &str, &str)] = &[$($((Wrong::$name, $group, $text),)+)+];
    };
}

misreadings! {
    "smaller and larger":
    SmallerFirstNan "smaller: a NaN in the first place is kept"
    SmallerSecondNan "smaller: a NaN in the second place is taken"
    SmallerEqualSecond "smaller: equal values give the second"
    LargerFirstNan "larger: a NaN in the first place is kept"
    LargerSecondNan "larger: a NaN in the second place is taken"
    LargerEqualSecond "larger: equal values give the second"
    PinLightTurned "PinLight: min and max with their operands exchanged"
    DarkenTurned "Darken: min(d, s)"
    LightenTurned "Lighten: max(d, s)"
    HslTurned "rgb_to_hsl: max and min from blue to red"
    PlusColourNan "Plus: a NaN colour stays NaN"
    PlusAlphaNan "Plus: a NaN alpha stays NaN"
    PlusNotBelowZero "Plus: clamped below as well"
    BlendAlphaNan "Blend: a NaN alpha stays NaN"
    BlendColourCapped "Blend: colours capped at 1 like the alpha"
    DissolveSourceNan "Dissolve: the source's NaN alpha stays NaN"
    DissolveDstNan "Dissolve: the destination's NaN alpha stays NaN";

    "roots, luma and bytes":
    RootCut "square root: cut, not rounded"
    RootOfSubnormal "square root: a subnormal counts as 0"
    LumaOfGray "luma of three equal values is the value"
    LumaGrouped "luma: the last two products summed first"
    LumaWeights "luma with deep.rs's own weights"
    LumaRed "luma: red's weight is deep.rs's"
    LumaGreen "luma: green's weight is deep.rs's"
    LumaBlue "luma: blue's weight is deep.rs's"
    LumaFourDigits "luma: the weights to four digits"
    LumaBlueFirst "luma: blue added before green"
    LumaFused "luma: a product and its sum rounded once"
    LumaInDouble "luma: in f64, rounded once"
    LumaByAlpha "luma: times alpha"
    GrayBytesWeights "gray bytes with deep.rs's own weights"
    NarrowKeepsNan "gray output: a NaN keeps the bits it was computed with"
    NarrowStoresNan "narrowed or copied channels: a NaN becomes 7FC00000"
    ByteOfNan "byte of NaN is 255"
    ByteCut "byte: cut, not rounded"
    ByteByHalfAdded "byte: 0.5 added in f32 and cut"
    ByteHalfEven "byte: halves to even"
    ByteHalfDown "byte: halves down";

    "wrap":
    WrapWholeToZero "wrap of 2 is 0"
    WrapBelowToOne "wrap of -1 is 1"
    ModulusUnionAlpha "ModulusAdd and ModulusSubtract have the union alpha"
    ModulusSubtractTurned "ModulusSubtract: alpha da - sa"
    ModulusWrapsColour "ModulusAdd and ModulusSubtract wrap colours";

    "dodge, burn and their kin":
    DodgeKeepsNan "color_dodge: a NaN quotient stays NaN"
    BurnKeepsNan "color_burn: a NaN quotient stays NaN"
    DodgeWhiteFirst "color_dodge: white source tested before black destination"
    BurnWhiteFirst "color_burn: white destination tested before black source"
    VividLightHalfLow "VividLight: 0.5 burns"
    PinLightHalfLow "PinLight: 0.5 darkens"
    HardMixHalfLow "HardMix: 0.5 gives 0"
    HardLightHalfLow "HardLight and Overlay: 0.5 takes the first branch, as in W3C"
    SoftLightHalfHigh "SoftLight: 0.5 takes the second branch"
    SoftLightQuarterHigh "SoftLight: a destination of 0.25 takes the root"
    DivideNanBlack "divide: NaN over nothing is 0"
    DivideOnlyZero "divide: only a zero divisor is special"
    FreezeNanBlack "Freeze: a NaN destination is black"
    ReflectNanWhite "Reflect: a NaN destination is white";

    "alpha tests":
    OverNanTransparent "over: a NaN alpha counts as transparent"
    OverOnlyZero "over: only alpha 0 counts as transparent"
    OverKeepsAlpha "over: a negative alpha is stored as it is"
    OverTransparentBlack "over: transparent is black"
    OverTransparentSource "over: transparent keeps the source's colour"
    DstOverTransparentSource "DstOver: as Over with roles exchanged, also where transparent"
    StraightNanClear "DstIn, DstOut: a NaN alpha clears"
    StraightOnlyZero "DstIn, DstOut: only alpha 0 clears"
    StraightNeverClear "DstIn, DstOut: the colour stays where transparent"
    DividedNanDivides "Divided: a NaN alpha divides"
    ComponentNanDivides "Hue and its kin: a NaN alpha divides";

    "tests with NaN":
    IntensityNanSource "DarkenIntensity, LightenIntensity: NaN takes the source"
    IntensityEqualSource "DarkenIntensity, LightenIntensity: equal takes the source"
    IntensityUnweighted "DarkenIntensity, LightenIntensity: without the alphas"
    MaskColoursOnly "ChangeMask compares three channels"
    MaskNanSame "ChangeMask: NaN counts as the same"
    MaskExact "ChangeMask: without the 1e-6"
    MaskBelow "ChangeMask: below, not at most"
    ThresholdNanMoves "Threshold: a NaN difference moves"
    ThresholdAbove "Threshold: above, not at least"
    HslGrayNan "rgb_to_hsl: a NaN difference is gray"
    HslGrayBelow "rgb_to_hsl: gray below 1e-6 only"
    HslGrayZero "rgb_to_hsl: gray at 0 only"
    HslNanRed "rgb_to_hsl: a NaN red takes the red branch"
    HslHalfLight "rgb_to_hsl: lightness 0.5 takes the light branch"
    HueUnwrapped "rgb_to_hsl: the red branch without rem_euclid"
    RgbGrayNan "hsl_to_rgb: a NaN saturation is gray"
    RgbHalfDark "hsl_to_rgb: lightness 0.5 takes the dark branch"
    ToneNanFirst "hsl_to_rgb: a NaN hue takes the first branch"
    ToneNanSecond "hsl_to_rgb: a NaN hue takes the second branch"
    ToneHalfUp "hsl_to_rgb: 0.5 belongs to the second branch";

    "order of operations":
    OverByUnion "over: alpha by the union's formula"
    UnionAsOver "union alpha by over's formula"
    UnionGrouped "union alpha: sa + (da - sa * da)"
    OverNotDivided "over: not divided by alpha"
    OverGrouped "over: d * (da * (1 - sa))"
    OverReciprocal "over: times 1 / alpha"
    OverFused "over: a fused step"
    InGrouped "In, Out: (s * sa) * part"
    InStraight "In, Out: straight colour"
    StraightMultiplied "DstIn, DstOut: colour times alpha"
    DstOutGrouped "DstOut: alpha da - da * sa"
    AtopGrouped "Atop: s * (sa * da)"
    AtopStraight "Atop: straight colour"
    AtopSummedAlpha "Atop: alpha as the sum of its parts"
    DstAtopGrouped "DstAtop: the alphas' products first"
    DstAtopByAtop "DstAtop: Atop with roles exchanged"
    XorGrouped "Xor: the alphas' products first"
    XorDivided "Xor: divided by alpha"
    TermsColourFirst "uncovered terms: (s * sa) * (1 - da)"
    TermsGrouped "uncovered terms: sa * ((1 - da) * s)"
    CoveredGrouped "covered term: sa * (da * B)"
    ScreenByProduct "Screen: 1 - (1 - s) * (1 - d)"
    ScreenGrouped "Screen: s + (d - s * d)"
    ExclusionGrouped "Exclusion: 2 * (s * d)"
    LinearLightGrouped "LinearLight: d + (2s - 1)"
    PegtopSquared "PegtopLight: (1 - 2s) * (d * d)"
    PegtopDoubled "PegtopLight: 2 * (s * d)"
    FreezeGrouped "Freeze: (1 - s) * ((1 - s) / d)"
    ReflectGrouped "Reflect: s * (s / (1 - d))"
    NegateGrouped "Negate: 1 - (s + d)"
    HardLightDoubled "HardLight: 2 * (s * d)"
    HardLightGrouped "HardLight: s + (d - s * d)"
    SoftLightGrouped "SoftLight: (1 - 2s) * (d * (1 - d))"
    MathematicsGrouped "Mathematics: A * (s * d)"
    RmseGrouped "Rmse: a + (b + c)"
    RmseFromNegativeZero "Rmse: the sum starts at -0"
    RmseByThird "Rmse: times 1 / 3"
    RmseOfFour "Rmse: over four channels"
    IntensityGrouped "intensity: the last two products summed first"
    IntensityByLuma "intensity with deep.rs's own weights of luma"
    LightnessHalved "rgb_to_hsl: halves summed"
    HslSaturationGrouped "rgb_to_hsl: 2 - (max + min)"
    RgbDarkExpanded "hsl_to_rgb: l + l * s"
    RgbLightGrouped "hsl_to_rgb: l + (s - l * s)"
    ToneRiseGrouped "hsl_to_rgb: (q - p) * (6 * t)"
    ToneFallSixFirst "hsl_to_rgb: ((q - p) * 6) * (2/3 - t)"
    ToneFallGrouped "hsl_to_rgb: (q - p) * ((2/3 - t) * 6)"
    ComponentGrouped "Hue and its kin: d * (da * (1 - sa))"
    ModulateGrouped "Modulate: 2 * (i * percent)";

    "operators and conventions":
    DividedClampsBlend "Divided clamps the blend first"
    DividedNotDivided "Divided does not divide"
    BlendUnclamped "the blend is not clamped before the alphas"
    ResultUnclamped "the result is not clamped"
    ExclusionUncovered "Exclusion adds the uncovered terms, as W3C"
    OverlayAsHardLight "Overlay keyed on the source"
    MinusTurned "MinusDst and MinusSrc exchanged"
    DivideTurned "DivideDst and DivideSrc exchanged"
    StampByComment "Stamp: d + 2s - 1, as its comment says"
    FreezeByComment "Freeze: roles as its comment says"
    ReflectByComment "Reflect: roles as its comment says"
    ClearColourOnly "Clear keeps alpha"
    ColorizeLightness "Colorize takes the source's lightness too"
    CopyBlackUnionAlpha "CopyBlack has the union alpha"
    IntensityKeepsAlpha "Intensity keeps the destination's alpha"
    CopyAlphaIntensity "CopyAlpha of a source without alpha takes its intensity, as the comment says"
    PictureUnchanged "a layer leaves the picture beneath as it is"
    PictureAlwaysBlack "a layer writes the same picture always";

    "arguments":
    ArgumentRaw "a non-finite argument is used"
    ArgumentInfinite "only a NaN argument is replaced"
    ArgumentsPastCount "arguments past the count are read"
    ArgumentsOfFirstLayer "every layer reads the first layer's arguments"
    BlendRestShort "Blend: default (1 - a) * 100"
    BlendRestPlain "Blend: default b = 1 - a"
    MathematicsFiniteOnly "Mathematics: a non-finite argument is 0"
    MathematicsSkipsMissing "Mathematics: a missing argument has no term"
    MapDownTwenty "maps: Y defaults to 20"
    MapDownRaw "maps: Y defaults to the raw X";

    "maps":
    DistortByComment "Distort scales by the picture's sides, as its comment says"
    DisplaceExpanded "Displace: s * X - X / 2"
    DisplaceUncentred "Displace: without the half"
    MapTurned "maps: x and y exchanged"
    MapKeepsAlpha "maps keep the destination's alpha"
    MapNanLast "a NaN coordinate counts as the last"
    MapNearest "nearest pixel, not bilinear"
    MapShortcut "a weight of 0 leaves its neighbour out"
    MapWeightsFirst "bilinear: p * (wx * wy)"
    MapRowsFirst "bilinear: (p * wy) * wx"
    MapColumnsFirst "bilinear: p01 before p10"
    MapPairs "bilinear: summed in pairs"
    MapFromZero "bilinear: the sum starts at 0"
    MapLerp "bilinear by two steps of p + (q - p) * f";

    "placing":
    CentreDown "centre rounded down"
    CentreUp "centre rounded up"
    CentreRounded "centre rounded, halves away from zero"
    CentreBySides "centre: half the tray less half the source"
    GravityTurned "gravity's rows and columns exchanged"
    GravityNoneCentre "no gravity is the centre"
    OffsetOnlyWithoutGravity "gravity leaves the offset out"
    OffsetTurned "offsets exchanged"
    OffsetInward "offsets count inward from the right and the bottom"
    TileUnmoved "tiles start at the corner of the tray"
    TileByRemainder "tile by %"
    TileOfNothingKeeps "tile with an empty source keeps every pixel"
    TileOfNothingWrites "tile with an empty source writes every pixel"
    OverlayTurned "overlay's sense turned round"
    OffOpaque "off the source is opaque black"
    WidenTransparent "alpha 0 added in widening"
    WidenRedOnly "gray widens to red"
    SourceFromZero "the source's start is not read";

    "written or kept":
    KeptPixelStored "a NaN of a kept pixel becomes 7FC00000"
    KeptChannelStored "a NaN of a channel whose flag is off becomes 7FC00000"
    HandedThroughBits "a NaN that an operator hands through keeps its bits"
    WidenStoresNan "a widened NaN becomes 7FC00000"
    FlagsTurned "channel flags from alpha to red"
    FlagsExchanged "tile and overlay exchanged"
    AlphaAlwaysOn "alpha written whatever its flag";

    "names":
    NameDropsTab "tab and line ends are dropped"
    NameDropsNul "NUL is dropped"
    NameDropsPunctuation "'.', '+' and '/' are dropped"
    NameKeepsSpace "a space is not dropped, as the comment says"
    NameKeepsUnderscore "'_' is not dropped"
    NameStopsAtNul "a NUL ends the name"
    NameTrimmedOnly "only the ends are trimmed"
    NameByUnicode "lowered by Unicode"
    NameSkipsBadUtf8 "bytes that are not ASCII are skipped"
    NameKeepsCase "case counts"
    NameByMask "lowered by setting bit 5"
    NameByPrefix "the start of a name is enough"
    NameByStart "a name with more after it is known"
    NameEmptyIsOver "the empty name is Over"
    AliasesByComment "srcover and its kin are Src, as the comment says"
    NameRefusesCurves "blur and interpolate are unknown names";

    "names end to end":
    NameRunsOn "a text that goes on with the letters behind a name is the name"
    NameWithNext "a name followed by the next is the name too"
    NameAnywhere "a text that stands anywhere in the list is the name that it begins in"
    LastNameOpen "what stands after the last name is not read"
    LastLetterLeft "the last name is a letter short"
    LettersPadded "the list goes on with NUL"
    LettersTurned "each eight letters from the last to the first"
    LengthsTurned "each eight lengths from the last to the first"
    LengthsPadded "the five zeros after the lengths are names"
    LengthsInFourBits "the length of 16 is 0"
    PlacesInEightBits "a place in the list has eight bits"
    EightLetters "letters past the eighth are not compared"
    LengthWithDropped "a text's length counts what is dropped"
    SixteenBytes "a text longer than every name is unknown"
    AliasesFromZero "the aliases are the operators from 0 on"
    AliasesGoOn "the aliases are the operators from 70 on";

    "refusals":
    TableLonger "a longer sheet is accepted"
    ArgumentsLonger "a longer list of arguments is accepted"
    TrayLonger "a longer tray is accepted"
    TrayLengthUnchecked "the tray's length is not looked at"
    TrayTwoChannels "a tray of two channels is accepted"
    SourceTwoChannels "a source of two channels is accepted"
    SourceNegativeStart "a negative start is accepted where the end fits"
    SourceWraps "start + size wraps"
    SourceEmptyAnywhere "an empty source may start anywhere"
    SourceStartInside "the start must lie inside the store"
    SourceExactEnd "a source may not end with the store"
    SourceSizeOnly "the start is left out of the sum"
    SourcePixelsOnly "the channels are left out of the product"
    InterpolateCarried "Interpolate is accepted"
    BlurCarried "Blur is accepted"
    RowBackwards "a layer's faults looked at from 13 and 8 to 3"
    LayersByNumber "the smallest number of all layers"
    LastLayerFirst "layers looked at from the last"
    FirstLayerOnly "only the first layer is looked at"
    LayerFromOne "layers counted from 1"
    LayerUnnamed "the layer is always 0"
    TrayBeforeStack "2 before 1"
    LayersBeforeTray "3 to 8 and 13 before 2"
    WorkBeforeLayers "9 before 3 to 8 and 13"
    MarkBeforeWork "10 before 9"
    LayerOfMemory "9 and 10 answer the last layer"
    EveryJobRefused "every job is refused"
    WorkByChannels "a work picture has the tray's channels"
    WorkLonger "a longer work picture is accepted"
    WorkFirstOnly "only work picture 0 is looked at"
    WorkSecondOnly "only work picture 1 is looked at"
    MarkWithoutTray "the mark's limit leaves the tray's own phase out"
    MarkInStores "the mark's limit in stores"
    MarkMissing "an empty list is a mark of 0, and of every job"
    MarkLonger "a longer mark is accepted"
    MarkOfNothing "an empty tray takes any mark"
    MarkUnfinished "a finished mark is refused"
    OutputByChannels "a single composition's output has the tray's channels"
    NarrowPartPixel "an input that is no multiple of 4 is accepted"
    NarrowLonger "a longer output is accepted"
    NarrowTwoChannels "two channels may be wanted";

    "a window's pixels":
    WindowRightInside "the column at left + width is in the window"
    WindowBottomInside "the row at top + height is in the window"
    WindowLeftOutside "the column at left is off the window"
    WindowTopOutside "the row at top is off the window"
    WindowSidesTurned "width and height exchanged"
    WindowCornerTurned "left and top exchanged"
    WindowEnds "width and height are the first column and row past the window"
    WindowLastPixel "width and height are the last column and row of the window"
    WindowColumnsOnly "a window cuts columns only"
    WindowRowsOnly "a window cuts rows only"
    WindowEither "a pixel is in the window by its column or its row"
    WindowTurnedRound "a layer writes off its window"
    WindowEmptyPaints "an empty window is no window"
    WindowOfZerosPaints "a window of four zeros is no window"
    WindowZeroIsOpen "a width or height of 0 has no end"
    WindowFromCorner "the window is counted from the source's corner"
    WindowOfSource "the window is one of the source's pixels"
    WindowOfLayerBelow "a layer has the window of the layer below"
    WindowOfLayerAbove "a layer has the window of the layer above"
    WindowOfFirstLayer "every layer has the first layer's window"
    WindowOnFirstLayerOnly "only the first layer has a window"
    WindowNested "a layer's window is cut by those of the layers below";

    "what a window cuts":
    WindowOverlayPaints "overlay paints off the window, where there is no source"
    WindowOffSource "off the window is off the source, and overlay paints it"
    WindowTilePaints "tiles paint off the window"
    WindowNotOnMaps "a map layer has no window"
    WindowNotSingle "a single composition has no window"
    WindowNotInJobs "a job's layers have no window"
    WindowWritesChannels "in a window that cuts every channel is written, whatever its flag"
    WindowOverColours "the window keeps colours, and alpha is written off it"
    WindowClampsMaps "a map's neighbours are clamped to the window"
    WindowBlanksMaps "a map reads zeros off the window"
    WindowGravity "gravity by the window's sides"
    WindowOrigin "the source is placed from the window's corner"
    WindowPlaces "the source is placed in the window as if it were the tray"
    WindowTiles "tiles start at the window's corner";

    "what is kept off a window":
    WindowClears "off the window is 0"
    WindowStoresNan "a NaN off the window becomes 7FC00000"
    WindowShowsTray "off the window is the tray, not the picture beneath"
    WindowLeavesWork "off the window the work picture keeps what it had"
    WindowLeavesOutput "off the window the output keeps what it had"
    WindowSavesStores "a pixel off the window is the mark's store alone";

    "refusals of windows":
    JobTenNumbers "a job's sheet of ten numbers a layer is accepted"
    SingleTenNumbers "a single composition's sheet of ten numbers is accepted"
    WindowFirst "13 before 3 in its layer"
    WindowsBeforeTray "13 before 2"
    WindowsBeforeLayers "every layer's 13 before the first layer's 3"
    WindowsAfterLayers "13 after every layer's 8"
    WindowsAfterWork "13 after 9"
    WindowsAfterMark "13 after 10"
    WindowNegativeOnly "only a negative window number is 13"
    WindowLargeOnly "only a window number over 2,048 is 13"
    WindowSidesOnly "left and top are not looked at"
    WindowCornerOnly "width and height are not looked at"
    WindowLow32Bits "only the low 32 bits of a window number are looked at"
    WindowSumRefused "a window that ends past 2,048 is 13"
    WindowPastTrayRefused "a window that reaches past the tray is 13"
    WindowOffTrayRefused "a window that starts off the tray is 13"
    WindowEmptyRefused "an empty window is 13";

    "the job":
    WorkExchanged "the two work pictures exchanged"
    WorkInPlace "one work picture for every phase"
    LayersFromTop "the last layer is laid first"
    FirstLayerReadsTray "phase 1 reads the tray, not work 0"
    EveryLayerReadsTray "every layer is laid on the tray"
    MapReadsWritten "a map layer is laid over the picture that it reads"
    ColumnByColumn "pixels column by column"
    AlphaFirst "alpha is stored first"
    MarkBeforeAlpha "the mark is raised before alpha"
    MarkBeforeRed "the mark is raised before the pixel"
    WholeStackAtOnce "the whole stack is laid in one call, and the mark only raised"
    PartPixelCounts "four stores count as a pixel"
    AllowanceInPixels "the allowance counts pixels"
    AllowanceOfWholePixels "only whole pixels are stored"
    AllowanceIn32Bits "the allowance is cut to 32 bits"
    AllowanceSigned "the allowance is signed"
    AllowanceOneMore "one store more than allowed"
    AllowancePerPhase "a call stops at the end of its phase"
    AllowanceZeroIsAll "an allowance of 0 means no limit"
    ReportsAllowance "the answer counts what was allowed"
    ReportsWholePixels "the answer counts five a whole pixel"
    ReportsChannels "the answer leaves the mark's stores out"
    ReportsPixels "the answer counts pixels"
    FinishedInLastPhase "finished in the last phase"
    FinishedOnlyByStores "finished only by a call that stores"
    FinishedByRest "finished when the allowance was not used up"
    FinishedNeverWhenEmpty "an empty tray is never finished"
    FinishedWithoutLast "finished one pixel early"
    FinishedNextTime "finished only by the call after the last store"
    RefusalFinished "a refused call answers finished on a finished mark"
    RefusalResetsMark "a refusal sets the mark to 0";

    "a mark's two numbers":
    MarkOfOneOnly "a mark is one number still, and every job's"
    MarkOfOneForAll "a mark of one number is accepted too, and is every job's"
    MarkOfOne "a mark of one number is accepted too, and is job 0's"
    MarkExchanged "the job number stands before the position"
    MarkBoundOfNumber "10 looks at the job number, not at the position"
    MarkBoundOfBoth "10 looks at both numbers"
    PositionTwice "the position is stored in both numbers"
    NumberSixth "the job number is stored after each position, a sixth store"
    NumberReleased "a finished mark is no job's, with the number 0"
    NumberRaised "an accepted call leaves the next job number";

    "which job numbers are alike":
    NumberUnchecked "job numbers are not compared"
    NumberLow32Bits "only the low 32 bits are compared"
    NumberHigh32Bits "only the high 32 bits are compared"
    NumberLow16Bits "only the low 16 bits are compared"
    NumberWithoutSign "the highest bit is not compared"
    NumberWithoutLowest "the lowest bit is not compared"
    NumberParity "only the lowest bit is compared"
    NumberInDouble "compared as floats of 64 bits"
    NumberLater "a later job may take a mark"
    NumberEarlier "an earlier job may take a mark"
    NumberZeroCall "a call's number 0 is every mark's"
    NumberZeroMark "a mark's number 0 is every call's"
    NumberOfPosition "the call's number is compared with the position"
    NumberIsAllowance "the call's number and its allowance exchanged";

    "when job numbers are compared":
    NumberNotFresh "not at position 0"
    NumberFreshOnly "at position 0 only"
    NumberNotBlank "not at a mark of two zeros"
    NumberNotFinished "not at a finished mark"
    NumberFinishedOnly "at a finished mark only"
    NumberNotIdle "not with an allowance of 0"
    NumberNotEmpty "not on an empty tray"
    NumberNotWithinPhase "not within a phase"
    NumberFirst "14 before 1"
    NumberBeforeTray "14 before 2"
    NumberBeforeLayers "14 before 3 to 8 and 13"
    NumberBeforeWork "14 before 9"
    NumberBeforeMark "14 before 10"
    NumberBeforeBound "14 after the mark's length, before its position";

    "what a wrong job number does":
    NumberAsMark "it is refused as 10"
    NumberOfLastLayer "14 answers the last layer"
    NumberFinished "14 answers finished at a finished mark"
    NumberStores "14 answers the stores that the call would make"
    NumberAfterStores "the stores are made, and then 14 is answered"
    NumberResets "14 sets the position to 0"
    NumberNamed "14 writes the call's number"
    NumberBegins "14 sets the position to 0 and writes the call's number"
    NumberTaken "the call's number is written, and the work goes on"
    NumberTakenFresh "at position 0 the call's number is written, and the work begins"
    NumberTakenBlank "at a mark of two zeros the call's number is written, and the work begins"
    NumberRestarts "the call's number is written, and the work begins anew at position 0";

    "numbers of a card":
    CardLeadingZero "a leading zero is taken"
    CardMinusZero "-0 is taken"
    CardPlus "a plus is taken"
    CardNineDigits "at most nine digits"
    CardElevenDigits "at most eleven digits"
    CardMinusIsDigit "the minus is one of the ten digits"
    CardNoMinus "a minus is out of form"
    CardTo32Bits "numbers are cut to 32 bits"
    CardChecksJob "a gravity or flags that no job may have are out of form";

    "arguments of a card":
    CardSevenDigits "seven digits are taken"
    CardNineHexDigits "nine digits are taken"
    CardCapitalDigits "capital digits are taken"
    CardEmptyArgument "`(args )` is taken"
    CardNoArguments "a layer without `(args)` is taken"
    CardThreeArguments "a fourth argument is too many"
    CardFiveArguments "a fifth argument is dropped"
    CardNanStored "a NaN becomes 7FC00000"
    CardBytesTurned "the low byte stands first"
    CardCountMissing "the count of arguments is not filled"
    CardCountFour "the count of arguments is always 4"
    CardArgumentsKept "unused arguments keep what they had";

    "names of a card":
    CardTolerantName "a name in any spelling that `from_name` takes"
    CardCapitalName "a name with capitals is taken"
    CardOwnNames "aliases are unknown"
    CardCurvesUnknown "blur and interpolate are unknown"
    CardNamePrefix "the start of a name is enough"
    CardNameLonger "a name with more after it is known"
    CardShortestName "the shortest name that the line goes on with is taken"
    CardOperatorNumber "an operator's number is taken for its name"
    CardUnknownName "an unknown name is 3";

    "the form of a card":
    CardOpenEnd "the last line needs no end"
    CardReturn "a carriage return before a line's end is taken"
    CardTab "a tab is taken for a space"
    CardSpaces "several spaces are taken for one"
    CardTrailingSpace "spaces before a line's end are taken"
    CardEmptyLines "empty lines are left out"
    CardEmptyLastLine "an empty line at the end is left out"
    CardRest "what stands after the last bracket is not read"
    CardNul "a NUL ends the text"
    CardByteOrderMark "a byte order mark before the text is taken"
    CardCapitals "`(Tray ..` is taken"
    CardEditionTwo "edition 2 is taken"
    CardAnyEdition "any edition is taken"
    CardTrayAlone "a tray line alone is out of form"
    CardEmptyTaken "the empty text is a card";

    "what a card fills":
    CardUpsideDown "the last line is the lowest layer"
    CardCountsLines "the count of layers is the count of lines"
    CardRowsKept "rows past the last layer keep what they had"
    CardArgumentRowsKept "arguments past the last layer keep what they had"
    CardWindowEmpty "a card's windows are 0, 0, 0, 0"
    CardWindowOfTray "a card's windows have the tray's sides"
    CardWindowOfSource "a card's windows have the sources' sides"
    CardWindowTurned "a card's windows are 2,048, 2,048, 0, 0"
    CardWindowLess "a card's windows are 0, 0, 2,047, 2,047"
    CardWindowKept "a card's windows are not filled"
    CardWindowRowsKept "windows past the last layer keep what they had"
    CardWindowPastLayers "rows past the last layer have a window"
    CardLineOfAccepted "an accepted card answers its last line";

    "refusals of a card":
    CardLineFromZero "lines counted from 0"
    CardLineOfLayer "layer lines counted from 1"
    CardLastBadLine "the last line that is out of form is answered"
    CardTooManyFirst "a layer too many looked for before the form"
    CardTooManyAtEnd "a layer too many answers the last line"
    CardFifteenLayers "a sixteenth layer is too many"
    CardSeventeenLayers "a seventeenth layer is taken"
    CardEmptyAtZero "the empty text answers line 0"
    CardFilledFirst "rows are filled before a later line is refused"
    CardCleared "a refusal sets both lists to 0"
    CardShapeOfRefused "a refused card answers the tray's numbers"
    CardLayersOfRefused "a refused card answers the layers that were read"
    CardLengthsLast "the lists' lengths looked at after the lines"
    CardLengthsAtOne "another length answers line 1"
    CardTenNumbers "the table has ten numbers a layer"
    CardTenNumbersToo "a table of ten numbers a layer is accepted too"
    CardTableLonger "a longer table is accepted"
    CardArgumentsLonger "a longer list of arguments is accepted"
    CardTableOnly "the arguments' length is not looked at"
    CardArgumentsOnly "the table's length is not looked at"
    CardLayersEnough "lists for the card's own layers are enough";
}

/// Every misreading with its group and what it takes for true.
pub fn all() -> Vec<(Wrong, &'static str, String)> {
    let mut all: Vec<_> = SINGLE.iter().map(|(wrong, group, text)| (*wrong, *group, text.to_string())).collect();
    let mut add = |wrong: Wrong, group, text: &str| all.push((wrong, group, text.to_string()));
    for &place in Clamp::ALL {
        add(Wrong::ClampNan(place), "clamp", "this clamp turns a NaN into 0");
        add(Wrong::ClampZero(place), "clamp", "this clamp turns -0 into 0");
    }
    for &place in Rem::ALL {
        add(Wrong::RemZero(place), "rem_euclid", "-0 becomes 0 here");
        add(Wrong::RemInfinity(place), "rem_euclid", "an infinity gives 0 here");
        add(Wrong::RemBelow(place), "rem_euclid", "the result stays below m here");
        add(Wrong::RemByFloor(place), "rem_euclid", "v - m * floor(v / m) here");
    }
    for &place in Abs::ALL {
        add(Wrong::AbsByTest(place), "absolute value", "-v where v < 0, so -0 stays");
    }
    for &which in Default::ALL {
        add(Wrong::Default(which), "arguments", "another default (1 more)");
    }
    for op in Op::ALL.iter().filter(|op| op.is_mathematical() && **op != Op::Interpolate) {
        for convention in Convention::ALL.iter().filter(|c| **c != Convention::of(*op)) {
            add(Wrong::Convention(*op, *convention), "conventions", "the operator in this convention");
        }
    }
    for op in Op::ALL.iter().filter(|op| ![Op::Interpolate, Op::Blur].contains(op)) {
        if ![Op::Negate, Op::Distort].contains(op) {
            add(Wrong::Neighbour(*op), "operator numbers", "the operator is taken for the next one");
        }
    }
    for alias in 0..13 {
        add(Wrong::AliasUnknown(alias), "names", "this alias is unknown");
    }
    for seam in 0..82 {
        add(Wrong::NameSeam(seam), "names end to end", "this name has the first letter of the next");
    }
    for &bound in Bound::ALL {
        add(Wrong::Strict(bound), "refusals", "this bound one too strict");
        add(Wrong::Loose(bound), "refusals", "this bound one too loose");
    }
    for i in 0..6 {
        add(Wrong::RowOrder(i), "refusals", "checks i and i + 1 of a layer's 3 to 8 and 13 in the other order");
    }
    for i in 0..2 {
        add(Wrong::CardShape(i), "what a card fills", "the tray's numbers i and i + 1 exchanged");
    }
    // Columns 10 and 11 are alike, and so are 12 and 13.
    for i in (0..13).filter(|i| ![10, 12].contains(i)) {
        add(Wrong::CardColumns(i), "what a card fills", "columns i and i + 1 exchanged");
    }
    all
}

/// Why a misreading changes no answer, for those that change none.
pub fn equivalent(wrong: Wrong) -> Option<&'static str> {
    Some(match wrong {
        Wrong::DstAtopByAtop => "a law: the two sums have the same addends, and addition commutes",
        Wrong::RmseFromNegativeZero => "a square is never -0, and -0 + x is x for every other x",
        Wrong::RowOrder(0) => "no number is both outside 0 to 69 and 43 or 67",
        Wrong::ClampNan(Clamp::Coordinate) => "a NaN coordinate is 0 before the clamp",
        Wrong::ClampNan(Clamp::Byte) => "a NaN byte is 0 before the clamp",
        Wrong::ClampZero(Clamp::Byte) => "both zeros give byte 0",
        Wrong::ClampZero(Clamp::Saturation) => "both zeros make hsl_to_rgb gray",
        Wrong::SoftLightQuarterHigh => "at 0.25 the polynomial and the root both give 0.5",
        Wrong::DivideNanBlack => "where the numerator is NaN the uncovered terms are NaN, and so is the result",
        Wrong::FreezeNanBlack | Wrong::ReflectNanWhite => {
            "where the destination is NaN the uncovered terms are NaN, and so is the result"
        }
        Wrong::NameByMask => "of the bytes that setting bit 5 changes, only capitals become bytes of a name",
        Wrong::RemZero(Rem::Hue | Rem::Sector) => "t = -0 adds a zero to p, and p = 2l - q is never -0",
        Wrong::RemInfinity(Rem::Hue | Rem::Sector) => {
            "no difference of two channels exceeds max - min: neither operand is infinite"
        }
        Wrong::RemBelow(Rem::Hue) => "a hue of 1 and a hue of 0 have the same three tones",
        Wrong::RemByFloor(Rem::Hue) => {
            "the same for -1 to 1, but where a hue of 1 becomes 0, with the same three tones"
        }
        Wrong::RemByFloor(Rem::Sector) => "t lies from -1/3 to 4/3, where one is taken away or added as by %",
        Wrong::AbsByTest(Abs::Negate) => "1 - 0 and 1 - -0 are 1",
        Wrong::AbsByTest(Abs::ChangeMask | Abs::Threshold) => "the two zeros compare alike",
        _ => return None,
    })
}
