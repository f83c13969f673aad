//! A case for each place where a reading of the Rust goes wrong and other values would not show it. The line
//! numbers are those of composite.rs, and of deep.rs after "deep:".

use super::book::Book;
use super::layer::{Row, arguments, pairs};
use crate::random::carried;
use crate::request::Job;

type Pair = ([f32; 4], [f32; 4]);

const INF: f32 = f32::INFINITY;
const NAN: f32 = f32::NAN;
const BIG: f32 = 3e38;

/// Pixels by several operators.
fn trap(book: &mut Book, text: &str, operators: &[i64], pixels: &[Pair], args: &[f32]) {
    book.note(&format!("trap: {text}"));
    for operator in operators {
        book.compose(&pairs(*operator, pixels, args));
    }
}

/// A pixel whose colour is one value.
fn flat(v: f32, a: f32) -> [f32; 4] {
    [v, v, v, a]
}

pub fn put(book: &mut Book) {
    zeros(book);
    caps_and_clamps(book);
    remainders(book);
    dodge_and_burn(book);
    alphas(book);
    comparisons(book);
    hsl(book);
    grouping(book);
    defaults(book);
    maps(book);
    written(book);
}

/// Where the sign of a zero comes through: the uncovered terms are -0 at these alphas.
fn zeros(book: &mut Book) {
    let signs: Vec<Pair> = [(2.0, 1.0), (1.0, 1.0), (1.0, 2.0), (-1.0, 1.0), (1.0, -1.0)]
        .into_iter()
        .flat_map(|(sa, da)| [(-0.0, 0.0), (0.0, -0.0)].map(|(s, d)| (flat(s, sa), flat(d, da))))
        .collect();
    let all: Vec<i64> = carried().collect();
    trap(book, "zeros of either sign under every operator (963, 964, 987, 989, 965)", &all, &signs, &[]);
    let half: Vec<Pair> =
        [(-1.0, 1.0), (2.0, 1.0), (0.5, 0.5)].map(|(sa, da)| (flat(0.5, sa), flat(-0.0, da))).to_vec();
    trap(book, "max(-0, 2s - 1) at s = 0.5 (989)", &[34], &half, &[]);
    let mixed = [
        ([-0.0, 0.0, 0.0, 1.0], flat(-0.0, 1.0)),
        ([0.0, -0.0, -0.0, 1.0], flat(-0.0, 1.0)),
        (flat(0.5, 1.0), [-0.0, 0.0, 0.0, 1.0]),
        (flat(0.5, 1.0), [0.0, -0.0, -0.0, 1.0]),
        (flat(-9.0, 1.0), [0.0, 0.0, 0.0, 1.0]),
        (flat(-9.0, 1.0), [-0.0, -0.0, -0.0, 1.0]),
    ];
    trap(
        book,
        "the first of equal zeros in max and min (1091, 1092), -0 through the clamp (807)",
        &[50, 51, 52, 53, 69],
        &mixed,
        &[],
    );
}

fn caps_and_clamps(book: &mut Book) {
    let pixels = [
        (flat(NAN, 1.0), flat(0.5, 1.0)),
        (flat(0.5, NAN), flat(0.5, 1.0)),
        (flat(0.5, 1.0), flat(0.5, NAN)),
        (flat(INF, 1.0), flat(-INF, 1.0)),
        (flat(0.5, INF), flat(0.5, -INF)),
        (flat(-3.0, 1.0), flat(1.0, 1.0)),
        (flat(1.5, 1.0), flat(1.5, 1.0)),
    ];
    trap(book, "min(1) of a NaN is 1 (702, 704, 714, 721, 722); Blend's colours stay", &[5, 45, 46], &pixels, &[]);
    trap(book, "the same with arguments of 100 and 100", &[45, 46], &pixels, &[100.0, 100.0]);
    // Lightness 0 times an infinite factor is NaN, and stays; saturation is 1.
    let lightness = [(flat(1000.0, 1.0), [0.5, 0.0, -0.5, 1.0]), (flat(1000.0, 1.0), [0.5, 0.25, -0.5, 0.5])];
    trap(book, "a NaN lightness through the clamp (807)", &[69], &lightness, &[3e38, 0.0]);
    let saturation = [([NAN, 0.2, 0.3, 1.0], [0.1, 0.5, 0.9, 1.0]), ([INF, 0.2, 0.3, 1.0], [0.1, 0.5, 0.9, 1.0])];
    trap(book, "a NaN or infinite intensity (805 to 808)", &[69], &saturation, &[100.0, 0.0]);
    let divided =
        [(flat(2.0, 0.5), flat(0.75, 0.5)), (flat(-2.0, 0.5), flat(0.75, 0.5)), (flat(NAN, 0.5), flat(0.75, 0.5))];
    trap(book, "Divided does not clamp the blend first (832)", &[23, 24, 31, 32, 34, 36, 40, 41, 13], &divided, &[]);
}

fn remainders(book: &mut Book) {
    let alphas = [2.0, -1.0, 1.25, 1.0, 0.0, -0.0, 3.0, -0.25, 1e-10, INF, NAN, -2.0, 0.9999999, 1e10];
    let pixels: Vec<Pair> =
        alphas.iter().flat_map(|a| [(flat(0.75, *a), flat(0.5, 0.0)), (flat(0.75, 0.0), flat(0.5, *a))]).collect();
    trap(book, "wrap of 2, -1, 1.25, -1e-10 and others (896, 897)", &[27, 28], &pixels, &[]);
    // A hue just below a third: t becomes 1, the last branch; with an infinite q - p the first would be NaN.
    let third = f32::from_bits(0x3eaa_aaaa);
    let mut sources = Vec::new();
    for steps in -3i32..=3 {
        let b = f32::from_bits((third.to_bits() as i32 + steps) as u32);
        sources.extend([[0.0, 1.0, steps as f32 * 6e-8, 1.0], [0.0, 1.0, 0.0, 1.0], [0.5, 1.0, 0.5 - b * 1e-7, 1.0]]);
        sources.push([steps as f32 * 1e-7, 1.0, 0.0, 1.0]);
        sources.push([steps as f32 * 3e-8 + 1e-7, 1.0, 1e-7, 1.0]);
    }
    let pixels: Vec<Pair> = sources.iter().map(|s| (*s, flat(1.7e38, 1.0))).collect();
    for part in pixels.chunks(8) {
        trap(book, "t = 1.0 takes the last branch of hsl_to_rgb (1124)", &[53, 50], part, &[]);
    }
    // A red hue just below 6: h is 1.
    let red: Vec<Pair> =
        [1e-10, 1e-30, 1e-45, 0.0, -0.0].iter().map(|b| ([1.0, 0.0, *b, 1.0], [0.2, 0.7, 0.4, 1.0])).collect();
    trap(book, "rem_euclid by 6 of a small negative number (1104)", &[50, 53], &red, &[]);
}

fn dodge_and_burn(book: &mut Book) {
    let white = [(flat(1.0, 1.0), flat(0.0, 1.0)), (flat(0.0, 1.0), flat(1.0, 1.0)), (flat(0.0, 1.0), flat(1.5, 1.0))];
    trap(book, "black before white in dodge and burn (1060, 1072)", &[14, 15, 33, 35, 37, 38], &white, &[]);
    let quotients = [(flat(-INF, 0.5), flat(INF, 2.0)), (flat(INF, 2.0), flat(-INF, 0.5))];
    trap(book, "a NaN quotient is capped to 1 (1065, 1077)", &[14, 15, 33, 35, 37, 38], &quotients, &[]);
    let halves: Vec<Pair> = [0.25, 2.0, INF, -1e20, -INF, 1e20, -1.0]
        .iter()
        .flat_map(|v| [(1.0, 0.5), (0.5, 0.5)].map(|(sa, da)| (flat(0.5, sa), flat(*v, da))))
        .collect();
    trap(
        book,
        "0.5 in HardLight, SoftLight, VividLight, PinLight, HardMix (979, 986, 1035, 1046)",
        &[12, 13, 33, 34, 35],
        &halves,
        &[],
    );
    let turned: Vec<Pair> = halves.iter().map(|(s, d)| (flat(d[0], s[3]), flat(s[0], d[3]))).collect();
    trap(book, "0.5 in Overlay (962)", &[8], &turned, &[]);
    let quarter = [
        (flat(0.75, 1.0), flat(0.25, 1.0)),
        (flat(0.75, 1.0), flat(0.25000003, 1.0)),
        (flat(0.75, 1.0), flat(0.24999999, 1.0)),
    ];
    trap(book, "0.25 in SoftLight (1049)", &[13], &quarter, &[]);
    let nothing: Vec<Pair> =
        [(0.5, 0.0), (0.5, -0.5), (0.0, 0.0), (-0.5, -0.0), (NAN, 0.0), (0.0, NAN), (INF, 0.0), (1.0, 1e-42)]
            .iter()
            .flat_map(|(s, d)| [(1.0, 1.0), (0.5, 0.5)].map(|(sa, da)| (flat(*s, sa), flat(*d, da))))
            .collect();
    trap(book, "division by nothing, and NaN over it (1083, 1084, 1007, 1014)", &[25, 26, 40, 41], &nothing, &[]);
    let one: Vec<Pair> = nothing.iter().map(|(s, d)| (flat(s[0], s[3]), flat(1.0 - d[0], d[3]))).collect();
    trap(book, "a destination of 1 and near it (1014)", &[41], &one, &[]);
}

fn alphas(book: &mut Book) {
    let colours = [0.25, 0.5, 0.75];
    let special = [0.0, -0.0, NAN, -0.5, 1.0, 2.0, -1.0, INF];
    let mut pixels = Vec::new();
    for sa in special {
        for da in special {
            pixels.push(([0.9, 0.1, NAN, sa], [colours[0], colours[1], colours[2], da]));
        }
    }
    for part in pixels.chunks(16) {
        trap(
            book,
            "alpha 0, below 0 and NaN (882, 884, 865, 660, 757, 833)",
            &[0, 19, 20, 21, 46, 52, 12],
            part,
            &[100.0],
        );
    }
    let starred = [
        ([1.0, 0.0, 0.0, 0.5], [0.0, 0.0, 1.0, 1.0]),
        ([1.0, 0.0, 0.0, 0.0], [0.25, 0.5, 0.75, 0.0]),
        (flat(1.0, 1.0), flat(0.0, 0.5)),
        (flat(0.0, 1.0), flat(1.0, 1.0)),
        (flat(0.75, 1.0), flat(0.5, 1.0)),
    ];
    trap(book, "document 01's trial values", &[0, 1, 15, 27], &starred, &[]);
}

fn comparisons(book: &mut Book) {
    let intensities = [
        ([NAN, 0.5, 0.5, 1.0], flat(0.5, 1.0)),
        (flat(0.5, 1.0), [0.5, NAN, 0.5, 1.0]),
        (flat(0.5, 1.0), flat(0.5, 1.0)),
        (flat(0.5, 0.5), flat(0.4, 1.0)),
        (flat(0.4, 1.0), flat(0.5, 0.5)),
        (flat(0.25, 1.0), flat(0.5, 0.5)),
        (flat(INF, 0.0), flat(0.5, 0.5)),
    ];
    trap(
        book,
        "DarkenIntensity and LightenIntensity: NaN and equal take the tray's pixel (730, 737)",
        &[48, 49],
        &intensities,
        &[],
    );
    let base = [0.5, 0.25, 0.125, 1.0];
    let moved = |c: usize, by: f32| {
        let mut s = base;
        s[c] += by;
        (s, base)
    };
    let masks: Vec<Pair> = (0..4)
        .flat_map(|c| [moved(c, 5e-7), moved(c, 0.01), moved(c, NAN), moved(c, INF)])
        .chain([
            (base, base),
            (flat(1e-6, 1e-6), flat(0.0, 0.0)),
            (flat(1e-6, 1e-6), flat(-0.0, 0.0)),
            (flat(INF, 1.0), flat(INF, 1.0)),
        ])
        .chain([
            (flat(0.5, INF), flat(0.5, INF)),
            (flat(0.25, 1.0), flat(0.0, 0.75)),
            (flat(0.250001, 1.0), flat(0.0, 1.0)),
        ])
        .collect();
    trap(book, "ChangeMask: four channels, 1e-6, NaN (780)", &[62], &masks, &[]);
    trap(book, "ChangeMask with a fuzz", &[62], &masks, &[0.25]);
    trap(book, "ChangeMask with a fuzz below 0", &[62], &masks, &[-1.0]);
    let moves = [
        (flat(0.55, 1.0), flat(0.5, 1.0)),
        (flat(0.05, 1.0), flat(0.0, 1.0)),
        (flat(-0.05, 1.0), flat(0.0, 1.0)),
        (flat(0.05000001, 1.0), flat(0.0, 1.0)),
        (flat(0.049999997, 1.0), flat(0.0, 1.0)),
        (flat(NAN, 1.0), flat(0.25, 1.0)),
        (flat(0.25, 1.0), flat(NAN, 1.0)),
        (flat(INF, 1.0), flat(0.25, 1.0)),
        (flat(INF, 1.0), flat(INF, 1.0)),
        (flat(-0.0, 1.0), flat(0.0, 1.0)),
    ];
    trap(book, "Threshold: at least, and NaN is kept (793)", &[64], &moves, &[]);
    trap(book, "Threshold of 0 with half the amount", &[64], &moves, &[0.0, 0.5]);
    trap(book, "Threshold of -0 and below it", &[64], &moves, &[-0.0, -1.0]);
}

fn hsl(book: &mut Book) {
    let colours = [
        [1e-6, 0.0, 0.0, 1.0],
        [0.5, 0.4999995, 0.5, 1.0],
        [0.0, 9.99e-7, 0.0, 1.0],
        [0.0, 0.0, 1.01e-6, 1.0],
        [NAN, 0.2, 0.8, 1.0],
        [NAN, 0.8, 0.2, 1.0],
        [0.2, NAN, 0.8, 1.0],
        [0.8, NAN, 0.2, 1.0],
        [0.2, 0.8, NAN, 1.0],
        [0.8, 0.2, NAN, 1.0],
        [NAN, NAN, 0.4, 1.0],
        [NAN, NAN, NAN, 1.0],
        [INF, 0.2, 0.1, 1.0],
        [0.1, -INF, 0.3, 1.0],
        [INF, INF, INF, 1.0],
        [BIG, BIG, BIG, 1.0],
        [BIG, -BIG, 0.0, 1.0],
        [0.25, 0.5, 0.75, 1.0],
        [0.75, 0.25, 0.5, 1.0],
        [0.7, 0.3, 0.5, 1.0],
        [0.3, 0.7, 0.4, 1.0],
        [0.1, 0.9, 0.45, 1.0],
        [0.9, 0.1, 0.3, 1.0],
        [0.5, -0.5, 0.25, 1.0],
        [2.5, 0.5, 1.5, 1.0],
        [0.6, 0.6, 0.2, 1.0],
        [0.2, 0.6, 0.6, 1.0],
        [0.6, 0.2, 0.6, 1.0],
    ];
    let plain = [0.1, 0.55, 0.8, 1.0];
    let middle = [0.25, 0.5, 0.75, 1.0];
    for part in colours.chunks(14) {
        let text = "the HSL conversions at their tests (1095, 1098, 1103, 1105, 1114, 1117, 1125 to 1131)";
        let from: Vec<Pair> = part.iter().map(|c| (*c, plain)).collect();
        trap(book, text, &[50, 51, 52, 53], &from, &[]);
        let onto: Vec<Pair> = part.iter().map(|c| (plain, *c)).collect();
        trap(book, text, &[50, 51, 52, 53, 69], &onto, &[]);
        let light: Vec<Pair> = part.iter().map(|c| (*c, middle)).collect();
        trap(book, text, &[51, 53], &light, &[]);
    }
    let covered: Vec<Pair> = colours.iter().map(|c| ([c[0], c[1], c[2], 0.4], [0.35, 0.6, 0.15, 0.7])).collect();
    trap(book, "the HSL operators, partly covered (758)", &[50, 51, 52, 53], &covered, &[]);
    // Half-light pairs whose two saturations round differently.
    let mut halves = Vec::new();
    for i in (1..400u32).rev() {
        let max = 0.5 + i as f32 / 811.0;
        let min = 1.0 - max + if i % 2 == 0 { 0.0 } else { 2e-8 };
        if (max + min) * 0.5 == 0.5 && (2.0 - max) - min != max + min && halves.len() < 12 {
            halves.push(([0.3, 0.2, 0.1, 1.0], [max, 0.5, min, 1.0]));
        }
    }
    assert!(halves.len() > 3);
    trap(book, "lightness 0.5 exactly (1098, 1117)", &[50, 51, 52, 53, 69], &halves, &[]);
}

fn grouping(book: &mut Book) {
    let large = [
        (flat(BIG, 1.0), flat(0.25, 1.0)),
        (flat(BIG, 0.5), flat(0.25, 0.5)),
        (flat(-BIG, 0.5), flat(0.0, 0.5)),
        (flat(0.0, 0.5), flat(-BIG, 0.5)),
        (flat(0.25, 0.5), flat(BIG, 0.5)),
        (flat(BIG, 0.5), flat(BIG, 0.5)),
        (flat(1e20, 0.5), flat(1e20, 0.5)),
        (flat(1e-22, 1.0), flat(3.3e-22, 1.0)),
        (flat(1e-19, 1.0), flat(1e-25, 1.0)),
    ];
    let blends: Vec<i64> = (6..16).chain(23..43).chain([44]).collect();
    trap(
        book,
        "what is multiplied first, where a product is out of range (974, 999, 1036, 1010, 1017)",
        &blends,
        &large,
        &[],
    );
    let small = [
        ([3e-20, 0.0, 0.0, 1.0], flat(0.0, 1.0)),
        ([1e-20, 2e-20, 3e-20, 1.0], flat(0.0, 1.0)),
        (flat(1e-23, 1.0), flat(0.0, 1.0)),
    ];
    trap(book, "the root of a subnormal mean (726)", &[47], &small, &[]);
    let squares: Vec<Pair> = (1..40)
        .map(|i| ([i as f32 / 41.0, (i * 7 % 41) as f32 / 41.0, (i * 17 % 41) as f32 / 41.0, 1.0], flat(0.3, 0.5)))
        .collect();
    trap(book, "the order of Rmse's sum, and its root (726)", &[47], &squares, &[]);
    let light = [(flat(2e38, 1.0), [0.1, 0.5, 0.9, 1.0]), (flat(BIG, 1.0), [0.1, 0.5, 0.9, 1.0])];
    trap(book, "Modulate: (2i) * percent (807, 808)", &[69], &light, &[0.0, 0.0]);
    let grays: Vec<Pair> = (0..16)
        .map(|i| (flat(i as f32 / 15.0, 0.3 + i as f32 / 31.0), [0.9 - i as f32 / 17.0, 0.37, i as f32 / 16.0, 0.8]))
        .collect();
    let all: Vec<i64> = carried().collect();
    trap(book, "grays on colours, every operator partly covered", &all, &grays, &[]);
}

fn defaults(book: &mut Book) {
    let pixels = [([0.9, 0.3, 0.6, 0.7], [0.2, 0.8, 0.4, 0.6]), ([1.0, 0.1, 0.35, 1.0], [0.6, 0.7, 0.15, 1.0])];
    for percent in [1.0, 7.0, 10.0, 21.0, 33.0, 41.0, 57.0, 58.0, 66.6, 70.0, 83.0, 99.9, 1e-5, 12345.678, -3.3] {
        trap(book, "Blend's default is (100 - a * 100) / 100 (709)", &[45], &pixels, &[percent]);
    }
    let raw = [
        (flat(INF, 0.5), flat(0.5, 0.5)),
        (flat(-0.0, 2.0), flat(0.0, 1.0)),
        (flat(0.5, 1.0), flat(0.25, 1.0)),
        (flat(0.5, 1.0), flat(INF, 0.5)),
    ];
    for args in [
        &[][..],
        &[1.0],
        &[0.0, 1.0],
        &[-0.0, -0.0, -0.0],
        &[-0.0, -0.0, -0.0, -0.0],
        &[NAN],
        &[0.5, INF],
        &[0.0, 0.0, 0.0, -INF],
    ] {
        trap(book, "Mathematics takes raw arguments, a missing one as 0 (1026)", &[44], &raw, args);
    }
}

/// A map, 3 by 2, on a picture of the same sides.
fn mapped(book: &mut Book, operator: i64, dst: &[f32], sources: &[[f32; 2]; 6], args: &[f32]) {
    let words = |values: &[f32]| -> Vec<u32> { values.iter().map(|v| v.to_bits()).collect() };
    let samples: Vec<f32> = sources.iter().flat_map(|[x, y]| [*x, *y, 0.3, 0.6]).collect();
    let mut row = Row::new(operator, (3, 2, 4));
    row.count = args.len() as i64;
    let args = arguments(&words(args));
    let table = row.numbers().to_vec();
    let job =
        Job { width: 3, height: 2, channels: 4, dst: words(dst), layers: 1, table, args, samples: words(&samples) };
    book.compose(&job);
}

fn maps(book: &mut Book) {
    let plain: Vec<f32> = (0..24).map(|i| 0.1 + (i * 7 % 24) as f32 / 29.0).collect();
    let mut broken = plain.clone();
    (broken[4], broken[9], broken[14], broken[19]) = (INF, NAN, -INF, INF);
    // -0 in the corner: at -0 every product is -0, at 0 with negative neighbours too.
    let mut zero = vec![1.0f32; 24];
    zero[0..4].fill(-0.0);
    zero[16..20].fill(-1.0);
    let mut below = vec![-1.0f32; 24];
    below[0..4].fill(-0.0);
    let places = [[0.0, 0.0], [0.25, 0.5], [1.0, 1.0], [0.7, 0.3], [-0.0, -0.0], [0.5, 0.5]];
    let odd = [[NAN, 0.5], [0.5, NAN], [INF, -INF], [-3.0, 9.0], [1e-42, 0.1], [-0.0, 0.0]];
    for operator in [65, 66] {
        book.note("trap: maps, no shortcut at a whole coordinate, -0, NaN and infinite coordinates (deep:247 to 272)");
        for dst in [&plain, &broken, &zero, &below] {
            for sources in [&places, &odd] {
                for args in [&[][..], &[2.0, 1.0], &[1.0], &[3.5, 0.7]] {
                    mapped(book, operator, dst, sources, args);
                }
            }
        }
        book.note("trap: maps, the default of Y is the effective X (1150)");
        for args in [&[NAN][..], &[INF, 2.0], &[NAN, NAN], &[2.0, NAN], &[2.0, -INF], &[1.5], &[0.0], &[-1.0]] {
            mapped(book, operator, &plain, &places, args);
        }
    }
}

fn written(book: &mut Book) {
    book.note("trap: a NaN that an operator hands through is stored as 7FC00000; kept where the flag is off");
    let handing = [17, 18, 48, 49, 54, 55, 56, 57, 58, 59, 60, 62, 64, 20, 21, 0, 19];
    let pattern = |n: u32| [0x7fc0_1000 + n, 0xff80_0100 + n, 0x7f80_0010 + n, 0xffff_fff0 - n];
    for operator in handing {
        for flags in [62, 30, 2 + 32, 6] {
            let mut job = pairs(operator, &[(flat(0.5, 1.0), flat(0.5, 1.0)); 3], &[]);
            job.table[4] = flags;
            job.dst[0..4].copy_from_slice(&pattern(1));
            job.samples[4..8].copy_from_slice(&pattern(2));
            job.dst[8..12].copy_from_slice(&pattern(3));
            job.samples[8..12].copy_from_slice(&pattern(4));
            book.compose(&job);
        }
    }
}
