//! The compiled Rust behind words. Document 01's rule on NaN is applied here and nowhere else: a channel that
//! was written, or a gray from `luma`, that is NaN becomes 7FC00000; every other word keeps its bits.

use crate::composite::{ChannelMask, Composite, CompositeOp};
use crate::deep::{self, FloatImage};
use crate::gravity_translate::Gravity;
use crate::request::{CHANNEL, Layer, NAN, OVERLAY, Picture, TILE, floats, words};

/// Gravity 1 to 9, in the order of the enum.
const GRAVITIES: [Gravity; 9] = [
    Gravity::NorthWest,
    Gravity::North,
    Gravity::NorthEast,
    Gravity::West,
    Gravity::Centre,
    Gravity::East,
    Gravity::SouthWest,
    Gravity::South,
    Gravity::SouthEast,
];

fn image(picture: &Picture) -> FloatImage {
    FloatImage::from_samples(picture.width, picture.height, picture.channels, floats(&picture.words))
        .expect("a picture's words are width x height x channels")
}

fn stored(word: u32) -> u32 {
    if f32::from_bits(word).is_nan() { NAN } else { word }
}

fn composite(layer: &Layer) -> Composite {
    let on = |bit: u32| layer.flags & bit != 0;
    let [red, green, blue, alpha] = CHANNEL;
    let composite = Composite::new(CompositeOp::ALL[layer.operator])
        .with_offset(layer.offset.0, layer.offset.1)
        .with_args(floats(&layer.args))
        .with_tile(on(TILE))
        .with_outside_overlay(on(OVERLAY))
        .with_channels(ChannelMask::new(on(red), on(green), on(blue), on(alpha)));
    match layer.gravity {
        0 => composite,
        g => composite.with_gravity(GRAVITIES[g - 1]),
    }
}

/// Which pixels a layer writes, asked of the Rust itself: Clear on a picture of twos leaves a 0 there.
fn written(composite: &Composite, width: u32, height: u32, source: &FloatImage) -> Vec<bool> {
    let mut probe = composite.clone();
    probe.op = CompositeOp::Clear;
    probe.channels = ChannelMask::ALL;
    let twos = vec![2.0; width as usize * height as usize * 4];
    let twos = FloatImage::from_samples(width, height, 4, twos).unwrap();
    let cleared = probe.compose_float(&twos, source);
    cleared.samples().chunks_exact(4).map(|pixel| pixel[0] == 0.0).collect()
}

/// `compose_float`: the layer on the picture, four channels.
pub fn compose(dst: &Picture, layer: &Layer) -> Vec<u32> {
    let composite = composite(layer);
    let source = image(&layer.source);
    let mut out = words(composite.compose_float(&image(dst), &source).samples());
    if out.iter().any(|w| f32::from_bits(*w).is_nan()) {
        let hit = written(&composite, dst.width, dst.height, &source);
        for (i, word) in out.iter_mut().enumerate() {
            if hit[i / 4] && layer.flags & CHANNEL[i % 4] != 0 {
                *word = stored(*word);
            }
        }
    }
    out
}

/// `to_rgba`.
pub fn widen(picture: &Picture) -> Vec<u32> {
    words(image(picture).to_rgba().samples())
}

/// `to_channels` of a picture of four channels.
pub fn narrow(wanted: usize, rgba: &[u32]) -> Vec<u32> {
    let picture = Picture { width: (rgba.len() / 4) as u32, height: 1, channels: 4, words: rgba.to_vec() };
    let out = words(image(&picture).to_channels(wanted).samples());
    if wanted == 1 { out.into_iter().map(stored).collect() } else { out }
}

/// `narrow_u8` of words.
pub fn bytes(samples: &[u32]) -> Vec<u8> {
    let picture = Picture { width: samples.len() as u32, height: 1, channels: 1, words: samples.to_vec() };
    deep::narrow_u8(&image(&picture)).planes.remove(0).data
}

/// `from_name` on bytes: the operator's place in `CompositeOp::ALL`.
pub fn from_name(name: &[u8]) -> Option<u64> {
    let operator = CompositeOp::from_name(std::str::from_utf8(name).ok()?)?;
    CompositeOp::ALL.iter().position(|op| *op == operator).map(|place| place as u64)
}

/// The names beside the operators' own.
pub const ALIASES: [&str; 13] = [
    "srcover",
    "srcin",
    "srcout",
    "srcatop",
    "copy",
    "replace",
    "none",
    "minus",
    "divide",
    "copyopacity",
    "average",
    "add",
    "subtract",
];

/// The operator's own name.
pub fn name(operator: usize) -> &'static str {
    CompositeOp::ALL[operator].name()
}

/// The 83 names: the operators' own, then the others.
pub fn names() -> impl Iterator<Item = &'static str> {
    (0..CompositeOp::ALL.len()).map(name).chain(ALIASES)
}

pub fn is_map(operator: usize) -> bool {
    CompositeOp::ALL[operator].is_map()
}
