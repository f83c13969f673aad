//! PNG. A sample of 8 or 16 bits is read as the fraction of its largest value.

use crate::picture::Picture;
use crate::say::count;
use anyhow::{bail, ensure, Context, Result};
use png::{AdaptiveFilterType, ColorType, Compression, Decoder, Encoder, FilterType, Info, Transformations};
use tray::SIDE;

pub use png::BitDepth as Depth;

const BROKEN: &str = "a broken PNG";
const ONE_PIXEL: &str = "a PNG has at least one pixel";

pub fn read(bytes: &[u8]) -> Result<Picture> {
    let indexed = Decoder::new(bytes).read_info().context(BROKEN)?.info().color_type == ColorType::Indexed;
    let mut decoder = Decoder::new(bytes);
    // Fewer than 8 bits become 8 bits a sample, a transparent colour becomes alpha. A palette is looked up here, since the
    // decoder would take an index outside it for black.
    decoder.set_transformations(if indexed { Transformations::IDENTITY } else { Transformations::EXPAND });
    let mut reader = decoder.read_info().context(BROKEN)?;
    // A file of a few bytes may say that it is of any size; what the library would refuse anyway is not made room for.
    let (width, height) = reader.info().size();
    ensure!(width.max(height) as u64 <= SIDE, "{width} x {height} pixels, and a side has at most {SIDE}");
    ensure!(width.min(height) > 0, "{width} x {height} pixels, and {ONE_PIXEL}");
    let mut data = vec![0; reader.output_buffer_size()];
    let frame = reader.next_frame(&mut data).context(BROKEN)?;
    data.truncate(frame.buffer_size());
    let (mut colour, mut depth) = (frame.color_type, frame.bit_depth);
    if indexed {
        data = looked_up(reader.info(), &data, (frame.width as usize, frame.line_size))?;
        colour = if reader.info().trns.is_some() { ColorType::Rgba } else { ColorType::Rgb };
        depth = Depth::Eight;
    }
    let samples: Vec<f32> = match depth {
        Depth::Eight => data.iter().map(|v| *v as f32 / 255.0).collect(),
        Depth::Sixteen => data.chunks_exact(2).map(|v| u16::from_be_bytes([v[0], v[1]]) as f32 / 65535.0).collect(),
        depth => bail!("a PNG of {depth:?} bits a sample"),
    };
    let (channels, samples) = match colour {
        ColorType::Grayscale => (1, samples),
        ColorType::Rgb => (3, samples),
        ColorType::Rgba => (4, samples),
        ColorType::GrayscaleAlpha => (4, samples.chunks_exact(2).flat_map(|v| [v[0], v[0], v[0], v[1]]).collect()),
        colour => bail!("a PNG of {colour:?} colour"),
    };
    let words = samples.iter().map(|v| v.to_bits()).collect();
    Ok(Picture { width: frame.width as usize, height: frame.height as usize, channels, words })
}

/// The colours of an indexed picture, and their alphas if it has any. A row has `width` indices in `line` bytes; those of 1,
/// 2 or 4 bits begin at each byte's high end.
fn looked_up(info: &Info, rows: &[u8], (width, line): (usize, usize)) -> Result<Vec<u8>> {
    let palette: Vec<&[u8]> = info.palette.as_deref().context("a PNG without its palette")?.chunks_exact(3).collect();
    let alphas = info.trns.as_deref();
    ensure!(alphas.map_or(0, <[u8]>::len) <= palette.len(), "a PNG with more alphas than colours in its palette");
    let bits = info.bit_depth as usize;
    let mut bytes = vec![];
    for (y, row) in rows.chunks_exact(line).enumerate() {
        for x in 0..width {
            let shift = 8 - bits - x * bits % 8;
            let index = (row[x * bits / 8] >> shift) as usize & ((1 << bits) - 1);
            let colours = || count(palette.len() as u64, "colour");
            let outside = || format!("pixel {x},{y} has index {index}, outside the palette of {}", colours());
            bytes.extend(*palette.get(index).with_context(outside)?);
            bytes.extend(alphas.map(|alphas| alphas.get(index).copied().unwrap_or(255)));
        }
    }
    Ok(bytes)
}

/// Samples of 1, 3 or 4 channels and of 8 or 16 bits, those with the high byte first, as a PNG.
pub fn write(
    out: impl std::io::Write,
    width: usize,
    height: usize,
    channels: usize,
    depth: Depth,
    bytes: &[u8],
) -> Result<()> {
    ensure!(width > 0 && height > 0, ONE_PIXEL);
    let mut encoder = Encoder::new(out, width as u32, height as u32);
    encoder.set_depth(depth);
    encoder.set_color(match channels {
        1 => ColorType::Grayscale,
        3 => ColorType::Rgb,
        _ => ColorType::Rgba,
    });
    encoder.set_compression(Compression::Best);
    encoder.set_filter(FilterType::Paeth);
    encoder.set_adaptive_filter(AdaptiveFilterType::Adaptive);
    encoder.write_header()?.write_image_data(bytes)?;
    Ok(())
}

/// A sample as 16 bits: clamped to 0 to 1, times 65535, rounded, halves up; of a NaN 0. This is the library's rule for
/// bytes with another factor; a product of 40 bits is exact in an f64.
pub fn sixteen_bits(word: u32) -> u16 {
    (f64::from(f32::from_bits(word)).clamp(0.0, 1.0) * 65535.0).round() as u16
}

#[cfg(test)]
mod tests {
    use super::*;

    /// Two rows of five indices, 0 and 1, of some bits each, with a palette of some colours.
    fn indexed(depth: Depth, alphas: Option<&[u8]>, colours: u8) -> Result<Picture> {
        let indices: [[u8; 5]; 2] = [[0, 1, 0, 1, 1], [1, 0, 0, 0, 1]];
        let bits = depth as usize;
        let mut rows = vec![];
        for row in indices {
            let mut packed = vec![0; (0..5 * bits).step_by(8).len()];
            for (x, index) in row.iter().enumerate() {
                packed[x * bits / 8] |= index << (8 - bits - x * bits % 8);
            }
            rows.extend(packed);
        }
        let mut file = vec![];
        let mut encoder = Encoder::new(&mut file, 5, 2);
        encoder.set_color(ColorType::Indexed);
        encoder.set_depth(depth);
        encoder.set_palette((0..3 * colours).map(|v| 51 * v).collect::<Vec<u8>>());
        if let Some(alphas) = alphas {
            encoder.set_trns(alphas.to_vec());
        }
        encoder.write_header()?.write_image_data(&rows)?;
        read(&file)
    }

    #[test]
    fn palettes() {
        for depth in [Depth::One, Depth::Two, Depth::Four, Depth::Eight] {
            let picture = indexed(depth, None, 2).unwrap();
            let reds: Vec<f32> = picture.words.chunks(3).map(|pixel| f32::from_bits(pixel[0])).collect();
            assert_eq!(reds, [0.0, 0.6, 0.0, 0.6, 0.6, 0.6, 0.0, 0.0, 0.0, 0.6]);
            let picture = indexed(depth, Some(&[0]), 2).unwrap();
            let alphas: Vec<f32> = picture.words.chunks(4).map(|pixel| f32::from_bits(pixel[3])).collect();
            assert_eq!(alphas, [0.0, 1.0, 0.0, 1.0, 1.0, 1.0, 0.0, 0.0, 0.0, 1.0]);
            let said = indexed(depth, None, 1).unwrap_err().to_string();
            assert_eq!(said, "pixel 1,0 has index 1, outside the palette of 1 colour");
        }
        assert!(indexed(Depth::Eight, Some(&[0; 3]), 2).is_err());
    }

    #[test]
    fn sixteen_bits_are_rounded_halves_up() {
        let half = |n: u32| ((f64::from(n) + 0.5) / 65535.0) as f32;
        for n in [0, 1, 255, 256, 32767, 65534] {
            // The floats next to a half, or to what it is as a float, lie on both sides of it.
            let below = f32::from_bits(half(n).to_bits() - 1);
            let above = f32::from_bits(half(n).to_bits() + 1);
            assert_eq!([below, above].map(|v| u32::from(sixteen_bits(v.to_bits()))), [n, n + 1]);
            assert_eq!(u32::from(sixteen_bits((n as f32 / 65535.0).to_bits())), n);
        }
        // A product that lies just below a half, and that an f32 would round to it.
        assert_eq!([0x3700_0080, 0x3f00_0100, 0x3f7f_7f7f].map(sixteen_bits), [0, 32768, 65406]);
        let other = [0.5, -1.0, -0.0, 2.0, f32::INFINITY, f32::NEG_INFINITY, f32::NAN, 1e-40];
        assert_eq!(other.map(|v| sixteen_bits(v.to_bits())), [32768, 0, 0, 65535, 65535, 0, 0, 0]);
    }

    #[test]
    fn cut_files() {
        let mut file = vec![];
        write(&mut file, 3, 2, 4, Depth::Sixteen, &[7; 48]).unwrap();
        let picture = read(&file).unwrap();
        assert_eq!((picture.width, picture.height, picture.channels), (3, 2, 4));
        for length in 0..file.len() - 12 {
            assert!(format!("{:#}", read(&file[..length]).unwrap_err()).starts_with("a broken PNG: "), "{length}");
        }
    }
}
