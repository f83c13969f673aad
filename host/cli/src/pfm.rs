//! PFM, the portable float map: `PF` (three channels) or `Pf` (gray), sides, a scale whose sign is the byte order, then
//! rows from the lowest up. No crate of Debian's reads it. A file's scale is not applied.

use crate::picture::Picture;
use crate::say::{count, sides};
use anyhow::{bail, ensure, Context, Result};

/// The header's next word, after any spaces, and what follows the one byte after it.
fn token(bytes: &[u8]) -> Result<(&str, &[u8])> {
    let start = bytes.iter().position(|b| !b.is_ascii_whitespace()).unwrap_or(0);
    let end = bytes[start..].iter().position(u8::is_ascii_whitespace).context("a PFM that ends in its header")?;
    let word = std::str::from_utf8(&bytes[start..start + end]).ok().context("a PFM whose header is no text")?;
    // The second byte of such a line end would be taken for a sample's first.
    ensure!(!bytes[..=start + end].contains(&b'\r'), "a PFM whose header has CR LF line ends; LF alone is expected");
    Ok((word, &bytes[start + end + 1..]))
}

fn side(text: &str) -> Result<usize> {
    text.parse().ok().with_context(|| format!("`{text}` is no side of a PFM; a whole number is expected, 0 or more"))
}

/// Whether the low byte comes first, which a scale says by its sign.
fn low_byte_first(text: &str) -> Result<bool> {
    let scale = text.parse().ok().filter(|scale: &f32| scale.is_finite() && *scale != 0.0);
    let expected = "a number that is not 0 is expected, below 0 for samples with the low byte first";
    scale.map(|scale| scale < 0.0).with_context(|| format!("`{text}` is no scale of a PFM; {expected}"))
}

pub fn read(bytes: &[u8]) -> Result<Picture> {
    ensure!(bytes.starts_with(b"P"), "not a PFM, which begins with PF or Pf");
    let (kind, rest) = token(bytes)?;
    let channels = match kind {
        "PF" => 3,
        "Pf" => 1,
        _ => bail!("not a PFM, which begins with PF or Pf"),
    };
    let (width, rest) = token(rest)?;
    let (height, rest) = token(rest)?;
    let (scale, data) = token(rest)?;
    let (width, height, low_first) = (side(width)?, side(height)?, low_byte_first(scale)?);
    let row = width.checked_mul(channels);
    let wanted = row.and_then(|row| row.checked_mul(height)).and_then(|samples| samples.checked_mul(4));
    let wanted = wanted.with_context(|| format!("a PFM of {width} x {height} pixels is too large"))?;
    let size = || format!("{} and {}", sides(width, height), count(channels as u64, "channel"));
    ensure!(data.len() == wanted, "a PFM of {} has {wanted} bytes of samples, not {}", size(), data.len());
    let word = |b: &[u8]| {
        let b = [b[0], b[1], b[2], b[3]];
        if low_first {
            u32::from_le_bytes(b)
        } else {
            u32::from_be_bytes(b)
        }
    };
    let words: Vec<u32> = data.chunks_exact(4).map(word).collect();
    Ok(Picture { width, height, channels, words: upside_down(&words, width * channels) })
}

/// Words of 1 or 3 channels as a PFM.
pub fn write(mut out: impl std::io::Write, width: usize, height: usize, channels: usize, words: &[u32]) -> Result<()> {
    let kind = if channels == 1 { "Pf" } else { "PF" };
    write!(out, "{kind}\n{width} {height}\n-1.0\n")?;
    let data: Vec<u8> = upside_down(words, width * channels).iter().flat_map(|w| w.to_le_bytes()).collect();
    out.write_all(&data)?;
    Ok(())
}

fn upside_down(words: &[u32], row: usize) -> Vec<u32> {
    match row {
        0 => vec![],
        _ => words.chunks_exact(row).rev().flatten().copied().collect(),
    }
}

#[cfg(test)]
mod tests {
    use super::*;

    #[test]
    fn there_and_back() {
        for channels in [1, 3] {
            let words: Vec<u32> = (0..2 * 3 * channels as u32).map(|n| n * 0x0101_0101).collect();
            let picture = Picture { width: 2, height: 3, channels, words };
            let mut file = vec![];
            write(&mut file, 2, 3, channels, &picture.words).unwrap();
            assert_eq!(read(&file).unwrap(), picture);
        }
    }

    #[test]
    fn high_byte_first() {
        let picture = read(b"Pf 1 2 1.0\n\x3f\x80\0\0\x40\0\0\0").unwrap();
        assert_eq!(picture.words, [2.0f32.to_bits(), 1.0f32.to_bits()]);
    }

    /// A first sample may begin with the bytes of line ends and spaces.
    #[test]
    fn samples_that_look_like_space() {
        assert_eq!(read(b"Pf\n\n 1\t1\n-1\n\n\r \n").unwrap().words, [u32::from_le_bytes(*b"\n\r \n")]);
    }

    #[test]
    fn broken_files() {
        for (broken, wanted) in [
            (&b"P6\n1 1\n1\n"[..], "not a PFM"),
            (b"", "not a PFM"),
            (b"Pf\n1 1\n", "a PFM that ends in its header"),
            (b"Pf\n1 \xff\n1\n", "a PFM whose header is no text"),
            (b"Pf\r\n1 1\r\n-1.0\r\n\0\0\0\0", "a PFM whose header has CR LF line ends"),
            (b"Pf\n1 1\n-1.0\r\n\0\0\0\0", "a PFM whose header has CR LF line ends"),
            (b"Pf\n-1 1\n-1\n\0\0\0\0", "`-1` is no side"),
            (b"Pf\n1 1.5\n-1\n\0\0\0\0", "`1.5` is no side"),
            (b"Pf\n1 1\n0\n\0\0\0\0", "`0` is no scale"),
            (b"Pf\n1 1\nnan\n\0\0\0\0", "`nan` is no scale"),
            (b"Pf\n1 1\n-inf\n\0\0\0\0", "`-inf` is no scale"),
            (b"Pf\n1 1\n-1\n\0\0\0", "a PFM of 1 x 1 pixel and 1 channel has 4 bytes of samples, not 3"),
            (b"PF\n2 1\n-1\n\0", "a PFM of 2 x 1 pixels and 3 channels has 24 bytes of samples, not 1"),
            (b"Pf 9999999999999999999 1 1 ", "a PFM of 9999999999999999999 x 1 pixels is too large"),
            (b"Pf 99999999999999999999 1 1 ", "`99999999999999999999` is no side"),
        ] {
            let said = format!("{:#}", read(broken).unwrap_err());
            assert!(said.starts_with(wanted), "{said}");
        }
    }
}
