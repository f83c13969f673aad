//! TIFF of 32-bit floats, uncompressed, in one strip, low byte first: all bits of each word are kept. Alpha is an extra
//! sample that the colours are not multiplied with. No crate of Debian 12's writes it for four channels.

use anyhow::{ensure, Result};

/// The types of a field's values.
const SHORT: u16 = 3;
const LONG: u16 = 4;
const RATIONAL: u16 = 5;

/// The bytes of the header, of a field, and of what a directory has besides its fields.
const HEADER: usize = 8;
const FIELD: usize = 12;
const AROUND: usize = 6;

/// A field of the directory: its tag, type and values.
struct Field(u16, u16, Vec<u32>);

impl Field {
    fn bytes(&self) -> Vec<u8> {
        match self.1 {
            SHORT => self.2.iter().flat_map(|v| (*v as u16).to_le_bytes()).collect(),
            _ => self.2.iter().flat_map(|v| v.to_le_bytes()).collect(),
        }
    }

    /// A rational number is two values.
    fn count(&self) -> u32 {
        self.2.len() as u32 / if self.1 == RATIONAL { 2 } else { 1 }
    }
}

/// The fields that a reader needs, by rising tags. `first` is where the samples begin.
fn fields(width: usize, height: usize, channels: usize, first: usize) -> Vec<Field> {
    let each = |value: u32| vec![value; channels];
    let mut fields = vec![
        Field(256, LONG, vec![width as u32]),
        Field(257, LONG, vec![height as u32]),
        Field(258, SHORT, each(32)),                                // bits a sample
        Field(259, SHORT, vec![1]),                                 // not compressed
        Field(262, SHORT, vec![if channels == 1 { 1 } else { 2 }]), // gray from black to white, or red, green, blue
        Field(273, LONG, vec![first as u32]),                       // the strip's place
        Field(277, SHORT, vec![channels as u32]),
        Field(278, LONG, vec![height as u32]), // the strip's rows
        Field(279, LONG, vec![(4 * width * height * channels) as u32]), // the strip's bytes
        Field(282, RATIONAL, vec![1, 1]),      // across and down, as wide as high
        Field(283, RATIONAL, vec![1, 1]),
        Field(296, SHORT, vec![1]), // without a unit
    ];
    if channels == 4 {
        fields.push(Field(338, SHORT, vec![2])); // the extra sample is alpha, not multiplied
    }
    fields.push(Field(339, SHORT, each(3))); // floats
    fields
}

/// Words of 1, 3 or 4 channels as a TIFF: the header, the directory, the values that do not fit into it, the samples.
pub fn write(mut out: impl std::io::Write, width: usize, height: usize, channels: usize, words: &[u32]) -> Result<()> {
    ensure!(width > 0 && height > 0, "a TIFF has at least one pixel");
    let place = |first: usize| {
        let fields = fields(width, height, channels, first);
        let mut directory = (fields.len() as u16).to_le_bytes().to_vec();
        let mut beyond = vec![];
        for field in &fields {
            let mut value = field.bytes();
            if value.len() > 4 {
                let at = HEADER + AROUND + FIELD * fields.len() + beyond.len();
                beyond.extend(std::mem::replace(&mut value, (at as u32).to_le_bytes().to_vec()));
            }
            value.resize(4, 0);
            directory.extend(field.0.to_le_bytes());
            directory.extend(field.1.to_le_bytes());
            directory.extend(field.count().to_le_bytes());
            directory.extend(value);
        }
        directory.extend([0; 4]); // no other directory
        beyond.extend([0; 2]); // the samples lie at a multiple of their size
        [b"II\x2a\0\x08\0\0\0".to_vec(), directory, beyond].concat()
    };
    // The length does not depend on the number that is put in.
    out.write_all(&place(place(0).len()))?;
    Ok(out.write_all(&words.iter().flat_map(|word| word.to_le_bytes()).collect::<Vec<u8>>())?)
}

#[cfg(test)]
mod tests {
    use super::*;

    fn number(bytes: &[u8]) -> usize {
        bytes.iter().rev().fold(0, |n, byte| n << 8 | *byte as usize)
    }

    /// The values of a tag, read as the TIFF 6.0 document says.
    fn values(file: &[u8], tag: usize) -> Vec<usize> {
        let directory = number(&file[4..8]);
        let fields = number(&file[directory..directory + 2]);
        let field = |k: usize| &file[directory + 2 + 12 * k..directory + 14 + 12 * k];
        let field = (0..fields).map(field).find(|field| number(&field[..2]) == tag).unwrap();
        let size = if number(&field[2..4]) == 3 { 2 } else { 4 };
        let count = number(&field[4..8]);
        let at = number(&field[8..]);
        let bytes = if size * count <= 4 { &field[8..8 + size * count] } else { &file[at..at + size * count] };
        bytes.chunks(size).map(number).collect()
    }

    #[test]
    fn there_and_back() {
        for channels in [1, 3, 4] {
            let words: Vec<u32> = (0..6 * channels as u32).map(|n| 0x7fc0_0001 + n * 0x0101_0101).collect();
            let mut file = vec![];
            write(&mut file, 3, 2, channels, &words).unwrap();
            let value = |tag| values(&file, tag)[0];
            assert_eq!((value(256), value(257), value(277), value(278)), (3, 2, channels, 2));
            assert_eq!((values(&file, 258), values(&file, 339)), (vec![32; channels], vec![3; channels]));
            let strip = &file[value(273)..];
            assert_eq!((strip.len(), value(273) % 4), (value(279), 0));
            assert_eq!(strip.chunks(4).map(|word| number(word) as u32).collect::<Vec<_>>(), words);
        }
        let mut file = vec![];
        write(&mut file, 1, 1, 4, &[0; 4]).unwrap();
        assert_eq!(values(&file, 338), [2]);
        assert!(write(&mut file, 0, 1, 4, &[]).is_err());
    }
}
