//! The file of a picture or of samples: its format, which its name ends in, and reading it.

use crate::picture::Picture;
use crate::{pfm, png_file};
use anyhow::{bail, ensure, Context, Result};
use std::path::Path;

#[derive(Clone, Copy, Debug, PartialEq, Eq)]
pub enum Format {
    Png,
    Pfm,
    Tiff,
    Raw,
}

/// The format that a file's name ends in, if it is one of these.
pub fn format(path: &Path) -> Option<Format> {
    match path.extension()?.to_str()?.to_ascii_lowercase().as_str() {
        "png" => Some(Format::Png),
        "pfm" => Some(Format::Pfm),
        "tif" | "tiff" => Some(Format::Tiff),
        "raw" => Some(Format::Raw),
        _ => None,
    }
}

pub fn load(path: &Path) -> Result<Picture> {
    let read = match format(path) {
        Some(Format::Png) => png_file::read,
        Some(Format::Pfm) => pfm::read,
        _ => bail!("{}: pictures are read from .png or .pfm", path.display()),
    };
    let bytes = std::fs::read(path).with_context(|| path.display().to_string())?;
    read(&bytes).with_context(|| path.display().to_string())
}

/// The words of a file of samples: a picture's, row by row, or those of a raw file, low byte first.
pub fn words(path: &Path) -> Result<Vec<u32>> {
    let name = || path.display().to_string();
    match format(path) {
        Some(Format::Png | Format::Pfm) => Ok(load(path)?.words),
        Some(Format::Raw) => {
            let bytes = std::fs::read(path).with_context(name)?;
            ensure!(bytes.len() % 4 == 0, "{}: has {} bytes, and a sample has 4", name(), bytes.len());
            Ok(bytes.chunks_exact(4).map(|b| u32::from_le_bytes([b[0], b[1], b[2], b[3]])).collect())
        }
        _ => bail!("{}: samples are read from .png, .pfm or .raw", name()),
    }
}
