//! A file of layers: one a line, lowest first, as layers.rs has them. Blank lines, and those that begin with # after
//! any spaces, are no layers. A byte order mark and line ends with a carriage return, as other systems write them, are
//! taken. Pictures are looked for beside the file.

use crate::layers::Line;
use anyhow::{Context, Result};
use std::fs;
use std::path::Path;

pub fn read(path: &Path) -> Result<Vec<Line>> {
    let bytes = fs::read(path).with_context(|| path.display().to_string())?;
    let beside = path.parent().unwrap_or_else(|| Path::new(""));
    let place = |n: usize| format!("{} line {}", path.display(), n + 1);
    let mut lines = vec![];
    for (n, text) in bytes.strip_prefix(b"\xef\xbb\xbf").unwrap_or(&bytes).split(|byte| *byte == b'\n').enumerate() {
        let text = std::str::from_utf8(text).ok().context("not UTF-8").with_context(|| place(n))?.trim();
        if !text.is_empty() && !text.starts_with('#') {
            let mut line = Line::read(text, &place(n)).with_context(|| place(n))?;
            line.picture = beside.join(&line.picture);
            lines.push(line);
        }
    }
    Ok(lines)
}
