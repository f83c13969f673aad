//! `tray export`.

use anyhow::{ensure, Context, Result};
use clap::{Args, ValueEnum};
use std::path::PathBuf;
use tray_cli::exit::{Ended, Exit};
use tray_cli::picture_file::{format, Format};
use tray_cli::say::{count, say, sides};
use tray_cli::{pfm, png_file, tiff};
use tray_folder::Folder;

#[derive(Args)]
pub struct Export {
    /// The job's folder
    job: PathBuf,
    /// The picture to write: .png (whole numbers), .pfm (floats, without alpha), .tif or .tiff (floats), .raw (the words alone, low byte first). An older one is replaced when the new one is whole
    picture: PathBuf,
    /// 1 gray (0.212656 red + 0.715158 green + 0.072186 blue, as the operators' intensity), 3 colour, 4 colour and alpha; without it a PFM has 3 and each other 4
    #[arg(long)]
    channels: Option<u8>,
    /// The bits of a PNG's sample, 8 without it
    #[arg(long, value_enum)]
    depth: Option<Depth>,
    /// An unfinished job too: the layer being written up to the mark, what is beneath it from there on
    #[arg(long)]
    now: bool,
}

#[derive(Clone, Copy, PartialEq, Eq, ValueEnum)]
enum Depth {
    #[value(name = "8")]
    Eight,
    #[value(name = "16")]
    Sixteen,
}

impl Export {
    pub fn write(self) -> Result<Exit> {
        let name = || self.picture.display().to_string();
        let words = |why: &str| Ended::new(Exit::Words, format!("{}: {why}", name()));
        let format = format(&self.picture).ok_or_else(|| words("pictures are .png, .pfm, .tif, .tiff or .raw"))?;
        let channels = self.channels.map_or(if format == Format::Pfm { 3 } else { 4 }, usize::from);
        ensure!(self.depth.is_none() || format == Format::Png, words("--depth is for .png alone"));
        ensure!(format != Format::Pfm || channels != 4, words("a PFM has 1 or 3 channels"));
        let folder = Folder::open(&self.job)?;
        let picture = if self.now { so_far(&folder)? } else { folder.finished()? };
        // The file is made last: what is refused leaves an older picture of that name as it was.
        let file = self.file(format, folder.width(), folder.height(), channels, &picture)?;
        let size = sides(folder.width(), folder.height());
        // A picture may go to standard output, by a link, and then nothing else does.
        if tray_folder::replace_file(&self.picture, &file).with_context(name)? {
            say(format!("{}: {size}, {}", name(), count(channels as u64, "channel")))?;
        }
        Ok(Exit::Done)
    }

    /// The bytes of the file.
    fn file(&self, format: Format, width: usize, height: usize, channels: usize, picture: &[u32]) -> Result<Vec<u8>> {
        let samples = picture.len() / 4 * channels;
        let name = || self.picture.display().to_string();
        let mut file = vec![];
        if format == Format::Png && self.depth != Some(Depth::Sixteen) {
            let mut bytes = vec![0; samples];
            tray::narrow_bytes(channels as i64, picture, &mut bytes)?;
            png_file::write(&mut file, width, height, channels, png_file::Depth::Eight, &bytes).with_context(name)?;
            return Ok(file);
        }
        let mut words = vec![0; samples];
        tray::narrow(channels as i64, picture, &mut words)?;
        match format {
            Format::Png => {
                let bytes: Vec<u8> = words.iter().flat_map(|w| png_file::sixteen_bits(*w).to_be_bytes()).collect();
                png_file::write(&mut file, width, height, channels, png_file::Depth::Sixteen, &bytes)
                    .with_context(name)?;
            }
            Format::Pfm => pfm::write(&mut file, width, height, channels, &words).with_context(name)?,
            Format::Tiff => tiff::write(&mut file, width, height, channels, &words).with_context(name)?,
            Format::Raw => file = words.iter().flat_map(|word| word.to_le_bytes()).collect(),
        }
        Ok(file)
    }
}

/// The picture as far as it is written, and the one beneath it from there on. A worker may go on meanwhile: as long as
/// it is in the same phase it leaves what is read here as it is, and in the next one it writes over what lies beneath.
fn so_far(folder: &Folder) -> Result<Vec<u32>> {
    let place = || Ok::<_, anyhow::Error>(folder.phase(folder.position()?));
    loop {
        let (phase, pixels) = place()?;
        let mut words = match phase {
            0 => widened(folder.dst()?.list(), folder.channels()),
            k => folder.work_now(k as usize - 1)?,
        };
        let written = 4 * pixels as usize;
        words[..written].copy_from_slice(&folder.work_now(phase as usize)?[..written]);
        if place()?.0 == phase {
            return Ok(words);
        }
    }
}

/// Four channels from one, three or four, alpha 1.
fn widened(words: &[u32], channels: usize) -> Vec<u32> {
    let one = 1.0f32.to_bits();
    let pixel = |p: &[u32]| match *p {
        [gray] => [gray, gray, gray, one],
        [r, g, b] => [r, g, b, one],
        _ => [p[0], p[1], p[2], p[3]],
    };
    words.chunks_exact(channels).flat_map(pixel).collect()
}
