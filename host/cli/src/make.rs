//! `tray make`.

use crate::card_file::CardFile;
use crate::layers::Line;
use crate::layers_file;
use crate::parts::Parts;
use anyhow::{ensure, Context, Result};
use clap::Args;
use std::collections::HashMap;
use std::path::{Path, PathBuf};
use tray::{Layer, Source, Stack};
use tray_cli::exit::{Ended, Exit};
use tray_cli::picture::Picture;
use tray_cli::picture_file::{self, Format};
use tray_cli::say::{count, say, sides};
use tray_folder::Folder;

#[derive(Args)]
pub struct Make {
    /// The folder to make
    job: PathBuf,
    /// The destination: a PNG or PFM picture; with --card also .raw, the words alone, low byte first
    #[arg(long, value_name = "PICTURE", required_unless_present_any = ["on", "from"])]
    tray: Option<PathBuf>,
    /// The destination: the picture of a finished job, with all its bits
    #[arg(long, value_name = "JOB", conflicts_with = "tray")]
    on: Option<PathBuf>,
    /// A layer, lowest first: 'OPERATOR PICTURE [at=RIGHT,DOWN] [gravity=NAME] [channels=rgba] [args=A,B] [window=LEFT,TOP,WIDTH,HEIGHT] [tile] [overlay]'; a name with spaces stands between quotation marks. Off its window, which is in the destination's pixels, a layer leaves everything as it is; without one it may write everywhere. Errors count these from 1, as lines of a file; the job's layers are counted from 0, as the library counts them
    #[arg(long = "layer", value_name = "LINE")]
    layer: Vec<String>,
    /// A file with a layer a line, as for --layer and after those; pictures are looked for beside it; lines that begin with # are notes, blank lines nothing
    #[arg(long, value_name = "FILE")]
    layers: Option<PathBuf>,
    /// The layers: a card, which `tray card --help` describes. The destination has the card's sides and channels, and its sources lie in --samples. Its layers have no windows, and may write everywhere
    #[arg(long, value_name = "FILE", conflicts_with_all = ["layer", "layers"])]
    card: Option<PathBuf>,
    /// The samples of a card's sources: .png or .pfm pictures, row by row, or .raw, the words alone, low byte first; several follow each other in this order
    #[arg(long, value_name = "FILE", requires = "card")]
    samples: Vec<PathBuf>,
    /// The destination and the samples for a card: those of another job
    #[arg(long, value_name = "JOB", requires = "card", conflicts_with_all = ["tray", "on", "samples"])]
    from: Option<PathBuf>,
}

impl Make {
    pub fn make(self) -> Result<Exit> {
        let parts = match &self.card {
            Some(path) => self.of_card(CardFile::read(path)?)?,
            None => self.of_layers()?,
        };
        parts.make(&self.job)?;
        let (job, size) = (self.job.display(), sides(parts.dst.width, parts.dst.height));
        say(format!("{job}: {size}, {}", count(parts.stack.layers() as u64, "layer")))?;
        Ok(Exit::Done)
    }

    /// From layers with a picture each.
    fn of_layers(&self) -> Result<Parts> {
        let (dst, tray) = self.destination(None)?;
        let mut sources = Sources::default();
        let lines = self.lines()?;
        let layers = lines.iter().map(|line| sources.place(line)).collect::<Result<Vec<Layer>>>()?;
        let name = |line: &Line| format!("{} {}", line.operator, line.picture.display());
        Ok(Parts {
            dst,
            tray,
            stack: Stack::new(&layers),
            names: lines.iter().map(name).collect(),
            places: lines.into_iter().map(|line| line.place).collect(),
            samples: sources.samples,
        })
    }

    /// From a card, whose sources lie in the samples.
    fn of_card(&self, file: CardFile) -> Result<Parts> {
        let (dst, tray) = self.destination(Some(file.shape()))?;
        let (has, says) = ([dst.width, dst.height, dst.channels], file.shape());
        ensure!(has == says, "{tray}: {}, and {} has {}", in_words(has), file.line(1), in_words(says));
        let samples = self.samples()?;
        let (mut names, mut places) = (vec![], vec![]);
        for (layer, number) in file.card.to_layers()?.iter().zip(2..) {
            let (line, end) = (file.line(number), layer.source.end());
            names.push(format!("{}, {line}", layer.operator));
            // All else was asked when the card was read.
            places.push(format!("{line}: its source ends at sample {end}, and there are {}", samples.len()));
        }
        Ok(Parts { dst, tray, stack: file.card.stack, names, places, samples })
    }

    /// The destination and where it comes from. Raw words have the width, height and channels that a card says.
    fn destination(&self, shape: Option<[usize; 3]>) -> Result<(Picture, String)> {
        let (path, picture) = match (&self.tray, &self.on, &self.from) {
            (Some(path), ..) => match shape {
                Some(shape) if picture_file::format(path) == Some(Format::Raw) => (path, raw(path, shape)?),
                _ => (path, picture_file::load(path)?),
            },
            (None, Some(path), _) => {
                let below = Folder::open(path)?;
                let words = below.finished()?;
                (path, Picture { width: below.width(), height: below.height(), channels: 4, words })
            }
            (None, None, Some(path)) => {
                let other = Folder::open(path)?;
                let words = other.dst()?.list().to_vec();
                let (width, height, channels) = (other.width(), other.height(), other.channels());
                (path, Picture { width, height, channels, words })
            }
            (None, None, None) => unreachable!("clap asks for one of them"),
        };
        Ok((picture, path.display().to_string()))
    }

    /// The samples of a card's sources.
    fn samples(&self) -> Result<Vec<u32>> {
        match &self.from {
            Some(path) => Ok(Folder::open(path)?.samples()?.list().to_vec()),
            None => Ok(self.samples.iter().map(|path| picture_file::words(path)).collect::<Result<Vec<_>>>()?.concat()),
        }
    }

    fn lines(&self) -> Result<Vec<Line>> {
        let mut lines = vec![];
        for (k, text) in self.layer.iter().enumerate() {
            let place = format!("--layer number {}", k + 1);
            lines.push(Line::read(text, &place).with_context(|| Ended::new(Exit::Words, &place))?);
        }
        if let Some(path) = &self.layers {
            lines.extend(layers_file::read(path)?);
        }
        Ok(lines)
    }
}

/// A picture's width, height and channels.
fn in_words([width, height, channels]: [usize; 3]) -> String {
    format!("{}, {}", sides(width, height), count(channels as u64, "channel"))
}

/// The raw words of a picture.
fn raw(path: &Path, shape: [usize; 3]) -> Result<Picture> {
    let words = picture_file::words(path)?;
    let [width, height, channels] = shape;
    let (has, wanted) = (words.len(), width * height * channels);
    ensure!(has == wanted, "{}: {has} samples, and {} have {wanted}", path.display(), in_words(shape));
    Ok(Picture { width, height, channels, words })
}

/// The sources' samples, each file's once.
#[derive(Default)]
struct Sources {
    samples: Vec<u32>,
    places: HashMap<PathBuf, Source>,
}

impl Sources {
    fn place(&mut self, line: &Line) -> Result<Layer> {
        let source = match self.places.get(&line.picture) {
            Some(source) => *source,
            None => self.load(&line.picture).with_context(|| line.place.clone())?,
        };
        Ok(Layer { source, ..line.layer.clone() })
    }

    fn load(&mut self, path: &Path) -> Result<Source> {
        let picture = picture_file::load(path)?;
        let source = Source {
            first: self.samples.len() as i64,
            width: picture.width as i64,
            height: picture.height as i64,
            channels: picture.channels as i64,
        };
        self.samples.extend(picture.words);
        self.places.insert(path.to_path_buf(), source);
        Ok(source)
    }
}
