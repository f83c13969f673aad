//! `tray card`: jobs as text.

use crate::card_file::CardFile;
use anyhow::{Context, Result};
use clap::Subcommand;
use std::path::{Path, PathBuf};
use tray::{Card, Stack};
use tray_cli::exit::Exit;
use tray_cli::say::{count, say, sides};
use tray_folder::Folder;

/// What a card looks like, for the help.
pub const FORM: &str = "\
A card has one form a line, single spaces, and a line feed after each line, the last one too:

  (tray 1 2 1 3)
  (layer over (place 0 3 -2) (flags 62) (source 0 2 1 3) (args 3f000000))

  tray    the edition, 1; then the destination's width, height and channels
  layer   one for each layer, the lowest first; its operator, by a name that `tray operators` lists, letter for letter
  place   gravity (0 or 1 northwest, 2 north, 3 northeast, 4 west, 5 centre, 6 east, 7 southwest, 8 south, 9 southeast);
          then right and down, in pixels
  flags   the sum of 1 tile, 2 overlay, 4 red, 8 green, 16 blue, 32 alpha
  source  its first sample, counted from 0; then its width, height and channels
  args    none to four arguments, each as the eight hexadecimal digits of its bits (3f000000 is 0.5)

A card has no windows: its layers may write everywhere, and a job with a layer that may not has no card.";

#[derive(Subcommand)]
pub enum CardAction {
    /// Check a card's form, and its numbers as a job does; say what it holds, with the samples that its sources reach
    Check {
        /// The card
        #[arg(value_name = "FILE")]
        file: PathBuf,
    },
    /// Print a job's card on standard output
    Print {
        /// The job's folder
        job: PathBuf,
    },
}

impl CardAction {
    pub fn act(self) -> Result<Exit> {
        match self {
            CardAction::Check { file } => check(&file),
            CardAction::Print { job } => print(&job),
        }
    }
}

fn check(path: &Path) -> Result<Exit> {
    let file = CardFile::read(path)?;
    let [width, height, channels] = file.shape();
    let layers = file.card.to_layers()?;
    let samples = layers.iter().map(|layer| layer.source.end()).max().unwrap_or(0);
    say(format!(
        "{}: {}, {}, {}, {}",
        path.display(),
        sides(width, height),
        count(channels as u64, "channel"),
        count(layers.len() as u64, "layer"),
        count(samples as u64, "sample"),
    ))?;
    Ok(Exit::Done)
}

/// What is printed the library has read back as this job (`to_text`).
fn print(job: &Path) -> Result<Exit> {
    let folder = Folder::open(job)?;
    let [width, height, channels] = [folder.width(), folder.height(), folder.channels()].map(|n| n as i64);
    let stack = Stack { table: folder.table()?, args: folder.args()?.list().to_vec() };
    let card = Card { width, height, channels, stack };
    let text = card.to_text().with_context(|| format!("{}: no card says this job", job.display()))?;
    say(text.trim_end_matches('\n'))?;
    Ok(Exit::Done)
}

#[cfg(test)]
mod tests {
    use super::*;
    use tray::{Flags, Gravity};

    /// The help's card is one, and its numbers are the library's.
    #[test]
    fn the_form() {
        let shown: String =
            FORM.lines().filter_map(|line| line.strip_prefix("  (")).map(|l| format!("({l}\n")).collect();
        assert_eq!(Card::read(shown.as_bytes()).unwrap().to_text().unwrap(), shown);
        assert_eq!(0.5f32.to_bits(), 0x3f00_0000);
        for gravity in &Gravity::ALL[1..] {
            assert!(FORM.contains(&format!("{} {gravity}", gravity.number())), "{gravity}");
        }
        for (number, name) in [1, 2, 4, 8, 16, 32].iter().zip(["tile", "overlay", "red", "green", "blue", "alpha"]) {
            let Flags { tile, overlay, channels: [red, green, blue, alpha] } = Flags::try_from(*number).unwrap();
            let on = [
                ("tile", tile),
                ("overlay", overlay),
                ("red", red),
                ("green", green),
                ("blue", blue),
                ("alpha", alpha),
            ];
            assert!(on.iter().all(|(flag, on)| *on == (*flag == name)) && FORM.contains(&format!("{number} {name}")));
        }
        assert!(FORM.lines().all(|line| line.chars().count() <= 120));
    }
}
