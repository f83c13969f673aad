//! A card's file, and what is said of one that is refused.

use anyhow::{Context, Error, Result};
use std::fs;
use std::path::{Path, PathBuf};
use tray::{Card, CardFault, Fault, Refusal, LAYERS};
use tray_cli::exit::{Ended, Exit};

/// A card whose numbers a job takes, and where it was read.
pub struct CardFile {
    pub path: PathBuf,
    pub card: Card,
}

impl CardFile {
    /// Reads a card. One whose form is right may have a job that is refused, which is told here, before there are samples.
    pub fn read(path: &Path) -> Result<Self> {
        let name = path.display();
        let text = fs::read(path).with_context(|| name.to_string())?;
        let card = Card::read(&text).map_err(|refused| {
            let (fault, line, what) = (Fault::Card, refused.line, wrong(&text, refused));
            let said = format!("{name}: refused: {} {} at line {line}: {what}", fault.number(), fault.word());
            Ended::new(Exit::Refused, said)
        })?;
        let file = CardFile { path: path.to_path_buf(), card };
        match file.card.check() {
            Ok(()) => Ok(file),
            Err(tray::Error::Refused(refusal)) => Err(Error::new(refusal).context(file.place(refusal))),
            Err(environment) => Err(environment.into()),
        }
    }

    /// Where it says what a job's call refuses.
    fn place(&self, Refusal { fault, layer }: Refusal) -> String {
        match fault {
            Fault::Tray => self.line(1),
            fault if fault.has_layer() => self.line(layer + 2),
            _ => self.path.display().to_string(),
        }
    }

    /// The destination's width, height and channels.
    pub fn shape(&self) -> [usize; 3] {
        [self.card.width, self.card.height, self.card.channels].map(|number| number as usize)
    }

    /// A line of it, by its number.
    pub fn line(&self, number: u64) -> String {
        format!("{} line {number}", self.path.display())
    }
}

/// What is wrong with the line that the library refuses, and that line.
fn wrong(text: &[u8], CardFault { line }: CardFault) -> String {
    let lines: Vec<&[u8]> = text.split_inclusive(|byte| *byte == b'\n').collect();
    let refused = match lines.get(line as usize - 1) {
        Some(refused) => *refused,
        None => return "an empty card".to_string(),
    };
    // A line in form is out of place only where it is one layer too many, and then it is one of a card with no other.
    let in_form = line > 1 && Card::read(&[lines[0], refused].concat()).is_ok();
    let what = match refused.ends_with(b"\n") {
        _ if in_form => format!("a layer too many, and a card has at most {LAYERS}"),
        true => "out of form".to_string(),
        false => "out of form, without its line end".to_string(),
    };
    format!("{what}: {}", shown(refused))
}

/// A line in form has fewer bytes.
const LONG: usize = 200;

/// A line in quotation marks, with what cannot be printed escaped. Of a long one the end is left out.
fn shown(line: &[u8]) -> String {
    let line = line.strip_suffix(b"\n").unwrap_or(line);
    match line.get(..LONG) {
        Some(first) => format!("\"{}\" ..", first.escape_ascii()),
        None => format!("\"{}\"", line.escape_ascii()),
    }
}

#[cfg(test)]
mod tests {
    use super::*;

    const TRAY: &str = "(tray 1 2 1 3)\n";
    const LAYER: &str = "(layer over (place 0 3 -2) (flags 62) (source 0 2 1 3) (args 3f000000))\n";

    /// What is said of a text that is no card.
    fn said(text: &str) -> String {
        wrong(text.as_bytes(), Card::read(text.as_bytes()).unwrap_err())
    }

    #[test]
    fn what_is_wrong() {
        let many = TRAY.to_string() + &LAYER.repeat(LAYERS + 1);
        let last = &many[..many.len() - 1];
        for (text, wanted) in [
            ("", "an empty card".to_string()),
            ("\n", "out of form: \"\"".to_string()),
            ("(tray 1 2 1 3)\r\n", "out of form: \"(tray 1 2 1 3)\\r\"".to_string()),
            ("\u{feff}(tray 1 2 1 3)\n", "out of form: \"\\xef\\xbb\\xbf(tray 1 2 1 3)\"".to_string()),
            ("(tray 1 2 1 3)", "out of form, without its line end: \"(tray 1 2 1 3)\"".to_string()),
            (&TRAY.repeat(2)[..], "out of form: \"(tray 1 2 1 3)\"".to_string()),
            (&many[..], format!("a layer too many, and a card has at most 16: \"{}\"", LAYER.trim_end())),
            (last, format!("out of form, without its line end: \"{}\"", LAYER.trim_end())),
            (
                &(many.clone() + "x\n")[..],
                format!("a layer too many, and a card has at most 16: \"{}\"", LAYER.trim_end()),
            ),
            (&"x".repeat(LONG)[..], format!("out of form, without its line end: \"{}\" ..", "x".repeat(LONG))),
        ] {
            assert_eq!(said(text), wanted);
        }
    }

    /// The longest line in form is shown whole.
    #[test]
    fn long_lines() {
        let number = "-9999999999";
        let three = [number; 3].join(" ");
        let args = " ffffffff".repeat(tray::ARGUMENTS);
        for operator in tray::Operator::ALL {
            let line =
                format!("(layer {operator} (place {three}) (flags {number}) (source {three} {number}) (args{args}))\n");
            assert!(line.len() <= LONG && Card::read((TRAY.to_string() + &line).as_bytes()).is_ok(), "{line}");
        }
    }
}
