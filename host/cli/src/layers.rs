//! A layer as a line of text:
//!
//!     OPERATOR PICTURE [at=RIGHT,DOWN] [gravity=NAME] [channels=rgba] [args=A,B,..] [window=LEFT,TOP,WIDTH,HEIGHT] [tile]
//!         [overlay]
//!
//! The operator is any name that the library knows, such as over or soft-light. `channels` are the ones written; `window` has the
//! destination's pixels that may be. A word with spaces in it, such as a picture's name, stands between quotation marks:
//! "well 7.png".

use anyhow::{bail, ensure, Context, Result};
use std::path::PathBuf;
use std::str::FromStr;
use tray::{Layer, Operator, Source, Window, ARGUMENTS};

/// A layer, its operator as it was spelled, and the file of its source.
#[derive(Debug, PartialEq)]
pub struct Line {
    pub layer: Layer,
    pub operator: String,
    pub picture: PathBuf,
    /// Where it was written, for errors.
    pub place: String,
}

const OPTIONS: &str =
    "at=RIGHT,DOWN, gravity=NAME, channels=rgba, args=A,B, window=LEFT,TOP,WIDTH,HEIGHT, tile and overlay";

/// The words of a line, those in quotation marks without them.
fn words(line: &str) -> Result<Vec<&str>> {
    let space = |c: char| c.is_ascii_whitespace();
    let mut words = vec![];
    let mut rest = line.trim_start_matches(space);
    while !rest.is_empty() {
        let (word, after) = match rest.strip_prefix('"') {
            Some(quoted) => quoted.split_once('"').context("a quotation mark without its second one")?,
            None => rest.split_at(rest.find(space).unwrap_or(rest.len())),
        };
        ensure!(!word.contains('\n'), "a line end between quotation marks");
        ensure!(after.is_empty() || after.starts_with(space), "no space after \"{word}\"");
        words.push(word);
        rest = after.trim_start_matches(space);
    }
    Ok(words)
}

fn numbers<T: FromStr>(list: &str) -> Result<Vec<T>> {
    let number = |text: &str| text.parse().ok().with_context(|| format!("`{text}` is no number here"));
    if list.is_empty() {
        return Ok(vec![]);
    }
    list.split(',').map(number).collect()
}

fn channels(letters: &str) -> Result<[bool; 4]> {
    for (n, c) in letters.char_indices() {
        ensure!("rgba".contains(c), "channels are r, g, b and a, not `{c}`");
        ensure!(!letters[..n].contains(c), "channels={letters} has {c} twice");
    }
    Ok(['r', 'g', 'b', 'a'].map(|c| letters.contains(c)))
}

fn option(layer: &mut Layer, word: &str) -> Result<()> {
    match word.split_once('=') {
        None if word == "tile" => layer.flags.tile = true,
        None if word == "overlay" => layer.flags.overlay = true,
        Some(("at", list)) => match numbers(list)?[..] {
            [right, down] => layer.offset = (right, down),
            _ => bail!("at has two numbers: right,down"),
        },
        Some(("gravity", name)) => layer.gravity = name.parse()?,
        Some(("channels", letters)) => layer.flags.channels = channels(letters)?,
        Some(("args", list)) => layer.arguments = numbers(list)?,
        Some(("window", list)) => match numbers(list)?[..] {
            [left, top, width, height] => layer.window = Window { left, top, width, height },
            _ => bail!("window has four numbers: left,top,width,height"),
        },
        _ => bail!("`{word}` is no option of a layer; there are {OPTIONS}"),
    }
    Ok(())
}

/// Takes the options in turn, each at most once.
fn options(layer: &mut Layer, words: &[&str]) -> Result<()> {
    let name = |word: &str| word.split('=').next().unwrap_or_default().to_string();
    for (n, word) in words.iter().enumerate() {
        option(layer, word)?;
        ensure!(words[..n].iter().all(|w| name(w) != name(word)), "{} is given twice", name(word));
    }
    Ok(())
}

impl Line {
    /// Reads a line that was written at `place`; its errors do not say the place.
    pub fn read(line: &str, place: &str) -> Result<Self> {
        let words = words(line)?;
        let name = words.first().context("a layer begins with its operator")?;
        let picture = words.get(1).context("a layer names its picture after its operator")?;
        let operator: Operator = name.parse().with_context(|| name.to_string())?;
        let nowhere = Source { first: 0, width: 0, height: 0, channels: 4 };
        let mut layer = Layer::new(operator, nowhere);
        options(&mut layer, &words[2..])?;
        ensure!(layer.arguments.len() <= ARGUMENTS, tray::Fault::Arguments);
        Ok(Line { layer, operator: name.to_string(), picture: picture.into(), place: place.to_string() })
    }
}

#[cfg(test)]
mod tests {
    use super::*;
    use tray::{Flags, Gravity};

    fn read(line: &str) -> Result<Line> {
        Line::read(line, "here")
    }

    #[test]
    fn a_whole_line() {
        let line =
            read("Soft-Light a.png at=3,-2 gravity=centre channels=rb args=0.5,2 window=4,0,2048,7 tile").unwrap();
        assert_eq!(line.picture, PathBuf::from("a.png"));
        let Layer { operator, offset, gravity, .. } = line.layer;
        assert_eq!((operator, offset, gravity), (Operator::SoftLight, (3, -2), Gravity::Centre));
        assert_eq!(line.layer.flags, Flags { tile: true, overlay: false, channels: [true, false, true, false] });
        assert_eq!(line.layer.arguments, [0.5, 2.0]);
        assert_eq!(line.layer.window, Window { left: 4, top: 0, width: 2048, height: 7 });
        assert_eq!(read("over a.png").unwrap().layer.window, Window::FULL);
    }

    #[test]
    fn words_between_quotation_marks() {
        let line = read(" \"soft light\"\t\"a b.png\"  tile ").unwrap();
        assert_eq!(
            (line.layer.operator, line.picture, line.layer.flags.tile),
            (Operator::SoftLight, PathBuf::from("a b.png"), true)
        );
        assert_eq!(read("over a\"b.png").unwrap().picture, PathBuf::from("a\"b.png"));
    }

    /// What a line that is not one of a layer is answered.
    fn said(line: &str) -> String {
        format!("{:#}", read(line).unwrap_err())
    }

    #[test]
    fn lines_out_of_form() {
        for (line, wanted) in [
            ("", "a layer begins with its operator"),
            ("over", "a layer names its picture after its operator"),
            ("nothing a.png", "nothing: refused: 3 OPERATOR: no such operator"),
            ("over a.png at=1", "at has two numbers: right,down"),
            ("over a.png at=x,y", "`x` is no number here"),
            ("over a.png window=1,2,3", "window has four numbers: left,top,width,height"),
            ("over a.png window=1,2,3,4,5", "window has four numbers: left,top,width,height"),
            ("over a.png window=", "window has four numbers: left,top,width,height"),
            ("over a.png window=1,2,3,4.5", "`4.5` is no number here"),
            ("over a.png at=1,,2", "`` is no number here"),
            ("over a.png args=1,", "`` is no number here"),
            ("over a.png args=1,2,3,4,5", "refused: 8 ARGUMENTS: a layer has 0 to 4 arguments"),
            ("over a.png channels=rx", "channels are r, g, b and a, not `x`"),
            ("over a.png channels=rgr", "channels=rgr has r twice"),
            ("over \"a.png", "a quotation mark without its second one"),
            ("over \"a.png\"tile", "no space after \"a.png\""),
            ("over \"a\nb.png\"", "a line end between quotation marks"),
        ] {
            assert_eq!(said(line), wanted);
        }
        assert!(said("over a.png big").starts_with("`big` is no option of a layer; there are at="));
        assert!(said("over a.png gravity=up").starts_with("no gravity `up`; it is one of none, northwest, "));
        assert!(read("over a.png args=").unwrap().layer.arguments.is_empty());
    }

    #[test]
    fn options_given_twice() {
        for word in ["at=1,2", "gravity=east", "channels=r", "args=1", "window=1,2,3,4", "tile", "overlay"] {
            let name = word.split('=').next().unwrap();
            assert_eq!(said(&format!("over a.png {word} {word}")), format!("{name} is given twice"));
        }
    }
}
