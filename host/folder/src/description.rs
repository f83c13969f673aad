//! The file `job`: a job's numbers, and a digest of each of its inputs as it was made. An example:
//!
//! ```text
//! tray-job-4 100 80 4 5 32000
//! number 8d3c5e0f71a2946b
//! dst b188ea0fda1fb783
//! table 75de40470c0e9ec4
//! args 2beef07ef789fc9c
//! samples 2bdf70b266e2504c
//! job 5d963b3ac24fdcfc
//! ```
//!
//! The first line's numbers are width, height, channels, layers, samples. The second is the job number, which each call carries and
//! which stands in the mark too. The last line's digest is of the lines before it.
//!
//! A folder of edition 3 was made when jobs had no numbers: its mark is the position alone, and it is taken over with the number 0
//! (list.rs says how such a mark is lent as two numbers). One of edition 2 was made when layers had no windows either: its table
//! has ten numbers a layer, and it is taken over with full windows, with which the library makes the same pictures (`full_held`
//! and `pictures_unwindowed`, crates/job/proofs/Windows.antt). In both the mark and the checkpoint keep their meaning. A folder stays
//! of its edition, and nothing in it is rewritten but what any worker writes: a loss of power never finds it half taken over, the
//! digests, which are of the files as they are, hold, and the command that made it can go on with it.

use crate::digest::digest;
use tray::{Inputs, JobNumber, COLUMNS, LAYERS, SIDE};

/// The window of a layer that was made when there were none: all pixels of any destination that there could be then.
const FULL: [i64; 4] = [0, 0, 2048, 2048];

/// The editions that are read; a new job is of the last one.
#[derive(Clone, Copy, Debug, PartialEq)]
pub enum Edition {
    WithoutWindows,
    WithoutNumber,
    Numbered,
}

impl Edition {
    const ALL: [Edition; 3] = [Edition::WithoutWindows, Edition::WithoutNumber, Edition::Numbered];

    /// The first word of the description.
    fn word(self) -> &'static str {
        match self {
            Edition::WithoutWindows => "tray-job-2",
            Edition::WithoutNumber => "tray-job-3",
            Edition::Numbered => "tray-job-4",
        }
    }

    /// Numbers a layer in the file `table`.
    pub fn columns(self) -> usize {
        match self {
            Edition::WithoutWindows => 10,
            Edition::WithoutNumber | Edition::Numbered => COLUMNS,
        }
    }

    /// The library's row of a layer's numbers in the file.
    pub fn row(self, kept: &[i64]) -> Vec<i64> {
        match self {
            Edition::WithoutWindows => [kept, &FULL].concat(),
            Edition::WithoutNumber | Edition::Numbered => kept.to_vec(),
        }
    }

    /// Numbers in the file `mark`: the position, and the job number where jobs have one.
    pub fn mark(self) -> usize {
        match self {
            Edition::WithoutWindows | Edition::WithoutNumber => 1,
            Edition::Numbered => 2,
        }
    }

    /// The edition of this word; otherwise what is wrong with it.
    fn parse(word: &str) -> Result<Self, String> {
        let known = Edition::ALL.into_iter().find(|edition| edition.word() == word);
        let [first, second, last] = Edition::ALL.map(Edition::word);
        let all = format!("{first}, {second} or {last}");
        known.ok_or_else(|| match word.starts_with("tray-job-") {
            true => format!(
                "a job of edition {word}, and this is for {all}: finish it with the version of tray that made it"
            ),
            false => format!("not a job of edition {all}"),
        })
    }
}

/// The inputs' files, in the order of their digests.
pub const INPUTS: [&str; 4] = ["dst", "table", "args", "samples"];

#[derive(Clone, Debug, PartialEq)]
pub struct Description {
    pub edition: Edition,
    pub width: usize,
    pub height: usize,
    pub channels: usize,
    pub layers: usize,
    pub samples: usize,
    /// 0 in the editions that have none.
    pub number: JobNumber,
    pub digests: [u64; INPUTS.len()],
}

impl Description {
    /// Of a new job, whose inputs the library has accepted.
    pub fn new(inputs: &Inputs, number: JobNumber, digests: [u64; INPUTS.len()]) -> Self {
        let Inputs { width, height, channels, layers, samples, .. } = *inputs;
        let samples = samples.len();
        let [width, height, channels, layers] = [width, height, channels, layers].map(|n| n as usize);
        Description { edition: Edition::Numbered, width, height, channels, layers, samples, number, digests }
    }

    pub fn text(&self) -> String {
        let Description { edition, width, height, channels, layers, samples, number, digests } = self;
        let mut text = format!("{} {width} {height} {channels} {layers} {samples}\n", edition.word());
        if *edition == Edition::Numbered {
            text += &format!("number {number}\n");
        }
        for (name, digest) in INPUTS.iter().zip(digests) {
            text += &format!("{name} {digest:016x}\n");
        }
        let whole = digest(text.as_bytes());
        text + &format!("job {whole:016x}\n")
    }

    /// The description that this text is; otherwise what is wrong with it.
    pub fn parse(text: &str) -> Result<Self, String> {
        let mut lines = text.lines();
        let mut words = lines.next().unwrap_or("").split_ascii_whitespace();
        let edition = Edition::parse(words.next().unwrap_or(""))?;
        let numbers: Vec<usize> = words.map(str::parse).collect::<Result<_, _>>().unwrap_or_default();
        let hex = |line: &str| u64::from_str_radix(line.split(' ').nth(1)?, 16).ok();
        let number = match edition {
            Edition::Numbered => lines.next().and_then(hex),
            Edition::WithoutWindows | Edition::WithoutNumber => Some(0),
        };
        let digests: Vec<u64> = lines.take(INPUTS.len()).map_while(hex).collect();
        match (&numbers[..], number.map(JobNumber), digests.try_into()) {
            (&[width, height, channels, layers, samples], Some(number), Ok(digests))
                if width.max(height) <= SIDE as usize
                    && [1, 3, 4].contains(&channels)
                    && (1..=LAYERS).contains(&layers) =>
            {
                let read = Description { edition, width, height, channels, layers, samples, number, digests };
                // Whatever else has changed in it is told by its own digest.
                if read.text() == text {
                    Ok(read)
                } else {
                    Err(DAMAGED.into())
                }
            }
            _ => Err(DAMAGED.into()),
        }
    }
}

const DAMAGED: &str = "damaged: it has not the numbers and digests of a job as they were written";

#[cfg(test)]
mod tests {
    use super::*;

    /// The numbers of a job with the most layers.
    fn job(edition: Edition) -> Description {
        let (number, digests) = (JobNumber(if edition.mark() == 2 { 1 << 60 } else { 0 }), [0, 1, u64::MAX, 3]);
        Description { edition, width: 7, height: 2048, channels: 3, layers: 16, samples: 12, number, digests }
    }

    /// The edition's number too: its last bit makes the first one into the second, and back.
    #[test]
    fn there_and_back_and_each_byte_counts() {
        for edition in Edition::ALL {
            let text = job(edition).text();
            assert_eq!(text.contains("\nnumber 1000000000000000\ndst "), edition == Edition::Numbered);
            assert_eq!(Description::parse(&text), Ok(job(edition)));
            for n in 0..text.len() {
                let mut bytes = text.clone().into_bytes();
                bytes[n] ^= 1;
                assert!(Description::parse(&String::from_utf8(bytes).unwrap()).is_err(), "byte {n}");
                assert!(Description::parse(&text[..n]).is_err(), "length {n}");
            }
        }
    }

    #[test]
    fn another_edition_is_told() {
        for other in ["tray-job-1", "tray-job-5", "tray-job-"] {
            let said = Description::parse(&job(Edition::Numbered).text().replace("tray-job-4", other)).unwrap_err();
            let wanted = format!("a job of edition {other}, and this is for tray-job-2, tray-job-3 or tray-job-4: ");
            assert!(said.starts_with(&wanted), "{said}");
        }
    }

    #[test]
    fn rows_without_windows_get_the_full_one() {
        let row: Vec<i64> = (0..10).collect();
        assert_eq!(Edition::WithoutWindows.row(&row), [0, 1, 2, 3, 4, 5, 6, 7, 8, 9, 0, 0, 2048, 2048]);
        let row: Vec<i64> = (0..14).collect();
        assert_eq!(Edition::WithoutNumber.row(&row), row);
        assert_eq!(Edition::Numbered.row(&row), row);
        assert_eq!(Edition::ALL.map(Edition::columns), [10, COLUMNS, COLUMNS]);
    }

    /// No edition is read as another one by its word alone: with a line too many, or one too few.
    #[test]
    fn an_edition_by_its_word_alone() {
        for (from, to) in [(Edition::Numbered, "tray-job-3"), (Edition::WithoutNumber, "tray-job-4")] {
            let text = job(from).text().replacen(from.word(), to, 1);
            let body = &text[..text.rfind("job ").unwrap()];
            let whole = digest(body.as_bytes());
            assert_eq!(Description::parse(&format!("{body}job {whole:016x}\n")), Err(DAMAGED.into()), "{to}");
        }
    }
}
