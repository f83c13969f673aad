//! The checkpoint: a position of the job that the storage has, with a digest of what it rests on. Those are the pictures
//! of which document 01 speaks under a mark: the one being written, up to the position, and the whole one beneath it. The
//! words of the work buffers that lie beyond may be any: they are written before they are read.

use crate::digest::digest;

/// The text that stands before the numbers.
const EDITION: &str = "tray-checkpoint-1";

/// What a job's position rests on: the job itself, by its description, and pictures, as bytes.
pub struct Pictures<'a> {
    /// The text of the file `job`.
    pub job: &'a str,
    /// The picture beneath; none in phase 0, where it is the destination.
    pub beneath: &'a [u8],
    /// The picture being written, up to the position.
    pub written: &'a [u8],
}

#[derive(Clone, Copy, Debug, PartialEq)]
pub struct Checkpoint {
    pub position: u64,
    pub digest: u64,
}

impl Checkpoint {
    /// The beginning, which rests on nothing.
    pub const START: Checkpoint = Checkpoint { position: 0, digest: 0 };

    pub fn new(position: u64, pictures: &Pictures) -> Self {
        let Pictures { job, beneath, written } = pictures;
        let parts = [position, digest(job.as_bytes()), digest(beneath), digest(written)];
        Checkpoint { position, digest: digest(&parts.map(u64::to_le_bytes).concat()) }
    }

    pub fn text(&self) -> String {
        format!("{EDITION} {} {:016x}\n", self.position, self.digest)
    }

    /// The checkpoint that this text is, if it is one of a job that ends at `total`.
    pub fn parse(text: &str, total: u64) -> Option<Self> {
        let words: Vec<&str> = text.split_ascii_whitespace().collect();
        match words[..] {
            [EDITION, position, digest] => {
                let position = position.parse().ok().filter(|position| *position <= total)?;
                Some(Checkpoint { position, digest: u64::from_str_radix(digest, 16).ok()? })
            }
            _ => None,
        }
    }

    /// Whether it was made of these pictures. The beginning always holds.
    pub fn holds(&self, pictures: &Pictures) -> bool {
        self.position == 0 || *self == Checkpoint::new(self.position, pictures)
    }
}

/// Where a position's pictures lie: the work buffer with the picture beneath, if it has one, the buffer being written, and how
/// many of its bytes are. For a finished job nothing is being written, and the last picture lies beneath.
pub fn place(position: u64, pixels: u64) -> (Option<usize>, usize, usize) {
    match pixels {
        0 => (None, 0, 0),
        _ => {
            let (phase, written) = ((position / pixels) as usize, (position % pixels) as usize);
            (phase.checked_sub(1).map(|k| k % 2), phase % 2, 16 * written)
        }
    }
}

#[cfg(test)]
mod tests {
    use super::*;

    #[test]
    fn there_and_back() {
        let (beneath, written) = (&[1, 2, 3][..], &[4][..]);
        let pictures = Pictures { job: "a", beneath, written };
        let made = Checkpoint::new(9, &pictures);
        assert_eq!(Checkpoint::parse(&made.text(), 9), Some(made));
        assert_eq!(Checkpoint::parse(&made.text(), 8), None);
        assert!(made.holds(&pictures));
        assert!(!made.holds(&Pictures { job: "b", ..pictures }));
        assert!(!made.holds(&Pictures { beneath: &[1, 2, 4], ..pictures }));
        assert!(!made.holds(&Pictures { written: &[], ..pictures }));
        assert!(!Checkpoint { position: 8, ..made }.holds(&pictures));
        assert!(Checkpoint::START.holds(&pictures));
        for broken in
            ["", "tray-checkpoint-1 9", "tray-checkpoint-2 9 0", "tray-checkpoint-1 -1 0", "tray-checkpoint-1 9 g"]
        {
            assert_eq!(Checkpoint::parse(broken, 9), None, "{broken}");
        }
    }

    #[test]
    fn places() {
        assert_eq!(place(0, 10), (None, 0, 0));
        assert_eq!(place(7, 10), (None, 0, 7 * 16));
        assert_eq!(place(10, 10), (Some(0), 1, 0));
        assert_eq!(place(23, 10), (Some(1), 0, 3 * 16));
        assert_eq!(place(30, 10), (Some(0), 1, 0));
        assert_eq!(place(0, 0), (None, 0, 0));
    }
}
