//! The operators' names and their aliases as document 01 reads them, kept as document 02 (A.4) has them.

use super::operator::{NAMES, Op};
use super::wrong::{Reading, Wrong};
use std::sync::LazyLock;

const ALIASES: [(&str, Op); 13] = [
    ("srcover", Op::Over),
    ("srcin", Op::In),
    ("srcout", Op::Out),
    ("srcatop", Op::Atop),
    ("copy", Op::Src),
    ("replace", Op::Src),
    ("none", Op::Dst),
    ("minus", Op::MinusDst),
    ("divide", Op::DivideDst),
    ("copyopacity", Op::CopyAlpha),
    ("average", Op::Blend),
    ("add", Op::ModulusAdd),
    ("subtract", Op::ModulusSubtract),
];

/// The names end to end, the operators' own and then the aliases, and their lengths.
static LIST: LazyLock<(Vec<u8>, Vec<usize>)> = LazyLock::new(|| {
    let own = NAMES.iter().map(|name| name.to_ascii_lowercase());
    let names: Vec<String> = own.chain(ALIASES.map(|(name, _)| name.to_string())).collect();
    (names.concat().into_bytes(), names.iter().map(String::len).collect())
});

/// Each eight elements, the last of them first.
fn turned<T: Copy>(list: &[T]) -> Vec<T> {
    list.chunks(8).flat_map(|eight| eight.iter().rev()).copied().collect()
}

impl Reading {
    fn dropped(self, byte: u8) -> bool {
        let more: &[u8] = match self.wrong {
            Some(Wrong::NameDropsTab) => b"\t\n\r",
            Some(Wrong::NameDropsNul) => b"\0",
            Some(Wrong::NameDropsPunctuation) => b".+/",
            _ => b"",
        };
        let less =
            byte == b' ' && self.is(Wrong::NameKeepsSpace) || byte == b'_' && self.is(Wrong::NameKeepsUnderscore);
        (b"-_ ".contains(&byte) || more.contains(&byte)) && !less
    }

    fn key(self, name: &[u8]) -> Vec<u8> {
        let name = match self.wrong {
            Some(Wrong::NameStopsAtNul) => name.split(|b| *b == 0).next().unwrap(),
            Some(Wrong::NameTrimmedOnly) => return name.trim_ascii().to_ascii_lowercase(),
            Some(Wrong::NameByUnicode) => {
                let text = String::from_utf8_lossy(name).to_lowercase();
                return text.bytes().filter(|b| !self.dropped(*b)).collect();
            }
            Some(Wrong::NameSkipsBadUtf8) => &name.iter().copied().filter(u8::is_ascii).collect::<Vec<_>>(),
            _ => name,
        };
        let lowered = |b: u8| match b {
            b'A'..=b'Z' if !self.is(Wrong::NameKeepsCase) => b + 32,
            _ => b,
        };
        // Bit 5 set: '@' to '`' and '[' to '{' with the letters.
        let masked = |b: u8| if (0x40..0x60).contains(&b) { b | 32 } else { b };
        let kept = name.iter().copied().filter(|b| !self.dropped(*b));
        if self.is(Wrong::NameByMask) { kept.map(masked).collect() } else { kept.map(lowered).collect() }
    }

    fn letters(self) -> Vec<u8> {
        if self.is(Wrong::LettersTurned) { turned(&LIST.0) } else { LIST.0.clone() }
    }

    fn lengths(self) -> Vec<usize> {
        let mut lengths = LIST.1.clone();
        match self.wrong {
            Some(Wrong::NameSeam(k)) => {
                lengths[k] += 1;
                lengths[k + 1] -= 1;
            }
            Some(Wrong::LastLetterLeft) => lengths[82] -= 1,
            Some(Wrong::LengthsPadded) => lengths.resize(88, 0),
            Some(Wrong::LengthsInFourBits) => lengths.iter_mut().for_each(|length| *length %= 16),
            Some(Wrong::LengthsTurned) => {
                lengths.resize(88, 0);
                return turned(&lengths);
            }
            _ => {}
        }
        lengths
    }

    /// Whether a text reads as the first so many letters of these, which go on with the names that follow.
    fn reads_as(self, key: &[u8], letters: &[u8], length: usize, next: usize) -> bool {
        let (name, rest) = letters.split_at(length);
        match self.wrong {
            Some(Wrong::NameByPrefix) => name.starts_with(key) && !key.is_empty(),
            Some(Wrong::NameByStart) => key.starts_with(name),
            Some(Wrong::NameRunsOn) => key.len() >= length && letters.starts_with(key),
            Some(Wrong::NameWithNext) if key.len() > length => key == &letters[..length + next],
            Some(Wrong::NameAnywhere) => !key.is_empty() && (0..length).any(|i| letters[i..].starts_with(key)),
            Some(Wrong::LastNameOpen) if rest.is_empty() => key.starts_with(name),
            Some(Wrong::LettersPadded) if rest.is_empty() => {
                key.strip_prefix(name).is_some_and(|more| more.iter().all(|byte| *byte == 0))
            }
            Some(Wrong::EightLetters) => key.len() == length && key.starts_with(&name[..length.min(8)]),
            _ => key == name,
        }
    }

    /// The place of the first name that a text reads as.
    fn place(self, key: &[u8]) -> Option<usize> {
        let (letters, lengths) = (self.letters(), self.lengths());
        let mut start = 0;
        (0..lengths.len()).find(|k| {
            let at = if self.is(Wrong::PlacesInEightBits) { start % 256 } else { start };
            start += lengths[*k];
            self.reads_as(key, &letters[at..], lengths[*k], lengths.get(k + 1).copied().unwrap_or(0))
        })
    }

    /// The operator of the name at a place.
    fn operator_at(self, place: usize) -> Option<u64> {
        let Some(alias) = place.checked_sub(NAMES.len()) else { return Some(place as u64) };
        match self.wrong {
            Some(Wrong::AliasUnknown(other)) if other == alias => None,
            Some(Wrong::AliasesByComment) if alias < 4 => Some(Op::Src as u64),
            Some(Wrong::AliasesFromZero) => Some(alias as u64),
            Some(Wrong::AliasesGoOn) => Some(place as u64),
            // Past the last name there is none; `LengthsPadded` and `LengthsTurned` read on there.
            _ => Some(ALIASES.get(alias).map_or(place as u64, |(_, op)| *op as u64)),
        }
    }

    pub fn from_name(self, name: &[u8]) -> Option<u64> {
        let key = self.key(name);
        match self.wrong {
            Some(Wrong::NameEmptyIsOver) if key.is_empty() => return Some(0),
            Some(Wrong::LengthWithDropped) if key.len() < name.len() => return None,
            Some(Wrong::SixteenBytes) if name.len() > 16 => return None,
            _ => {}
        }
        let number = self.operator_at(self.place(&key)?)?;
        let curve = [Op::Interpolate as u64, Op::Blur as u64].contains(&number);
        if curve && self.is(Wrong::NameRefusesCurves) { None } else { Some(number) }
    }
}
