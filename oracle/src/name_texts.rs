//! The texts of `stream names`: all of each kind, none of them random.

use crate::reference;
use std::ops::Range;

/// Texts, one after the other.
pub type Texts = Box<dyn Iterator<Item = Vec<u8>>>;

/// The longest part of the list that is asked: two of the longest names.
const LONGEST_PART: usize = 32;

/// The 83 names, in the order of the list.
fn names() -> impl Iterator<Item = &'static [u8]> {
    reference::names().map(str::as_bytes)
}

/// Each letter of each name.
fn letters() -> impl Iterator<Item = (&'static [u8], usize)> {
    names().flat_map(|name| (0..name.len()).map(move |i| (name, i)))
}

/// A name with a byte in the place of these letters.
fn with(name: &[u8], place: Range<usize>, byte: u8) -> Vec<u8> {
    [&name[..place.start], &[byte], &name[place.end..]].concat()
}

fn with_capital((name, i): (&[u8], usize)) -> Vec<u8> {
    with(name, i..i + 1, name[i].to_ascii_uppercase())
}

/// Each name with each byte after it.
fn longer() -> impl Iterator<Item = Vec<u8>> {
    names().flat_map(|name| (0..=255).map(|byte| with(name, name.len()..name.len(), byte)))
}

/// Each name with each byte in the place of each letter.
fn changed() -> impl Iterator<Item = Vec<u8>> {
    letters().flat_map(|(name, i)| (0..=255).map(move |byte| with(name, i..i + 1, byte)))
}

/// Each name with each of the bytes that are dropped, before each letter and at its end.
fn with_dropped() -> impl Iterator<Item = Vec<u8>> {
    let places = names().flat_map(|name| (0..=name.len()).map(move |i| (name, i)));
    places.flat_map(|(name, i)| b"-_ ".iter().map(move |byte| with(name, i..i, *byte)))
}

/// Each name followed by each.
fn pairs() -> impl Iterator<Item = Vec<u8>> {
    names().flat_map(|first| names().map(move |second| [first, second].concat()))
}

/// Every part of the names end to end.
fn parts() -> Vec<Vec<u8>> {
    let list: Vec<u8> = names().flatten().copied().collect();
    (1..=LONGEST_PART).flat_map(|length| list.windows(length)).map(<[u8]>::to_vec).collect()
}

/// Every text of so many bytes.
fn of_bytes(length: usize) -> impl Iterator<Item = Vec<u8>> {
    (0..1u32 << (8 * length)).map(move |n| n.to_be_bytes()[4 - length..].to_vec())
}

/// Each kind with its texts. Some texts are of several kinds.
pub fn kinds() -> [(&'static str, Texts); 10] {
    [
        ("names", Box::new(names().map(<[u8]>::to_vec))),
        ("starts of a name", Box::new(letters().map(|(name, i)| name[..i].to_vec()))),
        ("ends of a name", Box::new(letters().map(|(name, i)| name[i + 1..].to_vec()))),
        ("names with a byte more", Box::new(longer())),
        ("names with a byte changed", Box::new(changed())),
        ("names with '-', '_' or ' '", Box::new(with_dropped())),
        ("names with a capital", Box::new(letters().map(with_capital))),
        ("pairs of names", Box::new(pairs())),
        ("parts of the list", Box::new(parts().into_iter())),
        ("texts of up to three bytes", Box::new((0..=3).flat_map(of_bytes))),
    ]
}
