//! Where a source lies on the destination before its offset counts.

use crate::fault::Fault;
use std::error::Error;
use std::fmt;
use std::str::FromStr;

/// The source's own corner, side or middle on the destination's; the discriminants are the table's numbers.
#[derive(Clone, Copy, Debug, Default, PartialEq, Eq, Hash)]
pub enum Gravity {
    /// The upper left corner, as NorthWest.
    #[default]
    None = 0,
    /// The upper left corner.
    NorthWest = 1,
    /// The middle of the upper side.
    North = 2,
    /// The upper right corner.
    NorthEast = 3,
    /// The middle of the left side.
    West = 4,
    /// The middle.
    Centre = 5,
    /// The middle of the right side.
    East = 6,
    /// The lower left corner.
    SouthWest = 7,
    /// The middle of the lower side.
    South = 8,
    /// The lower right corner.
    SouthEast = 9,
}

impl Gravity {
    /// All gravities, each at its number.
    pub const ALL: [Gravity; 10] = [
        Gravity::None,
        Gravity::NorthWest,
        Gravity::North,
        Gravity::NorthEast,
        Gravity::West,
        Gravity::Centre,
        Gravity::East,
        Gravity::SouthWest,
        Gravity::South,
        Gravity::SouthEast,
    ];

    /// The table's number, 0 to 9.
    pub fn number(self) -> u64 {
        self as u64
    }

    /// Its name in small letters, by which it is parsed.
    pub fn name(self) -> &'static str {
        match self {
            Gravity::None => "none",
            Gravity::NorthWest => "northwest",
            Gravity::North => "north",
            Gravity::NorthEast => "northeast",
            Gravity::West => "west",
            Gravity::Centre => "centre",
            Gravity::East => "east",
            Gravity::SouthWest => "southwest",
            Gravity::South => "south",
            Gravity::SouthEast => "southeast",
        }
    }
}

/// The gravity of a number; [`Fault::Placing`] for one above 9, as the library answers.
impl TryFrom<u64> for Gravity {
    type Error = Fault;

    fn try_from(number: u64) -> Result<Self, Fault> {
        let known = usize::try_from(number).ok().and_then(|n| Gravity::ALL.get(n));
        known.copied().ok_or(Fault::Placing)
    }
}

/// Its name.
impl fmt::Display for Gravity {
    fn fmt(&self, f: &mut fmt::Formatter) -> fmt::Result {
        f.pad(self.name())
    }
}

/// By its name, letter for letter.
impl FromStr for Gravity {
    type Err = UnknownGravity;

    fn from_str(name: &str) -> Result<Self, UnknownGravity> {
        let known = Gravity::ALL.iter().find(|gravity| gravity.name() == name);
        known.copied().ok_or_else(|| UnknownGravity(name.to_string()))
    }
}

/// A name that no gravity has; its text lists those that are.
#[derive(Clone, Debug, PartialEq, Eq)]
pub struct UnknownGravity(String);

impl fmt::Display for UnknownGravity {
    fn fmt(&self, f: &mut fmt::Formatter) -> fmt::Result {
        let names = Gravity::ALL.map(Gravity::name).join(", ");
        write!(f, "no gravity `{}`; it is one of {names}", self.0)
    }
}

impl Error for UnknownGravity {}
