//! Why a call is refused.

use crate::environment::Environment;
use crate::window::Window;
use std::fmt;

/// The refusals by their numbers.
#[derive(Clone, Copy, Debug, PartialEq, Eq, Hash)]
pub enum Fault {
    /// The count of layers is not 1 to 16, or the table or the arguments have another length than it asks for.
    Stack = 1,
    /// A side or the channels of the destination, or the count of its samples.
    Tray = 2,
    /// An operator's number or name that is not known.
    Operator = 3,
    /// Interpolate or Blur, which are not carried.
    Curve = 4,
    /// A gravity or an offset.
    Placing = 5,
    /// Flags that are not 0 to 63.
    Flags = 6,
    /// Start, sides or channels of a source, or a source that the samples do not hold.
    Source = 7,
    /// A count of arguments that is not 0 to 4.
    Arguments = 8,
    /// A work buffer, or the output of a single composition, of another length.
    Work = 9,
    /// The mark is not two numbers, or its position lies beyond the job's end.
    Mark = 10,
    /// Narrowing: the wanted channels, the input's length or the output's length.
    Narrow = 11,
    /// A card with a line out of form or a layer too many.
    Card = 12,
    /// A number of a layer's window that is not 0 to 2048.
    Window = 13,
    /// The mark's second number is not the call's job number.
    JobNumber = 14,
}

impl Fault {
    /// All faults, in the order of their numbers.
    pub const ALL: [Fault; 14] = [
        Fault::Stack,
        Fault::Tray,
        Fault::Operator,
        Fault::Curve,
        Fault::Placing,
        Fault::Flags,
        Fault::Source,
        Fault::Arguments,
        Fault::Work,
        Fault::Mark,
        Fault::Narrow,
        Fault::Card,
        Fault::Window,
        Fault::JobNumber,
    ];

    /// The library's number, 1 to 14.
    pub fn number(self) -> u64 {
        self as u64
    }

    /// The documents' word for it.
    pub fn word(self) -> &'static str {
        match self {
            Fault::Stack => "STACK",
            Fault::Tray => "TRAY",
            Fault::Operator => "OPERATOR",
            Fault::Curve => "CURVE",
            Fault::Placing => "PLACING",
            Fault::Flags => "FLAGS",
            Fault::Source => "SOURCE",
            Fault::Arguments => "ARGUMENTS",
            Fault::Work => "WORK",
            Fault::Mark => "MARK",
            Fault::Narrow => "NARROW",
            Fault::Card => "CARD",
            Fault::Window => "WINDOW",
            Fault::JobNumber => "JOB NUMBER",
        }
    }

    /// What is wrong, in a few words.
    pub fn meaning(self) -> &'static str {
        match self {
            Fault::Stack => "a job has 1 to 16 layers, 14 numbers and 4 arguments each",
            Fault::Tray => "sides are 0 to 2048, channels 1, 3 or 4, samples width x height x channels",
            Fault::Operator => "no such operator",
            Fault::Curve => "Interpolate and Blur are not carried",
            Fault::Placing => "gravity is 0 to 9, offsets lie within 1000000",
            Fault::Flags => "flags are 0 to 63",
            Fault::Source => "the source's start, sides or channels, or it ends beyond the samples",
            Fault::Arguments => "a layer has 0 to 4 arguments",
            Fault::Work => "a work buffer has 4 x width x height samples",
            Fault::Mark => "the mark is two numbers, its position at most (layers + 1) x width x height",
            Fault::Narrow => "1, 3 or 4 channels from whole pixels of four, into an output of that length",
            Fault::Card => "a line out of form, or a layer too many",
            Fault::Window => "a window's left, top, width and height are 0 to 2048",
            Fault::JobNumber => "the mark's job number is not the call's",
        }
    }

    /// Whether the fault belongs to one layer.
    pub fn has_layer(self) -> bool {
        (3..=8).contains(&self.number()) || self == Fault::Window
    }

    /// The library's answer: 0, or the number of a fault.
    pub(crate) fn check(number: u64) -> Result<(), Fault> {
        match number {
            0 => Ok(()),
            n => Err(*Fault::ALL.get(n as usize - 1).expect("the library answers 0 to 14")),
        }
    }
}

impl fmt::Display for Fault {
    fn fmt(&self, f: &mut fmt::Formatter) -> fmt::Result {
        write!(f, "refused: {} {}: {}", self.number(), self.word(), self.meaning())
    }
}

impl std::error::Error for Fault {}

/// A refused job call: the fault, and the layer that has it, counted from 0 (0 where none is concerned).
#[derive(Clone, Copy, Debug, PartialEq, Eq, Hash)]
pub struct Refusal {
    /// The first fault.
    pub fault: Fault,
    /// The layer at fault, 0 where none is concerned.
    pub layer: u64,
}

impl fmt::Display for Refusal {
    fn fmt(&self, f: &mut fmt::Formatter) -> fmt::Result {
        let Refusal { fault, layer } = self;
        match fault.has_layer() {
            true => write!(f, "refused: {} {} in layer {layer}: {}", fault.number(), fault.word(), fault.meaning()),
            false => fault.fmt(f),
        }
    }
}

impl std::error::Error for Refusal {}

/// A card that is refused, as [`Fault::Card`]: the first line that is out of form or a layer too many.
#[derive(Clone, Copy, Debug, PartialEq, Eq, Hash)]
pub struct CardFault {
    /// The line, counted from 1, which is 1 for an empty text; 0 where lists have another length than the layers ask for.
    pub line: u64,
}

impl fmt::Display for CardFault {
    fn fmt(&self, f: &mut fmt::Formatter) -> fmt::Result {
        let fault = Fault::Card;
        write!(f, "refused: {} {} at line {}: {}", fault.number(), fault.word(), self.line, fault.meaning())
    }
}

impl std::error::Error for CardFault {}

/// A job that no card says.
#[derive(Clone, Copy, Debug, PartialEq, Eq)]
pub enum NoCard {
    /// The first line that would be out of form or a layer too many.
    Form(CardFault),
    /// A layer with another window than [`Window::FULL`], for which a card has no place.
    Window {
        /// The first such layer, counted from 0.
        layer: u64,
        /// Its window.
        window: Window,
    },
}

impl fmt::Display for NoCard {
    fn fmt(&self, f: &mut fmt::Formatter) -> fmt::Result {
        match self {
            NoCard::Form(fault) => fault.fmt(f),
            NoCard::Window { layer, window } => {
                write!(f, "layer {layer} has the window {window}, and a card of edition 1 has no windows")
            }
        }
    }
}

impl std::error::Error for NoCard {}

impl From<CardFault> for NoCard {
    fn from(fault: CardFault) -> Self {
        NoCard::Form(fault)
    }
}

/// Why a call that computes has written nothing: the library refused it, with R as its answer, or it was not called because
/// of the thread's floating-point environment.
#[derive(Clone, Copy, Debug, PartialEq, Eq, Hash)]
pub enum Error<R> {
    /// The library's answer.
    Refused(R),
    /// What the thread's arithmetic does otherwise.
    Environment(Environment),
}

impl<R: fmt::Display> fmt::Display for Error<R> {
    fn fmt(&self, f: &mut fmt::Formatter) -> fmt::Result {
        match self {
            Error::Refused(refusal) => refusal.fmt(f),
            Error::Environment(environment) => environment.fmt(f),
        }
    }
}

impl<R: fmt::Debug + fmt::Display> std::error::Error for Error<R> {}

impl From<Fault> for Error<Fault> {
    fn from(fault: Fault) -> Self {
        Error::Refused(fault)
    }
}

impl From<Refusal> for Error<Refusal> {
    fn from(refusal: Refusal) -> Self {
        Error::Refused(refusal)
    }
}

impl<R> From<Environment> for Error<R> {
    fn from(environment: Environment) -> Self {
        Error::Environment(environment)
    }
}
