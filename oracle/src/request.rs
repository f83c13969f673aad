//! What is asked and answered, in plain numbers: pictures, samples and arguments are words (the bits of an
//! f32), and every list may have any length. `Side` is one party of a comparison.

/// Documents 01 and 02: fourteen numbers a layer in the sheet, four arguments a layer, and the most layers.
pub const COLUMNS: usize = 14;
pub const ARGUMENTS: usize = 4;
pub const LAYERS: usize = 16;

/// A layer's window in tray pixels (document 02, A.3): left, top, width and height, the last four numbers of its row.
pub type Window = [i64; 4];
/// The column in which a window begins.
pub const WINDOW: usize = 10;
/// The window that holds every pixel of every tray.
pub const WHOLE: Window = [0, 0, 2048, 2048];

/// The flags' bits. The channels' are in the order of the samples.
pub const TILE: u32 = 1;
pub const OVERLAY: u32 = 2;
pub const CHANNEL: [u32; 4] = [4, 8, 16, 32];

/// The bits that document 01 stores for a NaN that was computed.
pub const NAN: u32 = 0x7fc0_0000;

/// A picture: `channels` words a pixel, row by row.
#[derive(Clone, Debug, PartialEq)]
pub struct Picture {
    pub width: u32,
    pub height: u32,
    pub channels: usize,
    pub words: Vec<u32>,
}

/// One layer, free of faults: its row of the table, its arguments up to their count, its source cut out.
#[derive(Clone, Debug, PartialEq)]
pub struct Layer {
    pub operator: usize,
    pub gravity: usize,
    pub offset: (i64, i64),
    pub flags: u32,
    pub source: Picture,
    pub args: Vec<u32>,
    pub window: Window,
}

/// The inputs of a job (document 01: tray, count of layers, sheet, arguments, store of source samples). A
/// single composition takes the same with one layer.
#[derive(Clone, Debug, PartialEq, Default)]
pub struct Job {
    pub width: i64,
    pub height: i64,
    pub channels: i64,
    pub dst: Vec<u32>,
    pub layers: i64,
    pub table: Vec<i64>,
    pub args: Vec<u32>,
    pub samples: Vec<u32>,
}

/// The lists that a job's calls are lent to write (document 01: work pictures and mark). A mark is a position and the
/// number of the job that it belongs to (document 02, A.5), which no call writes.
#[derive(Clone, Debug, PartialEq, Default)]
pub struct Memory {
    pub work: [Vec<u32>; 2],
    pub mark: Vec<u64>,
}

/// What a call of a job has besides the job's inputs and its memory.
#[derive(Clone, Copy, Debug, PartialEq, Eq)]
pub struct Call {
    pub job_number: u64,
    pub allowance: u64,
}

/// Calls under one job number.
pub fn under(job_number: u64, allowances: &[u64]) -> Vec<Call> {
    allowances.iter().map(|allowance| Call { job_number, allowance: *allowance }).collect()
}

#[derive(Clone, Copy, Debug, PartialEq, Eq)]
pub struct Answer {
    pub number: u64,
    pub layer: u64,
    pub stores: u64,
    pub finished: bool,
}

impl Answer {
    pub fn refused(number: u64, layer: u64) -> Self {
        Answer { number, layer, stores: 0, finished: false }
    }
}

/// What the reader of a card answers, beside the two lists that it fills.
#[derive(Clone, Copy, Debug, PartialEq, Eq)]
pub struct CardAnswer {
    pub number: u64,
    pub line: u64,
    pub width: i64,
    pub height: i64,
    pub channels: i64,
    pub layers: i64,
}

impl CardAnswer {
    /// Document 02: 12, with the line, and the other answers 0.
    pub fn refused(line: u64) -> Self {
        CardAnswer { number: 12, line, width: 0, height: 0, channels: 0, layers: 0 }
    }
}

/// One party of a comparison: the six public calls. `job.layers` is not read by `compose`.
pub trait Side {
    /// The operator's number, or `None` for an unknown name.
    // The exported call has this name; a side is no operator, and `self` is asked.
    #[allow(clippy::wrong_self_convention)]
    fn from_name(&self, name: &[u8]) -> Option<u64>;
    /// A number: 0, or the fault.
    fn compose(&self, job: &Job, out: &mut [u32]) -> u64;
    fn narrow(&self, wanted: i64, input: &[u32], out: &mut [u32]) -> u64;
    fn narrow_bytes(&self, wanted: i64, input: &[u32], out: &mut [u8]) -> u64;
    fn call(&self, job: &Job, call: Call, memory: &mut Memory) -> Answer;
    /// Fills the table and the arguments with a card's layers.
    fn read_card(&self, text: &[u8], table: &mut [i64], args: &mut [u32]) -> CardAnswer;
}

pub fn floats(words: &[u32]) -> Vec<f32> {
    words.iter().map(|w| f32::from_bits(*w)).collect()
}

pub fn words(values: &[f32]) -> Vec<u32> {
    values.iter().map(|v| v.to_bits()).collect()
}
