//! Random requests: jobs, compositions, narrowings and names, with the values that are likely to matter.

use crate::lines::Request;
use crate::reference;
use crate::request::{ARGUMENTS, COLUMNS, Call, Job, Memory, WHOLE, WINDOW, Window, under};

/// Words worth trying: zeros, ones and halves, what lies beside them, subnormals, infinities, NaN patterns.
pub const SPECIAL: [u32; 32] = [
    0x0000_0000, // 0
    0x8000_0000, // -0
    0x3f80_0000, // 1
    0xbf80_0000, // -1
    0x3f00_0000, // 0.5
    0xbf00_0000, // -0.5
    0x3e80_0000, // 0.25
    0x3f40_0000, // 0.75
    0x4000_0000, // 2
    0x3fa0_0000, // 1.25
    0x3eff_ffff, // just below 0.5
    0x3f00_0001, // just above 0.5
    0x3f7f_ffff, // just below 1
    0x3f80_0001, // just above 1
    0x0000_0001, // the smallest subnormal
    0x8000_0001, // its negative
    0x007f_ffff, // the largest subnormal
    0x0080_0000, // the smallest normal
    0x2edb_e6ff, // 1e-10
    0xaedb_e6ff, // -1e-10
    0x7f7f_ffff, // the largest finite
    0xff7f_ffff, // its negative
    0x7f80_0000, // infinity
    0xff80_0000, // -infinity
    0x7fc0_0000, // the NaN that is stored
    0x7fc1_2345, // a NaN with a payload
    0xffc0_0001, // a negative NaN with a payload
    0x7f80_0001, // a signalling NaN
    0x3eaa_aaab, // 1/3
    0x3d50_d0d1, // 13/255
    0x3586_37bd, // 1e-6
    0x3d4c_cccd, // 0.05
];

/// Window numbers past their limits and at them.
const WINDOW_NUMBERS: [i64; 16] = [
    -1,
    -2,
    -2048,
    -(1 << 32),
    5 - (1 << 32),
    i64::MIN,
    i64::MIN + 2048,
    2049,
    2050,
    4096,
    1 << 32,
    (1 << 32) + 5,
    (1 << 32) + 2048,
    i64::MAX,
    0,
    2048,
];

/// How many numbers a layer may wrongly have.
const OTHER_COLUMNS: [usize; 8] = [10, 10, 11, 12, 13, 15, 16, 18];

/// The carried operators.
pub fn carried() -> impl Iterator<Item = i64> {
    (0..70).filter(|op| ![43, 67].contains(op))
}

pub struct Random(u64);

/// The largest width and height that are drawn.
pub type Sides = (u64, u64);

/// A job whose calls are drawn: its number, the mark's bound, and whether every call has a small allowance.
struct Work {
    job: Job,
    number: u64,
    bound: u64,
    slow: bool,
}

/// How the words of a picture are drawn.
#[derive(Clone, Copy)]
enum Flavour {
    Coarse,
    Bytes,
    Unit,
    Around,
    Special,
    Any,
    Mixed,
}

impl Random {
    pub fn new(seed: u64) -> Self {
        Random(seed.wrapping_mul(0x9e37_79b9_7f4a_7c15) ^ 0x1234_5678_9abc_def0)
    }

    /// All 64 bits.
    pub fn bits(&mut self) -> u64 {
        self.0 = self.0.wrapping_add(0x9e37_79b9_7f4a_7c15);
        let mut z = self.0;
        z = (z ^ (z >> 30)).wrapping_mul(0xbf58_476d_1ce4_e5b9);
        z = (z ^ (z >> 27)).wrapping_mul(0x94d0_49bb_1331_11eb);
        z ^ (z >> 31)
    }

    pub fn below(&mut self, n: u64) -> u64 {
        self.bits() % n
    }

    pub fn one_in(&mut self, n: u64) -> bool {
        self.below(n) == 0
    }

    pub fn pick<T: Copy>(&mut self, list: &[T]) -> T {
        list[self.below(list.len() as u64) as usize]
    }

    fn unit(&mut self) -> f32 {
        self.below(1 << 24) as f32 / (1 << 24) as f32
    }

    fn flavour(&mut self) -> Flavour {
        self.pick(&[
            Flavour::Coarse,
            Flavour::Bytes,
            Flavour::Unit,
            Flavour::Unit,
            Flavour::Around,
            Flavour::Special,
            Flavour::Any,
            Flavour::Mixed,
        ])
    }

    fn drawn(&mut self, flavour: Flavour) -> u32 {
        let value = match flavour {
            Flavour::Coarse => self.below(9) as f32 / 8.0,
            Flavour::Bytes => self.below(256) as f32 / 255.0,
            Flavour::Unit => self.unit(),
            Flavour::Around => self.unit() * 5.0 - 2.0,
            Flavour::Special => return self.pick(&SPECIAL),
            Flavour::Any => return self.bits() as u32,
            Flavour::Mixed => {
                let other = self.flavour();
                return match other {
                    Flavour::Mixed => self.pick(&SPECIAL),
                    other => self.drawn(other),
                };
            }
        };
        value.to_bits()
    }

    /// A list of words of one flavour.
    pub fn words(&mut self, count: usize) -> Vec<u32> {
        let flavour = self.flavour();
        (0..count).map(|_| self.drawn(flavour)).collect()
    }

    /// Pixels of four channels, of one flavour; in one list in four the three colours are equal.
    pub fn pixels(&mut self, count: usize) -> Vec<u32> {
        let mut words = self.words(count * 4);
        if self.one_in(4) {
            for pixel in words.chunks_exact_mut(4) {
                let value = pixel[0];
                pixel[..3].fill(value);
            }
        }
        words
    }

    fn side(&mut self, most: u64) -> i64 {
        if self.one_in(40) { 0 } else { 1 + self.below(most) as i64 }
    }

    fn argument(&mut self, operator: i64) -> u32 {
        let scale = match operator {
            45 | 46 | 69 => 150.0,
            65 | 66 => 12.0,
            _ => 2.0,
        };
        match self.below(6) {
            0 => self.pick(&SPECIAL),
            1 => ((self.below(41) as f32 - 20.0) * scale / 20.0).to_bits(),
            _ => ((self.unit() * 2.0 - 0.5) * scale).to_bits(),
        }
    }

    /// Where a window starts along a side of the tray, and how long it is.
    fn span(&mut self, side: i64) -> (i64, i64) {
        let within = side.max(1) as u64;
        let start = self.below(within) as i64;
        match self.below(8) {
            0 => (0, 2048),
            1 => (0, start),
            2 => (start, 2048),
            3 => (start, 1),
            4 => (self.below(2049) as i64, self.below(2049) as i64),
            5 => ((side + self.below(2) as i64).min(2048), 1 + self.below(4) as i64),
            // Within the tray, to its end, or a pixel past it.
            _ => (start, (1 + self.below((side - start + 1).max(1) as u64) as i64).min(2048)),
        }
    }

    /// A window: about half hold the whole tray, one in ten holds nothing, one in ten a pixel.
    fn window(&mut self, (width, height): (i64, i64)) -> Window {
        let ((left, columns), (top, rows)) = (self.span(width), self.span(height));
        match self.below(20) {
            0..8 => WHOLE,
            8 => [0, 0, width, height],
            9 => [left, top, 0, rows],
            10 => [left, top, columns, 0],
            11 | 12 => [self.below(width.max(1) as u64) as i64, self.below(height.max(1) as u64) as i64, 1, 1],
            _ => [left, top, columns, rows],
        }
    }

    /// A row and its arguments for an operator, with a source in a store of samples that it may lengthen.
    fn layer(&mut self, operator: i64, most: Sides, job: &mut Job) {
        let channels = self.pick(&[1, 3, 4, 4]);
        let (width, height) = (self.side(most.0), self.side(most.1));
        let size = (width * height * channels) as usize;
        // A new source behind the others, or one that overlaps what is there.
        let start = if self.one_in(4) && job.samples.len() >= size {
            self.below((job.samples.len() - size) as u64 + 1) as usize
        } else {
            let gap = self.below(3) as usize;
            let more = self.words(gap + size);
            job.samples.extend(more);
            job.samples.len() - size
        };
        let offset = |r: &mut Random, most: u64| match r.below(12) {
            0 => r.pick(&[-1_000_000, 1_000_000, 999_999, -999_999]),
            1..=5 => 0,
            _ => r.below(2 * most + 3) as i64 - most as i64 - 1,
        };
        let flags = if self.one_in(2) { 62 } else { self.below(64) as i64 };
        let count = self.below(5);
        let (right, down) = (offset(self, most.0), offset(self, most.1));
        let gravity = if self.one_in(2) { 0 } else { self.below(10) as i64 };
        let start = start as i64;
        job.table.extend([operator, gravity, right, down, flags, start, width, height, channels, count as i64]);
        let window = self.window((job.width, job.height));
        job.table.extend(window);
        for _ in 0..ARGUMENTS {
            let argument = self.argument(operator);
            job.args.push(argument);
        }
    }

    /// The source of the last layer made like the destination in part, so that equal values meet.
    fn alike(&mut self, job: &mut Job) {
        let n = job.dst.len().min(job.samples.len());
        if n > 0 && self.one_in(4) {
            for _ in 0..1 + self.below(n as u64) {
                let (i, j) = (self.below(n as u64) as usize, self.below(n as u64) as usize);
                job.samples[i] = job.dst[j];
            }
        }
    }

    /// A job without a fault.
    pub fn job(&mut self, layers: u64, most: Sides) -> Job {
        let operators: Vec<i64> = carried().collect();
        let channels = self.pick(&[1, 3, 4, 4, 4]);
        let (width, height) = (self.side(most.0), self.side(most.1));
        let dst = self.words((width * height * channels) as usize);
        let mut job = Job { width, height, channels, dst, layers: layers as i64, ..Job::default() };
        for _ in 0..layers {
            let operator = self.pick(&operators);
            self.layer(operator, most, &mut job);
        }
        self.alike(&mut job);
        job
    }

    /// A number at or past the limits of document 01's table.
    fn edge(&mut self) -> i64 {
        self.pick(&[
            -1,
            0,
            1,
            2,
            3,
            4,
            5,
            9,
            10,
            15,
            16,
            17,
            43,
            63,
            64,
            67,
            69,
            70,
            2048,
            2049,
            1_000_000,
            1_000_001,
            -1_000_000,
            -1_000_001,
            i64::MAX,
            i64::MIN,
            i64::MAX - 3,
        ])
    }

    fn resize<T: Copy>(&mut self, list: &mut Vec<T>, value: T) {
        match self.below(4) {
            0 if !list.is_empty() => {
                list.pop();
            }
            1 => list.clear(),
            2 => list.extend(std::iter::repeat_n(value, list.len())),
            _ => list.push(value),
        }
    }

    /// One thing of a job's inputs changed, to something that is perhaps a fault.
    pub fn spoil(&mut self, job: &mut Job) {
        match self.below(13) {
            0 => job.layers = self.edge(),
            1 => job.width = self.edge(),
            2 => job.height = self.edge(),
            3 => job.channels = self.edge(),
            4 => self.resize(&mut job.table, 0),
            5 => self.resize(&mut job.args, 0),
            6 => self.resize(&mut job.dst, 0),
            _ if job.table.is_empty() => job.layers = 0,
            7 => {
                let columns = self.pick(&OTHER_COLUMNS);
                let rows = job.table.chunks(COLUMNS);
                job.table = rows.flat_map(|row| row.iter().copied().cycle().take(columns)).collect();
            }
            8 | 9 => {
                let (column, number) = (WINDOW as u64 + self.below(4), self.pick(&WINDOW_NUMBERS));
                self.spoil_row(job, column, number);
                // Beside it another fault, before or after it in the order.
                if self.one_in(2) {
                    let (column, number) = (self.below(COLUMNS as u64), self.edge());
                    self.spoil_row(job, column, number);
                }
            }
            _ => {
                let (column, number) = (self.below(COLUMNS as u64), self.edge());
                self.spoil_row(job, column, number);
            }
        }
    }

    /// A number in the place of one of a layer's.
    fn spoil_row(&mut self, job: &mut Job, column: u64, number: i64) {
        let layer = self.below((job.table.len().div_ceil(COLUMNS)) as u64) as usize;
        if let Some(place) = job.table.get_mut(layer * COLUMNS + column as usize) {
            *place = number;
        }
    }

    /// Work buffers of the right length with any content, and a mark.
    pub fn memory(&mut self, job: &Job, mark: [u64; 2]) -> Memory {
        let size = (job.width * job.height * 4).clamp(0, 1 << 20) as usize;
        Memory { work: [self.words(size), self.words(size)], mark: mark.to_vec() }
    }

    /// A job's number: of any size, 0 and the ends of 32, 53 and 64 bits among them.
    pub fn job_number(&mut self) -> u64 {
        match self.below(6) {
            0 => 0,
            1 => self.below(16),
            2 => self.bits() as u32 as u64,
            3 => self.pick(&[u32::MAX as u64, 1 << 32, 1 << 53, i64::MAX as u64, 1 << 63, u64::MAX]),
            _ => self.bits(),
        }
    }

    /// A number that may be taken for the job's or the mark's, though it is mostly neither.
    pub fn other_number(&mut self, number: u64, position: u64) -> u64 {
        match self.below(10) {
            0 | 1 => 0,
            2 | 3 => number ^ 1 << self.below(64),
            // An equal low half, an equal high half, the halves exchanged.
            4 => number ^ self.bits() << 32,
            5 => number ^ self.bits() >> 32,
            6 => number.rotate_left(32),
            7 => position,
            8 => number.wrapping_add(self.pick(&[1, u64::MAX])),
            _ => self.job_number(),
        }
    }

    /// A list lent as mark: of no to four numbers, its position within the bound, at it and past it, its number the
    /// job's or another.
    fn mark(&mut self, number: u64, bound: u64) -> Vec<u64> {
        let position = match self.below(8) {
            0 => self.below(bound + 1),
            1 => 0,
            2 => bound,
            3 => bound + 1,
            4 => bound + 2 + self.below(5 * bound + 8),
            // Low halves that are within the bound.
            5 => self.below(bound + 1) + ((1 + self.below(1 << 31)) << 32),
            6 => self.pick(&[u64::MAX, 1 << 63, 1 << 32, (1 << 63) + 1]),
            _ => self.bits(),
        };
        let second = if self.one_in(2) { number } else { self.other_number(number, position) };
        let mut list = vec![position, second];
        match self.below(8) {
            0 => list.clear(),
            1 => list.truncate(1),
            2 => list.push(self.pick(&[0, number, position])),
            3 => list.extend([number; 2]),
            4 => list.swap(0, 1),
            _ => {}
        }
        list
    }

    fn spoil_memory(&mut self, memory: &mut Memory, number: u64, bound: u64) {
        match self.below(4) {
            0 => self.resize(&mut memory.work[0], 0),
            1 => self.resize(&mut memory.work[1], 0),
            _ => memory.mark = self.mark(number, bound),
        }
    }

    pub fn allowance(&mut self, total: u64) -> u64 {
        match self.below(12) {
            0 => 0,
            1 => self.below(5),
            2 => u64::MAX,
            3 => total,
            4 => 1 << 32,
            5 => 5 * (1 + self.below(8)),
            _ => self.below(total / 3 + 8),
        }
    }

    /// Small pictures, and now and then a larger or a long one.
    fn sides(&mut self) -> Sides {
        match self.below(2000) {
            0 => (2048, 2),
            1 => (2, 2048),
            2..5 => (40, 30),
            _ => self.pick(&[(1, 1), (2, 2), (3, 3), (4, 4), (6, 6), (8, 3)]),
        }
    }

    pub fn composition(&mut self) -> Request {
        let most = self.sides();
        let mut job = self.job(1, most);
        let faulty = self.one_in(12);
        let mut length = (job.width * job.height * 4) as usize;
        if faulty {
            for _ in 0..1 + self.below(3) {
                self.spoil(&mut job);
            }
            if self.one_in(4) {
                length = length.wrapping_add(self.pick(&[1, 4, usize::MAX])).min(1 << 16);
            }
        }
        Request::Compose { job, length }
    }

    /// Calls of a job, of which one in three has a number that is mostly wrong.
    fn calls(&mut self, count: u64, work: &Work, memory: &Memory) -> Vec<Call> {
        let position = memory.mark.first().copied().unwrap_or(0);
        let mut calls = Vec::new();
        for _ in 0..count {
            let job_number = if self.one_in(3) { self.other_number(work.number, position) } else { work.number };
            let allowance = if work.slow { self.below(work.bound / 4 + 8) } else { self.allowance(5 * work.bound) };
            calls.push(Call { job_number, allowance });
        }
        calls
    }

    /// Calls that are likely to be refused: with other inputs, with other memory, or both.
    fn refused(&mut self, work: &Work, memory: &Memory) -> Request {
        let (mut other, mut lent) = (work.job.clone(), memory.clone());
        let inputs = self.one_in(2);
        if inputs {
            self.spoil(&mut other);
            if self.one_in(3) {
                self.spoil(&mut other);
            }
        }
        if !inputs || self.one_in(3) {
            self.spoil_memory(&mut lent, work.number, work.bound);
        }
        let count = 1 + self.below(3);
        Request::Calls { calls: self.calls(count, work, &lent), job: other, memory: lent }
    }

    /// The calls of one job, in several requests: each finds the memory that the last one left, refused calls with
    /// other job numbers, inputs and marks stand among them. `answer` is asked for the memory after each request.
    pub fn job_requests(&mut self, mut answer: impl FnMut(Request) -> Memory) {
        let layers = if self.one_in(10) { 1 + self.below(16) } else { 2 + self.below(4) };
        let most = self.sides();
        let job = self.job(layers, most);
        let bound = (layers + 1) * (job.width * job.height) as u64;
        let work = Work { job, number: self.job_number(), bound, slow: self.one_in(2) };
        let position = if self.one_in(5) { self.below(bound + 1) } else { 0 };
        let mut memory = self.memory(&work.job, [position, work.number]);
        for _ in 0..1 + self.below(4) {
            let count = 1 + self.below(6);
            let calls = self.calls(count, &work, &memory);
            memory = answer(Request::Calls { job: work.job.clone(), memory, calls });
            if self.one_in(2) {
                answer(self.refused(&work, &memory));
            }
        }
        let mut calls = under(work.number, &[self.allowance(5 * bound), u64::MAX, 0]);
        let at = self.below(calls.len() as u64 + 1) as usize;
        calls.splice(at..at, self.calls(1, &work, &memory));
        answer(Request::Calls { job: work.job, memory, calls });
    }

    pub fn narrowing(&mut self) -> Request {
        let pixels = self.below(6) as usize;
        let wanted = if self.one_in(10) { self.edge() } else { self.pick(&[1, 3, 4]) };
        let mut input = self.words(pixels * 4);
        if self.one_in(10) {
            self.resize(&mut input, 0);
        }
        let mut length = input.len() / 4 * wanted.clamp(0, 8) as usize;
        if self.one_in(10) {
            length = self.below(20) as usize;
        }
        match self.one_in(2) {
            true => Request::Narrow { wanted, input, length },
            false => Request::Bytes { wanted, input, length },
        }
    }

    /// One of the 83 names.
    pub fn known_name(&mut self) -> &'static str {
        let names: Vec<&str> = reference::names().collect();
        self.pick(&names)
    }

    pub fn name(&mut self) -> Request {
        let mut name: Vec<u8> = self.known_name().into();
        for byte in &mut name {
            if self.one_in(3) {
                byte.make_ascii_uppercase();
            }
        }
        for _ in 0..self.below(4) {
            let at = self.below(name.len() as u64 + 1) as usize;
            name.insert(at, self.pick(b"-_ "));
        }
        if self.one_in(3) {
            let at = self.below(name.len() as u64) as usize;
            match self.below(4) {
                0 => {
                    name.remove(at);
                }
                1 => name[at] = self.bits() as u8,
                2 => name.insert(at, self.bits() as u8),
                _ => name.truncate(at),
            }
        }
        Request::Name(name)
    }
}
