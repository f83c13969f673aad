//! The crate on the library that it links: document 01's trial values, each fault, windows, a job cut at every store, and the
//! mark of another job.

use tray::{begin, compose, floats, floats_mut, from_name, job, narrow, narrow_bytes, phase, total, words, words_mut};
use tray::{Error, Fault, Flags, Gravity, Inputs, JobNumber, Layer, Memory, Operator, Progress, Refusal};
use tray::{Source, Stack, Window, COLUMNS, SIDE};

/// A source of `width` × 1 pixels of four channels at the front of the samples.
fn line(width: i64) -> Source {
    Source { first: 0, width, height: 1, channels: 4 }
}

fn inputs<'a>(width: i64, dst: &'a [u32], stack: &'a Stack, samples: &'a [u32]) -> Inputs<'a> {
    Inputs {
        width,
        height: 1,
        channels: 4,
        dst,
        layers: stack.layers(),
        table: &stack.table,
        args: &stack.args,
        samples,
    }
}

/// One pixel on another.
fn one(operator: Operator, source: [f32; 4], dst: [f32; 4]) -> [f32; 4] {
    let stack = Stack::new(&[Layer::new(operator, line(1))]);
    let mut out = [0.0; 4];
    compose(&inputs(1, words(&dst), &stack, words(&source)), words_mut(&mut out)).unwrap();
    out
}

#[test]
fn names() {
    for (name, number) in [("Soft-Light", 13), ("SRC over", 0), ("minus", 23), ("blur", 67)] {
        assert_eq!(from_name(name.as_bytes()).map(Operator::number), Ok(number), "{name}");
    }
    for name in [&b""[..], b"no such", b"\xff", b"over\t"] {
        assert_eq!(from_name(name), Err(Fault::Operator));
    }
}

#[test]
fn single_pixels() {
    assert_eq!(one(Operator::Over, [1.0, 0.0, 0.0, 0.5], [0.0, 0.0, 1.0, 1.0]), [0.5, 0.0, 0.5, 1.0]);
    assert_eq!(one(Operator::Over, [0.0; 4], [0.25, 0.5, 0.75, 0.0]), [0.25, 0.5, 0.75, 0.0]);
    assert_eq!(one(Operator::In, [1.0; 4], [1.0, 1.0, 1.0, 0.5]), [0.5; 4]);
    assert_eq!(one(Operator::ColorBurn, [0.0, 0.0, 0.0, 1.0], [1.0; 4]), [0.0, 0.0, 0.0, 1.0]);
    assert_eq!(one(Operator::ModulusAdd, [0.75, 0.75, 0.75, 1.0], [0.5, 0.5, 0.5, 1.0]), [0.75, 0.75, 0.75, 1.0]);
}

#[test]
fn placed_tiled_and_masked() {
    let layer = Layer {
        offset: (1, 0),
        flags: Flags { tile: true, overlay: false, channels: [true, false, false, true] },
        ..Layer::new(Operator::Src, line(3))
    };
    let stack = Stack::new(&[layer]);
    let samples: Vec<u32> = (0..12).collect();
    let dst = [100; 16];
    let mut out = [0; 16];
    compose(&inputs(4, &dst, &stack, &samples), &mut out).unwrap();
    assert_eq!(out, [8, 100, 100, 11, 0, 100, 100, 3, 4, 100, 100, 7, 8, 100, 100, 11]);
}

/// Whether a pixel lies in a window.
fn holds(window: Window, x: i64, y: i64) -> bool {
    let Window { left, top, width, height } = window;
    (left..left + width).contains(&x) && (top..top + height).contains(&y)
}

/// One layer on a destination of 7 × 5 pixels of which each word is its own, some of them NaNs. The source has 3 × 2.
fn seven_by_five(layer: Layer) -> (Vec<u32>, Vec<u32>) {
    let odd = |n: usize| if n % 3 == 0 { 0x7fa0_0000 + n as u32 } else { (n as f32 / 140.0).to_bits() };
    let dst: Vec<u32> = (0..7 * 5 * 4).map(odd).collect();
    let samples: Vec<u32> = (0..3 * 2 * 4).map(|n| (0.9 - n as f32 / 40.0).to_bits()).collect();
    let stack = Stack::new(&[layer]);
    let inputs = Inputs { height: 5, ..inputs(7, &dst, &stack, &samples) };
    let mut out = vec![0; dst.len()];
    compose(&inputs, &mut out).unwrap();
    (dst, out)
}

/// A window puts the destination's bits back off itself, and changes nothing in itself: not where the source lies, nor what a
/// map reads.
#[test]
fn windows_cut_what_is_written() {
    let source = Source { first: 0, width: 3, height: 2, channels: 4 };
    let windows = [
        [2, 1, 3, 2],
        [0, 0, 7, 5],
        [6, 4, 1, 1],
        [5, 3, 2048, 2048],
        [1, 0, 1, 2048],
        [7, 0, 2048, 2048],
        [0, 5, 2048, 2048],
        [2048, 2048, 2048, 2048],
        [0, 0, 0, 5],
        [0, 0, 7, 0],
    ];
    for operator in [Operator::Over, Operator::Src, Operator::Clear, Operator::Displace, Operator::Distort] {
        for (tile, overlay) in [(false, false), (false, true), (true, false), (true, true)] {
            let flags = Flags { tile, overlay, channels: [true, true, false, true] };
            let whole = Layer { offset: (2, 1), flags, arguments: vec![9.0], ..Layer::new(operator, source) };
            let (dst, without) = seven_by_five(whole.clone());
            for [left, top, width, height] in windows {
                let window = Window { left, top, width, height };
                let (_, with) = seven_by_five(Layer { window, ..whole.clone() });
                for pixel in 0..35 {
                    let wanted = if holds(window, pixel % 7, pixel / 7) { &without } else { &dst };
                    let words = 4 * pixel as usize..4 * pixel as usize + 4;
                    assert_eq!(with[words.clone()], wanted[words], "{operator} {flags:?}, {window}, pixel {pixel}");
                }
            }
        }
    }
    assert_eq!(Window::default(), Window { left: 0, top: 0, width: SIDE as i64, height: SIDE as i64 });
    assert_eq!(Window { left: 1, top: 2, width: 3, height: 4 }.to_string(), "1,2,3,4");
}

#[test]
fn narrowing() {
    let pixels = words(&[0.5, 1.0, f32::NAN, 0.25]).to_vec();
    let mut three = [0; 3];
    narrow(3, &pixels, &mut three).unwrap();
    assert_eq!(three, pixels[..3]);
    let mut bytes = [7; 4];
    narrow_bytes(4, &pixels, &mut bytes).unwrap();
    assert_eq!(bytes, [128, 255, 0, 64]);
    let mut gray = [0];
    narrow(1, &pixels, &mut gray).unwrap();
    assert_eq!(gray, [0x7fc0_0000]);
    let colours = words(&[1.0, 0.0, 0.0, 0.5, 0.0, 1.0, 0.0, 0.5, 0.0, 0.0, 1.0, 0.5]).to_vec();
    let (mut gray, mut bytes) = ([0; 3], [7; 3]);
    narrow(1, &colours, &mut gray).unwrap();
    narrow_bytes(1, &colours, &mut bytes).unwrap();
    assert_eq!((gray, bytes), ([0.212656, 0.715158, 0.072186].map(f32::to_bits), [54, 182, 18]));
    for (wanted, length) in [(2, 2), (3, 4), (-1, 1)] {
        let mut out = vec![9; length];
        assert_eq!(narrow(wanted, &pixels, &mut out), Err(Error::Refused(Fault::Narrow)));
        assert_eq!(out, vec![9; length], "a refused call wrote");
    }
}

/// A job on two pixels: its parts can be changed before a call.
struct Job {
    width: i64,
    dst: Vec<u32>,
    layers: Vec<Layer>,
    samples: Vec<u32>,
    number: JobNumber,
    work: [Vec<u32>; 2],
    mark: Vec<u64>,
}

/// The number of a job that is not said to have another one.
const NUMBER: u64 = 0x0123_4567_89ab_cdef;

impl Job {
    fn new(layers: usize) -> Self {
        use Operator::*;
        let operators = [Over, Multiply, Xor, SoftLight, Displace, Hue, Rmse];
        let windows = [Window::FULL, Window { left: 1, ..Window::FULL }, Window { width: 1, ..Window::FULL }];
        let layer = |k: usize| Layer {
            gravity: Gravity::Centre,
            arguments: vec![0.5, 2.0],
            window: windows[k % windows.len()],
            ..Layer::new(operators[k % operators.len()], line(2))
        };
        Job {
            width: 2,
            dst: words(&[0.1, 0.2, 0.3, 0.4, 0.5, 0.6, 0.7, 0.8]).to_vec(),
            layers: (0..layers).map(layer).collect(),
            samples: words(&[0.9, 0.8, 0.7, 0.6, 0.25, 0.5, 0.75, 1.0]).to_vec(),
            work: [vec![1; 8], vec![2; 8]],
            number: JobNumber(NUMBER),
            mark: vec![0, NUMBER],
        }
    }

    fn call(&mut self, allowance: u64) -> Result<Progress, Error<Refusal>> {
        let stack = Stack::new(&self.layers);
        let inputs = inputs(self.width, &self.dst, &stack, &self.samples);
        let [work0, work1] = &mut self.work;
        job(&inputs, self.number, allowance, Memory { work0, work1, mark: &mut self.mark })
    }

    /// Calls that must be refused, and write nothing, whatever their allowance.
    fn refused(mut self, fault: Fault, layer: u64) {
        let before = (self.work.clone(), self.mark.clone());
        for allowance in [0, 100, u64::MAX] {
            assert_eq!(self.call(allowance), Err(Error::Refused(Refusal { fault, layer })));
        }
        assert_eq!((self.work, self.mark), before, "a refused call wrote");
    }
}

#[test]
fn allowances() {
    let mut job = Job::new(1);
    let mut seen = vec![];
    for allowance in [7, 7, 100] {
        let progress = job.call(allowance).unwrap();
        seen.push((progress.stores, job.mark[0], progress.finished));
    }
    assert_eq!(seen, [(7, 1, false), (7, 2, false), (10, 4, true)]);
    assert_eq!(job.call(0), Ok(Progress { stores: 0, finished: true }));
    assert_eq!(total(2, 1, 1), 4);
    assert_eq!((phase(3, 2, 1), phase(0, 0, 5)), ((1, 1), (0, 0)));
}

#[test]
fn cut_anywhere_and_taken_up() {
    let mut whole = Job::new(7);
    assert_eq!(whole.call(u64::MAX), Ok(Progress { stores: 80, finished: true }));
    // The picture is that of the layers one by one, each within its window.
    let mut beneath = whole.dst.clone();
    for layer in whole.layers.chunks(1) {
        let (mut out, stack) = (vec![0; 8], Stack::new(layer));
        compose(&inputs(2, &beneath, &stack, &whole.samples), &mut out).unwrap();
        beneath = out;
    }
    assert_eq!(whole.work[1], beneath);
    for cut in 0..=80 {
        let mut job = Job::new(7);
        assert_eq!(job.call(cut).unwrap().stores, cut);
        assert_eq!(job.mark, [cut / 5, NUMBER]);
        job.call(u64::MAX).unwrap();
        assert_eq!((&job.work, &job.mark), (&whole.work, &whole.mark), "cut after {cut} stores");
    }
}

#[test]
fn every_fault() {
    let with = |change: fn(&mut Job)| {
        let mut job = Job::new(2);
        change(&mut job);
        job
    };
    with(|job| job.layers.clear()).refused(Fault::Stack, 0);
    with(|job| job.layers = vec![job.layers[0].clone(); 17]).refused(Fault::Stack, 0);
    with(|job| job.width = 2049).refused(Fault::Tray, 0);
    with(|job| job.layers[0].operator = Operator::Interpolate).refused(Fault::Curve, 0);
    with(|job| job.layers[1].offset.1 = 1_000_001).refused(Fault::Placing, 1);
    with(|job| job.layers[1].source.first = 1).refused(Fault::Source, 1);
    with(|job| job.layers[0].arguments = vec![0.0; 5]).refused(Fault::Arguments, 0);
    with(|job| job.work[1] = vec![0; 7]).refused(Fault::Work, 0);
    with(|job| job.mark = vec![7, NUMBER]).refused(Fault::Mark, 0);
    with(|job| job.mark[1] ^= 1).refused(Fault::JobNumber, 0);
    for numbers in [&[][..], &[0], &[NUMBER], &[0, NUMBER, 0]] {
        let mut job = Job::new(2);
        job.mark = numbers.to_vec();
        job.refused(Fault::Mark, 0);
    }
    // Operators and flags have no wrong value in this crate's types; the table itself has.
    let stack = Stack::new(&[Layer::new(Operator::Over, line(1))]);
    let pixel = [0; 4];
    for (column, number, fault) in [(0, 70, Fault::Operator), (4, 64, Fault::Flags)] {
        let mut table = stack.table.clone();
        table[column] = number;
        let broken = Inputs { table: &table, ..inputs(1, &pixel, &stack, &pixel) };
        assert_eq!(compose(&broken, &mut [0; 4]), Err(Error::Refused(fault)));
    }
}

/// Each number of a window by itself, in either layer; and the fault's place among the others.
#[test]
fn a_windows_numbers() {
    let numbers: [fn(&mut Window) -> &mut i64; 4] =
        [|w| &mut w.left, |w| &mut w.top, |w| &mut w.width, |w| &mut w.height];
    for number in numbers {
        for layer in 0..2 {
            let with = |n: i64| {
                let mut job = Job::new(2);
                *number(&mut job.layers[layer].window) = n;
                job
            };
            for beyond in [-1, SIDE as i64 + 1, i64::MIN, i64::MAX] {
                with(beyond).refused(Fault::Window, layer as u64);
            }
            for within in [0, 1, SIDE as i64] {
                assert_eq!(with(within).call(u64::MAX), Ok(Progress { stores: 30, finished: true }));
            }
        }
    }
    let with = |change: fn(&mut Job)| {
        let mut job = Job::new(2);
        job.layers[0].window.top = -1;
        change(&mut job);
        job
    };
    with(|job| job.layers[0].arguments = vec![0.0; 5]).refused(Fault::Arguments, 0);
    with(|job| job.layers[1].operator = Operator::Interpolate).refused(Fault::Window, 0);
    with(|job| job.work[0] = vec![]).refused(Fault::Window, 0);
    with(|job| job.mark = vec![7, NUMBER]).refused(Fault::Window, 0);
    with(|job| job.mark[1] = 0).refused(Fault::Window, 0);
}

/// Numbers that differ in one bit or in all, with 0 among them, are refused at each position, unbegun and finished too, and
/// equal ones are not. The fault comes after all others.
#[test]
fn a_mark_with_another_number() {
    let at = |position: u64, mark: u64, call: u64| {
        let mut job = Job::new(2);
        (job.number, job.mark) = (JobNumber(call), vec![position, mark]);
        job
    };
    for number in [0, 1, NUMBER, u64::MAX] {
        for position in 0..=6 {
            let others = (0..64).map(|bit| number ^ 1 << bit).chain([!number, 0, position]);
            for other in others.filter(|other| *other != number) {
                at(position, other, number).refused(Fault::JobNumber, 0);
            }
            let mut job = at(position, number, number);
            let stores = 5 * (6 - position);
            assert_eq!(job.call(u64::MAX), Ok(Progress { stores, finished: true }));
            assert_eq!(job.mark, [6, number]);
        }
    }
    at(7, 1, 2).refused(Fault::Mark, 0);
    let with = |change: fn(&mut Job)| {
        let mut job = at(0, 1, 2);
        change(&mut job);
        job
    };
    with(|job| job.work[1] = vec![0; 7]).refused(Fault::Work, 0);
    with(|job| job.mark.push(2)).refused(Fault::Mark, 0);
    with(|job| job.layers[1].operator = Operator::Blur).refused(Fault::Curve, 1);
    // Without pixels.
    let empty = |job: &mut Job| (job.width, job.dst, job.work) = (0, vec![], [vec![], vec![]]);
    let mut job = at(0, 1, 2);
    empty(&mut job);
    job.refused(Fault::JobNumber, 0);
    let mut job = at(0, 0, 0);
    empty(&mut job);
    assert_eq!(job.call(0), Ok(Progress { stores: 0, finished: true }));
}

/// A job of the same dimensions is given the memory of an earlier one. Its calls refuse the mark; when it has begun, the picture is
/// its own, whatever the work buffers hold.
#[test]
fn memory_of_an_earlier_job() {
    let later = || {
        let mut job = Job::new(3);
        job.number = JobNumber(NUMBER + 1);
        job.dst.reverse();
        job
    };
    let mut whole = later();
    whole.mark[1] = NUMBER + 1;
    whole.call(u64::MAX).unwrap();
    for stores in (0..=40).step_by(5) {
        let mut earlier = Job::new(3);
        earlier.call(stores).unwrap();
        let mut job = later();
        (job.work, job.mark) = (earlier.work, earlier.mark);
        assert_eq!(job.call(u64::MAX), Err(Error::Refused(Refusal { fault: Fault::JobNumber, layer: 0 })));
        let mut mark = [job.mark[0], job.mark[1]];
        begin(&mut mark, job.number);
        assert_eq!(mark, [0, NUMBER + 1]);
        job.mark = mark.to_vec();
        assert_eq!(job.call(u64::MAX), Ok(Progress { stores: 40, finished: true }));
        assert_eq!((&job.work, &job.mark), (&whole.work, &whole.mark), "after {stores} stores of the earlier job");
    }
}

/// A row of another length, such as one from before there were windows, is refused and not read otherwise.
#[test]
fn rows_of_another_length() {
    let layer = Layer::new(Operator::Over, line(1));
    let stack = Stack::new(&[layer.clone(), layer]);
    let (pixel, mut out) = ([7; 4], [9; 4]);
    let called = inputs(1, &pixel, &stack, &pixel);
    for columns in [0, 10, COLUMNS - 1, COLUMNS + 1] {
        let (args, table) = (&stack.args[..4], [&stack.table[..], &[0]].concat());
        let one = Inputs { table: &table[..columns], args, ..called };
        assert_eq!(compose(&one, &mut out), Err(Error::Refused(Fault::Stack)), "{columns} numbers");
        let (mut work0, mut work1) = ([9; 4], [9; 4]);
        let memory = Memory { work0: &mut work0, work1: &mut work1, mark: &mut [0, NUMBER] };
        let two = Inputs { table: &vec![0; 2 * columns], ..called };
        let refused = Error::Refused(Refusal { fault: Fault::Stack, layer: 0 });
        assert_eq!(job(&two, JobNumber(NUMBER), u64::MAX, memory), Err(refused), "{columns} numbers a layer");
        assert_eq!((out, work0, work1), ([9; 4], [9; 4], [9; 4]), "a refused call wrote");
    }
}

#[test]
fn gravities_by_name() {
    for (number, gravity) in Gravity::ALL.into_iter().enumerate() {
        assert_eq!(gravity.number(), number as u64);
        assert_eq!(gravity.to_string().parse(), Ok(gravity));
        assert_eq!(gravity.name(), format!("{gravity:?}").to_lowercase());
    }
    let said = "up".parse::<Gravity>().unwrap_err().to_string();
    let all = "none, northwest, north, northeast, west, centre, east, southwest, south, southeast";
    assert_eq!(said, format!("no gravity `up`; it is one of {all}"));
    assert_eq!((Gravity::default(), Flags::default().number()), (Gravity::None, 60));
}

/// Samples and words are the same memory: NaNs of every kind keep their bits, in both directions, and empty lists are lists.
#[test]
fn samples_as_words() {
    let mut bits = [0x7fc0_0001, 0xffa0_0000, 0x7f80_0001, 0x8000_0000, 1, 0x3f80_0000];
    let kept = bits;
    let samples: Vec<f32> = kept.iter().map(|w| f32::from_bits(*w)).collect();
    assert_eq!(words(floats(&bits)), kept);
    assert_eq!(words_mut(floats_mut(&mut bits)), kept);
    assert_eq!(floats(&bits).as_ptr() as usize, bits.as_ptr() as usize);
    assert_eq!(words(&samples).len(), samples.len());
    let mut written = [0.0; 6];
    words_mut(&mut written).copy_from_slice(&kept);
    assert_eq!(written.map(f32::to_bits), kept);
    floats_mut(&mut bits)[5] = 2.0;
    assert_eq!(bits[5], 0x4000_0000);
    assert!(words(&[]).is_empty() && floats(&[]).is_empty());
}

#[test]
fn faults_by_number_and_word() {
    let numbers: Vec<u64> = Fault::ALL.iter().map(|fault| fault.number()).collect();
    assert_eq!(numbers, (1..=14).collect::<Vec<u64>>());
    let refusal = Refusal { fault: Fault::Operator, layer: 2 };
    assert_eq!(refusal.to_string(), "refused: 3 OPERATOR in layer 2: no such operator");
    assert!(Fault::Tray.to_string().starts_with("refused: 2 TRAY: "));
    let refusal = Refusal { fault: Fault::Window, layer: 15 };
    let said = "refused: 13 WINDOW in layer 15: a window's left, top, width and height are 0 to 2048";
    assert_eq!(refusal.to_string(), said);
    let refusal = Refusal { fault: Fault::JobNumber, layer: 0 };
    assert_eq!(refusal.to_string(), "refused: 14 JOB NUMBER: the mark's job number is not the call's");
    assert_eq!(JobNumber(0xab).to_string(), "00000000000000ab");
    let with_layer: Vec<u64> =
        Fault::ALL.iter().filter(|fault| fault.has_layer()).map(|fault| fault.number()).collect();
    assert_eq!(with_layer, [3, 4, 5, 6, 7, 8, 13]);
}
