//! Document 01's table of faults with document 02's 13 and 14: the bounds, and the order in which they are looked at.

use super::sites::Bound;
use super::wrong::{Reading, Wrong};
use crate::request::{ARGUMENTS, COLUMNS, Call, Job, Memory, WINDOW};

/// A fault and its layer.
pub type Fault = (u64, u64);

/// The bounds of a window's four numbers.
const WINDOW_BOUNDS: [(Bound, Bound); 4] = [
    (Bound::LeftLow, Bound::LeftHigh),
    (Bound::TopLow, Bound::TopHigh),
    (Bound::WindowWidthLow, Bound::WindowWidthHigh),
    (Bound::WindowHeightLow, Bound::WindowHeightHigh),
];

impl Reading {
    /// `least <= n <= most`, each end a bound that may be misread by one.
    fn within(self, n: i64, (low, least): (Bound, i64), (high, most): (Bound, i64)) -> bool {
        let moved = |bound: Bound| match self.wrong {
            Some(Wrong::Strict(other)) if other == bound => 1,
            Some(Wrong::Loose(other)) if other == bound => -1,
            _ => 0,
        };
        least + moved(low) <= n && n <= most - moved(high)
    }

    fn channels(self, n: i64, two: Wrong) -> bool {
        n == 1 || n == 3 || n == 4 || n == 2 && self.is(two)
    }

    pub fn stack(self, job: &Job) -> bool {
        let length =
            |have: usize, want: i64, longer: Wrong| have as i64 == want || self.is(longer) && have as i64 > want;
        self.within(job.layers, (Bound::LayersLow, 1), (Bound::LayersHigh, 16))
            && length(job.table.len(), job.layers * COLUMNS as i64, Wrong::TableLonger)
            && length(job.args.len(), job.layers * ARGUMENTS as i64, Wrong::ArgumentsLonger)
    }

    pub fn tray(self, job: &Job) -> bool {
        let length = |size: i64| match self.wrong {
            Some(Wrong::TrayLonger) => job.dst.len() as i64 >= size,
            Some(Wrong::TrayLengthUnchecked) => true,
            _ => job.dst.len() as i64 == size,
        };
        self.within(job.width, (Bound::WidthLow, 0), (Bound::WidthHigh, 2048))
            && self.within(job.height, (Bound::HeightLow, 0), (Bound::HeightHigh, 2048))
            && self.channels(job.channels, Wrong::TrayTwoChannels)
            && length(job.width * job.height * job.channels)
    }

    fn source(self, row: &[i64], samples: usize) -> bool {
        let (start, width, height, channels) = (row[5], row[6], row[7], row[8]);
        let sides = self.within(width, (Bound::SourceWidthLow, 0), (Bound::SourceWidthHigh, 2048))
            && self.within(height, (Bound::SourceHeightLow, 0), (Bound::SourceHeightHigh, 2048))
            && self.channels(channels, Wrong::SourceTwoChannels);
        if !sides || start < 0 && !self.is(Wrong::SourceNegativeStart) {
            return false;
        }
        let (size, have) = (width * height * channels, samples as i64);
        match self.wrong {
            Some(Wrong::SourceWraps) => start.wrapping_add(size) <= have,
            Some(Wrong::SourceEmptyAnywhere) if size == 0 => true,
            Some(Wrong::SourceStartInside) => start < have && size <= have - start,
            Some(Wrong::SourceExactEnd) => size < have - start,
            Some(Wrong::SourceSizeOnly) => size <= have,
            Some(Wrong::SourcePixelsOnly) => start <= have && width * height <= have - start,
            _ => start <= have && size <= have - start,
        }
    }

    /// Number `i` of a window.
    fn window_number(self, i: usize, n: i64) -> bool {
        let n = if self.is(Wrong::WindowLow32Bits) { n as i32 as i64 } else { n };
        let (low, high) = WINDOW_BOUNDS[i];
        match self.wrong {
            Some(Wrong::WindowNegativeOnly) => n >= 0,
            Some(Wrong::WindowLargeOnly) => n <= 2048,
            Some(Wrong::WindowSidesOnly) if i < 2 => true,
            Some(Wrong::WindowCornerOnly) if i >= 2 => true,
            _ => self.within(n, (low, 0), (high, 2048)),
        }
    }

    fn window_numbers(self, window: &[i64], job: &Job) -> bool {
        if !(0..4).all(|i| self.window_number(i, window[i])) {
            return false;
        }
        let (left, top, width, height) = (window[0], window[1], window[2], window[3]);
        match self.wrong {
            Some(Wrong::WindowSumRefused) => left + width <= 2048 && top + height <= 2048,
            Some(Wrong::WindowPastTrayRefused) => left + width <= job.width && top + height <= job.height,
            Some(Wrong::WindowOffTrayRefused) => left < job.width && top < job.height,
            Some(Wrong::WindowEmptyRefused) => width > 0 && height > 0,
            _ => true,
        }
    }

    /// The checks of a row in their order, each with its number.
    fn checks(self, row: &[i64], job: &Job) -> [(u64, bool); 7] {
        let known = self.within(row[0], (Bound::OperatorLow, 0), (Bound::OperatorHigh, 69));
        let placed = self.within(row[1], (Bound::GravityLow, 0), (Bound::GravityHigh, 9))
            && self.within(row[2], (Bound::RightLow, -1_000_000), (Bound::RightHigh, 1_000_000))
            && self.within(row[3], (Bound::DownLow, -1_000_000), (Bound::DownHigh, 1_000_000));
        let curve = match self.wrong {
            Some(Wrong::InterpolateCarried) => row[0] == 67,
            Some(Wrong::BlurCarried) => row[0] == 43,
            _ => row[0] == 43 || row[0] == 67,
        };
        let mut checks = [
            (3, known),
            (4, !curve),
            (5, placed),
            (6, self.within(row[4], (Bound::FlagsLow, 0), (Bound::FlagsHigh, 63))),
            (7, self.source(row, job.samples.len())),
            (8, self.within(row[9], (Bound::CountLow, 0), (Bound::CountHigh, 4))),
            (13, self.window_numbers(&row[WINDOW..], job)),
        ];
        match self.wrong {
            Some(Wrong::RowOrder(i)) => checks.swap(i, i + 1),
            Some(Wrong::RowBackwards) => checks.reverse(),
            Some(Wrong::WindowFirst) => checks.rotate_right(1),
            _ => {}
        }
        checks
    }

    /// The first fault of the rows, of the numbers that are looked for.
    fn rows(self, job: &Job, looked_for: impl Fn(u64) -> bool) -> Option<Fault> {
        let first = |row: &[i64]| {
            let mut checks = self.checks(row, job).into_iter();
            checks.find(|(number, good)| !good && looked_for(*number)).map(|(number, _)| number)
        };
        let faults: Vec<Fault> = (job.table.chunks_exact(COLUMNS).enumerate())
            .take(if self.is(Wrong::FirstLayerOnly) { 1 } else { usize::MAX })
            .filter_map(|(k, row)| first(row).map(|number| (number, k as u64)))
            .collect();
        let (number, layer) = match self.wrong {
            Some(Wrong::LayersByNumber) => faults.iter().copied().min(),
            Some(Wrong::LastLayerFirst) => faults.last().copied(),
            _ => faults.first().copied(),
        }?;
        match self.wrong {
            Some(Wrong::LayerFromOne) => Some((number, layer + 1)),
            Some(Wrong::LayerUnnamed) => Some((number, 0)),
            _ => Some((number, layer)),
        }
    }

    /// Fault 13 of the rows.
    fn windows(self, job: &Job) -> Option<Fault> {
        self.rows(job, |number| number == 13)
    }

    /// Faults 3 to 8 and 13.
    fn layers(self, job: &Job) -> Option<Fault> {
        let others = || self.rows(job, |number| number != 13);
        match self.wrong {
            Some(Wrong::WindowsAfterLayers) => others().or_else(|| self.windows(job)),
            Some(Wrong::WindowsBeforeLayers) => self.windows(job).or_else(others),
            Some(Wrong::WindowsAfterWork | Wrong::WindowsAfterMark) => others(),
            _ => self.rows(job, |_| true),
        }
    }

    /// Fault 13 out of its place, where one of these misreadings looks at it.
    pub fn windows_by(self, job: &Job, wrongs: &[Wrong]) -> Option<Fault> {
        if wrongs.iter().any(|wrong| self.is(*wrong)) { self.windows(job) } else { None }
    }

    /// Faults 1 to 8 and 13.
    pub fn inputs(self, job: &Job) -> Option<Fault> {
        let (stack, tray) = (self.stack(job), self.tray(job));
        if self.is(Wrong::TrayBeforeStack) && !tray {
            return Some((2, 0));
        }
        if !stack {
            return Some((1, 0));
        }
        if let Some(fault) = self.windows_by(job, &[Wrong::WindowsBeforeTray]) {
            return Some(fault);
        }
        if self.is(Wrong::LayersBeforeTray) && !tray {
            return self.layers(job).or(Some((2, 0)));
        }
        if !tray {
            return Some((2, 0));
        }
        self.layers(job)
    }

    pub fn work(self, job: &Job, memory: &Memory) -> bool {
        let want = job.width * job.height * if self.is(Wrong::WorkByChannels) { job.channels } else { 4 };
        let good =
            |work: &Vec<u32>| work.len() as i64 == want || self.is(Wrong::WorkLonger) && work.len() as i64 > want;
        let [first, second] = &memory.work;
        (good(first) || self.is(Wrong::WorkSecondOnly)) && (good(second) || self.is(Wrong::WorkFirstOnly))
    }

    fn mark(self, job: &Job, memory: &Memory) -> bool {
        let pixels = job.width as u64 * job.height as u64;
        let most = match self.wrong {
            Some(Wrong::MarkWithoutTray) => job.layers as u64 * pixels,
            Some(Wrong::MarkInStores) => (job.layers as u64 + 1) * pixels * 5,
            _ => (job.layers as u64 + 1) * pixels,
        };
        let of_one = self.is(Wrong::MarkOfOneOnly);
        match memory.mark[..] {
            [] => self.is(Wrong::MarkMissing),
            [first] => (of_one || self.is(Wrong::MarkOfOneForAll)) && first <= most,
            _ if of_one => false,
            [_, _] if pixels == 0 && self.is(Wrong::MarkOfNothing) => true,
            [first, _] if self.is(Wrong::MarkUnfinished) => first < most || most == 0,
            [_, second] if self.is(Wrong::MarkBoundOfNumber) => second <= most,
            [first, second] if self.is(Wrong::MarkBoundOfBoth) => first <= most && second <= most,
            [first, _] => first <= most,
            [first, ..] => self.is(Wrong::MarkLonger) && first <= most,
        }
    }

    /// Every fault of a job's call.
    pub fn fault(self, job: &Job, call: Call, memory: &Memory) -> Option<Fault> {
        let (work, mark) = (self.work(job, memory), || self.mark(job, memory));
        let layer = if self.is(Wrong::LayerOfMemory) { job.layers.wrapping_sub(1) as u64 } else { 0 };
        let lent = || match () {
            _ if self.is(Wrong::MarkBeforeWork) && !mark() => Some((10, layer)),
            _ if !work => Some((9, layer)),
            _ if self.windows_by(job, &[Wrong::WindowsAfterWork]).is_some() => self.windows(job),
            _ if !mark() || self.is(Wrong::EveryJobRefused) => Some((10, layer)),
            _ => self.windows_by(job, &[Wrong::WindowsAfterMark]),
        };
        if self.is(Wrong::WorkBeforeLayers) && self.stack(job) && self.tray(job) && !work {
            return Some((9, 0));
        }
        let inputs = || self.inputs(job);
        let early = self.number_early(job, call, memory);
        early.or_else(inputs).or_else(lent).or_else(|| self.number(job, call, memory))
    }

    /// Fault 11.
    pub fn narrowing(self, wanted: i64, input: usize, out: usize) -> bool {
        let whole = input.is_multiple_of(4) || self.is(Wrong::NarrowPartPixel);
        let want = input / 4 * wanted.max(0) as usize;
        let length = out == want || self.is(Wrong::NarrowLonger) && out > want;
        !(self.channels(wanted, Wrong::NarrowTwoChannels) && whole && length)
    }
}
