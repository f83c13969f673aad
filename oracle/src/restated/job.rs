//! An accepted call, one store after the other: entry e of the store list belongs to phase e / 5N, to its
//! pixel (e mod 5N) / 5 and there to the channel or the mark e mod 5.

use super::place::{Beneath, Row};
use super::window::holds;
use super::wrong::{Reading, Wrong};
use crate::request::{Answer, Job, Memory, WHOLE};

/// What the stores of a call are made from.
struct Stores<'a> {
    reading: Reading,
    job: &'a Job,
    rows: Vec<Row<'a>>,
    widened: Vec<u32>,
    pixels: u64,
}

impl Stores<'_> {
    fn target(&self, phase: u64) -> usize {
        match self.reading.wrong {
            Some(Wrong::WorkExchanged) => (phase as usize + 1) % 2,
            Some(Wrong::WorkInPlace) => 0,
            _ => phase as usize % 2,
        }
    }

    /// The four words of pixel `i` in a phase, with the work pictures as they are.
    fn cell(&self, phase: u64, i: i64, memory: &Memory) -> [u32; 4] {
        let reading = self.reading;
        if phase == 0 {
            let at = i as usize * 4;
            return self.widened[at..at + 4].try_into().unwrap();
        }
        let row = self.row(phase);
        let words = match reading.wrong {
            Some(Wrong::FirstLayerReadsTray) if phase == 1 => &self.widened,
            Some(Wrong::EveryLayerReadsTray) => &self.widened,
            Some(Wrong::MapReadsWritten) if row.op.is_map() => &memory.work[self.target(phase)],
            _ => &memory.work[self.target(phase - 1)],
        };
        let over = |words| Beneath { width: self.job.width, height: self.job.height, words };
        let (x, y) = (i % self.job.width, i / self.job.width);
        match reading.wrong {
            Some(Wrong::WindowShowsTray) if self.off_window(phase, i) => over(&self.widened).at(x, y),
            Some(Wrong::WindowLeavesWork) if self.off_window(phase, i) => {
                over(&memory.work[self.target(phase)]).at(x, y)
            }
            _ => reading.cell(row, &over(words), x, y),
        }
    }

    fn row(&self, phase: u64) -> &Row<'_> {
        match self.reading.wrong {
            Some(Wrong::LayersFromTop) => &self.rows[self.rows.len() - phase as usize],
            _ => &self.rows[phase as usize - 1],
        }
    }

    /// Whether pixel `i` is off the window of a phase's layer.
    fn off_window(&self, phase: u64, i: i64) -> bool {
        phase > 0 && !holds(self.row(phase).window, i % self.job.width, i / self.job.width)
    }

    /// One store of the pixel at the mark: part 0 to 3 a channel, part 4 the mark.
    fn store(&self, part: u64, memory: &mut Memory) {
        let mark = memory.mark[0];
        let (phase, place) = (mark / self.pixels, (mark % self.pixels) as i64);
        let (width, height) = (self.job.width, self.job.height);
        let place = match self.reading.wrong {
            Some(Wrong::ColumnByColumn) => place % height * width + place / height,
            _ => place,
        };
        let order: [u64; 5] = match self.reading.wrong {
            Some(Wrong::AlphaFirst) => [3, 0, 1, 2, 4],
            _ => [0, 1, 2, 3, 4],
        };
        match order[part as usize] {
            4 => memory.mark[0] = mark + 1,
            c => {
                let word = self.cell(phase, place, memory)[c as usize];
                memory.work[self.target(phase)][place as usize * 4 + c as usize] = word;
            }
        }
    }

    /// The pixel at the mark with the mark raised before its channels from `first` on.
    fn early(&self, first: u64, left: u64, memory: &mut Memory) -> u64 {
        let made = left.min(5);
        let mark = memory.mark[0];
        for part in (0..first).chain([4]).chain(first..4).take(made as usize) {
            match part {
                4 => memory.mark[0] = mark + 1,
                _ => {
                    let now = std::mem::replace(&mut memory.mark[0], mark);
                    self.store(part, memory);
                    memory.mark[0] = now;
                }
            }
        }
        made
    }
}

impl Reading {
    pub fn accepted(self, job: &Job, allowance: u64, memory: &mut Memory) -> Answer {
        let pixels = (job.width * job.height) as u64;
        let end = (job.layers as u64 + 1) * pixels;
        let mut rows: Vec<Row> = (0..job.layers as usize).map(|k| self.layer(job, k)).collect();
        if self.is(Wrong::WindowNotInJobs) {
            rows.iter_mut().for_each(|row| row.window = WHOLE);
        }
        let stores = Stores { reading: self, job, rows, widened: self.widened_dst(job), pixels };
        let start = memory.mark[0];
        let left = (end - start) * 5;
        let allowed = match self.wrong {
            // Five of each six are stores of the list.
            Some(Wrong::NumberSixth) => allowance / 6 * 5 + (allowance % 6).min(5),
            Some(Wrong::AllowanceInPixels) => allowance.saturating_mul(5),
            Some(Wrong::AllowanceOfWholePixels) => allowance / 5 * 5,
            Some(Wrong::AllowanceIn32Bits) => allowance as u32 as u64,
            Some(Wrong::AllowanceSigned) => (allowance as i64).max(0) as u64,
            Some(Wrong::AllowanceOneMore) => allowance.saturating_add(1),
            Some(Wrong::AllowancePerPhase) => allowance.min((pixels - start % pixels.max(1)) * 5),
            Some(Wrong::AllowanceZeroIsAll) if allowance == 0 => left,
            _ => allowance,
        };
        let entries = allowed.min(left);
        let made = self.make(&stores, entries, memory);
        self.answer(job, allowance, made, start, memory)
    }

    fn make(self, stores: &Stores, entries: u64, memory: &mut Memory) -> u64 {
        let early = match self.wrong {
            Some(Wrong::MarkBeforeAlpha) => Some(3),
            Some(Wrong::MarkBeforeRed) => Some(0),
            _ => None,
        };
        if let Some(first) = early {
            let mut made = 0;
            while made < entries {
                made += stores.early(first, entries - made, memory);
            }
            return made;
        }
        match self.wrong {
            Some(Wrong::WholeStackAtOnce) => return self.at_once(stores, entries, memory),
            Some(Wrong::WindowSavesStores) => return self.sparing(stores, entries, memory),
            _ => {}
        }
        for i in 0..entries {
            stores.store(i % 5, memory);
            if i % 5 == 3 && i + 1 == entries && self.is(Wrong::PartPixelCounts) {
                memory.mark[0] += 1;
            }
        }
        entries
    }

    /// Every picture in one call, and the mark by whole pixels of the allowance.
    fn at_once(self, stores: &Stores, entries: u64, memory: &mut Memory) -> u64 {
        let start = memory.mark[0];
        let left = (stores.job.layers as u64 + 1) * stores.pixels - start;
        for i in 0..left * 5 {
            stores.store(i % 5, memory);
        }
        memory.mark[0] = start + entries / 5;
        entries
    }

    /// A pixel off its layer's window counted as the mark's store alone.
    fn sparing(self, stores: &Stores, entries: u64, memory: &mut Memory) -> u64 {
        let end = (stores.job.layers as u64 + 1) * stores.pixels;
        let mut made = 0;
        while made < entries && memory.mark[0] < end {
            let (phase, place) = (memory.mark[0] / stores.pixels, memory.mark[0] % stores.pixels);
            let spared = stores.off_window(phase, place as i64);
            let parts = if spared { 5 } else { (entries - made).min(5) };
            (0..parts).for_each(|part| stores.store(part, memory));
            made += if spared { 1 } else { parts };
        }
        made
    }

    fn answer(self, job: &Job, allowance: u64, made: u64, start: u64, memory: &Memory) -> Answer {
        let pixels = (job.width * job.height) as u64;
        let end = (job.layers as u64 + 1) * pixels;
        let mark = memory.mark[0];
        let stores = match self.wrong {
            Some(Wrong::ReportsAllowance) => allowance,
            Some(Wrong::NumberSixth) => allowance.min((end - start) * 6),
            Some(Wrong::ReportsWholePixels) => (mark - start) * 5,
            Some(Wrong::ReportsChannels) => made - (mark - start),
            Some(Wrong::ReportsPixels) => mark - start,
            _ => made,
        };
        let finished = match self.wrong {
            Some(Wrong::FinishedInLastPhase) => mark >= end - pixels,
            Some(Wrong::FinishedOnlyByStores) => mark == end && made > 0,
            Some(Wrong::FinishedByRest) => made < allowance,
            Some(Wrong::FinishedNeverWhenEmpty) => mark == end && pixels > 0,
            Some(Wrong::FinishedWithoutLast) => mark + 1 >= end,
            Some(Wrong::FinishedNextTime) => start == end,
            _ => mark == end,
        };
        Answer { number: 0, layer: 0, stores, finished }
    }
}
