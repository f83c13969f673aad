//! Document 01's account of a job: its pictures, its store list, and the state that calls move along it. It
//! takes the compositions from the compiled Rust and nothing from the model's calls, which it checks. The mark that it
//! moves has document 02's two numbers, of which the store list has the position alone.

use crate::request::{Answer, Job, Memory, Picture};
use crate::{model, reference, window};

/// One entry of the store list.
#[derive(Clone, Copy, Debug, PartialEq)]
pub enum Entry {
    Word { work: usize, place: usize, word: u32 },
    Position(u64),
}

/// Picture 0 is the widened destination, picture k is layer k - 1 on picture k - 1, whose pixels stay off the layer's window.
pub fn pictures(job: &Job) -> Vec<Vec<u32>> {
    let of = |channels: i64, words: Vec<u32>| Picture {
        width: job.width as u32,
        height: job.height as u32,
        channels: channels as usize,
        words,
    };
    let mut pictures = vec![reference::widen(&of(job.channels, job.dst.clone()))];
    for k in 0..job.layers as usize {
        let beneath = of(4, pictures[k].clone());
        pictures.push(window::compose(&beneath, &model::layer(job, k)));
    }
    pictures
}

/// The store list of a job without a fault.
pub fn entries(job: &Job) -> Vec<Entry> {
    let pixels = (job.width * job.height) as usize;
    let mut list = Vec::new();
    for (k, picture) in pictures(job).iter().enumerate() {
        for j in 0..pixels {
            let word = |c: usize| Entry::Word { work: k % 2, place: 4 * j + c, word: picture[4 * j + c] };
            list.extend((0..4).map(word));
            list.push(Entry::Position((k * pixels + j + 1) as u64));
        }
    }
    list
}

/// The account's state: it begins with the memory lent, at position 0 under the job's number.
pub struct Account {
    entries: Vec<Entry>,
    pub memory: Memory,
}

impl Account {
    pub fn new(job: &Job, memory: &Memory) -> Self {
        assert!(matches!(memory.mark[..], [0, _]), "a job begins at position 0 of a mark of two numbers");
        Account { entries: entries(job), memory: memory.clone() }
    }

    /// A call with the job's own inputs, under the job's number.
    pub fn call(&mut self, allowance: u64) -> Answer {
        let first = 5 * self.memory.mark[0] as usize;
        let rest = &self.entries[first..];
        let made = &rest[..rest.len().min(usize::try_from(allowance).unwrap_or(usize::MAX))];
        for entry in made {
            match *entry {
                Entry::Word { work, place, word } => self.memory.work[work][place] = word,
                Entry::Position(position) => self.memory.mark[0] = position,
            }
        }
        let finished = self.memory.mark[0] as usize * 5 == self.entries.len();
        Answer { number: 0, layer: 0, stores: made.len() as u64, finished }
    }
}
