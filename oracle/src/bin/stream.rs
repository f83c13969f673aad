//! stream COUNT SEED: COUNT random compositions, COUNT / 100 jobs of several layers and several calls each,
//! COUNT / 10 narrowings and COUNT / 10 names, put to the compiled Rust with document 01's model around it and
//! to the other side: the static library that the feature `tray` links, or else the restatement. Every
//! word, answer, count and untouched word is compared. The first mismatch is shrunk, and printed as a line
//! that the vectors' program can replay. The counts at the end say what windows, marks and job numbers had to do
//! with it.
//!
//! stream jobs COUNT SEED: instead of these COUNT random jobs, each with lists of calls of which some have wrong job
//! numbers, other marks or other inputs.
//!
//! stream grays COUNT SEED: instead COUNT random pixels, narrowed to one channel as words and as bytes.
//!
//! stream cards COUNT SEED: instead COUNT random texts, read as cards, against the model of document 02.
//!
//! stream names: instead all the texts of `name_texts`, asked as names.

use oracle::compare::{agrees, answered, expected};
use oracle::lines::{Case, FILL, FILL_INTEGER, Outcome, Request, alone};
use oracle::model::Reference;
use oracle::name_texts;
use oracle::ours;
use oracle::random::Random;
use oracle::reference::is_map;
use oracle::request::{Answer, COLUMNS, Call, Job, Memory, Side, WHOLE, WINDOW, Window};
use oracle::restated::{Reading, Restated};
use oracle::shrink::shrink;
use oracle::window;
use std::fmt::Debug;

#[derive(Default)]
struct Counts {
    compositions: u64,
    refused: u64,
    pixels: u64,
    jobs: u64,
    calls: u64,
    refused_calls: u64,
    stores: u64,
    narrowings: u64,
    names: u64,
    /// Of `stream names`: each kind of texts, how many they are, and how many of them are known.
    kinds: Vec<(&'static str, u64, u64)>,
    grays: u64,
    cards: u64,
    accepted_cards: u64,
    layers: u64,
    windows: Windows,
    marks: Marks,
}

/// How much windows had to do with it.
#[derive(Default)]
struct Windows {
    /// Compositions with pixels off the window, those of maps, and those with tiles or overlay.
    cut: u64,
    maps: u64,
    spread: u64,
    /// Pixels off the windows, and those that would be others without.
    off: u64,
    kept: u64,
    /// Accepted calls of jobs in which a layer has pixels off its window.
    calls: u64,
    /// Refusals by 13.
    refused: u64,
    refused_calls: u64,
}

/// The windows of a job's layers.
fn windows(job: &Job) -> impl Iterator<Item = Window> {
    job.table.chunks_exact(COLUMNS).map(|row| row[WINDOW..].try_into().expect("four numbers"))
}

fn cuts(job: &Job) -> bool {
    windows(job).any(|window| window::off(window, job.width, job.height).next().is_some())
}

impl Windows {
    /// A composition that was accepted, and its picture.
    fn composition(&mut self, job: &Job, out: &[u32]) {
        if !cuts(job) {
            return;
        }
        self.cut += 1;
        self.maps += is_map(job.table[0] as usize) as u64;
        self.spread += (job.table[4] & 3 != 0) as u64;
        let (mut whole, mut painted) = (job.clone(), vec![0; out.len()]);
        whole.table[WINDOW..].copy_from_slice(&WHOLE);
        Reference.compose(&whole, &mut painted);
        let pixels = windows(job).flat_map(|window| window::off(window, job.width, job.height));
        for i in pixels {
            self.off += 1;
            self.kept += (out[4 * i..][..4] != painted[4 * i..][..4]) as u64;
        }
    }
}

/// What marks and job numbers had to do with it, in calls.
#[derive(Default)]
struct Marks {
    /// Refused by 10: lists of no, one, and three or more numbers.
    lengths: [u64; 3],
    /// Refused by 10: positions past the bound under the mark's number and under another.
    past: [u64; 2],
    /// Refused by 14, and accepted.
    refused: Places,
    accepted: Places,
}

/// Calls by the position that they find.
#[derive(Default)]
struct Places {
    empty: u64,
    fresh: u64,
    middle: u64,
    finished: u64,
}

impl Places {
    fn add(&mut self, job: &Job, position: u64) {
        let pixels = (job.width * job.height) as u64;
        let place = match position {
            _ if pixels == 0 => &mut self.empty,
            0 => &mut self.fresh,
            n if n == (job.layers as u64 + 1) * pixels => &mut self.finished,
            _ => &mut self.middle,
        };
        *place += 1;
    }

    fn sum(&self) -> u64 {
        self.empty + self.fresh + self.middle + self.finished
    }
}

impl std::fmt::Display for Places {
    fn fmt(&self, f: &mut std::fmt::Formatter) -> std::fmt::Result {
        let Places { empty, fresh, middle, finished } = self;
        write!(
            f,
            "{} (at position 0 {fresh}, within the work {middle}, finished {finished}, on an empty tray {empty})",
            self.sum()
        )
    }
}

impl Marks {
    /// A call that found this mark.
    fn call(&mut self, job: &Job, call: Call, mark: &[u64], answer: &Answer) {
        match (answer.number, mark) {
            (0, [position, _]) => self.accepted.add(job, *position),
            (14, [position, _]) => self.refused.add(job, *position),
            (10, [_, number]) => self.past[(*number != call.job_number) as usize] += 1,
            (10, list) => self.lengths[list.len().min(2)] += 1,
            _ => {}
        }
    }

    fn calls(&mut self, job: &Job, memory: &Memory, calls: &[Call], answers: &[(Answer, u64)]) {
        let mut mark = memory.mark.clone();
        for (call, (answer, position)) in calls.iter().zip(answers) {
            self.call(job, *call, &mark, answer);
            mark.iter_mut().take(1).for_each(|n| *n = *position);
        }
    }
}

struct Stream {
    side: Box<dyn Side>,
    counts: Counts,
}

impl Stream {
    /// Compares one request, counts it, and hands back the reference's answer.
    fn compare(&mut self, request: Request) -> Outcome {
        let case = expected(request);
        if !agrees(&*self.side, &case) {
            self.report(case);
        }
        self.count(&case);
        case.expected
    }

    fn count(&mut self, case: &Case) {
        let counts = &mut self.counts;
        match (&case.request, &case.expected) {
            (Request::Compose { job, .. }, Outcome::Words { number, out }) => {
                counts.compositions += 1;
                counts.refused += (*number != 0) as u64;
                counts.windows.refused += (*number == 13) as u64;
                if *number == 0 {
                    counts.pixels += (job.width * job.height) as u64;
                    counts.windows.composition(job, out);
                }
            }
            (Request::Calls { job, memory, calls }, Outcome::Calls { answers, .. }) => {
                let with = |number: u64| answers.iter().filter(|(a, _)| a.number == number).count() as u64;
                counts.calls += answers.len() as u64;
                counts.refused_calls += answers.len() as u64 - with(0);
                counts.stores += answers.iter().map(|(a, _)| a.stores).sum::<u64>();
                counts.windows.calls += if with(0) > 0 && cuts(job) { with(0) } else { 0 };
                counts.windows.refused_calls += with(13);
                counts.marks.calls(job, memory, calls, answers);
            }
            (Request::Name(_), _) => counts.names += 1,
            (_, Outcome::Card { answer, .. }) => {
                counts.cards += 1;
                counts.accepted_cards += (answer.number == 0) as u64;
                counts.layers += answer.layers as u64;
            }
            _ => counts.narrowings += 1,
        }
    }

    /// Requests of every kind.
    fn requests(&mut self, count: u64, random: &mut Random) {
        for i in 0..count {
            self.compare(random.composition());
            if i % 10 == 0 {
                self.compare(random.narrowing());
                self.compare(random.name());
            }
            if i % 100 == 0 {
                self.job(random);
            }
        }
    }

    /// A job with its lists of calls.
    fn job(&mut self, random: &mut Random) {
        self.counts.jobs += 1;
        random.job_requests(|request| match self.compare(request) {
            Outcome::Calls { memory, .. } => memory,
            _ => Memory::default(),
        });
    }

    fn jobs(&mut self, count: u64, random: &mut Random) {
        for _ in 0..count {
            self.job(random);
        }
    }

    /// Pixels to one channel, some dozens at a time.
    fn grays(&mut self, count: u64, random: &mut Random) {
        while self.counts.grays < count {
            let length = (count - self.counts.grays).min(64) as usize;
            let input = random.pixels(length);
            self.compare(Request::Narrow { wanted: 1, input: input.clone(), length });
            self.compare(Request::Bytes { wanted: 1, input, length });
            self.counts.grays += length as u64;
        }
    }

    /// Texts of cards.
    fn cards(&mut self, count: u64, random: &mut Random) {
        for _ in 0..count {
            self.compare(random.card());
        }
    }

    /// Every text that is asked as a name.
    fn names(&mut self) {
        for (kind, texts) in name_texts::kinds() {
            let (mut asked, mut known) = (0, 0);
            for text in texts {
                let outcome = self.compare(Request::Name(text));
                asked += 1;
                known += matches!(outcome, Outcome::Name { number: 0, .. }) as u64;
            }
            self.counts.kinds.push((kind, asked, known));
        }
    }

    fn report(&self, case: Case) -> ! {
        std::panic::set_hook(Box::new(|_| {}));
        let least = expected(shrink(case.request, |request| !agrees(&*self.side, &expected(request.clone()))));
        println!("MISMATCH. The smallest case found, with the answer of the reference:");
        show(&least);
        match answered(&*self.side, &least.request) {
            Some(got) => {
                println!("The other side's answer:");
                show(&Case { request: least.request, expected: got });
            }
            None => println!("The other side gave no answer."),
        }
        std::process::exit(1)
    }
}

/// A case as a line; a name, and a card's text, answer and lists also for a person's eyes.
fn show(case: &Case) {
    println!("{}", alone(case));
    if let Request::Name(name) = &case.request {
        println!("\"{}\"", name.escape_ascii());
    }
    if let (Request::Card { text, .. }, Outcome::Card { answer, table, args }) = (&case.request, &case.expected) {
        println!("\"{}\"\n{answer:?}", text.escape_ascii());
        println!("table {}, arguments {}", told(table, FILL_INTEGER), told(args, FILL));
    }
}

/// A list that a call may have filled.
fn told<T: PartialEq + Debug>(list: &[T], fill: T) -> String {
    if list.iter().all(|n| *n == fill) { "as before".to_string() } else { format!("{list:?}") }
}

/// What is asked, if it is not requests of every kind; and a count and a seed, which `names` has not.
fn words() -> Option<(Option<&'static str>, [u64; 2])> {
    let words: Vec<String> = std::env::args().skip(1).collect();
    let kinds = ["jobs", "grays", "cards", "names"];
    let kind = kinds.into_iter().find(|kind| words.first().is_some_and(|word| word == kind));
    let numbers = words[kind.is_some() as usize..].iter().map(|word| word.parse().ok());
    match (kind, &numbers.collect::<Option<Vec<u64>>>()?[..]) {
        (Some("names"), []) => Some((kind, [0; 2])),
        (None | Some("jobs" | "grays" | "cards"), &[count, seed]) => Some((kind, [count, seed])),
        _ => None,
    }
}

fn main() {
    let Some((kind, [count, seed])) = words() else {
        eprintln!("stream [jobs | grays | cards] COUNT SEED, or stream names");
        std::process::exit(2)
    };
    let (side, name): (Box<dyn Side>, _) = match ours::linked() {
        Some(library) => (library, "the static library"),
        None => (Box::new(Restated { reading: Reading::RIGHT }), "the restatement (without the feature `tray`)"),
    };
    let mut random = Random::new(seed);
    let mut stream = Stream { side, counts: Counts::default() };
    match kind {
        Some("jobs") => stream.jobs(count, &mut random),
        Some("grays") => stream.grays(count, &mut random),
        Some("cards") => stream.cards(count, &mut random),
        Some(_) => stream.names(),
        None => stream.requests(count, &mut random),
    }
    let judge = match kind {
        Some("cards") => "document 02's card",
        _ if cfg!(feature = "unchanged") => "the Rust with deep.rs as it is",
        _ => "the Rust",
    };
    let seed = if kind == Some("names") { String::new() } else { format!(", seed {seed}") };
    println!("{judge} against {name}{seed}: no mismatch");
    let c = stream.counts;
    match kind {
        Some("jobs") => report_jobs(&c),
        Some("grays") => println!("pixels narrowed to one channel {}, each as a word and as a byte", c.grays),
        Some("cards") => println!("texts {} ({} accepted, with {} layers)", c.cards, c.accepted_cards, c.layers),
        Some(_) => report_names(&c),
        None => report_requests(&c),
    }
}

fn report_names(c: &Counts) {
    let known: u64 = c.kinds.iter().map(|(_, _, known)| known).sum();
    let kinds: Vec<String> = c.kinds.iter().map(|(kind, asked, known)| format!("{kind} {asked} ({known})")).collect();
    println!("texts {} ({known} known): {}", c.names, kinds.join(", "));
}

fn report_jobs(c: &Counts) {
    println!("jobs {}, their calls {} ({} refused, {} stores)", c.jobs, c.calls, c.refused_calls, c.stores);
    let m = &c.marks;
    let ([none, one, more], [past, past_wrong]) = (m.lengths, m.past);
    println!("calls accepted {}", m.accepted);
    println!("refused by 14: {}", m.refused);
    println!(
        "refused by 10: {} (marks of no number {none}, of one {one}, of three or four {more}, \
         a position past the bound under the mark's number {past}, under another {past_wrong})",
        none + one + more + past + past_wrong
    );
}

fn report_requests(c: &Counts) {
    println!("compositions {} ({} refused, {} pixels)", c.compositions, c.refused, c.pixels);
    report_jobs(c);
    println!("narrowings {}, names {}", c.narrowings, c.names);
    let w = &c.windows;
    println!("windows cut {} compositions ({} of maps, {} with tiles or overlay)", w.cut, w.maps, w.spread);
    println!(
        "pixels off them {}, of which {} would be others without; calls of jobs that they cut {}",
        w.off, w.kept, w.calls
    );
    println!("refused by 13: compositions {}, calls {}", w.refused, w.refused_calls);
}
