//! The proved library behind its C interface (host/tray, raw.rs), as a side of a comparison. Built with the
//! feature `tray` this links libtray.a; without it there is no library, and `linked` answers none.
//!
//! Every list is lent in the middle of a larger one. After each call the words around it, and every list that
//! is lent for reading, must have the bits that they had: otherwise the comparison stops there.

use crate::request::Side;

/// The library, if this build has it.
pub fn linked() -> Option<Box<dyn Side>> {
    #[cfg(feature = "tray")]
    return Some(Box::new(library::Ours));
    #[cfg(not(feature = "tray"))]
    None
}

#[cfg(feature = "tray")]
mod library {
    use crate::request::{Answer, Call, CardAnswer, Job, Memory, Side};
    use tray::raw;

    /// What the library says of a name: 0 and its operator; or 3, with the operator as it was.
    fn named(number: u64, operator: u64) -> Option<u64> {
        match number {
            0 => Some(operator),
            3 if operator == LONG => None,
            _ => panic!("the library answers a name with {number} and operator {operator}"),
        }
    }

    /// A yes or no that the library writes as 1 or 0.
    fn yes(n: u64) -> bool {
        assert!(n < 2, "the library writes {n} for yes or no");
        n == 1
    }

    /// Elements on each side of a lent list.
    const MARGIN: usize = 16;

    /// A list in the middle of a larger one.
    struct Lent<T> {
        all: Vec<T>,
        length: usize,
        around: T,
    }

    impl<T: Copy + PartialEq + std::fmt::Debug> Lent<T> {
        fn new(list: &[T], around: T) -> Self {
            let mut all = vec![around; list.len() + 2 * MARGIN];
            all[MARGIN..MARGIN + list.len()].copy_from_slice(list);
            Lent { all, length: list.len(), around }
        }

        fn list(&self) -> &[T] {
            &self.all[MARGIN..MARGIN + self.length]
        }

        fn list_mut(&mut self) -> &mut [T] {
            &mut self.all[MARGIN..MARGIN + self.length]
        }

        /// The only element of the list.
        fn only(&self) -> T {
            self.around_kept().list()[0]
        }

        /// Panics where the elements around the list have changed.
        fn around_kept(&self) -> &Self {
            let (before, rest) = self.all.split_at(MARGIN);
            let after = &rest[self.length..];
            let kept = before.iter().chain(after).all(|n| *n == self.around);
            assert!(kept, "the library wrote outside a list of {} that it was lent", self.length);
            self
        }

        /// Panics where the list, or what is around it, has changed.
        fn kept(&self, list: &[T]) {
            assert!(self.around_kept().list() == list, "the library wrote into a list that it was lent to read");
        }
    }

    const WORD: u32 = 0x5a5a_5a5a;
    const LONG: u64 = 0x5a5a_5a5a_5a5a_5a5a;

    /// A card's answers before a call writes them.
    const UNWRITTEN: raw::CardAnswers = raw::CardAnswers {
        line: LONG,
        width: LONG as i64,
        height: LONG as i64,
        channels: LONG as i64,
        layers: LONG as i64,
    };

    /// The lists of a job's inputs, lent.
    struct Inputs {
        dst: Lent<u32>,
        table: Lent<i64>,
        args: Lent<u32>,
        samples: Lent<u32>,
    }

    impl Inputs {
        fn new(job: &Job) -> Self {
            Inputs {
                dst: Lent::new(&job.dst, WORD),
                table: Lent::new(&job.table, LONG as i64),
                args: Lent::new(&job.args, WORD),
                samples: Lent::new(&job.samples, WORD),
            }
        }

        fn lent(&self, job: &Job) -> tray::Inputs<'_> {
            tray::Inputs {
                width: job.width,
                height: job.height,
                channels: job.channels,
                dst: self.dst.list(),
                layers: job.layers,
                table: self.table.list(),
                args: self.args.list(),
                samples: self.samples.list(),
            }
        }

        fn kept(&self, job: &Job) {
            self.dst.kept(&job.dst);
            self.table.kept(&job.table);
            self.args.kept(&job.args);
            self.samples.kept(&job.samples);
        }
    }

    pub struct Ours;

    impl Side for Ours {
        fn from_name(&self, name: &[u8]) -> Option<u64> {
            let lent = Lent::new(name, 0x5a);
            let mut operator = Lent::new(&[LONG], LONG);
            let number = raw::from_name(lent.list(), &mut operator.list_mut()[0]);
            lent.kept(name);
            named(number, operator.only())
        }

        fn compose(&self, job: &Job, out: &mut [u32]) -> u64 {
            let inputs = Inputs::new(job);
            let mut written = Lent::new(out, WORD);
            let number = raw::compose(&inputs.lent(job), written.list_mut());
            inputs.kept(job);
            out.copy_from_slice(written.around_kept().list());
            number
        }

        fn narrow(&self, wanted: i64, input: &[u32], out: &mut [u32]) -> u64 {
            let lent = Lent::new(input, WORD);
            let mut written = Lent::new(out, WORD);
            let number = raw::narrow(wanted, lent.list(), written.list_mut());
            lent.kept(input);
            out.copy_from_slice(written.around_kept().list());
            number
        }

        fn narrow_bytes(&self, wanted: i64, input: &[u32], out: &mut [u8]) -> u64 {
            let lent = Lent::new(input, WORD);
            let mut written = Lent::new(out, 0x5a);
            let number = raw::narrow_bytes(wanted, lent.list(), written.list_mut());
            lent.kept(input);
            out.copy_from_slice(written.around_kept().list());
            number
        }

        fn call(&self, job: &Job, call: Call, memory: &mut Memory) -> Answer {
            let inputs = Inputs::new(job);
            let [mut work0, mut work1] = [0, 1].map(|w| Lent::new(&memory.work[w], WORD));
            let mut mark = Lent::new(&memory.mark, LONG);
            let [mut layer, mut stores, mut finished] = [0; 3].map(|_| Lent::new(&[LONG], LONG));
            let lent = tray::Memory { work0: work0.list_mut(), work1: work1.list_mut(), mark: mark.list_mut() };
            let answers = [&mut layer, &mut stores, &mut finished].map(|answer| &mut answer.list_mut()[0]);
            let [to_layer, to_stores, to_finished] = answers;
            let Call { job_number, allowance } = call;
            let number = raw::job(&inputs.lent(job), job_number, allowance, lent, to_layer, to_stores, to_finished);
            inputs.kept(job);
            memory.work = [&work0, &work1].map(|work| work.around_kept().list().to_vec());
            memory.mark = mark.around_kept().list().to_vec();
            Answer { number, layer: layer.only(), stores: stores.only(), finished: yes(finished.only()) }
        }

        fn read_card(&self, text: &[u8], table: &mut [i64], args: &mut [u32]) -> CardAnswer {
            // Line ends around the text: a reader that runs past it finds the end that a last line lacks.
            let lent = Lent::new(text, b'\n');
            let mut rows = Lent::new(table, LONG as i64);
            let mut words = Lent::new(args, WORD);
            let mut answers = Lent::new(&[UNWRITTEN], UNWRITTEN);
            let to_answers = &mut answers.list_mut()[0];
            let number = raw::read_card(lent.list(), rows.list_mut(), words.list_mut(), to_answers);
            lent.kept(text);
            table.copy_from_slice(rows.around_kept().list());
            args.copy_from_slice(words.around_kept().list());
            let raw::CardAnswers { line, width, height, channels, layers } = answers.only();
            CardAnswer { number, line, width, height, channels, layers }
        }
    }
}
