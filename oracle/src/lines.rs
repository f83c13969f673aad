//! The text form of a case, one a line: what is asked, then what must be answered. oracle/README.md
//! describes it. `Reader` and `Writer` remember the lists that '=' stands for.

use crate::request::{Answer, Call, CardAnswer, Job, Memory, Side};
use std::fmt::Write;

/// Where the fixed vectors stand: they are what the program that replays them reads.
pub const VECTORS: &str = concat!(env!("CARGO_MANIFEST_DIR"), "/../crates/vectors/stdin");

/// What an output holds before it is lent: an output that is not written still has it.
pub const FILL: u32 = 0xa5a5_a5a5;
pub const FILL_BYTE: u8 = 0xa5;
/// No card has a number of so many digits.
pub const FILL_INTEGER: i64 = 0x25a5_a5a5_a5a5_a5a5;

/// What is asked.
#[derive(Clone, Debug, PartialEq)]
pub enum Request {
    Name(Vec<u8>),
    Narrow {
        wanted: i64,
        input: Vec<u32>,
        length: usize,
    },
    Bytes {
        wanted: i64,
        input: Vec<u32>,
        length: usize,
    },
    Compose {
        job: Job,
        length: usize,
    },
    Calls {
        job: Job,
        memory: Memory,
        calls: Vec<Call>,
    },
    /// A text, and the lengths of the table and of the arguments that are lent.
    Card {
        text: Vec<u8>,
        table: usize,
        args: usize,
    },
}

/// What is answered, with every list that was lent for writing as the request left it.
#[derive(Clone, Debug, PartialEq)]
pub enum Outcome {
    Name { number: u64, operator: u64 },
    Words { number: u64, out: Vec<u32> },
    Bytes { number: u64, out: Vec<u8> },
    Calls { answers: Vec<(Answer, u64)>, memory: Memory },
    Card { answer: CardAnswer, table: Vec<i64>, args: Vec<u32> },
}

#[derive(Clone, Debug, PartialEq)]
pub struct Case {
    pub request: Request,
    pub expected: Outcome,
}

/// The mark as a line shows it after a call: its position, which is the first number of its list, 0 if there is none.
fn shown(mark: &[u64]) -> u64 {
    mark.first().copied().unwrap_or(0)
}

/// Puts a request to a side.
pub fn ask(side: &dyn Side, request: &Request) -> Outcome {
    match request {
        Request::Name(name) => match side.from_name(name) {
            Some(operator) => Outcome::Name { number: 0, operator },
            None => Outcome::Name { number: 3, operator: 0 },
        },
        Request::Narrow { wanted, input, length } => {
            let mut out = vec![FILL; *length];
            let number = side.narrow(*wanted, input, &mut out);
            Outcome::Words { number, out }
        }
        Request::Bytes { wanted, input, length } => {
            let mut out = vec![FILL_BYTE; *length];
            let number = side.narrow_bytes(*wanted, input, &mut out);
            Outcome::Bytes { number, out }
        }
        Request::Compose { job, length } => {
            let mut out = vec![FILL; *length];
            let number = side.compose(job, &mut out);
            Outcome::Words { number, out }
        }
        Request::Calls { job, memory, calls } => {
            let mut memory = memory.clone();
            let mut answers = Vec::new();
            for call in calls {
                let answer = side.call(job, *call, &mut memory);
                answers.push((answer, shown(&memory.mark)));
            }
            Outcome::Calls { answers, memory }
        }
        Request::Card { text, table, args } => {
            let (mut table, mut args) = (vec![FILL_INTEGER; *table], vec![FILL; *args]);
            let answer = side.read_card(text, &mut table, &mut args);
            Outcome::Card { answer, table, args }
        }
    }
}

/// Each list that '=' may stand for, by the last line that had it.
#[derive(Clone, Debug, Default)]
struct Kept {
    dst: Vec<u32>,
    table: Vec<i64>,
    args: Vec<u32>,
    samples: Vec<u32>,
    input: Vec<u32>,
    memory: Memory,
}

/// A number of a line.
trait Number: Copy + PartialEq {
    fn show(self) -> String;
    fn read(token: &str) -> Result<Self, String>;
}

fn hexadecimal(token: &str) -> Result<u64, String> {
    u64::from_str_radix(token, 16).map_err(|e| format!("{token:?}: {e}"))
}

impl Number for u64 {
    fn show(self) -> String {
        format!("{self:x}")
    }
    fn read(token: &str) -> Result<Self, String> {
        hexadecimal(token)
    }
}

impl Number for u32 {
    fn show(self) -> String {
        format!("{self:x}")
    }
    fn read(token: &str) -> Result<Self, String> {
        hexadecimal(token)?.try_into().map_err(|_| format!("{token:?}: more than 32 bits"))
    }
}

impl Number for u8 {
    fn show(self) -> String {
        format!("{self:x}")
    }
    fn read(token: &str) -> Result<Self, String> {
        hexadecimal(token)?.try_into().map_err(|_| format!("{token:?}: more than 8 bits"))
    }
}

impl Number for usize {
    fn show(self) -> String {
        format!("{self:x}")
    }
    fn read(token: &str) -> Result<Self, String> {
        Ok(hexadecimal(token)? as usize)
    }
}

/// Below zero: '~' and the complement, which always has 63 bits.
impl Number for i64 {
    fn show(self) -> String {
        if self < 0 { format!("~{:x}", !self) } else { format!("{self:x}") }
    }
    fn read(token: &str) -> Result<Self, String> {
        let small = |text| i64::try_from(hexadecimal(text)?).map_err(|_| format!("{token:?}: more than 63 bits"));
        match token.strip_prefix('~') {
            Some(complement) => Ok(!small(complement)?),
            None => small(token),
        }
    }
}

/// Writes cases as lines.
#[derive(Default)]
pub struct Writer {
    kept: Kept,
    line: String,
}

impl Writer {
    fn number(&mut self, n: impl Number) {
        write!(self.line, " {}", n.show()).unwrap();
    }

    fn list<T: Number>(&mut self, list: &[T]) {
        self.number(list.len());
        for n in list {
            self.number(*n);
        }
    }

    /// The list, or '=' where it is the one that stands for.
    fn shared<T: Number>(&mut self, list: &[T], kept: &[T]) {
        if !list.is_empty() && list == kept {
            self.line.push_str(" =");
        } else {
            self.list(list);
        }
    }

    fn job(&mut self, job: &Job, layers: bool) {
        let kept = std::mem::take(&mut self.kept);
        self.number(job.width);
        self.number(job.height);
        self.number(job.channels);
        self.shared(&job.dst, &kept.dst);
        if layers {
            self.number(job.layers);
        }
        self.shared(&job.table, &kept.table);
        self.shared(&job.args, &kept.args);
        self.shared(&job.samples, &kept.samples);
        let (dst, table) = (job.dst.clone(), job.table.clone());
        self.kept = Kept { dst, table, args: job.args.clone(), samples: job.samples.clone(), ..kept };
    }

    fn memory(&mut self, memory: &Memory) {
        let kept = std::mem::replace(&mut self.kept.memory, memory.clone());
        self.shared(&memory.work[0], &kept.work[0]);
        self.shared(&memory.work[1], &kept.work[1]);
        self.shared(&memory.mark, &kept.mark);
    }

    fn output<T: Number>(&mut self, out: &[T], fill: T) {
        if out.iter().all(|n| *n == fill) && !out.is_empty() {
            self.line.push_str(" =");
        } else {
            self.list(out);
        }
    }

    fn request(&mut self, request: &Request) {
        match request {
            Request::Name(name) => {
                self.line.push('F');
                self.list(name);
            }
            Request::Narrow { wanted, input, length } | Request::Bytes { wanted, input, length } => {
                self.line.push(if matches!(request, Request::Narrow { .. }) { 'N' } else { 'B' });
                self.number(*wanted);
                let kept = std::mem::replace(&mut self.kept.input, input.clone());
                self.shared(input, &kept);
                self.number(*length);
            }
            Request::Compose { job, length } => {
                self.line.push('C');
                self.job(job, false);
                self.number(*length);
            }
            Request::Calls { job, memory, calls } => {
                self.line.push('J');
                self.job(job, true);
                self.memory(memory);
                self.list(&calls.iter().flat_map(|call| [call.job_number, call.allowance]).collect::<Vec<_>>());
            }
            Request::Card { text, table, args } => {
                self.line.push('R');
                self.list(text);
                self.number(*table);
                self.number(*args);
            }
        }
    }

    fn outcome(&mut self, outcome: &Outcome) {
        match outcome {
            Outcome::Name { number, operator } => {
                self.number(*number);
                self.number(*operator);
            }
            Outcome::Words { number, out } => {
                self.number(*number);
                self.output(out, FILL);
            }
            Outcome::Bytes { number, out } => {
                self.number(*number);
                self.output(out, FILL_BYTE);
            }
            Outcome::Calls { answers, memory } => {
                for (answer, mark) in answers {
                    self.number(answer.number);
                    self.number(answer.layer);
                    self.number(answer.stores);
                    self.number(answer.finished as u64);
                    self.number(*mark);
                }
                self.memory(memory);
            }
            Outcome::Card { answer, table, args } => {
                self.number(answer.number);
                self.number(answer.line);
                for n in [answer.width, answer.height, answer.channels, answer.layers] {
                    self.number(n);
                }
                self.output(table, FILL_INTEGER);
                self.output(args, FILL);
            }
        }
    }

    pub fn line(&mut self, case: &Case) -> String {
        self.line.clear();
        self.request(&case.request);
        self.outcome(&case.expected);
        self.line.clone()
    }
}

/// The case as a line that stands alone, with no '=' for a list of an earlier line.
pub fn alone(case: &Case) -> String {
    Writer::default().line(case)
}

/// Such a line in its two parts: what is asked, and what must be answered.
pub fn parts(case: &Case) -> (String, String) {
    let mut writer = Writer::default();
    writer.request(&case.request);
    let asked = std::mem::take(&mut writer.line);
    writer.outcome(&case.expected);
    (asked, writer.line)
}

/// Reads lines.
#[derive(Default)]
pub struct Reader {
    kept: Kept,
}

type Tokens<'a> = std::str::Split<'a, char>;

fn token<'a>(tokens: &mut Tokens<'a>) -> Result<&'a str, String> {
    tokens.next().ok_or_else(|| "the line ends too early".to_string())
}

/// A number, which has one spelling: no leading zero, no sign, no capital.
fn spelt<T: Number>(token: &str) -> Result<T, String> {
    let n = T::read(token)?;
    if n.show() == token { Ok(n) } else { Err(format!("{token:?} is not how a number is written")) }
}

fn number<T: Number>(tokens: &mut Tokens) -> Result<T, String> {
    spelt(token(tokens)?)
}

/// A yes or no, which is 1 or 0.
fn yes(tokens: &mut Tokens) -> Result<bool, String> {
    match number(tokens)? {
        0u64 => Ok(false),
        1 => Ok(true),
        n => Err(format!("{n:x} is neither 0 nor 1")),
    }
}

/// The list, or the one that '=' stands for.
fn shared<T: Number>(tokens: &mut Tokens, kept: &[T]) -> Result<Vec<T>, String> {
    match token(tokens)? {
        "=" => Ok(kept.to_vec()),
        count => (0..spelt::<usize>(count)?).map(|_| number(tokens)).collect(),
    }
}

/// The calls of a list: the job number and the allowance of each, alternately.
fn calls(tokens: &mut Tokens) -> Result<Vec<Call>, String> {
    let numbers: Vec<u64> = shared(tokens, &[])?;
    match numbers.as_chunks() {
        (calls, []) => Ok(calls.iter().map(|&[job_number, allowance]| Call { job_number, allowance }).collect()),
        _ => Err(format!("{:x} numbers are not a job number and an allowance for each call", numbers.len())),
    }
}

fn card_answer(tokens: &mut Tokens) -> Result<CardAnswer, String> {
    Ok(CardAnswer {
        number: number(tokens)?,
        line: number(tokens)?,
        width: number(tokens)?,
        height: number(tokens)?,
        channels: number(tokens)?,
        layers: number(tokens)?,
    })
}

impl Reader {
    fn job(&mut self, tokens: &mut Tokens, layers: bool) -> Result<Job, String> {
        let (width, height, channels) = (number(tokens)?, number(tokens)?, number(tokens)?);
        self.kept.dst = shared(tokens, &self.kept.dst)?;
        let layers = if layers { number(tokens)? } else { 1 };
        self.kept.table = shared(tokens, &self.kept.table)?;
        self.kept.args = shared(tokens, &self.kept.args)?;
        self.kept.samples = shared(tokens, &self.kept.samples)?;
        Ok(Job {
            width,
            height,
            channels,
            dst: self.kept.dst.clone(),
            layers,
            table: self.kept.table.clone(),
            args: self.kept.args.clone(),
            samples: self.kept.samples.clone(),
        })
    }

    fn memory(&mut self, tokens: &mut Tokens) -> Result<Memory, String> {
        for work in &mut self.kept.memory.work {
            *work = shared(tokens, work)?;
        }
        self.kept.memory.mark = shared(tokens, &self.kept.memory.mark)?;
        Ok(self.kept.memory.clone())
    }

    fn request(&mut self, kind: &str, tokens: &mut Tokens) -> Result<Request, String> {
        Ok(match kind {
            "F" => Request::Name(shared(tokens, &[])?),
            "N" | "B" => {
                let wanted = number(tokens)?;
                self.kept.input = shared(tokens, &self.kept.input)?;
                let (input, length) = (self.kept.input.clone(), number(tokens)?);
                match kind {
                    "N" => Request::Narrow { wanted, input, length },
                    _ => Request::Bytes { wanted, input, length },
                }
            }
            "C" => Request::Compose { job: self.job(tokens, false)?, length: number(tokens)? },
            "J" => Request::Calls { job: self.job(tokens, true)?, memory: self.memory(tokens)?, calls: calls(tokens)? },
            "R" => Request::Card { text: shared(tokens, &[])?, table: number(tokens)?, args: number(tokens)? },
            _ => return Err(format!("{kind:?} is no kind of line")),
        })
    }

    fn outcome(&mut self, request: &Request, tokens: &mut Tokens) -> Result<Outcome, String> {
        Ok(match request {
            Request::Name(_) => Outcome::Name { number: number(tokens)?, operator: number(tokens)? },
            Request::Bytes { length, .. } => {
                Outcome::Bytes { number: number(tokens)?, out: shared(tokens, &vec![FILL_BYTE; *length])? }
            }
            Request::Narrow { length, .. } | Request::Compose { length, .. } => {
                Outcome::Words { number: number(tokens)?, out: shared(tokens, &vec![FILL; *length])? }
            }
            Request::Calls { calls, .. } => {
                let mut answers = Vec::new();
                for _ in calls {
                    let answer = Answer {
                        number: number(tokens)?,
                        layer: number(tokens)?,
                        stores: number(tokens)?,
                        finished: yes(tokens)?,
                    };
                    answers.push((answer, number(tokens)?));
                }
                Outcome::Calls { answers, memory: self.memory(tokens)? }
            }
            Request::Card { table, args, .. } => Outcome::Card {
                answer: card_answer(tokens)?,
                table: shared(tokens, &vec![FILL_INTEGER; *table])?,
                args: shared(tokens, &vec![FILL; *args])?,
            },
        })
    }

    /// A line that only asks.
    pub fn asked(&mut self, line: &str) -> Result<Request, String> {
        let mut tokens = line.split(' ');
        let kind = token(&mut tokens)?;
        self.request(kind, &mut tokens)
    }

    /// A whole line; `None` for a comment and for a spoiled line.
    pub fn case(&mut self, line: &str) -> Result<Option<Case>, String> {
        if line.is_empty() || line.starts_with(['#', '!']) {
            return Ok(None);
        }
        let mut tokens = line.split(' ');
        let kind = token(&mut tokens)?;
        let request = self.request(kind, &mut tokens)?;
        let expected = self.outcome(&request, &mut tokens)?;
        match tokens.next() {
            None => Ok(Some(Case { request, expected })),
            Some(rest) => Err(format!("{rest:?} stands after the line's end")),
        }
    }
}

#[cfg(test)]
mod tests {
    use super::*;

    #[test]
    fn lines_out_of_form() {
        let read = |line: &str| Reader::default().case(line);
        assert!(read("F 2 6f 6b 3 0").unwrap().is_some());
        for line in [
            "F 2 6f 6b 3",
            "F 2 6f 6b 3 0 0",
            "F 02 6f 6b 3 0",
            "F 2 6F 6b 3 0",
            "F 2 +6f 6b 3 0",
            "G 0",
            "F 1 100 3 0",
        ] {
            assert!(read(line).is_err(), "{line}");
        }
        let call = |answer: &str| read(&format!("J 0 0 1 0 1 0 0 0 0 0 2 0 3 2 3 5 1 0 0 {answer} 0 = = ="));
        assert!(call("0").is_ok() && call("1").is_ok());
        assert!(call("2").is_err());
        let calls =
            |list: &str| read(&format!("J 0 0 1 0 1 0 0 0 0 0 2 0 3 {list} 0 0 2 0 3")).map(|case| case.is_some());
        assert_eq!(calls("0"), Ok(true));
        assert_eq!(calls("2 3 5 1 0 0 0 0"), Ok(true));
        for odd in ["1 5", "1 5 1 0 0 0 0", "3 3 5 3 1 0 0 0 0", "3 3 5 3 1 0 0 0 0 1 0 0 0 0"] {
            assert!(calls(odd).is_err_and(|reason| reason.contains("for each call")), "{odd}");
        }
    }
}
