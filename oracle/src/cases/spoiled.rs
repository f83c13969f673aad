//! Lines that must not be taken: out of form, or with an answer that is not the library's. Without them a program that
//! takes every line would pass. Each stands after '!', and alone: none has '=' for a list of another line.

use super::book::Book;
use super::layer::pairs;
use crate::compare::{agrees, expected};
use crate::lines::{Case, Reader, Request, ask, parts};
use crate::model::Reference;
use crate::request::{COLUMNS, Call, Job, Memory, WINDOW, under, words};
use crate::restated::{Reading, Restated, Wrong};

/// The number of the jobs here.
const NUMBER: u64 = 6;

/// A case of each kind, small enough that its answer is spoiled number by number.
fn cases() -> Vec<Case> {
    let job = pairs(6, &[([0.25, 0.5, 0.75, 1.0], [0.5, 0.75, 1.0, 0.5])], &[]);
    let input = job.dst.clone();
    let memory = Memory { work: [vec![1; 4], vec![2; 4]], mark: vec![0, NUMBER] };
    let mut bad = Job { layers: 2, table: job.table.repeat(2), args: vec![0; 8], ..job.clone() };
    bad.table[COLUMNS + WINDOW] = -1;
    let requests = [
        Request::Name(b"Soft-Light".to_vec()),
        Request::Name(b"softer".to_vec()),
        Request::Narrow { wanted: 3, input: input.clone(), length: 3 },
        Request::Narrow { wanted: 2, input: input.clone(), length: 2 },
        Request::Bytes { wanted: 4, input, length: 4 },
        Request::Compose { job: job.clone(), length: 4 },
        Request::Compose { job: job.clone(), length: 5 },
        Request::Compose { job: cleared(), length: 8 },
        Request::Calls { job: bad, memory: memory.clone(), calls: under(NUMBER, &[5]) },
        Request::Calls { job: job.clone(), memory: memory.clone(), calls: under(NUMBER, &[3, 100, 0]) },
        Request::Calls { job, memory, calls: under(NUMBER + 1, &[3]) },
        Request::Card { text: super::cards::CARD.into(), table: 224, args: 64 },
        Request::Card { text: super::cards::TRAY.trim_end().into(), table: 224, args: 64 },
    ];
    requests.into_iter().map(expected).collect()
}

/// A token changed: a number by one, and '=' to an empty list.
fn changed(token: &str) -> String {
    match u64::from_str_radix(token, 16) {
        Ok(n) => format!("{:x}", n ^ 1),
        Err(_) => "0".to_string(),
    }
}

/// The ways to spoil a line of these two parts, what is asked and what must be answered.
fn spoiled(asked: &str, answered: &str) -> Vec<String> {
    let tokens: Vec<&str> = answered.split(' ').skip(1).collect();
    let with = |i: usize, token: &str| {
        let all = tokens.iter().enumerate().map(|(k, t)| format!(" {}", if k == i { token } else { t }));
        format!("{asked}{}", all.collect::<String>())
    };
    // Of a card's lists, which are longer than all others here, only some of the zeros.
    let some = (0..tokens.len()).filter(|i| *i < 28 || i % 20 == 0 || *i + 1 == tokens.len());
    let mut lines: Vec<String> = some.map(|i| with(i, &changed(tokens[i]))).collect();
    lines.push(with(0, &format!("0{}", tokens[0])));
    lines.push(with(0, &format!(" {}", tokens[0])));
    lines.push(with(0, &format!("+{}", tokens[0])));
    // More than 64 bits, whose low ones are right.
    lines.push(with(0, &format!("1{:0>16}", tokens[0])));
    lines.push(format!("{asked}{answered} 0"));
    lines.push(format!("{asked}{answered} "));
    lines.push(format!("{asked}{}", answered.rsplit_once(' ').map_or("", |(most, _)| most)));
    lines.push(format!("{asked}{answered}").to_uppercase());
    lines.retain(|line| *line != format!("{asked}{answered}"));
    lines
}

/// A request as a line with the answer of a misreading.
fn misread(request: Request, wrong: Wrong) -> String {
    let expected = ask(&Restated { reading: Reading { wrong: Some(wrong) } }, &request);
    let (asked, answered) = parts(&Case { request, expected });
    asked + &answered
}

/// A layer that clears two pixels, the first a NaN pattern off its window.
fn cleared() -> Job {
    let mut job = pairs(16, &[([0.5; 4], [0.25; 4]); 2], &[]);
    job.dst[0] = 0x7fc0_1234;
    job.table[WINDOW..].copy_from_slice(&[1, 0, 1, 1]);
    job
}

/// Windows: answers in which only a pixel off the window is wrong, a window of a card, or the refusal.
fn windows() -> impl Iterator<Item = String> {
    let job = cleared();
    let table = [pairs(17, &[([0.5; 4], [0.25; 4]); 2], &[]).table, job.table.clone()].concat();
    let stack = Job { layers: 2, table, args: vec![0; 8], ..job.clone() };
    let memory = Memory { work: [vec![1; 8], vec![2; 8]], mark: vec![0, NUMBER] };
    let mut bad = job.clone();
    bad.table[WINDOW + 3] = 2049;
    let ten = Job { table: job.table[..WINDOW].to_vec(), ..job.clone() };
    let compose = |job: Job| Request::Compose { job, length: 8 };
    let card = |table: usize| Request::Card { text: super::cards::CARD.into(), table, args: 64 };
    let calls = Request::Calls { job: stack, memory, calls: under(NUMBER, &[8, 23]) };
    let asked: [(Request, &[Wrong]); 6] = [
        (
            compose(job),
            &[Wrong::WindowNotSingle, Wrong::WindowClears, Wrong::WindowStoresNan, Wrong::WindowLeavesOutput],
        ),
        (calls, &[Wrong::WindowNotInJobs, Wrong::WindowShowsTray, Wrong::WindowLeavesWork, Wrong::WindowSavesStores]),
        (compose(bad), &[Wrong::WindowCornerOnly]),
        (compose(ten), &[Wrong::SingleTenNumbers]),
        (
            card(224),
            &[Wrong::CardWindowEmpty, Wrong::CardWindowOfTray, Wrong::CardWindowLess, Wrong::CardWindowPastLayers],
        ),
        (card(160), &[Wrong::CardTenNumbers]),
    ];
    asked.into_iter().flat_map(|(request, wrongs)| wrongs.iter().map(move |wrong| misread(request.clone(), *wrong)))
}

/// Job numbers: answers in which only the refusal, the mark's second number or what a refused call leaves is wrong.
fn numbers() -> impl Iterator<Item = String> {
    let job = pairs(17, &[([0.5; 4], [0.25; 4])], &[]);
    let other = NUMBER + 1;
    let calls = |position: u64, calls: &[(u64, u64)]| Request::Calls {
        job: job.clone(),
        memory: Memory { work: [vec![1; 4], vec![2; 4]], mark: vec![position, NUMBER] },
        calls: calls.iter().map(|&(job_number, allowance)| Call { job_number, allowance }).collect(),
    };
    let asked: [(Request, &[Wrong]); 6] = [
        (
            calls(0, &[(other, 7)]),
            &[Wrong::NumberUnchecked, Wrong::NumberTakenFresh, Wrong::NumberNamed, Wrong::NumberStores],
        ),
        (calls(1, &[(other, 0)]), &[Wrong::NumberNotIdle, Wrong::NumberBegins, Wrong::NumberAsMark]),
        (
            calls(1, &[(other, 3)]),
            &[Wrong::NumberAfterStores, Wrong::NumberResets, Wrong::NumberTaken, Wrong::NumberRestarts],
        ),
        (calls(2, &[(other, 5)]), &[Wrong::NumberNotFinished, Wrong::NumberFinished]),
        (calls(3, &[(other, 5)]), &[Wrong::NumberBeforeBound]),
        (calls(0, &[(NUMBER, 6), (NUMBER, 9)]), &[Wrong::PositionTwice, Wrong::NumberSixth, Wrong::NumberReleased]),
    ];
    asked.into_iter().flat_map(|(request, wrongs)| wrongs.iter().map(move |wrong| misread(request.clone(), *wrong)))
}

/// Lists of calls with an odd count, each with the answers to calls of these allowances under the job's number: the
/// number left over is an allowance alone, is dropped, or is a call's whose allowance is taken for 0.
const ODD: [(&[u64], &[u64]); 7] = [
    (&[7], &[7]),
    (&[NUMBER], &[]),
    (&[NUMBER], &[0]),
    (&[NUMBER, 7, NUMBER], &[7]),
    (&[NUMBER, 7, NUMBER], &[7, 0]),
    (&[NUMBER, 7, 7], &[7, 7]),
    (&[NUMBER, 7, NUMBER, 7, NUMBER], &[7, 7]),
];

fn odd_calls() -> impl Iterator<Item = String> {
    let job = pairs(17, &[([0.5; 4], [0.25; 4])], &[]);
    let memory = Memory { work: [vec![1; 4], vec![2; 4]], mark: vec![0, NUMBER] };
    ODD.into_iter().map(move |(calls, allowances)| {
        let (job, memory) = (job.clone(), memory.clone());
        let (asked, answered) = parts(&expected(Request::Calls { job, memory, calls: under(NUMBER, allowances) }));
        let tokens: Vec<&str> = asked.split(' ').collect();
        let before = tokens[..tokens.len() - 1 - 2 * allowances.len()].join(" ");
        let numbers: String = calls.iter().map(|n| format!(" {n:x}")).collect();
        format!("{before} {:x}{numbers}{answered}", calls.len())
    })
}

/// Texts that go on behind a name, answered with its operator.
fn names() -> impl Iterator<Item = String> {
    let asked: [(&[u8], Wrong); 2] = [(b"inout", Wrong::NameRunsOn), (b"subtract\0", Wrong::LettersPadded)];
    asked.into_iter().map(|(text, wrong)| misread(Request::Name(text.to_vec()), wrong))
}

/// The gray of a pixel as a word and as a byte, answered as deep.rs has it and document 02 does not.
fn grays() -> impl Iterator<Item = String> {
    let input = words(&[0.25, 0.5, 0.75, 1.0]);
    let asked = [
        Request::Narrow { wanted: 1, input: input.clone(), length: 1 },
        Request::Bytes { wanted: 1, input, length: 1 },
    ];
    asked.into_iter().map(|request| misread(request, Wrong::LumaWeights))
}

pub fn put(book: &mut Book) {
    book.note("spoiled: none of these may be taken");
    let mut put = |line: &str, right: bool| {
        let taken = matches!(Reader::default().case(line), Ok(Some(case)) if agrees(&Reference, &case));
        assert_eq!(taken, right, "{line}");
        book.text += &format!("!{line}\n");
    };
    for case in cases() {
        let (asked, answered) = parts(&case);
        spoiled(&asked, &answered).iter().for_each(|line| put(line, false));
    }
    names().chain(windows()).chain(numbers()).chain(odd_calls()).for_each(|line| put(&line, false));
    // By deep.rs as it is, these are right.
    grays().for_each(|line| put(&line, cfg!(feature = "unchanged")));
}
