//! Document 02, A.5: the job number, asked of the model and of the restatement.

use oracle::account::pictures;
use oracle::lines::{Outcome, Request, ask};
use oracle::model::Reference;
use oracle::random::Random;
use oracle::request::{Answer, COLUMNS, Call, Job, Memory, Side, WHOLE};
use oracle::restated::{Reading, Restated, Wrong, wrong};

const RESTATED: Restated = Restated { reading: Reading::RIGHT };
const SIDES: [&dyn Side; 2] = [&Reference, &RESTATED];

/// The groups of misreadings that are about marks of two numbers.
const GROUPS: [&str; 4] = [
    "a mark's two numbers",
    "which job numbers are alike",
    "when job numbers are compared",
    "what a wrong job number does",
];

/// A tray of two gray pixels under a layer of Src: a finished position is 4.
fn gray(first: u32) -> Job {
    Job {
        width: 2,
        height: 1,
        channels: 1,
        dst: vec![first, first + 1],
        layers: 1,
        table: [&[17, 0, 1, 0, 60, 0, 1, 1, 1, 0][..], &WHOLE].concat(),
        args: vec![0; 4],
        samples: vec![first + 2],
    }
}

fn memory(mark: &[u64]) -> Memory {
    Memory { work: [(1..9).collect(), (11..19).collect()], mark: mark.to_vec() }
}

/// The fault and the layer that both sides answer; a refused call leaves its memory.
fn fault(job: &Job, call: (u64, u64), memory: &Memory) -> (u64, u64) {
    let [model, restated] = SIDES.map(|side| {
        let mut lent = memory.clone();
        let answer = side.call(job, Call { job_number: call.0, allowance: call.1 }, &mut lent);
        if answer.number != 0 {
            assert_eq!((answer, lent), (Answer::refused(answer.number, answer.layer), memory.clone()));
        }
        (answer.number, answer.layer)
    });
    assert_eq!(model, restated);
    model
}

/// Every number is a number: 0 too, and at position 0 and a finished one too.
#[test]
fn unlike() {
    let numbers =
        [0, 1, 2, 3, 4, 5, u32::MAX as u64, 1 << 32, (1 << 32) + 1, 1 << 53, (1 << 53) + 1, 1 << 63, u64::MAX];
    for held in numbers {
        for carried in numbers {
            let right = if held == carried { (0, 0) } else { (14, 0) };
            for allowance in [0, 7, u64::MAX] {
                for position in 0..=4 {
                    assert_eq!(fault(&gray(32), (carried, allowance), &memory(&[position, held])), right);
                }
                let empty = Job { width: 0, dst: vec![], ..gray(32) };
                let nothing = Memory { work: [vec![], vec![]], mark: vec![0, held] };
                assert_eq!(fault(&empty, (carried, allowance), &nothing), right);
            }
        }
    }
}

/// A mark is two numbers, of which the first is bounded; 10 whatever the numbers are.
#[test]
fn marks() {
    for carried in [0, 5, 9] {
        for position in [5, 6, 1 << 32, (1 << 32) + 1, 1 << 63, u64::MAX] {
            assert_eq!(fault(&gray(32), (carried, 7), &memory(&[position, 5])), (10, 0));
        }
        for mark in [&[][..], &[0], &[5], &[0, 5, 5], &[5, 5, 5], &[0, 5, 0, 5]] {
            assert_eq!(fault(&gray(32), (carried, 7), &memory(mark)), (10, 0));
        }
    }
    // Past the bound as a position, and none as a number.
    assert_eq!(fault(&gray(32), (u64::MAX, 7), &memory(&[4, u64::MAX])), (0, 0));
}

/// Each other fault stands before 14.
#[test]
fn order() {
    for (number, column, value) in [(3, 0, 70), (4, 0, 43), (5, 1, 10), (6, 4, 64), (7, 5, 9), (8, 9, 5), (13, 12, -1)]
    {
        for layer in 0..2 {
            let mut job = gray(32);
            (job.layers, job.table, job.args) = (2, job.table.repeat(2), vec![0; 8]);
            job.table[layer * COLUMNS + column] = value;
            assert_eq!(fault(&job, (6, 7), &memory(&[0, 5])), (number, layer as u64));
        }
    }
    assert_eq!(fault(&Job { layers: 2, ..gray(32) }, (6, 7), &memory(&[0, 5])), (1, 0));
    assert_eq!(fault(&Job { channels: 3, ..gray(32) }, (6, 7), &memory(&[0, 5])), (2, 0));
    let short = Memory { work: [vec![0; 8], vec![0; 7]], mark: vec![0, 5] };
    assert_eq!(fault(&gray(32), (6, 7), &short), (9, 0));
}

/// A job of the same dimensions finds the mark that another has left: it is refused until the mark is made anew, and then
/// has its own picture. Where only the position was set, the earlier job starts anew.
#[test]
fn taken_up() {
    let (first, second) = (gray(32), gray(64));
    let finished = |side: &dyn Side, job: &Job, job_number, mut memory: Memory| {
        let answer = side.call(job, Call { job_number, allowance: u64::MAX }, &mut memory);
        assert_eq!((answer.number, answer.finished), (0, true));
        assert_eq!(Some(&memory.work[1]), pictures(job).last());
        assert_eq!(memory.mark, [4, job_number]);
    };
    for side in SIDES {
        for stores in 0..=20 {
            let mut left = memory(&[0, 1]);
            side.call(&first, Call { job_number: 1, allowance: stores }, &mut left);
            let kept = left.clone();
            for allowance in [0, 7, u64::MAX] {
                let answer = side.call(&second, Call { job_number: 2, allowance }, &mut left);
                assert_eq!((answer, &left), (Answer::refused(14, 0), &kept));
            }
            let begun = |mark: [u64; 2]| Memory { mark: mark.to_vec(), ..left.clone() };
            assert_eq!(fault(&second, (2, 7), &begun([0, 1])), (14, 0));
            finished(side, &first, 1, begun([0, 1]));
            finished(side, &second, 2, begun([0, 2]));
        }
    }
}

/// `stream jobs` would find each misreading of marks and job numbers.
#[test]
fn misreadings() {
    let mut random = Random::new(4);
    let mut asked: Vec<(Request, Outcome)> = Vec::new();
    for _ in 0..3000 {
        random.job_requests(|request| {
            let outcome = ask(&Reference, &request);
            let Outcome::Calls { memory, .. } = &outcome else { unreachable!("only calls are asked") };
            let memory = memory.clone();
            asked.push((request, outcome));
            memory
        });
    }
    let found = |wrong: Option<Wrong>| {
        let side = Restated { reading: Reading { wrong } };
        asked.iter().any(|(request, outcome)| oracle::compare::answered(&side, request).as_ref() != Some(outcome))
    };
    assert!(!found(None));
    let of_marks: Vec<_> = wrong::all().into_iter().filter(|(_, group, _)| GROUPS.contains(group)).collect();
    assert_eq!(of_marks.len(), 50);
    for (wrong, _, text) in of_marks {
        assert!(found(Some(wrong)), "{wrong:?}: {text}");
    }
}
