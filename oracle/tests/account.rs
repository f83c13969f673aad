//! The model's calls against document 01's account: any list of calls under one job number, with any allowances and
//! refused ones among them, from position 0, leaves the account's memory and gave the account's answers.

use oracle::account::{Account, pictures};
use oracle::model::Reference;
use oracle::random::Random;
use oracle::request::{Answer, Call, Job, Memory, Side};

/// A job with its memory at position 0, its number, and the count of its stores.
fn begun(random: &mut Random, layers: u64) -> (Job, Memory, u64, u64) {
    let job = random.job(layers, (4, 4));
    let number = random.job_number();
    let memory = random.memory(&job, [0, number]);
    let total = 5 * (layers + 1) * (job.width * job.height) as u64;
    (job, memory, number, total)
}

#[test]
fn any_list_of_calls_is_the_accounts() {
    let mut random = Random::new(1);
    let (mut refused, mut wrong) = (0, 0);
    for _ in 0..3000 {
        let layers = 1 + random.below(6);
        let (job, mut memory, number, total) = begun(&mut random, layers);
        let mut account = Account::new(&job, &memory);
        for _ in 0..random.below(12) {
            let call = Call { job_number: number, allowance: random.allowance(total) };
            assert_eq!(Reference.call(&job, call, &mut memory), account.call(call.allowance));
            assert_eq!(memory, account.memory);
            let job_number = random.other_number(number, memory.mark[0]);
            if job_number != number {
                wrong += 1;
                let call = Call { job_number, allowance: random.allowance(total) };
                assert_eq!(Reference.call(&job, call, &mut memory), Answer::refused(14, 0));
                assert_eq!(memory, account.memory);
            }
            let mut other = job.clone();
            random.spoil(&mut other);
            let mut lent = memory.clone();
            let answer = Reference.call(&other, call, &mut lent);
            if answer.number != 0 {
                refused += 1;
                assert_eq!((lent, answer.stores, answer.finished), (memory.clone(), 0, false));
            }
        }
        Reference.call(&job, Call { job_number: number, allowance: u64::MAX }, &mut memory);
        assert_eq!(Some(&memory.work[layers as usize % 2]), pictures(&job).last());
    }
    assert!(refused > 5000 && wrong > 10_000, "{refused} calls refused for their inputs, {wrong} for their numbers");
}

/// Every state of an account has the number that it began with, and a position that no store but a fifth one moves.
#[test]
fn an_account_keeps_the_number() {
    let mut random = Random::new(3);
    for _ in 0..200 {
        let (job, memory, number, total) = begun(&mut random, 2);
        for stores in 0..=total {
            let mut account = Account::new(&job, &memory);
            assert_eq!(account.call(stores).stores, stores);
            assert_eq!(account.memory.mark, [stores / 5, number]);
        }
    }
}

/// An accepted, uncut call allowed n stores gains n / 5 pixels, or all left if fewer.
#[test]
fn a_call_gains_a_fifth_of_its_allowance() {
    let mut random = Random::new(2);
    for _ in 0..1000 {
        let job = random.job(3, (4, 4));
        let end = 4 * (job.width * job.height) as u64;
        let (position, number) = (random.below(end + 1), random.job_number());
        let mut memory = random.memory(&job, [position, number]);
        let allowance = random.allowance(5 * end);
        let answer = Reference.call(&job, Call { job_number: number, allowance }, &mut memory);
        assert_eq!(memory.mark, [position + (allowance / 5).min(end - position), number]);
        assert_eq!(answer.stores, allowance.min(5 * (end - position)));
    }
}
