//! A list of calls, run in order, with its answers in a lent run.

use crate::call::{step, Answer, Call};
use crate::refusal::Refusal;
use crate::rules::{Rules, Turn};
use crate::setup::Setup;
use crate::sizes::{ANSWER_WIDTH, CALLS, CALL_WIDTH};
use crate::store::{judge, Store};

/// Refusals of the list as a whole come in this order: 15, 16, 10, 11.
fn refusal_of_list(
    rules: Rules,
    setup: &Setup,
    store: &Store,
    calls: &[u32],
    answers: &[u32],
) -> Result<(), Refusal> {
    judge(rules, setup, store)?;
    let count = calls.len() / CALL_WIDTH;
    let most = CALLS + usize::from(rules.turned(Turn::ListOneCallMore));
    let odd = calls.len() != count * CALL_WIDTH || count > most;
    let short = answers.len() < count * ANSWER_WIDTH;
    let mut order = [(odd, Refusal::WrongLength), (short, Refusal::RoomTooShort)];
    if rules.turned(Turn::AnswersBeforeLength) {
        order.swap(0, 1);
    }
    match order.iter().find(|(applies, _)| *applies) {
        Some(&(_, refusal)) => Err(refusal),
        None => Ok(()),
    }
}

/// The number of calls run, and the store after them. A refused list runs and writes nothing.
pub fn run(
    rules: Rules,
    setup: &Setup,
    store: &Store,
    calls: &[u32],
    answers: &mut [u32],
) -> (Result<u32, Refusal>, Store) {
    let mut next = store.clone();
    if let Err(refusal) = refusal_of_list(rules, setup, store, calls, answers) {
        return (Err(refusal), next);
    }
    let mut done = 0;
    let places = answers.chunks_mut(ANSWER_WIDTH);
    for (numbers, place) in calls.chunks(CALL_WIDTH).zip(places) {
        let answer = step(rules, setup, &mut next, Call::from_numbers(numbers));
        place.copy_from_slice(&answer.numbers());
        done += 1;
        if rules.turned(Turn::ListStopsAtRefusal) && matches!(answer, Answer::Refused(_)) {
            break;
        }
    }
    if rules.turned(Turn::AnswersTailCleared) {
        answers[done as usize * ANSWER_WIDTH..].fill(0);
    }
    (Ok(done), next)
}
