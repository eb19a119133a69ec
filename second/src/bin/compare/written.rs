//! Lists that the first program's reports wrote: each is run with A's calls and without, and one that goes around a
//! gate is searched for a call of that desk.

use crate::brute::{belongs, list_case, struck};
use crate::case::Case;
use crate::counts::{AROUND_TOTAL, SHOWN_TOTAL};
use crate::programs::Found;
use crate::random::Random;
use crate::reply::{number, GUARD_WORDS, STORE_BYTES, WORD};
use second::call::{Answer, Call};
use second::gate::Three;
use second::setup::Setup;
use second::sizes::{ANSWER_WIDTH, CALL_WIDTH};

/// What B's last call answers in a list that a report wrote, with A's calls and without: demand 3.
const SHOWN: [Answer; 2] = [Answer::Figure(1), Answer::Nothing];

/// How often a list is run.
pub const RUNS: usize = SHOWN.len();

/// A list as two cases, with A's calls and without.
pub struct Written {
    pub runs: [Case; RUNS],
    /// The total that it counts for.
    pub total: &'static str,
    /// Whether a call in it belongs to the gate desk that it is to go around.
    pub passes_gate: bool,
}

impl Written {
    /// Whether B's last answers are those that show a route.
    pub fn shows(&self, found: &[Found]) -> bool {
        let last = self.runs.iter().zip(found).map(|(run, found)| last_answer(run, found));
        last.eq(SHOWN.map(|answer| Some(answer.numbers())))
    }
}

/// The lists that some replies of the first program say were written.
pub fn of_reports(random: &mut Random, cases: &[Case], found: &[Found]) -> Vec<Written> {
    let replies = cases.iter().zip(found);
    replies.filter_map(|(case, found)| of_report(random, case, found.as_ref().ok()?)).collect()
}

fn of_report(random: &mut Random, case: &Case, found: &[u8]) -> Option<Written> {
    let (setup, a, gate, total) = match case {
        Case::Route { setup, a, .. } => (setup, *a, None, SHOWN_TOTAL),
        Case::Gate { setup, three: Three { a, gate, .. }, .. } => {
            (setup, *a, Some(*gate), AROUND_TOTAL)
        }
        _ => return None,
    };
    let calls = written(found);
    if calls.is_empty() {
        return None;
    }
    let runs =
        [list_case(random, setup, &calls), list_case(random, setup, &struck(setup, &calls, a))];
    Some(Written {
        runs,
        total,
        passes_gate: gate.is_some_and(|gate| has_call_of(setup, &calls, gate)),
    })
}

/// Whether a desk makes a call in a list.
fn has_call_of(setup: &Setup, calls: &[Call], desk: u32) -> bool {
    calls.iter().any(|call| belongs(setup, call, desk))
}

/// The calls that a reply to a route or a gate case says were written.
fn written(found: &[u8]) -> Vec<Call> {
    const FIRST: usize = ANSWER_WIDTH + GUARD_WORDS;
    if number(found, 0) != Some(1) {
        return Vec::new();
    }
    let count = number(found, 1).unwrap_or(0) as usize;
    // Up to the end of the reply, since the count may be wrong.
    let numbers = (0..count * CALL_WIDTH).map_while(|place| number(found, FIRST + place));
    let numbers: Vec<u32> = numbers.collect();
    numbers.chunks_exact(CALL_WIDTH).map(Call::from_numbers).collect()
}

/// What the last call of a list answered, by the first program's reply; nothing at all where there is none.
fn last_answer(case: &Case, found: &Found) -> Option<[u32; ANSWER_WIDTH]> {
    let (Case::List { calls, .. }, Ok(found)) = (case, found) else {
        return None;
    };
    // The answer of the list, the store, the calls between guards, and the answers behind theirs.
    let before = ANSWER_WIDTH + STORE_BYTES / WORD + GUARD_WORDS * 3 + calls.len();
    let last = before + (calls.len() / CALL_WIDTH).checked_sub(1)? * ANSWER_WIDTH;
    Some([number(found, last)?, number(found, last + 1)?])
}

#[cfg(test)]
mod tests {
    use super::*;
    use crate::families::q;
    use second::rules::Rules;
    use second::sizes::ROUTE_NUMBERS;

    /// The list of Q's route over its middle desk, as if it had been written for a gate.
    fn passed_off(gate: u32) -> Written {
        let (setup, three) = (Box::new(q()), Three { a: 0, b: 2, gate });
        let room = vec![0; ROUTE_NUMBERS];
        let own = Case::Route { setup: setup.clone(), a: 0, b: 2, room: room.clone() };
        let found = own.due(Rules::UNTURNED).bytes;
        of_report(&mut Random::new(1, 0), &Case::Gate { setup, three, room }, &found).unwrap()
    }

    #[test]
    fn a_call_of_the_gate_is_found_in_a_list() {
        assert!(passed_off(1).passes_gate);
        assert!(!passed_off(3).passes_gate);
    }

    #[test]
    fn a_list_that_is_the_same_without_a_shows_nothing() {
        let due = |list: &Written| list.runs.clone().map(|run| Ok(run.due(Rules::UNTURNED).bytes));
        let mut list = passed_off(3);
        assert!(list.shows(&due(&list)));
        list.runs[0] = list.runs[1].clone();
        assert!(!list.shows(&due(&list)));
    }
}
