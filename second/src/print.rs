//! What the program `sheets` prints for its input.

use crate::list::run;
use crate::refusal::Refusal;
use crate::rules::{Rules, Turn};
use crate::sizes::{ANSWER_WIDTH, CALLS, CALL_WIDTH, INPUT_BYTES, LIST_NUMBERS};
use crate::store::fresh;
use crate::text::read_with_calls;

fn refused(refusal: Refusal, offset: usize) -> String {
    format!("refused\t{}\t{}\n", refusal.number(), offset)
}

/// One line for the answer at a position, from its two numbers.
fn answer_line(position: usize, answer: &[u32]) -> String {
    match answer[0] {
        0 => format!("{position}\tnothing\n"),
        1 => format!("{position}\tfigure\t{}\n", answer[1]),
        2 => format!("{position}\tyes\n"),
        3 => format!("{position}\tno\n"),
        _ => format!("{position}\trefused\t{}\n", answer[1]),
    }
}

/// The whole output for the whole input.
pub fn sheets(rules: Rules, input: &[u8]) -> String {
    let most = INPUT_BYTES - usize::from(rules.turned(Turn::InputOneShorter));
    if input.len() > most {
        return refused(Refusal::BrokenLine, INPUT_BYTES);
    }
    let mut room = vec![0; LIST_NUMBERS];
    let (setup, count) = match read_with_calls(rules, input, &mut room) {
        Ok(read) => read,
        Err(fault) => return refused(fault.refusal, fault.offset),
    };
    let store = match fresh(rules, &setup) {
        Ok(store) => store,
        Err(refusal) => return refused(refusal, 0),
    };
    let mut answers = vec![0; CALLS * ANSWER_WIDTH];
    let calls = &room[..count as usize * CALL_WIDTH];
    match run(rules, &setup, &store, calls, &mut answers) {
        (Ok(done), _) => {
            let written = answers.chunks(ANSWER_WIDTH).take(done as usize).enumerate();
            written.map(|(position, answer)| answer_line(position, answer)).collect()
        }
        (Err(refusal), _) => refused(refusal, 0),
    }
}
