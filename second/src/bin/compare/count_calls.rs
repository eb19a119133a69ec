//! What a call counts for: how it went, and what it answered.

use crate::causes::{all_of_call, of_setup, of_store};
use crate::count_cells;
use crate::counts::Counts;
use crate::tally::Table;
use second::call::{code, obstacle, step, Answer, Call, Obstacle};
use second::refusal::Refusal;
use second::rules::Rules;
use second::setup::Setup;
use second::sizes::CALL_WIDTH;
use second::store::Store;

/// The ways a call goes, in the columns of the tables.
pub const BY_VALUE: usize = 0;
pub const IN_PLACE: usize = 1;
pub const IN_A_LIST: usize = 2;
pub const IN_A_TEXT: usize = 3;
pub const WAYS: [&str; 4] = ["by value", "in place", "in a list", "in a text"];

const NAMES: [&str; 9] =
    ["", "READ", "WRITE", "LOCK", "UNLOCK", "OPEN", "CLOSE", "TESTLOCK", "COPY"];

/// Every way in which a call that is not refused can go.
const OUTCOMES: [(u32, &[&str]); 8] = [
    (
        code::READ,
        &["goes through", "goes through, own lock", "no R", "not open", "locked by another"],
    ),
    (code::WRITE, &["goes through", "no W", "unlocked", "locked by another"]),
    (code::LOCK, &["goes through", "no W", "locked by itself", "locked by another"]),
    (code::UNLOCK, &["goes through", "no W", "unlocked", "locked by another"]),
    (
        code::OPEN,
        &["goes through", "goes through, again", "no R", "locked by itself", "locked by another"],
    ),
    (code::CLOSE, &["goes through", "no R", "not open"]),
    (code::TESTLOCK, &["yes", "no, unlocked", "no, locked by another", "no R", "no W"]),
    (
        code::COPY,
        &[
            "goes through",
            "goes through, own lock",
            "no R",
            "no W on the target",
            "not open",
            "locked by another",
            "target unlocked",
            "target locked by another",
        ],
    ),
];

const REFUSALS: [&str; 15] = [
    "5: operation 0",
    "5: operation 9",
    "5: operation above 9",
    "6: p is P",
    "6: p above P",
    "7: f",
    "7: x of COPY",
    "7: f and x of COPY",
    "8: READ",
    "8: LOCK",
    "8: UNLOCK",
    "8: OPEN",
    "8: CLOSE",
    "8: TESTLOCK",
    "9",
];

const ORDERS: [&str; 7] = [
    "5 before 6",
    "5 before 7",
    "6 before 7",
    "6 before 8",
    "6 before 9",
    "7 before 8",
    "7 before 9",
];

pub fn calls() -> Table {
    let mut table = Table::new("Calls", &WAYS);
    for (operation, outcomes) in OUTCOMES {
        let name = NAMES[operation as usize];
        // The walk is a text too, so that each is met there.
        let least = [Some(8), Some(8), Some(40), Some(1)];
        outcomes.iter().for_each(|outcome| table.row_in(&format!("{name}: {outcome}"), &least));
    }
    // A text has no operation but the eight, and gives no x to the six.
    let text_too = [Some(20), Some(20), Some(100), Some(10)];
    let no_text = [Some(20), Some(20), Some(100), None];
    for name in REFUSALS {
        let carried = !name.starts_with('5') && !name.starts_with('8');
        table.row_in(name, if carried { &text_too } else { &no_text });
    }
    for name in ORDERS {
        let carried = !name.starts_with('5') && !name.ends_with('8');
        table.row_in(name, if carried { &text_too } else { &no_text });
    }
    let single = [Some(100), Some(100), None, None];
    table.row_in("15 before 5", &single);
    table.row_in("16 before 5 to 9", &single);
    table
}

pub fn answers() -> Table {
    let mut table = Table::new("Answers", &WAYS);
    for name in ["nothing", "figure 0", "figure above 0", "yes", "no", "refused"] {
        table.row_in(name, &[Some(50), Some(50), Some(50), Some(10)]);
    }
    table
}

fn obstacle_name(obstacle: Obstacle) -> &'static str {
    match obstacle {
        Obstacle::NoR => "no R",
        Obstacle::NoW => "no W",
        Obstacle::NoWOnTarget => "no W on the target",
        Obstacle::NotOpen => "not open",
        Obstacle::Unlocked => "unlocked",
        Obstacle::LockedByItself => "locked by itself",
        Obstacle::LockedByAnother => "locked by another",
        Obstacle::TargetUnlocked => "target unlocked",
        Obstacle::TargetLockedByAnother => "target locked by another",
        Obstacle::Readers => "readers",
    }
}

/// How a call goes that is not refused and that nothing stops.
fn through_name(store: &Store, call: Call) -> &'static str {
    let (p, f) = (call.process as usize, call.file as usize);
    let own = store.locked_by(f, p);
    match call.operation {
        code::READ | code::COPY if own => "goes through, own lock",
        code::OPEN if store.has_open(p, f) => "goes through, again",
        code::TESTLOCK if own => "yes",
        code::TESTLOCK if store.unlocked(f) => "no, unlocked",
        code::TESTLOCK => "no, locked by another",
        _ => "goes through",
    }
}

/// The name of a call's refusal by its cause.
fn refusal_name(setup: &Setup, call: Call, refusal: Refusal) -> String {
    match refusal {
        Refusal::NoSuchOperation => match call.operation {
            0 | 9 => format!("5: operation {}", call.operation),
            _ => "5: operation above 9".to_string(),
        },
        Refusal::NoSuchProcess if call.process == setup.processes => "6: p is P".to_string(),
        Refusal::NoSuchProcess => "6: p above P".to_string(),
        Refusal::NoSuchFile => {
            let extra = call.operation == code::COPY && call.extra >= setup.files;
            let causes = (call.file >= setup.files, extra);
            let name = match causes {
                (true, true) => "7: f and x of COPY",
                (false, true) => "7: x of COPY",
                _ => "7: f",
            };
            name.to_string()
        }
        Refusal::ExtraNotZero => format!("8: {}", NAMES[call.operation as usize]),
        other => other.number().to_string(),
    }
}

/// Counts a call on a sound setup and a fitting store, and the order of its refusals.
fn meet_judged(counts: &mut Counts, held: (&Setup, &Store), call: Call, way: usize) {
    let (setup, store) = held;
    let all = all_of_call(setup, call);
    if let [first, then, ..] = all[..] {
        counts.calls.met(&format!("{} before {}", first.number(), then.number()), way);
    }
    let name = match all.first() {
        Some(&refusal) => refusal_name(setup, call, refusal),
        None => {
            let outcome = match obstacle(Rules::UNTURNED, setup, store, call) {
                Some(obstacle) => obstacle_name(obstacle),
                None => {
                    count_cells::meet_through(counts, store, call, way);
                    through_name(store, call)
                }
            };
            format!("{}: {outcome}", NAMES[call.operation as usize])
        }
    };
    counts.calls.met(&name, way);
}

fn answer_name(answer: Answer) -> &'static str {
    match answer {
        Answer::Nothing => "nothing",
        Answer::Figure(0) => "figure 0",
        Answer::Figure(_) => "figure above 0",
        Answer::Yes => "yes",
        Answer::No => "no",
        Answer::Refused(_) => "refused",
    }
}

/// Counts a single call, whatever it is put to.
pub fn meet(counts: &mut Counts, held: (&Setup, &Store), call: Call, way: usize) {
    let (setup, store) = held;
    let no_operation = call.operation == 0 || call.operation > code::COPY;
    if !of_setup(setup).is_empty() {
        if no_operation {
            counts.calls.met("15 before 5", way);
        }
        return;
    }
    if !of_store(setup, store).is_empty() {
        if !all_of_call(setup, call).is_empty() {
            counts.calls.met("16 before 5 to 9", way);
        }
        return;
    }
    meet_list(counts, held, &call.numbers(), way);
}

/// Counts each call of a list that runs.
pub fn meet_list(counts: &mut Counts, held: (&Setup, &Store), calls: &[u32], way: usize) {
    let mut later = held.1.clone();
    for call in calls.chunks(CALL_WIDTH).map(Call::from_numbers) {
        meet_judged(counts, (held.0, &later), call, way);
        let answer = step(Rules::UNTURNED, held.0, &mut later, call);
        counts.answers.met(answer_name(answer), way);
    }
}
