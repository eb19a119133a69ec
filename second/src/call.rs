//! One call: its refusals, the conditions under which it goes through, its effect and its answer.

use crate::refusal::Refusal;
use crate::rules::{Rules, Turn};
use crate::setup::Setup;
use crate::sizes::{ANSWER_WIDTH, CALL_WIDTH, PROCESSES};
use crate::store::{judge, mark_at, Cell, Store, OPEN};

/// The codes of the eight calls.
pub mod code {
    pub const READ: u32 = 1;
    pub const WRITE: u32 = 2;
    pub const LOCK: u32 = 3;
    pub const UNLOCK: u32 = 4;
    pub const OPEN: u32 = 5;
    pub const CLOSE: u32 = 6;
    pub const TESTLOCK: u32 = 7;
    pub const COPY: u32 = 8;
}

/// A call as it is handed in: four numbers, not yet judged.
#[derive(Clone, Copy, PartialEq, Eq, Debug)]
pub struct Call {
    pub operation: u32,
    pub process: u32,
    pub file: u32,
    pub extra: u32,
}

impl Call {
    pub fn from_numbers(numbers: &[u32]) -> Call {
        Call { operation: numbers[0], process: numbers[1], file: numbers[2], extra: numbers[3] }
    }

    pub fn numbers(self) -> [u32; CALL_WIDTH] {
        [self.operation, self.process, self.file, self.extra]
    }
}

#[derive(Clone, Copy, PartialEq, Eq, Debug)]
pub enum Answer {
    Nothing,
    Figure(u32),
    Yes,
    No,
    Refused(Refusal),
}

impl Answer {
    /// The two numbers of an answer.
    pub fn numbers(self) -> [u32; ANSWER_WIDTH] {
        match self {
            Answer::Nothing => [0, 0],
            Answer::Figure(figure) => [1, figure],
            Answer::Yes => [2, 0],
            Answer::No => [3, 0],
            Answer::Refused(refusal) => [4, refusal.number()],
        }
    }
}

/// The first condition, in document 01's order, that keeps a call from going through.
#[derive(Clone, Copy, PartialEq, Eq, PartialOrd, Ord, Debug)]
pub enum Obstacle {
    NoR,
    NoW,
    NoWOnTarget,
    NotOpen,
    Unlocked,
    LockedByItself,
    LockedByAnother,
    TargetUnlocked,
    TargetLockedByAnother,
    /// Only where a turn makes LOCK wait.
    Readers,
}

/// Refusals 5 to 9, in this order, for a setup that could have been accepted.
pub fn refusal_of(rules: Rules, setup: &Setup, call: Call) -> Option<Refusal> {
    let copies = call.operation == code::COPY;
    let takes_extra = copies || call.operation == code::WRITE;
    let file_outside = call.file >= setup.files || (copies && call.extra >= setup.files);
    let mut order = [
        (!(code::READ..=code::COPY).contains(&call.operation), Refusal::NoSuchOperation),
        (call.process >= setup.processes, Refusal::NoSuchProcess),
        (file_outside, Refusal::NoSuchFile),
        (!takes_extra && call.extra != 0, Refusal::ExtraNotZero),
        (copies && call.extra == call.file, Refusal::CopyOntoItself),
    ];
    match rules.turn {
        Turn::ProcessBeforeOperation => order.swap(0, 1),
        Turn::ExtraBeforeFile => order.swap(2, 3),
        Turn::SameFileBeforeFile => order.swap(2, 4),
        _ => {}
    }
    order.iter().find(|(applies, _)| *applies).map(|&(_, refusal)| refusal)
}

/// What keeps a call that is not refused from going through, if anything does.
pub fn obstacle(rules: Rules, setup: &Setup, store: &Store, call: Call) -> Option<Obstacle> {
    let (p, f) = (call.process as usize, call.file as usize);
    let r = (setup.reads(p, f), Obstacle::NoR);
    let w = (setup.writes(p, f), Obstacle::NoW);
    let open = (store.has_open(p, f), Obstacle::NotOpen);
    let locked = (!store.unlocked(f), Obstacle::Unlocked);
    let not_by_p = (!store.locked_by(f, p), Obstacle::LockedByItself);
    let no_other = (store.unlocked(f) || store.locked_by(f, p), Obstacle::LockedByAnother);
    let readers = rules.turned(Turn::LockWaitsForReaders)
        && (0..PROCESSES).any(|reader| store.has_open(reader, f));
    match call.operation {
        code::READ => first(rules, call, &[r, open, no_other]),
        code::WRITE | code::UNLOCK => first(rules, call, &[w, locked, no_other]),
        code::LOCK => first(rules, call, &[w, not_by_p, no_other, (!readers, Obstacle::Readers)]),
        code::OPEN => first(rules, call, &[r, not_by_p, no_other]),
        code::CLOSE => first(rules, call, &[r, open]),
        code::TESTLOCK => first(rules, call, &[r, w]),
        _ => {
            let x = call.extra as usize;
            let target_w = (setup.writes(p, x), Obstacle::NoWOnTarget);
            let target_locked = (!store.unlocked(x), Obstacle::TargetUnlocked);
            let other = !store.unlocked(x) && !store.locked_by(x, p);
            let target_no_other = (!other, Obstacle::TargetLockedByAnother);
            first(rules, call, &[r, target_w, open, no_other, target_locked, target_no_other])
        }
    }
}

/// The first of some conditions that does not hold, but for one that a turn waives.
fn first(rules: Rules, call: Call, conditions: &[(bool, Obstacle)]) -> Option<Obstacle> {
    conditions
        .iter()
        .filter(|(holds, _)| !holds)
        .map(|&(_, obstacle)| obstacle)
        .find(|&obstacle| waived(rules.turn) != Some((call.operation, obstacle)))
}

/// The condition of a call that a turn drops, if it drops one.
fn waived(turn: Turn) -> Option<(u32, Obstacle)> {
    match turn {
        Turn::ReadUnopened => Some((code::READ, Obstacle::NotOpen)),
        Turn::ReadLockedByAnother => Some((code::READ, Obstacle::LockedByAnother)),
        Turn::WriteUnlocked => Some((code::WRITE, Obstacle::Unlocked)),
        Turn::LockWithoutW => Some((code::LOCK, Obstacle::NoW)),
        Turn::UnlockByAnyone => Some((code::UNLOCK, Obstacle::LockedByAnother)),
        Turn::OpenWithoutR => Some((code::OPEN, Obstacle::NoR)),
        Turn::OpenOwnLocked => Some((code::OPEN, Obstacle::LockedByItself)),
        Turn::OpenLockedByAnother => Some((code::OPEN, Obstacle::LockedByAnother)),
        Turn::TestlockWithoutR => Some((code::TESTLOCK, Obstacle::NoR)),
        Turn::TestlockWithoutW => Some((code::TESTLOCK, Obstacle::NoW)),
        Turn::CopyUnopened => Some((code::COPY, Obstacle::NotOpen)),
        Turn::CopyLockedByAnother => Some((code::COPY, Obstacle::LockedByAnother)),
        Turn::CopyToUnlocked => Some((code::COPY, Obstacle::TargetUnlocked)),
        _ => None,
    }
}

/// What a call that goes through does to the store, and what it answers.
fn effect(rules: Rules, store: &mut Store, call: Call) -> Answer {
    let (p, f, x) = (call.process as usize, call.file as usize, call.extra as usize);
    match call.operation {
        code::READ => return reading(rules, store.cells[f]),
        code::WRITE => store.cells[f] = writing(rules, store.cells[f], call.extra),
        code::LOCK => {
            store.holders[f] = call.process + 1;
            if rules.turned(Turn::LockClearsMarks) {
                store.marks[mark_at(f, 0)..mark_at(f, PROCESSES)].fill(0);
            }
        }
        code::UNLOCK => store.holders[f] = 0,
        code::OPEN => store.marks[mark_at(f, p)] = OPEN,
        code::CLOSE if rules.turned(Turn::CloseKeepsMark) => {}
        code::CLOSE => store.marks[mark_at(f, p)] = 0,
        code::TESTLOCK => {
            let any = rules.turned(Turn::TestlockAnyHolder) && !store.unlocked(f);
            let yes = store.locked_by(f, p) || any;
            return if yes { Answer::Yes } else { Answer::No };
        }
        _ => store.cells[x] = copying(rules, call, store.cells[f], store.cells[x]),
    }
    Answer::Nothing
}

/// What READ answers of a cell: its figure, which may be 0, or nothing where it is unwritten.
fn reading(rules: Rules, cell: Cell) -> Answer {
    let nothing = match rules.turn {
        Turn::ReadUnwrittenAsZero => false,
        Turn::ReadZeroAsUnwritten => cell.figure == 0,
        _ => !cell.is_written(),
    };
    if nothing {
        Answer::Nothing
    } else {
        Answer::Figure(cell.figure)
    }
}

/// The cell that WRITE leaves, with a figure of 0 too.
fn writing(rules: Rules, before: Cell, figure: u32) -> Cell {
    match rules.turn {
        Turn::WriteZeroKeepsMark if figure == 0 => Cell { figure, ..before },
        _ => Cell::of(figure),
    }
}

/// The cell that COPY leaves on its target: the source's, mark and all.
fn copying(rules: Rules, call: Call, source: Cell, target: Cell) -> Cell {
    match rules.turn {
        Turn::CopyWritesExtra => Cell { figure: call.extra, ..source },
        Turn::CopyKeepsMark => Cell { figure: source.figure, ..target },
        Turn::CopySkipsUnwritten if !source.is_written() => target,
        Turn::CopyMarksWritten => Cell::of(source.figure),
        _ => source,
    }
}

/// One call on a store that is known to fit its setup.
pub fn step(rules: Rules, setup: &Setup, store: &mut Store, call: Call) -> Answer {
    if let Some(refusal) = refusal_of(rules, setup, call) {
        return Answer::Refused(refusal);
    }
    match obstacle(rules, setup, store, call) {
        Some(_) => Answer::Nothing,
        None => effect(rules, store, call),
    }
}

/// One call on a store lying in the host's memory. Refusals: 15, 16, 5, 6, 7, 8, 9.
pub fn call_in_place(rules: Rules, setup: &Setup, store: &mut Store, call: Call) -> Answer {
    match judge(rules, setup, store) {
        Err(refusal) => Answer::Refused(refusal),
        Ok(()) => step(rules, setup, store, call),
    }
}

/// The same call on a store by value, with the next store handed back.
pub fn call_by_value(rules: Rules, setup: &Setup, store: &Store, call: Call) -> (Answer, Store) {
    let mut next = store.clone();
    let answer = call_in_place(rules, setup, &mut next, call);
    (answer, next)
}
