//! Calls and lists at random: sensible calls that mean something to the store at hand, and wild ones.

use crate::random::Random;
use crate::stores;
use second::call::{code, obstacle, refusal_of, step, Call, Obstacle};
use second::rules::Rules;
use second::setup::Setup;
use second::sizes::{ANSWER_WIDTH, CALLS, CALL_WIDTH, LIST_NUMBERS};
use second::store::Store;

/// How often a call of the wanted outcome is looked for.
const TRIES: usize = 40;

/// In a list, once in so many times come calls that belong together.
const DOINGS: usize = 10;

/// How many figures these write, 0 among them.
const FIGURES: usize = 4;

const OBSTACLES: [Obstacle; 9] = [
    Obstacle::NoR,
    Obstacle::NoW,
    Obstacle::NoWOnTarget,
    Obstacle::NotOpen,
    Obstacle::Unlocked,
    Obstacle::LockedByItself,
    Obstacle::LockedByAnother,
    Obstacle::TargetUnlocked,
    Obstacle::TargetLockedByAnother,
];

/// A call whose numbers exist.
fn plain(random: &mut Random, setup: &Setup, operation: u32) -> Call {
    let file = random.below(setup.files as usize) as u32;
    let extra = match operation {
        code::WRITE => stores::figure(random),
        code::COPY => random.below(setup.files as usize) as u32,
        _ => 0,
    };
    Call { operation, process: random.below(setup.processes as usize) as u32, file, extra }
}

/// What a call is wanted to be: its operation, and what stops it, if anything does.
#[derive(Clone, Copy)]
pub struct Wanted {
    operation: u32,
    obstacle: Option<Obstacle>,
}

pub fn wanted(random: &mut Random) -> Wanted {
    let operation = random.between(code::READ as usize, code::COPY as usize) as u32;
    let obstacle = if random.once_in(2) { Some(random.pick(&OBSTACLES)) } else { None };
    Wanted { operation, obstacle }
}

/// A call that is as wanted, where a few tries find such a one.
pub fn purposeful(
    random: &mut Random,
    setup: &Setup,
    store: &Store,
    wanted: Wanted,
) -> Option<Call> {
    for _ in 0..TRIES {
        let call = plain(random, setup, wanted.operation);
        let refused = refusal_of(Rules::UNTURNED, setup, call).is_some();
        if !refused && obstacle(Rules::UNTURNED, setup, store, call) == wanted.obstacle {
            return Some(call);
        }
    }
    None
}

/// A number at or past a bound.
fn outside(random: &mut Random, bound: u32) -> u32 {
    match random.below(3) {
        0 => bound,
        1 => bound.saturating_add(random.wild()),
        _ => u32::MAX,
    }
}

/// A call with one number or more that may be refused.
fn wild(random: &mut Random, setup: &Setup) -> Call {
    let operation = random.between(code::READ as usize, code::COPY as usize) as u32;
    let mut call = plain(random, setup, operation);
    for _ in 0..random.between(1, 3) {
        match random.below(6) {
            0 => call.operation = random.pick(&[0, 9, 10, 256 + operation, u32::MAX]),
            1 => call.process = outside(random, setup.processes),
            2 => call.file = outside(random, setup.files),
            3 => call.extra = outside(random, setup.files),
            4 => call.extra = random.wild(),
            _ => {
                call.operation = code::COPY;
                call.extra = call.file;
            }
        }
    }
    call
}

/// A call for a store that fits its setup.
pub fn any(random: &mut Random, setup: &Setup, store: &Store) -> Call {
    match random.below(6) {
        0 => wild(random, setup),
        1 => {
            let operation = random.between(code::READ as usize, code::COPY as usize) as u32;
            plain(random, setup, operation)
        }
        _ => {
            let wanted = wanted(random);
            let call = purposeful(random, setup, store, wanted);
            call.unwrap_or_else(|| plain(random, setup, wanted.operation))
        }
    }
}

/// Four numbers that mean nothing.
pub fn meaningless(random: &mut Random) -> Call {
    Call {
        operation: random.wild(),
        process: random.wild(),
        file: random.wild(),
        extra: random.wild(),
    }
}

/// The files that a process's desk may read, and those that it may write.
fn files_of(setup: &Setup, process: u32) -> (Vec<u32>, Vec<u32>) {
    let files = |may: fn(&Setup, usize, usize) -> bool| {
        (0..setup.files).filter(|&file| may(setup, process as usize, file as usize)).collect()
    };
    (files(Setup::reads), files(Setup::writes))
}

/// Some calls of one process that belong together, as its desk's rights allow; now and then one lacks.
pub fn doing(random: &mut Random, setup: &Setup) -> Vec<Call> {
    let process = random.below(setup.processes as usize) as u32;
    let (readable, writable) = files_of(setup, process);
    let call = |operation, file, extra| Call { operation, process, file, extra };
    let mut calls = Vec::new();
    if !readable.is_empty() {
        let file = random.pick(&readable);
        calls.extend([call(code::OPEN, file, 0), call(code::READ, file, 0)]);
    }
    if !writable.is_empty() && random.below(3) > 0 {
        let target = random.pick(&writable);
        let figure = random.below(FIGURES) as u32;
        let put = match calls.first() {
            Some(open) if random.below(3) > 0 => call(code::COPY, open.file, target),
            _ => call(code::WRITE, target, figure),
        };
        calls.extend([call(code::LOCK, target, 0), put, call(code::TESTLOCK, target, 0)]);
        calls.push(call(code::UNLOCK, target, 0));
    }
    if random.once_in(8) {
        let file = random.below(setup.files as usize) as u32;
        let operation = random.between(code::READ as usize, code::COPY as usize) as u32;
        calls.push(call(operation, file, random.below(2) as u32));
    }
    calls.retain(|_| !random.once_in(10));
    calls
}

/// A list of so many calls, each chosen for the store as it will then be; now and then some that belong together.
pub fn list(random: &mut Random, setup: &Setup, store: &Store, count: usize) -> Vec<u32> {
    let mut later = store.clone();
    let mut numbers = Vec::with_capacity(count * CALL_WIDTH);
    while numbers.len() < count * CALL_WIDTH {
        let next = match random.below(DOINGS) {
            0 => doing(random, setup),
            _ => vec![any(random, setup, &later)],
        };
        for call in next {
            step(Rules::UNTURNED, setup, &mut later, call);
            numbers.extend(call.numbers());
        }
    }
    numbers.truncate(count * CALL_WIDTH);
    numbers
}

/// How many calls a list has: few, some, or as many as there may be.
pub fn count(random: &mut Random) -> usize {
    match random.below(100) {
        0 => CALLS,
        1 => CALLS - 1,
        2..=4 => 0,
        5..=40 => random.between(1, 12),
        _ => random.between(13, 110),
    }
}

/// A length that no list may have is made of one that it may have.
pub fn break_length(random: &mut Random, calls: &mut Vec<u32>) {
    match random.below(3) {
        0 => calls.resize(LIST_NUMBERS + random.between(1, 12), 1),
        1 => calls.resize(LIST_NUMBERS + CALL_WIDTH, 0),
        _ => calls.resize(calls.len() + random.between(1, CALL_WIDTH - 1), 0),
    }
}

/// A run of numbers to be lent, with something in every place that is to be kept.
pub fn lent(random: &mut Random, length: usize) -> Vec<u32> {
    (0..length).map(|_| random.next() as u32 | 1).collect()
}

/// Room for the answers of a list: just enough, too short, or with a tail.
pub fn answers(random: &mut Random, calls: usize) -> Vec<u32> {
    let enough = calls / CALL_WIDTH * ANSWER_WIDTH;
    let length = match random.below(8) {
        0 => enough.saturating_sub(random.between(1, 4)),
        1 => random.below(enough + 1),
        2..=4 => enough,
        _ => enough + random.between(1, 40),
    };
    lent(random, length)
}
