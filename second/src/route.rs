//! The route report: whether one desk can be heard at another, and a list of calls that shows it.

use crate::call::{code, Call};
use crate::refusal::Refusal;
use crate::rules::{Rules, Turn};
use crate::setup::{right_at, Setup, R, W};
use crate::sizes::{ANSWER_WIDTH, CALL_WIDTH, DESKS, ROUTE_NUMBERS};

/// The figure that the first desk of a route writes.
const SIGNAL: u32 = 1;

#[derive(Clone, Copy, PartialEq, Eq, Debug)]
pub enum Report {
    NoRoute,
    /// The number of calls written.
    Route(u32),
    Refused(Refusal),
}

impl Report {
    /// The kind and the value of a report.
    pub fn numbers(self) -> [u32; ANSWER_WIDTH] {
        match self {
            Report::NoRoute => [0, 0],
            Report::Route(calls) => [1, calls],
            Report::Refused(refusal) => [4, refusal.number()],
        }
    }
}

/// The lowest process that sits at a desk.
fn process_at(rules: Rules, setup: &Setup, desk: usize) -> Option<u32> {
    let sits = |process: &u32| setup.desk_of[*process as usize] as usize == desk;
    match rules.turn {
        Turn::HighestProcess => (0..setup.processes).rev().find(sits),
        Turn::LinkWithoutProcess => (0..setup.processes).find(sits).or(Some(0)),
        _ => (0..setup.processes).find(sits),
    }
}

/// The lowest file that serves a link from one desk to another, if that link runs.
fn link(rules: Rules, setup: &Setup, from: usize, to: usize) -> Option<u32> {
    process_at(rules, setup, from)?;
    process_at(rules, setup, to)?;
    let carries = |class: usize| {
        setup.rights[right_at(from, class)] & W != 0 && setup.rights[right_at(to, class)] & R != 0
    };
    let serves = |file: &u32| carries(setup.class_of[*file as usize] as usize);
    match rules.turn {
        Turn::HighestFile => (0..setup.files).rev().find(serves),
        Turn::LinkWithoutFile if (0..setup.classes as usize).any(carries) => {
            (0..setup.files).find(serves).or(Some(0))
        }
        _ => (0..setup.files).find(serves),
    }
}

/// For each desk the fewest links to the last desk of a route, by rounds outward from that desk.
fn links_to(rules: Rules, setup: &Setup, last: usize) -> [Option<usize>; DESKS] {
    let desks = setup.desks as usize;
    let mut fewest = [None; DESKS];
    fewest[last] = Some(0);
    for round in 1..desks {
        let before = fewest;
        for desk in (0..desks).filter(|&desk| before[desk].is_none()) {
            let nears =
                |next: usize| before[next].is_some() && link(rules, setup, desk, next).is_some();
            if (0..desks).any(nears) {
                fewest[desk] = Some(round);
            }
        }
    }
    fewest
}

/// The chain with the fewest links; among those the one with the smallest desk at the first difference.
pub fn chain(rules: Rules, setup: &Setup, a: usize, b: usize) -> Option<Vec<usize>> {
    let desks = setup.desks as usize;
    let fewest = links_to(rules, setup, b);
    let mut left = fewest[a]?;
    let mut chain = vec![a];
    let mut desk = a;
    while left > 0 {
        left -= 1;
        let follows =
            |next: &usize| fewest[*next] == Some(left) && link(rules, setup, desk, *next).is_some();
        let next = match rules.turn {
            Turn::LargestDesk => (0..desks).rev().find(follows),
            _ => (0..desks).find(follows),
        };
        desk = next?;
        chain.push(desk);
    }
    if rules.turned(Turn::ChainNotShortest) {
        return Some(detour(rules, setup, chain));
    }
    Some(chain)
}

/// Only for a turn: the chain with a desk more in its first link, where there is one.
fn detour(rules: Rules, setup: &Setup, chain: Vec<usize>) -> Vec<usize> {
    let runs = |from: usize, to: usize| link(rules, setup, from, to).is_some();
    let between = (0..setup.desks as usize)
        .find(|&desk| !chain.contains(&desk) && runs(chain[0], desk) && runs(desk, chain[1]));
    let mut longer = chain;
    if let Some(desk) = between {
        longer.insert(1, desk);
    }
    longer
}

/// The calls that send a figure along a chain of desks.
fn calls_along(rules: Rules, setup: &Setup, chain: &[usize]) -> Option<Vec<Call>> {
    let mut calls = Vec::new();
    let mut before = None;
    for (place, &desk) in chain.iter().enumerate() {
        let process = process_at(rules, setup, desk)?;
        let after = match chain.get(place + 1) {
            Some(&next) => Some(link(rules, setup, desk, next)?),
            None => None,
        };
        let call = |operation, file, extra| Call { operation, process, file, extra };
        match (before, after) {
            (None, Some(file)) => calls.extend([
                call(code::LOCK, file, 0),
                call(code::WRITE, file, SIGNAL),
                call(code::UNLOCK, file, 0),
            ]),
            (Some(file), Some(next)) => calls.extend([
                call(code::OPEN, file, 0),
                call(code::LOCK, next, 0),
                call(code::COPY, file, next),
                call(code::UNLOCK, next, 0),
            ]),
            (Some(file), None) => {
                calls.extend([call(code::OPEN, file, 0), call(code::READ, file, 0)])
            }
            (None, None) => {}
        }
        before = after;
    }
    Some(calls)
}

/// Refusals of a route come in this order: 15, 12, 13, 11.
fn refusal_of_route(rules: Rules, setup: &Setup, a: u32, b: u32, room: &[u32]) -> Option<Refusal> {
    let mut order = [
        (!crate::setup::could_be_accepted(rules, setup), Refusal::NoSetup),
        (a >= setup.desks || b >= setup.desks, Refusal::NoSuchRouteDesk),
        (a == b, Refusal::SameRouteDesks),
        (room.len() < ROUTE_NUMBERS, Refusal::RoomTooShort),
    ];
    match rules.turn {
        Turn::SameDeskBeforeDesk => order.swap(1, 2),
        Turn::RoomBeforeDesks => order.swap(1, 3),
        _ => {}
    }
    order.iter().find(|(applies, _)| *applies).map(|&(_, refusal)| refusal)
}

/// The report on desks a and b. A route's calls fill the front of the room; nothing else is written.
pub fn report(rules: Rules, setup: &Setup, a: u32, b: u32, room: &mut [u32]) -> Report {
    if let Some(refusal) = refusal_of_route(rules, setup, a, b, room) {
        return Report::Refused(refusal);
    }
    match write_route(rules, setup, a, b, room) {
        Some(calls) => Report::Route(calls),
        None => Report::NoRoute,
    }
}

/// The number of a route's calls, which fill the front of a room that holds them; nothing where there is no route.
pub fn write_route(rules: Rules, setup: &Setup, a: u32, b: u32, room: &mut [u32]) -> Option<u32> {
    let chain = chain(rules, setup, a as usize, b as usize)?;
    let calls = calls_along(rules, setup, &chain)?;
    for (call, place) in calls.iter().zip(room.chunks_mut(CALL_WIDTH)) {
        place.copy_from_slice(&call.numbers());
    }
    if rules.turned(Turn::RouteTailCleared) {
        room[calls.len() * CALL_WIDTH..].fill(0);
    }
    Some(calls.len() as u32)
}
