//! The grid: the number of links between every two desks at once, each as the single report has it.

use crate::refusal::Refusal;
use crate::route::{report, Report};
use crate::rules::{Rules, Turn};
use crate::setup::{could_be_accepted, Setup};
use crate::sizes::{links_of, DESKS, GRID_NUMBERS, ROUTE_NUMBERS};

/// The numbers that a run must hold. The desks may be any number, since they may not be judged yet.
fn asked(rules: Rules, setup: &Setup) -> u64 {
    let square = u64::from(setup.desks) * u64::from(setup.desks);
    match rules.turn {
        Turn::GridOneShorter => square.saturating_sub(1),
        Turn::GridRoomOfRoute => ROUTE_NUMBERS as u64,
        Turn::GridRoomOfMost => GRID_NUMBERS as u64,
        _ => square,
    }
}

/// Refusals of a grid come in this order: 15, 11.
fn refusal_of_grid(rules: Rules, setup: &Setup, room: &[u32]) -> Option<Refusal> {
    let mut order = [
        (!could_be_accepted(rules, setup), Refusal::NoSetup),
        ((room.len() as u64) < asked(rules, setup), Refusal::RoomTooShort),
    ];
    if rules.turned(Turn::GridRoomBeforeSetup) {
        order.swap(0, 1);
    }
    order.iter().find(|(applies, _)| *applies).map(|&(_, refusal)| refusal)
}

/// The number for a and b: the links that the report's list of calls goes over, 0 where it has none.
fn number(rules: Rules, setup: &Setup, a: u32, b: u32) -> Result<u32, Refusal> {
    if a == b {
        return Ok(u32::from(rules.turned(Turn::GridDiagonalOne)));
    }
    match report(rules, setup, a, b, &mut [0; ROUTE_NUMBERS]) {
        Report::NoRoute => Ok(0),
        Report::Route(calls) if rules.turned(Turn::GridCallsForLinks) => Ok(calls),
        Report::Route(calls) => {
            let more = u32::from(rules.turned(Turn::GridOneLinkMore));
            Ok(links_of(calls) + more)
        }
        Report::Refused(refusal) => Err(refusal),
    }
}

/// Where the number for a and b lies: in row a and column b, in rows as long as there are desks.
fn place(rules: Rules, setup: &Setup, a: u32, b: u32) -> usize {
    let (desks, a, b) = (setup.desks as usize, a as usize, b as usize);
    match rules.turn {
        Turn::GridTransposed => b * desks + a,
        Turn::GridRowsOfMost => a * DESKS + b,
        _ => a * desks + b,
    }
}

/// Only for turns: whether a number is left out, so that its place keeps what it had.
fn is_left_out(rules: Rules, a: u32, b: u32, number: u32) -> bool {
    match rules.turn {
        Turn::GridDiagonalKept => a == b,
        Turn::GridNoRouteKept => a != b && number == 0,
        _ => false,
    }
}

/// Every desk with every desk, itself too.
fn pairs(setup: &Setup) -> impl Iterator<Item = (u32, u32)> {
    let desks = setup.desks;
    (0..desks * desks).map(move |turn| (turn / desks, turn % desks))
}

/// The number of numbers, which fill the front of the room. A refused grid writes nothing.
pub fn grid(rules: Rules, setup: &Setup, room: &mut [u32]) -> Result<u32, Refusal> {
    if let Some(refusal) = refusal_of_grid(rules, setup, room) {
        if rules.turned(Turn::GridRefusedCleared) {
            room.fill(0);
        }
        return Err(refusal);
    }
    // All are found before the first is written.
    let found = pairs(setup).map(|(a, b)| number(rules, setup, a, b));
    let numbers = found.collect::<Result<Vec<u32>, Refusal>>()?;
    for ((a, b), &number) in pairs(setup).zip(&numbers) {
        // A place outside the room comes of a turn alone.
        let cell = room.get_mut(place(rules, setup, a, b));
        if let Some(cell) = cell.filter(|_| !is_left_out(rules, a, b, number)) {
            *cell = number;
        }
    }
    if rules.turned(Turn::GridTailCleared) {
        room[numbers.len()..].fill(0);
    }
    match rules.turn {
        Turn::GridAnswersDesks => Ok(setup.desks),
        _ => Ok(numbers.len() as u32),
    }
}
