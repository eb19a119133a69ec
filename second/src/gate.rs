//! The gate report: whether all that one desk hears of another passes a third, and a list of calls that does not.

use crate::refusal::Refusal;
use crate::route::{chain, write_route};
use crate::rules::{Rules, Turn};
use crate::setup::{could_be_accepted, right_at, Setup};
use crate::sizes::{
    links_of, numbers_over, ANSWER_WIDTH, CALL_WIDTH, CLASSES, LINKS_AROUND, ROUTE_NUMBERS,
};

/// The desk that may be heard, the one that may hear it, and the one that stands between them or not.
#[derive(Clone, Copy, PartialEq, Eq, Debug)]
pub struct Three {
    pub a: u32,
    pub b: u32,
    pub gate: u32,
}

#[derive(Clone, Copy, PartialEq, Eq, Debug)]
pub enum Guard {
    Guarded,
    /// The number of calls written.
    Unguarded(u32),
    Refused(Refusal),
}

impl Guard {
    /// The kind and the value of a report.
    pub fn numbers(self) -> [u32; ANSWER_WIDTH] {
        match self {
            Guard::Guarded => [0, 0],
            Guard::Unguarded(calls) => [1, calls],
            Guard::Refused(refusal) => [4, refusal.number()],
        }
    }
}

/// Whether one of the three is no desk of the setup.
fn has_no_desk(rules: Rules, setup: &Setup, three: Three) -> bool {
    let Three { a, b, gate } = three;
    let is_none = |number: u32, unjudged| number >= setup.desks && !rules.turned(unjudged);
    is_none(a, Turn::GateAUnjudged)
        || is_none(b, Turn::GateBUnjudged)
        || is_none(gate, Turn::GateDeskUnjudged)
}

/// Whether two of the three are the same.
fn has_same(rules: Rules, three: Three) -> bool {
    let Three { a, b, gate } = three;
    a == b && !rules.turned(Turn::GatePairMayBeEqual)
        || a == gate && !rules.turned(Turn::GateMayBeA)
        || b == gate && !rules.turned(Turn::GateMayBeB)
}

/// The numbers that a room must hold: as many as for a route, though no list around a desk has so many.
fn asked(rules: Rules) -> usize {
    match rules.turn {
        Turn::GateOneShorter => ROUTE_NUMBERS - 1,
        Turn::GateRoomOfLongest => numbers_over(LINKS_AROUND),
        _ => ROUTE_NUMBERS,
    }
}

/// Refusals of a gate come in this order: 15, 12, 13, 11.
fn refusal_of_gate(rules: Rules, setup: &Setup, three: Three, room: &[u32]) -> Option<Refusal> {
    let mut order = [
        (!could_be_accepted(rules, setup), Refusal::NoSetup),
        (has_no_desk(rules, setup, three), Refusal::NoSuchRouteDesk),
        (has_same(rules, three), Refusal::SameRouteDesks),
        (room.len() < asked(rules), Refusal::RoomTooShort),
    ];
    match rules.turn {
        Turn::GateDeskBeforeSetup => order.swap(0, 1),
        Turn::GateSameBeforeDesk => order.swap(1, 2),
        Turn::GateRoomBeforeDesk => order[1..].rotate_right(1),
        Turn::GateRoomBeforeSame => order.swap(2, 3),
        _ => {}
    }
    order.iter().find(|(applies, _)| *applies).map(|&(_, refusal)| refusal)
}

/// The setup as it is where the gate desk makes no call: that desk may do nothing, so no link runs from it or to it.
/// As it is neither end of a route, to take the links from it alone, or those to it, would come to the same.
fn without_gate(rules: Rules, setup: &Setup, three: Three) -> Setup {
    let Three { a, b, gate } = three;
    let linked = |from: u32, to: u32| {
        let chain = chain(rules, setup, from as usize, to as usize);
        chain.is_some_and(|chain| chain.len() == 2)
    };
    match rules.turn {
        Turn::GateIgnored => setup.clone(),
        Turn::GateDeskUnjudged if gate >= setup.desks => setup.clone(),
        Turn::GateOnlyNextToA if !linked(a, gate) => setup.clone(),
        Turn::GateOnlyNextToB if !linked(gate, b) => setup.clone(),
        Turn::GateTakesA => without_rights(setup, a),
        Turn::GateTakesClasses => without_classes(setup, gate),
        Turn::GateSeatsForA => seated_anew(setup, gate, a),
        _ => without_rights(setup, gate),
    }
}

fn without_rights(setup: &Setup, desk: u32) -> Setup {
    let desk = desk as usize;
    let mut left = setup.clone();
    left.rights[right_at(desk, 0)..right_at(desk + 1, 0)].fill(0);
    left
}

/// Only for a turn: nobody has a right on a class on which a desk has one.
fn without_classes(setup: &Setup, desk: u32) -> Setup {
    let mut left = setup.clone();
    for (place, right) in left.rights.iter_mut().enumerate() {
        if setup.rights[right_at(desk as usize, place % CLASSES)] != 0 {
            *right = 0;
        }
    }
    left
}

/// Only for a turn: the processes of a desk sit at another.
fn seated_anew(setup: &Setup, desk: u32, other: u32) -> Setup {
    let mut left = setup.clone();
    let seats = left.desk_of[..setup.processes as usize].iter_mut();
    seats.filter(|seat| u32::from(**seat) == desk).for_each(|seat| *seat = other as u8);
    left
}

/// The number of calls that go around the gate, which fill the front of the room; nothing where no way does.
fn write_around(rules: Rules, setup: &Setup, three: Three, room: &mut [u32]) -> Option<u32> {
    let Three { a, b, gate } = three;
    let left = without_gate(rules, setup, three);
    let own = || chain(rules, setup, a as usize, b as usize);
    match rules.turn {
        // An end that is no desk has no links: it lies outside the tables.
        Turn::GateAUnjudged if a >= setup.desks => None,
        Turn::GateBUnjudged if b >= setup.desks => None,
        Turn::GateOnOwnRoute if own()?.contains(&(gate as usize)) => None,
        Turn::GateTurnedAround => write_route(rules, &left, b, a, room),
        Turn::GateWritesOwnRoute => {
            chain(rules, &left, a as usize, b as usize)?;
            write_route(rules, setup, a, b, room)
        }
        _ => write_route(rules, &left, a, b, room),
    }
}

/// Only for a turn: whether a room that is too short does no harm, since nothing is to be written.
fn needs_no_room(rules: Rules, setup: &Setup, three: Three, refusal: Refusal) -> bool {
    rules.turned(Turn::GateGuardedNeedsNoRoom)
        && refusal == Refusal::RoomTooShort
        && write_around(rules, setup, three, &mut [0; ROUTE_NUMBERS]).is_none()
}

/// The report on desks a and b and the gate desk. The calls that go around it fill the front of the room; nothing
/// else is written.
pub fn gate(rules: Rules, setup: &Setup, three: Three, room: &mut [u32]) -> Guard {
    let refusal = refusal_of_gate(rules, setup, three, room);
    if let Some(refusal) = refusal.filter(|&refusal| !needs_no_room(rules, setup, three, refusal)) {
        if rules.turned(Turn::GateRefusedCleared) {
            room.fill(0);
        }
        return Guard::Refused(refusal);
    }
    let Some(calls) = write_around(rules, setup, three, room) else {
        if rules.turned(Turn::GateGuardedCleared) {
            room.fill(0);
        }
        return Guard::Guarded;
    };
    if rules.turned(Turn::GateTailCleared) {
        room[calls as usize * CALL_WIDTH..].fill(0);
    }
    match rules.turn {
        Turn::GateOneCallMore => Guard::Unguarded(calls + 1),
        Turn::GateLinksForCalls => Guard::Unguarded(links_of(calls)),
        _ => Guard::Unguarded(calls),
    }
}
