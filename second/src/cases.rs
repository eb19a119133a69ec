//! The twelve cases of document 01 and its program case, with the literals that stand there, or in Req 02 where
//! that changes them; and the grid of document 02 over the same setups.

use crate::call::{call_by_value, Answer, Call};
use crate::grid::grid;
use crate::list::run;
use crate::print::sheets;
use crate::refusal::Refusal;
use crate::route::{report, Report};
use crate::rules::{Rules, TURNS};
use crate::setup::{accept, Setup, SetupBytes, R, W};
use crate::sizes::{ANSWER_WIDTH, CALL_WIDTH, DESKS, GRID_NUMBERS, LINKS};
use crate::store::{fresh, Store};

const RULES: Rules = Rules::UNTURNED;
pub const UNTOUCHED: u32 = 77;

/// The room for a route by document 01's own number, so that the one that is reckoned is held to it.
pub const ROUTE_ROOM: usize = 244;

const PROGRAM: &str = "store\t1\t3\t2\t3\t2\n\
    access\t0\t0\tW\naccess\t1\t0\tR\naccess\t1\t1\tW\naccess\t2\t1\tR\n\
    process\t0\t0\nprocess\t1\t1\nprocess\t2\t2\nfile\t0\t0\nfile\t1\t1\ncalls\t1\n";
const FIRST_THREE: &str = "lock\t0\t0\nwrite\t0\t0\t1\nunlock\t0\t0\n";
const OTHER_SIX: &str =
    "open\t1\t0\nlock\t1\t1\ncopy\t1\t0\t1\nunlock\t1\t1\nopen\t2\t1\nread\t2\t1\n";

pub fn q() -> Setup {
    let bytes = SetupBytes {
        desks: 3,
        classes: 2,
        processes: 3,
        files: 2,
        rights: vec![2, 0, 1, 2, 0, 1],
        desk_of: vec![0, 1, 2],
        class_of: vec![0, 1],
    };
    accept(RULES, &bytes).unwrap()
}

pub fn two_desks() -> Setup {
    let bytes = SetupBytes {
        desks: 2,
        classes: 1,
        processes: 2,
        files: 1,
        rights: vec![1, 3],
        desk_of: vec![0, 1],
        class_of: vec![0],
    };
    accept(RULES, &bytes).unwrap()
}

/// The answers of calls run one after the other from a fresh store.
pub fn answers(setup: &Setup, calls: &[[u32; CALL_WIDTH]]) -> Vec<[u32; ANSWER_WIDTH]> {
    let mut store = fresh(RULES, setup).unwrap();
    let mut given = Vec::new();
    for call in calls {
        let (answer, next) = call_by_value(RULES, setup, &store, Call::from_numbers(call));
        given.push(answer.numbers());
        store = next;
    }
    let mut room = vec![0; calls.len() * ANSWER_WIDTH];
    let (done, last) = run(RULES, setup, &Store::FRESH, &calls.concat(), &mut room);
    assert_eq!((done, last), (Ok(calls.len() as u32), store));
    assert_eq!(room, given.concat());
    given
}

pub const NOTHING: [u32; ANSWER_WIDTH] = [0, 0];

#[test]
fn case_1() {
    assert_eq!(answers(&q(), &[[5, 1, 0, 0], [1, 1, 0, 0]]), [NOTHING, NOTHING]);
}

#[test]
fn case_2() {
    let calls = [[2, 0, 0, 5], [5, 1, 0, 0], [1, 1, 0, 0]];
    assert_eq!(answers(&q(), &calls), [NOTHING, NOTHING, NOTHING]);
}

#[test]
fn case_3() {
    assert_eq!(answers(&q(), &[[3, 0, 0, 0], [7, 0, 0, 0]]), [NOTHING, NOTHING]);
}

#[test]
fn case_4() {
    assert_eq!(answers(&q(), &[[1, 3, 0, 0], [1, 2, 1, 0]]), [[4, 6], NOTHING]);
}

#[test]
fn case_5() {
    assert_eq!(answers(&q(), &[[9, 9, 0, 0]]), [[4, 5]]);
}

#[test]
fn cases_6_and_7() {
    let case_6 = [[5, 1, 0, 0], [3, 0, 0, 0], [1, 1, 0, 0]];
    assert_eq!(answers(&q(), &case_6), [NOTHING; 3]);
    let case_7 = [&case_6[..], &[[2, 0, 0, 6], [4, 0, 0, 0], [1, 1, 0, 0]]].concat();
    assert_eq!(answers(&q(), &case_7), [NOTHING, NOTHING, NOTHING, NOTHING, NOTHING, [1, 6]]);
}

#[test]
fn case_8() {
    let calls = [[5, 0, 0, 0], [3, 1, 0, 0], [7, 1, 0, 0]];
    assert_eq!(answers(&two_desks(), &calls), [NOTHING, NOTHING, [2, 0]]);
    assert_eq!(answers(&two_desks(), &calls[1..]), [NOTHING, [2, 0]]);
    assert_eq!(report(RULES, &two_desks(), 0, 1, &mut [0; ROUTE_ROOM]), Report::NoRoute);
}

#[test]
fn case_9() {
    let mut room = [UNTOUCHED; ROUTE_ROOM + 6];
    assert_eq!(report(RULES, &q(), 0, 2, &mut room), Report::Route(9));
    let list = [
        3, 0, 0, 0, 2, 0, 0, 1, 4, 0, 0, 0, 5, 1, 0, 0, 3, 1, 1, 0, 8, 1, 0, 1, 4, 1, 1, 0, 5, 2,
        1, 0, 1, 2, 1, 0,
    ];
    assert_eq!(room[..list.len()], list);
    assert!(room[list.len()..].iter().all(|&number| number == UNTOUCHED));
}

#[test]
fn case_10() {
    let mut room = [UNTOUCHED; ROUTE_ROOM];
    assert_eq!(report(RULES, &q(), 2, 0, &mut room), Report::NoRoute);
    assert_eq!(room, [UNTOUCHED; ROUTE_ROOM]);
    assert_eq!(report(RULES, &q(), 0, 1, &mut room), Report::Route(5));
}

#[test]
fn case_11() {
    let mut room = [UNTOUCHED; ROUTE_ROOM];
    let same = Report::Refused(Refusal::SameRouteDesks);
    assert_eq!(report(RULES, &q(), 1, 1, &mut room), same);
    let short = Report::Refused(Refusal::RoomTooShort);
    assert_eq!(report(RULES, &q(), 0, 2, &mut room[..ROUTE_ROOM - 1]), short);
    assert_eq!(room, [UNTOUCHED; ROUTE_ROOM]);
}

#[test]
fn case_12() {
    let setup = q();
    let lock = Call { operation: 3, process: 0, file: 0, extra: 0 };
    let (answer, store) = call_by_value(RULES, &setup, &Store::FRESH, lock);
    assert_eq!(answer, Answer::Nothing);
    assert_ne!(store, Store::FRESH);
    let mut answers = [UNTOUCHED; 3];
    assert_eq!(run(RULES, &setup, &store, &[], &mut answers), (Ok(0), store.clone()));
    assert_eq!(answers, [UNTOUCHED; 3]);
}

#[test]
fn program_case() {
    let nothings = |count: usize| -> String {
        (0..count).map(|position| format!("{position}\tnothing\n")).collect()
    };
    let whole = format!("{PROGRAM}{FIRST_THREE}{OTHER_SIX}");
    assert_eq!(sheets(RULES, whole.as_bytes()), format!("{}8\tfigure\t1\n", nothings(8)));
    let struck = format!("{PROGRAM}{OTHER_SIX}");
    assert_eq!(sheets(RULES, struck.as_bytes()), nothings(6));
}

/// The grid of Q by hand: a link from 0 to 1, one from 1 to 2, and nothing else.
const GRID_OF_Q: [u32; 9] = [0, 1, 2, 0, 0, 1, 0, 0, 0];

#[test]
fn grid_of_q() {
    let mut room = [UNTOUCHED; GRID_OF_Q.len()];
    assert_eq!(grid(RULES, &q(), &mut room), Ok(9));
    assert_eq!(room, GRID_OF_Q);
    let mut longer = [UNTOUCHED; 256];
    assert_eq!(grid(RULES, &q(), &mut longer), Ok(9));
    assert_eq!(longer[..9], GRID_OF_Q);
    assert!(longer[9..].iter().all(|&number| number == UNTOUCHED));
}

#[test]
fn grid_has_the_desk_that_is_heard_by_row() {
    let mut room = [UNTOUCHED; 4];
    assert_eq!(grid(RULES, &two_desks(), &mut room), Ok(4));
    assert_eq!(room, [0, 0, 1, 0]);
}

/// A line of all desks, each with a process. Each link has a class of its own with one file.
pub fn line() -> Setup {
    // Held to the numbers themselves, so that a wrong size does not make a shorter line.
    assert_eq!((DESKS, LINKS, GRID_NUMBERS), (16, 15, 256));
    let right = |desk, class| match class {
        class if class == desk => W,
        class if class + 1 == desk => R,
        _ => 0,
    };
    let cells = (0..DESKS * LINKS).map(|place| right(place / LINKS, place % LINKS));
    let bytes = SetupBytes {
        desks: DESKS as u32,
        classes: LINKS as u32,
        processes: DESKS as u32,
        files: LINKS as u32,
        rights: cells.collect(),
        desk_of: (0..DESKS as u8).collect(),
        class_of: (0..LINKS as u8).collect(),
    };
    accept(RULES, &bytes).unwrap()
}

/// A line has every number of links, from each desk to those after it.
#[test]
fn grid_of_a_line_of_sixteen_desks() {
    let mut room = [UNTOUCHED; GRID_NUMBERS + 1];
    assert_eq!(grid(RULES, &line(), &mut room), Ok(GRID_NUMBERS as u32));
    for (place, number) in room[..GRID_NUMBERS].iter().enumerate() {
        let (a, b) = (place / DESKS, place % DESKS);
        assert_eq!(*number as usize, b.saturating_sub(a));
    }
    assert_eq!(room[GRID_NUMBERS], UNTOUCHED);
}

#[test]
fn grid_refusals() {
    let forged = Setup { desks: 17, ..q() };
    let mut room = [UNTOUCHED; 400];
    for length in [0, 1, 8] {
        assert_eq!(grid(RULES, &q(), &mut room[..length]), Err(Refusal::RoomTooShort));
        assert_eq!(grid(RULES, &forged, &mut room[..length]), Err(Refusal::NoSetup));
    }
    assert_eq!(grid(RULES, &forged, &mut room), Err(Refusal::NoSetup));
    assert_eq!(grid(RULES, &Setup { desks: u32::MAX, ..q() }, &mut room), Err(Refusal::NoSetup));
    assert_eq!(grid(RULES, &Setup::ZERO, &mut []), Err(Refusal::NoSetup));
    assert_eq!(room, [UNTOUCHED; 400]);
}

/// Each turn is told to be of the grid, or not, as its name has it.
#[test]
fn turns_of_the_grid() {
    for turn in TURNS {
        assert_eq!(turn.is_of_grid(), format!("{turn:?}").starts_with("Grid"));
    }
}

#[test]
fn no_turn_is_listed_twice() {
    let mut turns = TURNS.to_vec();
    turns.sort();
    turns.dedup();
    assert_eq!(turns.len(), TURNS.len());
}
