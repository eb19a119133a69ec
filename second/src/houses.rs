//! Gates, by Req 04: a house whose release desk guards, the same house with one right too many, and the refusals.

use crate::cases::{answers, line, q, two_desks, NOTHING, ROUTE_ROOM, UNTOUCHED};
use crate::gate::{gate, Guard, Three};
use crate::refusal::Refusal;
use crate::route::{report, Report};
use crate::rules::{Rules, TURNS};
use crate::setup::{accept, right_at, Setup, SetupBytes, R, W};
use crate::sizes::{calls_over, numbers_over, CALL_WIDTH, DESKS, LINKS_AROUND, LIST_NUMBERS};
use crate::text::read_with_calls;

const RULES: Rules = Rules::UNTURNED;

/// The desks of the house, and its classes.
const SCORER: u32 = 0;
const RELEASE: u32 = 1;
const BUYER: u32 = 2;
const FLOOR: u32 = 3;
const CLERK: u32 = 4;
const SCORE: usize = 0;
const NOTICE: usize = 1;
const LOG: usize = 2;
const DRAFT: usize = 3;

/// What the house grants. Scores go to release and clerk, notices to buyer and floor, logs to the buyer, drafts to
/// nobody: all that buyers hear of the scorer passes release.
const GRANTED: [(u32, usize, u8); 9] = [
    (SCORER, SCORE, W),
    (RELEASE, SCORE, R),
    (RELEASE, NOTICE, W),
    (BUYER, NOTICE, R),
    (BUYER, LOG, R),
    (FLOOR, NOTICE, R),
    (FLOOR, LOG, W),
    (CLERK, SCORE, R),
    (CLERK, DRAFT, W),
];

/// The last desk of a line.
const LAST: u32 = DESKS as u32 - 1;

/// The house with a right more or with none.
fn house(more: &[(u32, usize, u8)]) -> Setup {
    let bytes = SetupBytes {
        desks: 5,
        classes: 4,
        processes: 7,
        files: 5,
        rights: vec![0; 20],
        desk_of: vec![1, 2, 0, 0, 3, 2, 4],
        class_of: vec![1, 0, 2, 0, 3],
    };
    let mut setup = accept(RULES, &bytes).unwrap();
    for &(desk, class, right) in GRANTED.iter().chain(more) {
        setup.rights[right_at(desk as usize, class)] |= right;
    }
    setup
}

/// From the scorer to the buyer, past a gate desk.
fn to_buyer(gate: u32) -> Three {
    Three { a: SCORER, b: BUYER, gate }
}

/// The report with just room enough, and what it left of the room.
fn reported(setup: &Setup, three: Three) -> (Guard, [u32; ROUTE_ROOM]) {
    let mut room = [UNTOUCHED; ROUTE_ROOM];
    (gate(RULES, setup, three, &mut room), room)
}

fn untouched(guard: Guard) -> (Guard, [u32; ROUTE_ROOM]) {
    (guard, [UNTOUCHED; ROUTE_ROOM])
}

/// Holds a report to a list, with the room past it untouched. The list has no call of the gate, and shows figure 1,
/// and nothing without A's calls.
fn assert_list(setup: &Setup, three: Three, list: &[[u32; CALL_WIDTH]]) {
    let (guard, room) = reported(setup, three);
    assert_eq!(guard, Guard::Unguarded(list.len() as u32));
    let (written, past) = room.split_at(list.len() * CALL_WIDTH);
    assert_eq!(written, list.concat());
    assert!(past.iter().all(|&number| number == UNTOUCHED));
    let desk = |call: &[u32; CALL_WIDTH]| u32::from(setup.desk_of[call[1] as usize]);
    assert!(list.iter().all(|call| desk(call) != three.gate));
    let struck: Vec<_> = list.iter().copied().filter(|call| desk(call) != three.a).collect();
    let last = [answers(setup, list).pop(), answers(setup, &struck).pop()];
    assert_eq!(last, [Some([1, 1]), Some(NOTHING)]);
}

/// The scorer's calls, by its lowest process on the lowest file with scores.
const SCORED: [[u32; CALL_WIDTH]; 3] = [[3, 2, 1, 0], [2, 2, 1, 1], [4, 2, 1, 0]];

#[test]
fn release_guards_the_house() {
    assert_eq!(reported(&house(&[]), to_buyer(RELEASE)), untouched(Guard::Guarded));
    let own = report(RULES, &house(&[]), SCORER, BUYER, &mut [0; ROUTE_ROOM]);
    assert_eq!(own, Report::Route(9));
}

#[test]
fn other_desks_guard_nothing_and_the_list_is_the_reports_own() {
    let by_release = [[5, 0, 1, 0], [3, 0, 0, 0], [8, 0, 1, 0], [4, 0, 0, 0]];
    let list = [&SCORED[..], &by_release, &[[5, 1, 0, 0], [1, 1, 0, 0]]].concat();
    for gate in [FLOOR, CLERK] {
        assert_list(&house(&[]), to_buyer(gate), &list);
    }
    let mut own = [UNTOUCHED; ROUTE_ROOM];
    assert_eq!(report(RULES, &house(&[]), SCORER, BUYER, &mut own), Report::Route(9));
    assert_eq!(reported(&house(&[]), to_buyer(FLOOR)).1, own);
}

#[test]
fn a_buyer_who_reads_scores_needs_no_other_desk() {
    let list = [&SCORED[..], &[[5, 1, 1, 0], [1, 1, 1, 0]]].concat();
    assert_list(&house(&[(BUYER, SCORE, R)]), to_buyer(RELEASE), &list);
}

#[test]
fn a_floor_that_reads_scores_is_a_way_as_long_as_the_guarded_one() {
    let by_floor = [[5, 4, 1, 0], [3, 4, 2, 0], [8, 4, 1, 2], [4, 4, 2, 0]];
    let list = [&SCORED[..], &by_floor, &[[5, 1, 2, 0], [1, 1, 2, 0]]].concat();
    assert_list(&house(&[(FLOOR, SCORE, R)]), to_buyer(RELEASE), &list);
}

#[test]
fn a_floor_that_reads_drafts_is_a_longer_way_than_the_guarded_one() {
    let by_clerk = [[5, 6, 1, 0], [3, 6, 4, 0], [8, 6, 1, 4], [4, 6, 4, 0]];
    let by_floor = [[5, 4, 4, 0], [3, 4, 2, 0], [8, 4, 4, 2], [4, 4, 2, 0]];
    let list = [&SCORED[..], &by_clerk, &by_floor, &[[5, 1, 2, 0], [1, 1, 2, 0]]].concat();
    let leaky = house(&[(FLOOR, DRAFT, R)]);
    assert_list(&leaky, to_buyer(RELEASE), &list);
    let own = report(RULES, &leaky, SCORER, BUYER, &mut [0; ROUTE_ROOM]);
    assert_eq!(own, Report::Route(9));
    // And the guarded way is the one around those two.
    assert_eq!(reported(&leaky, to_buyer(CLERK)).0, Guard::Unguarded(9));
}

#[test]
fn where_there_is_no_route_every_desk_guards() {
    for gate in [RELEASE, FLOOR, CLERK] {
        let three = Three { a: BUYER, b: SCORER, gate };
        assert_eq!(reported(&house(&[(FLOOR, SCORE, R)]), three), untouched(Guard::Guarded));
    }
}

/// Release's only process moves to the floor, which reads scores too and is then the only way.
#[test]
fn a_desk_without_a_process_guards_nothing() {
    let mut setup = house(&[(FLOOR, SCORE, R)]);
    setup.desk_of[0] = FLOOR as u8;
    assert_eq!(reported(&setup, to_buyer(RELEASE)).0, Guard::Unguarded(9));
    assert_eq!(reported(&setup, to_buyer(FLOOR)), untouched(Guard::Guarded));
}

#[test]
fn every_desk_within_a_line_guards_its_ends() {
    for gate in 1..LAST {
        let three = Three { a: 0, b: LAST, gate };
        assert_eq!(reported(&line(), three), untouched(Guard::Guarded));
    }
    let around = LINKS_AROUND as u32;
    for (three, links) in
        [([0, LAST - 1, LAST], around), ([1, LAST, 0], around), ([3, 4, 5], 1), ([2, 8, 9], 6)]
    {
        let ([a, b, gate], calls) = (three, calls_over(links));
        let (guard, room) = reported(&line(), Three { a, b, gate });
        assert_eq!(guard, Guard::Unguarded(calls));
        let mut own = [UNTOUCHED; ROUTE_ROOM];
        assert_eq!(report(RULES, &line(), a, b, &mut own), Report::Route(calls));
        assert_eq!(room, own);
    }
}

/// The list is the one that the route report writes where the gate has no process. Here the last process goes, which
/// leaves the numbers of the others.
#[test]
fn a_gate_is_as_good_as_a_desk_without_a_process() {
    let mut ring = line();
    ring.rights[right_at(LAST as usize, 0)] |= W;
    ring.rights[right_at(12, 13)] |= R;
    ring.rights[right_at(LAST as usize - 1, 2)] |= R;
    let mut without = Setup { processes: LAST, ..ring.clone() };
    without.desk_of[LAST as usize] = 0;
    let pairs = (0..LAST * LAST).map(|turn| (turn / LAST, turn % LAST));
    for (a, b) in pairs.filter(|(a, b)| a != b) {
        let mut own = [UNTOUCHED; ROUTE_ROOM];
        let due = report(RULES, &without, a, b, &mut own).numbers();
        let (guard, room) = reported(&ring, Three { a, b, gate: LAST });
        assert_eq!((guard.numbers(), room), (due, own));
    }
}

/// Holds a report to a refusal, with a room of any length untouched.
fn assert_refused(setup: &Setup, [a, b, third]: [u32; 3], length: usize, refusal: Refusal) {
    let mut room = vec![UNTOUCHED; length];
    let three = Three { a, b, gate: third };
    let guard = gate(RULES, setup, three, &mut room);
    assert_eq!(guard, Guard::Refused(refusal));
    assert_eq!(guard.numbers(), [4, refusal.number()]);
    assert!(room.iter().all(|&number| number == UNTOUCHED));
}

#[test]
fn each_of_the_three_must_be_a_desk() {
    let desks = q().desks;
    for outside in [desks, desks + 1, DESKS as u32, 255, 256, u32::MAX] {
        for three in [[outside, 1, 2], [0, outside, 2], [0, 1, outside]] {
            assert_refused(&q(), three, ROUTE_ROOM, Refusal::NoSuchRouteDesk);
            assert_refused(&q(), three, 0, Refusal::NoSuchRouteDesk);
        }
        // Two or three that are none are also equal.
        for three in [[outside, outside, 2], [outside, 1, outside], [0, outside, outside]] {
            assert_refused(&q(), three, ROUTE_ROOM, Refusal::NoSuchRouteDesk);
        }
        assert_refused(&q(), [outside; 3], ROUTE_ROOM - 1, Refusal::NoSuchRouteDesk);
        // And two that are desks may be equal beside one that is none.
        for three in [[1, 1, outside], [1, outside, 1], [outside, 1, 1]] {
            assert_refused(&q(), three, ROUTE_ROOM, Refusal::NoSuchRouteDesk);
        }
    }
}

#[test]
fn no_two_of_the_three_are_equal() {
    for three in [[0, 0, 1], [0, 1, 0], [1, 0, 0], [2, 2, 2]] {
        for length in [0, ROUTE_ROOM - 1, ROUTE_ROOM, ROUTE_ROOM + 1] {
            assert_refused(&q(), three, length, Refusal::SameRouteDesks);
        }
    }
}

#[test]
fn a_room_is_judged_where_nothing_is_written_too() {
    let leaky = house(&[(FLOOR, SCORE, R)]);
    let longest = numbers_over(LINKS_AROUND);
    for length in [0, 1, numbers_over(1), numbers_over(2), longest - 1, longest, ROUTE_ROOM - 1] {
        assert_refused(&house(&[]), [SCORER, BUYER, RELEASE], length, Refusal::RoomTooShort);
        assert_refused(&leaky, [SCORER, BUYER, RELEASE], length, Refusal::RoomTooShort);
    }
    assert_eq!(reported(&house(&[]), to_buyer(RELEASE)).0.numbers(), [0, 0]);
    assert_eq!(reported(&leaky, to_buyer(RELEASE)).0.numbers(), [1, 9]);
}

#[test]
fn a_setup_that_is_none_comes_first() {
    let mut right = q();
    right.rights[right_at(1, 1)] = 4;
    let of_desks = |desks: u32| Setup { desks, ..q() };
    let forged = [Setup::ZERO, of_desks(DESKS as u32 + 1), of_desks(u32::MAX), right];
    for setup in &forged {
        for three in [[0, 1, 2], [9, 1, 2], [0, 0, 0], [u32::MAX; 3]] {
            assert_refused(setup, three, ROUTE_ROOM, Refusal::NoSetup);
            assert_refused(setup, three, 0, Refusal::NoSetup);
        }
    }
}

/// Three desks that are all there and all different need three desks.
#[test]
fn fewer_than_three_desks_are_always_refused() {
    let one = Setup { desks: 1, classes: 1, processes: 1, files: 1, ..Setup::ZERO };
    for setup in [&one, &two_desks()] {
        for turn in 0..27 {
            let three = [turn / 9, turn / 3 % 3, turn % 3];
            let missing = three.iter().any(|&desk| desk >= setup.desks);
            let refusal = if missing { Refusal::NoSuchRouteDesk } else { Refusal::SameRouteDesks };
            assert_refused(setup, three, ROUTE_ROOM, refusal);
        }
    }
}

/// What the project's story asks of both its houses.
const STORY: Three = Three { a: 0, b: 3, gate: 2 };

/// A house of the story, and the calls that its text has.
fn told(name: &str) -> (Setup, Vec<[u32; CALL_WIDTH]>) {
    let path = format!("{}/../examples/{name}.txt", env!("CARGO_MANIFEST_DIR"));
    let mut room = [UNTOUCHED; LIST_NUMBERS];
    let text = std::fs::read(path).unwrap();
    let (setup, calls) = read_with_calls(RULES, &text, &mut room).unwrap();
    let list = room.chunks(CALL_WIDTH).take(calls as usize);
    (setup, list.map(|call| call.try_into().unwrap()).collect())
}

/// There is a route, so that the gate has something to guard. The calls that go around it in the other house show
/// nothing in this one.
#[test]
fn the_story_begins_with_a_guarded_house() {
    let (setup, calls) = told("guarded");
    assert_eq!(reported(&setup, STORY), untouched(Guard::Guarded));
    let own = report(RULES, &setup, STORY.a, STORY.b, &mut [0; ROUTE_ROOM]);
    assert_eq!(own, Report::Route(calls_over(2)));
    assert_eq!(answers(&setup, &calls).pop(), Some(NOTHING));
}

#[test]
fn the_story_ends_with_the_calls_that_go_around() {
    let (setup, calls) = told("around");
    assert_list(&setup, STORY, &calls);
    assert_eq!(calls, told("guarded").1);
}

/// Each turn is told to be of the gate, or not, as its name has it.
#[test]
fn turns_of_the_gate() {
    for turn in TURNS {
        assert_eq!(turn.is_of_gate(), format!("{turn:?}").starts_with("Gate"));
    }
}
