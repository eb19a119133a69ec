//! The families of cases: how each is made, by hand and at random, and how many a round has.

use crate::calls;
use crate::case::Case;
use crate::cells;
use crate::gates;
use crate::grids;
use crate::random::Random;
use crate::routes;
use crate::setups;
use crate::stores;
use crate::texts;
use second::call::{step, Call};
use second::rules::Rules;
use second::setup::{right_at, Setup, SetupBytes, R, RW, W};
use second::sizes::{CALL_WIDTH, LIST_NUMBERS, ROUTE_NUMBERS};
use second::store::Store;

pub struct Family {
    pub name: &'static str,
    /// Cases made by hand, for the first round.
    pub hand_made: fn() -> Vec<Case>,
    /// How many random cases a round has.
    pub count: usize,
    pub make: fn(&mut Random) -> Case,
}

pub const ROUTES: &str = "routes";

/// A setup, a store of it, and a call.
pub type Held = (Box<Setup>, Box<Store>, Call);

pub const FAMILIES: [Family; 12] = [
    Family {
        name: "setup bytes",
        hand_made: accepts,
        count: 5_000,
        make: |random| Case::Accept(setups::bytes(random)),
    },
    Family { name: "fresh stores", hand_made: Vec::new, count: 2_500, make: fresh },
    Family { name: "judging", hand_made: cells::judged, count: 5_000, make: judge },
    Family { name: "calls by value", hand_made: by_value, count: 12_000, make: call },
    Family { name: "calls in place", hand_made: in_place, count: 12_000, make: call_in_place },
    Family { name: "lists", hand_made: lists_by_hand, count: 5_000, make: list },
    Family { name: ROUTES, hand_made: routes_of_q, count: 7_000, make: routes::case },
    Family { name: "setup texts read alone", hand_made: alone_by_hand, count: 2_000, make: alone },
    Family {
        name: "texts read with calls",
        hand_made: with_calls_by_hand,
        count: 2_000,
        make: with_calls,
    },
    Family {
        name: "texts through sheets",
        hand_made: sheets_by_hand,
        count: 400,
        make: |random| Case::Sheets(texts::any(random, true)),
    },
    Family { name: "grids", hand_made: grids::by_hand, count: 2_000, make: grids::case },
    Family { name: "gates", hand_made: gates::by_hand, count: 5_000, make: gates::case },
];

/// A setup: sound most often, now and then forged.
fn setup(random: &mut Random) -> Setup {
    match random.below(6) {
        0 => setups::forged(random),
        1 | 2 => setups::sound(random),
        _ => setups::small(random),
    }
}

/// A store for a setup that may be forged: fitting most often.
fn store(random: &mut Random, setup: &Setup) -> Store {
    if !second::setup::could_be_accepted(Rules::UNTURNED, setup) {
        return if random.once_in(2) { Store::FRESH } else { stores::fitting_none(random) };
    }
    match random.below(5) {
        0 => stores::forged(random, setup),
        _ => stores::any(random, setup),
    }
}

fn fresh(random: &mut Random) -> Case {
    let forged = random.once_in(2);
    Case::Fresh(Box::new(if forged { setups::forged(random) } else { setups::sound(random) }))
}

fn judge(random: &mut Random) -> Case {
    let setup = setup(random);
    let store = store(random, &setup);
    Case::Judge(Box::new(setup), Box::new(store))
}

/// A call that is wanted, with a setup and a store that were searched for it.
fn wanted_call(random: &mut Random) -> Option<Held> {
    const SEARCHED: usize = 8;
    let wanted = calls::wanted(random);
    for _ in 0..SEARCHED {
        let setup = setups::small(random);
        let store = stores::fitting(random, &setup);
        if let Some(call) = calls::purposeful(random, &setup, &store, wanted) {
            return Some((Box::new(setup), Box::new(store), call));
        }
    }
    None
}

fn held_call(random: &mut Random) -> Held {
    let wanted = if random.once_in(3) { wanted_call(random) } else { None };
    if let Some(held) = wanted {
        return held;
    }
    let setup = setup(random);
    let store = store(random, &setup);
    let sound = second::store::judge(Rules::UNTURNED, &setup, &store).is_ok();
    let call = match sound {
        true => calls::any(random, &setup, &store),
        false => calls::meaningless(random),
    };
    (Box::new(setup), Box::new(store), call)
}

fn call(random: &mut Random) -> Case {
    let (setup, store, call) = held_call(random);
    Case::Call(setup, store, call)
}

fn call_in_place(random: &mut Random) -> Case {
    let (setup, store, call) = held_call(random);
    Case::CallInPlace(setup, store, call)
}

fn list(random: &mut Random) -> Case {
    let setup = setup(random);
    let store = store(random, &setup);
    let mut calls = match second::store::judge(Rules::UNTURNED, &setup, &store) {
        Ok(()) => {
            let count = calls::count(random);
            calls::list(random, &setup, &store, count)
        }
        Err(_) => (0..random.below(9)).flat_map(|_| calls::meaningless(random).numbers()).collect(),
    };
    if random.once_in(8) {
        calls::break_length(random, &mut calls);
    }
    let answers = calls::answers(random, calls.len());
    Case::List { setup: Box::new(setup), store: Box::new(store), calls, answers }
}

/// A list that meets every condition of every call, and short ones about what files hold.
fn lists_by_hand() -> Vec<Case> {
    let (setup, calls) = texts::walk();
    let answers = vec![7; calls.len()];
    let (setup, store) = (Box::new(setup), Box::new(Store::FRESH));
    let mut cases = vec![Case::List { setup, store, calls, answers }];
    cases.extend(cells::lists());
    cases
}

/// Room for the calls of a text: enough, with a tail, or too short.
fn text_room(random: &mut Random) -> Vec<u32> {
    let length = match random.below(12) {
        0 => LIST_NUMBERS - 1,
        1 => random.below(LIST_NUMBERS),
        2..=6 => LIST_NUMBERS,
        _ => LIST_NUMBERS + random.between(1, 20),
    };
    calls::lent(random, length)
}

fn alone(random: &mut Random) -> Case {
    let further = random.once_in(10);
    Case::ReadAlone(texts::any(random, further))
}

fn with_calls(random: &mut Random) -> Case {
    Case::ReadWithCalls { text: texts::any(random, true), room: text_room(random) }
}

fn alone_by_hand() -> Vec<Case> {
    texts::hand_made(false).into_iter().map(Case::ReadAlone).collect()
}

/// Each text with room and a tail, and some of them with room that is too short.
fn with_calls_by_hand() -> Vec<Case> {
    const TAIL: usize = 8;
    let mut random = Random::new(0, 0);
    let mut room = |length| calls::lent(&mut random, length);
    let (long, short) = (room(LIST_NUMBERS + TAIL), room(LIST_NUMBERS - 1));
    let mut cases = Vec::new();
    for (place, text) in texts::hand_made(true).into_iter().enumerate() {
        if place % 20 == 0 {
            cases.push(Case::ReadWithCalls { text: text.clone(), room: short.clone() });
        }
        cases.push(Case::ReadWithCalls { text, room: long.clone() });
    }
    cases
}

fn sheets_by_hand() -> Vec<Case> {
    texts::hand_made(true).into_iter().map(Case::Sheets).collect()
}

/// Setup Q of document 01.
pub fn q() -> Setup {
    let mut setup = Setup { desks: 3, classes: 2, processes: 3, files: 2, ..Setup::ZERO };
    for (desk, class, right) in [(0, 0, W), (1, 0, R), (1, 1, W), (2, 1, R)] {
        setup.rights[right_at(desk, class)] = right;
    }
    setup.desk_of[..3].copy_from_slice(&[0, 1, 2]);
    setup.class_of[..2].copy_from_slice(&[0, 1]);
    setup
}

/// The setup of case 8, with a second file for COPY.
pub fn two_desks() -> Setup {
    let mut setup = Setup { desks: 2, classes: 1, processes: 3, files: 2, ..Setup::ZERO };
    setup.rights[right_at(0, 0)] = R;
    setup.rights[right_at(1, 0)] = RW;
    setup.desk_of[..3].copy_from_slice(&[0, 1, 1]);
    setup
}

/// Every call of small numbers on a few stores of the two setups, and those that turn on what files hold.
fn every_call() -> Vec<Held> {
    const BEFORE: [[u32; CALL_WIDTH]; 6] =
        [[5, 1, 0, 0], [3, 1, 0, 0], [2, 1, 0, 5], [5, 2, 1, 0], [3, 1, 1, 0], [5, 0, 0, 0]];
    let mut cases = cells::calls();
    for setup in [q(), two_desks()] {
        let mut store = Store::FRESH;
        for before in BEFORE {
            step(Rules::UNTURNED, &setup, &mut store, Call::from_numbers(&before));
            cases.extend((0..10 * 4 * 3 * 3).map(|turn: u32| {
                let numbers = [turn / 36, turn / 9 % 4, turn / 3 % 3, turn % 3];
                (Box::new(setup.clone()), Box::new(store.clone()), Call::from_numbers(&numbers))
            }));
        }
    }
    cases
}

fn by_value() -> Vec<Case> {
    let cases = every_call().into_iter();
    cases.map(|(setup, store, call)| Case::Call(setup, store, call)).collect()
}

fn in_place() -> Vec<Case> {
    let cases = every_call().into_iter();
    cases.map(|(setup, store, call)| Case::CallInPlace(setup, store, call)).collect()
}

/// Every pair of desks of Q, and one past them, with room just enough, one more, and one short.
fn routes_of_q() -> Vec<Case> {
    let rooms = [ROUTE_NUMBERS - 1, ROUTE_NUMBERS, ROUTE_NUMBERS + 1];
    let cases = (0..4 * 4 * 3).map(|turn: usize| Case::Route {
        setup: Box::new(q()),
        a: (turn / 12) as u32,
        b: (turn / 3 % 4) as u32,
        room: vec![7; rooms[turn % 3]],
    });
    cases.collect()
}

/// Counts at and past each limit, with slices that match them.
fn accepts() -> Vec<Case> {
    let mut cases = Vec::new();
    for (which, most) in setups::MOST.into_iter().enumerate() {
        for count in [0, 1, most, most + 1] {
            let mut counts = [2usize; 4];
            counts[which] = count;
            cases.push(Case::Accept(SetupBytes {
                desks: counts[0] as u32,
                classes: counts[1] as u32,
                processes: counts[2] as u32,
                files: counts[3] as u32,
                rights: vec![RW; counts[0] * counts[1]],
                desk_of: vec![0; counts[2]],
                class_of: vec![0; counts[3]],
            }));
        }
    }
    cases
}
