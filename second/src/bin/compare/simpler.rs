//! The ways in which a case can be made simpler, for the cutting down.

use crate::case::Case;
use crate::drops::ways_of_counts;
use crate::setups::MOST;
use crate::texts::{call_lines, join, setup_lines};
use second::gate::{gate, Guard, Three};
use second::route::{report, Report};
use second::rules::Rules;
use second::setup::{Setup, SetupBytes};
use second::sizes::{CALL_WIDTH, DESKS, FILES, LIST_NUMBERS, PROCESSES, ROUTE_NUMBERS};
use second::store::{Cell, Store};
use second::text::{read_alone, read_with_calls};

/// A way to make a case simpler.
pub type Simpler = Box<dyn Fn(&mut Case)>;

/// A way to make one part of a case simpler.
type Part<T> = Box<dyn Fn(&mut T)>;

/// The ways to make a case simpler, those that do most first.
pub fn ways(case: &Case) -> Vec<Simpler> {
    let mut case = case.clone();
    let mut ways: Vec<Simpler> = Vec::new();
    if let Some(store) = store_in(&mut case) {
        ways.extend(ways_of_store(store).into_iter().map(on_store));
    }
    if let Some(setup) = setup_in(&mut case) {
        ways.extend(ways_of_counts(setup));
        ways.extend(ways_of_setup(setup).into_iter().map(on_setup));
    }
    if let Case::Accept(given) = &case {
        ways.extend(ways_of_bytes(given));
    }
    if let Some(mut list) = text_as_list(&case) {
        let setup = setup_in(&mut list).cloned().unwrap_or(Setup::ZERO);
        ways.extend(ways_of_counts(&setup).into_iter().map(on_text));
    }
    if let Case::Route { .. } | Case::Gate { .. } = case {
        ways.extend((0..DESKS).map(|desk| -> Simpler { Box::new(nearer(desk)) }));
    }
    ways.push(Box::new(clear_room));
    ways.push(Box::new(even_room));
    if let Case::List { calls, .. } = &case {
        ways.extend((0..calls.len()).map(|place| -> Simpler { Box::new(clear_number(place)) }));
    }
    ways
}

pub fn setup_in(case: &mut Case) -> Option<&mut Setup> {
    match case {
        Case::Fresh(setup) | Case::Judge(setup, _) => Some(setup),
        Case::Call(setup, _, _) | Case::CallInPlace(setup, _, _) => Some(setup),
        Case::List { setup, .. } | Case::Route { setup, .. } => Some(setup),
        Case::Grid { setup, .. } | Case::Gate { setup, .. } => Some(setup),
        _ => None,
    }
}

pub fn store_in(case: &mut Case) -> Option<&mut Store> {
    match case {
        Case::Judge(_, store) => Some(store),
        Case::Call(_, store, _) | Case::CallInPlace(_, store, _) => Some(store),
        Case::List { store, .. } => Some(store),
        _ => None,
    }
}

fn on_store(change: Part<Store>) -> Simpler {
    Box::new(move |case| {
        if let Some(store) = store_in(case) {
            change(store);
        }
    })
}

fn on_setup(change: Part<Setup>) -> Simpler {
    Box::new(move |case| {
        if let Some(setup) = setup_in(case) {
            change(setup);
        }
    })
}

fn clear_number(place: usize) -> impl Fn(&mut Case) {
    move |case| {
        if let Case::List { calls, .. } = case {
            if let Some(number) = calls.get_mut(place) {
                *number = 0;
            }
        }
    }
}

/// The calls of the list that is due for a route or around a gate, if one is.
fn calls_due(case: &Case) -> Option<u32> {
    let mut room = [0; ROUTE_NUMBERS];
    match case {
        Case::Route { setup, a, b, .. } => {
            match report(Rules::UNTURNED, setup, *a, *b, &mut room) {
                Report::Route(calls) => Some(calls),
                _ => None,
            }
        }
        Case::Gate { setup, three, .. } => match gate(Rules::UNTURNED, setup, *three, &mut room) {
            Guard::Unguarded(calls) => Some(calls),
            _ => None,
        },
        _ => None,
    }
}

/// The first and the last desk of a route, or of a way around a gate.
fn ends_in(case: &mut Case) -> Option<[&mut u32; 2]> {
    match case {
        Case::Route { a, b, .. } => Some([a, b]),
        Case::Gate { three: Three { a, b, .. }, .. } => Some([a, b]),
        _ => None,
    }
}

/// A desk takes the place of a route's first, or else of its last, where fewer links are left then.
fn nearer(desk: usize) -> impl Fn(&mut Case) {
    move |case| {
        let moved = |end: usize| {
            let mut moved = case.clone();
            if let Some(ends) = ends_in(&mut moved) {
                *ends[end] = desk as u32;
            }
            moved
        };
        let fewer = |moved: &Case| calls_due(moved).is_some() && calls_due(moved) < calls_due(case);
        if let Some(moved) = [0, 1].map(moved).into_iter().find(fewer) {
            *case = moved;
        }
    }
}

fn clear_room(case: &mut Case) {
    match case {
        Case::List { answers, .. } => answers.fill(0),
        Case::Route { room, .. } | Case::ReadWithCalls { room, .. } => room.fill(0),
        Case::Grid { room, .. } | Case::Gate { room, .. } => room.fill(0),
        Case::Call(_, _, call) | Case::CallInPlace(_, _, call) => call.extra = 0,
        _ => {}
    }
}

/// Where it matters that a room is not all 0, it may be another number throughout.
fn even_room(case: &mut Case) {
    const KEPT: u32 = 7;
    if let Case::Grid { room, .. } | Case::Gate { room, .. } = case {
        if room.iter().any(|&number| number != room[0]) {
            room.fill(KEPT);
        }
    }
}

fn ways_of_store(store: &Store) -> Vec<Part<Store>> {
    let mut ways: Vec<Part<Store>> = vec![
        Box::new(|store| *store = Store::FRESH),
        Box::new(|store| store.marks.fill(0)),
        Box::new(|store| store.cells.fill(Cell::UNWRITTEN)),
        Box::new(|store| store.holders.fill(0)),
    ];
    for file in 0..FILES {
        ways.push(Box::new(move |store| store.holders[file] = 0));
    }
    for file in (0..FILES).filter(|&file| store.cells[file] != Cell::UNWRITTEN) {
        ways.push(Box::new(move |store| store.cells[file] = Cell::UNWRITTEN));
        ways.push(Box::new(move |store| store.cells[file].figure = 0));
        ways.push(Box::new(move |store| store.cells[file].written = 0));
    }
    for place in (0..store.marks.len()).filter(|&place| store.marks[place] != 0) {
        ways.push(Box::new(move |store| store.marks[place] = 0));
    }
    ways
}

fn ways_of_setup(setup: &Setup) -> Vec<Part<Setup>> {
    let mut ways: Vec<Part<Setup>> = Vec::new();
    for place in (0..setup.rights.len()).filter(|&place| setup.rights[place] != 0) {
        ways.push(Box::new(move |setup| setup.rights[place] = 0));
    }
    for place in (0..PROCESSES).filter(|&place| setup.desk_of[place] != 0) {
        ways.push(Box::new(move |setup| setup.desk_of[place] = 0));
    }
    for place in (0..FILES).filter(|&place| setup.class_of[place] != 0) {
        ways.push(Box::new(move |setup| setup.class_of[place] = 0));
    }
    ways
}

/// What a text that is read holds, as a list.
fn text_as_list(case: &Case) -> Option<Case> {
    let mut calls = vec![0; LIST_NUMBERS];
    let (setup, count) = match case {
        Case::ReadAlone(text) => (read_alone(Rules::UNTURNED, text).ok()?, 0),
        Case::Sheets(text) | Case::ReadWithCalls { text, .. } => {
            read_with_calls(Rules::UNTURNED, text, &mut calls).ok()?
        }
        _ => return None,
    };
    calls.truncate(count as usize * CALL_WIDTH);
    let (setup, store) = (Box::new(setup), Box::new(Store::FRESH));
    Some(Case::List { setup, store, calls, answers: Vec::new() })
}

/// A way for lists, taken by a text that is read: it is read, made simpler, and written again.
fn on_text(way: Simpler) -> Simpler {
    Box::new(move |case| {
        if let Some(mut list) = text_as_list(case) {
            way(&mut list);
            write_text(case, &list);
        }
    })
}

fn write_text(case: &mut Case, list: &Case) {
    let Case::List { setup, calls, .. } = list else {
        return;
    };
    let (setup, calls) = (setup_lines(setup), call_lines(calls));
    match case {
        Case::ReadAlone(text) => *text = join(&setup),
        Case::Sheets(text) | Case::ReadWithCalls { text, .. } => {
            *text = join(&[setup, calls].concat());
        }
        _ => {}
    }
}

/// The last desk, class, process or file of setup bytes may go, and each byte may become 0.
fn ways_of_bytes(given: &SetupBytes) -> Vec<Simpler> {
    let mut ways: Vec<Part<SetupBytes>> = Vec::new();
    for which in 0..MOST.len() * PROCESSES {
        ways.push(Box::new(move |given| shrink_bytes(given, which % MOST.len())));
    }
    for place in 0..given.rights.len() {
        ways.push(Box::new(move |given| clear_byte(&mut given.rights, place)));
    }
    for place in 0..given.desk_of.len() {
        ways.push(Box::new(move |given| clear_byte(&mut given.desk_of, place)));
    }
    for place in 0..given.class_of.len() {
        ways.push(Box::new(move |given| clear_byte(&mut given.class_of, place)));
    }
    ways.into_iter().map(on_bytes).collect()
}

fn on_bytes(change: Part<SetupBytes>) -> Simpler {
    Box::new(move |case| {
        if let Case::Accept(given) = case {
            change(given);
        }
    })
}

fn clear_byte(slice: &mut [u8], place: usize) {
    if let Some(byte) = slice.get_mut(place) {
        *byte = 0;
    }
}

fn shrink_bytes(given: &mut SetupBytes, which: usize) {
    let classes = given.classes as usize;
    match which {
        0 if given.desks > 1 && given.rights.len() > classes => {
            given.desks -= 1;
            given.rights.truncate(given.rights.len() - classes);
        }
        1 if classes > 1 => {
            given.classes -= 1;
            let rows = given.rights.chunks(classes);
            given.rights =
                rows.flat_map(|row| &row[..row.len().min(classes - 1)]).copied().collect();
        }
        2 if given.processes > 1 => {
            given.processes -= 1;
            given.desk_of.pop();
        }
        3 if given.files > 1 => {
            given.files -= 1;
            given.class_of.pop();
        }
        _ => {}
    }
}
