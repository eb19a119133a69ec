//! A case in words, so that it can be read and repeated.

use crate::case::Case;
use crate::programs::Found;
use crate::reply::{number, Reply, GUARD_WORDS};
use second::gate::Three;
use second::setup::{Setup, SetupBytes};
use second::sizes::{ANSWER_WIDTH, CALL_WIDTH, CLASSES, PROCESSES};
use second::store::Store;

/// The longest run of numbers that is told whole.
const NUMBERS_TOLD: usize = 80;

pub fn tell(case: &Case) -> String {
    match case {
        Case::Accept(given) => format!("accept\n{}", tell_bytes(given)),
        Case::Fresh(setup) => format!("fresh store\n{}", tell_setup(setup)),
        Case::Judge(setup, store) => {
            format!("judge\n{}{}", tell_setup(setup), tell_store(store))
        }
        Case::Call(setup, store, call) => {
            let held = format!("{}{}", tell_setup(setup), tell_store(store));
            format!("call by value\n{held}  call {:?}\n", call.numbers())
        }
        Case::CallInPlace(setup, store, call) => {
            let held = format!("{}{}", tell_setup(setup), tell_store(store));
            format!("call in place\n{held}  call {:?}\n", call.numbers())
        }
        Case::List { setup, store, calls, answers } => {
            let held = format!("{}{}", tell_setup(setup), tell_store(store));
            format!("list\n{held}{}  answers {}\n", tell_calls(calls), tell_numbers(answers))
        }
        Case::Route { setup, a, b, room } => {
            format!("route from {a} to {b}\n{}  room {}\n", tell_setup(setup), tell_numbers(room))
        }
        Case::ReadAlone(text) => format!("setup text read alone\n{}", tell_text(text)),
        Case::ReadWithCalls { text, room } => {
            format!("text with calls\n{}  room {}\n", tell_text(text), tell_numbers(room))
        }
        Case::Grid { setup, room } => {
            format!("grid\n{}  room {}\n", tell_setup(setup), tell_numbers(room))
        }
        Case::Gate { setup, three: Three { a, b, gate }, room } => {
            let room = tell_numbers(room);
            format!("gate {gate} on the way from {a} to {b}\n{}  room {room}\n", tell_setup(setup))
        }
        Case::Sheets(text) => format!("text through sheets\n{}", tell_text(text)),
    }
}

/// What both programs made of a grid, since a single number of it says little.
pub fn tell_grids(case: &Case, due: &Reply, found: &Found) -> String {
    let Case::Grid { room, .. } = case else {
        return String::new();
    };
    let told = |who: &str, reply: &[u8]| {
        let numbers =
            |first, count| (first..first + count).filter_map(|place| number(reply, place));
        let answer: Vec<u32> = numbers(0, ANSWER_WIDTH).collect();
        let left: Vec<u32> = numbers(ANSWER_WIDTH + GUARD_WORDS, room.len()).collect();
        format!("  the {who} answers {answer:?} and leaves a room {}\n", tell_numbers(&left))
    };
    let first = found.as_ref().map_or(String::new(), |found| told("first", found));
    first + &told("second", &due.bytes)
}

fn tell_text(text: &[u8]) -> String {
    let lines = text.split_inclusive(|&byte| byte == b'\n');
    let told: String = lines.map(|line| format!("  \"{}\"\n", line.escape_ascii())).collect();
    format!("  {} bytes\n{told}", text.len())
}

fn tell_numbers(numbers: &[u32]) -> String {
    match numbers {
        [] => "of no number".to_string(),
        [first, rest @ ..] if rest.iter().all(|number| number == first) => {
            format!("of {} numbers, each {first}", numbers.len())
        }
        _ if numbers.len() <= NUMBERS_TOLD => format!("{numbers:?}"),
        _ => format!("of {} numbers, first {:?}..", numbers.len(), &numbers[..NUMBERS_TOLD]),
    }
}

fn tell_calls(calls: &[u32]) -> String {
    let told: String = calls.chunks(CALL_WIDTH).map(|call| format!("  call {call:?}\n")).collect();
    if told.is_empty() {
        return "  no call\n".to_string();
    }
    told
}

fn tell_bytes(given: &SetupBytes) -> String {
    let SetupBytes { desks, classes, processes, files, .. } = given;
    format!(
        "  desks {desks}, classes {classes}, processes {processes}, files {files}\n  \
         rights {:?}\n  desk_of {:?}\n  class_of {:?}\n",
        given.rights, given.desk_of, given.class_of
    )
}

/// The entries of a run that are not 0, with their places.
fn tell_entries<T: PartialEq + Default + ToString>(
    name: &str,
    entries: &[T],
    row: usize,
) -> String {
    let place = |place: usize| match row {
        0 => place.to_string(),
        _ => format!("{}/{}", place / row, place % row),
    };
    let entries = entries.iter().enumerate().filter(|(_, entry)| **entry != T::default());
    let told: Vec<String> =
        entries.map(|(at, entry)| format!("{}:{}", place(at), entry.to_string())).collect();
    match told.is_empty() {
        true => format!("  {name} all 0\n"),
        false => format!("  {name} {}\n", told.join(" ")),
    }
}

pub fn tell_setup(setup: &Setup) -> String {
    let Setup { desks, classes, processes, files, .. } = setup;
    format!(
        "  desks {desks}, classes {classes}, processes {processes}, files {files}\n{}{}{}",
        tell_entries("rights", &setup.rights, CLASSES),
        tell_entries("desk_of", &setup.desk_of, 0),
        tell_entries("class_of", &setup.class_of, 0)
    )
}

fn tell_store(store: &Store) -> String {
    if *store == Store::FRESH {
        return "  a fresh store\n".to_string();
    }
    format!(
        "{}{}{}{}",
        tell_entries("holders", &store.holders, 0),
        tell_entries("figures", &store.cells.map(|cell| cell.figure), 0),
        tell_entries("written marks", &store.cells.map(|cell| cell.written), 0),
        tell_entries("open marks", &store.marks, PROCESSES)
    )
}
