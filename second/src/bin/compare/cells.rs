//! Cases by hand about what files hold: every kind of cell under every call, in short lists, and where it is judged.

use crate::case::Case;
use crate::families::{two_desks, Held};
use second::call::{code, Call};
use second::setup::Setup;
use second::sizes::{CALL_WIDTH, FILES};
use second::store::{mark_at, Cell, Store, OPEN};

/// Unwritten, a written 0, and a figure above it.
const CELLS: [Cell; 3] = [Cell::UNWRITTEN, Cell::of(0), Cell::of(6)];

/// The process of the two desks that may read and write both files, and another at its desk.
const WRITER: u32 = 1;
const OTHER: u32 = 2;
/// And one at the desk that may only read.
const READER: u32 = 0;

/// The files that there are.
const BOTH: [u32; 2] = [0, 1];

/// What stands in a run that is lent by hand.
const KEPT: u32 = 7;

/// Both files open for the writer, held by one process or by none, with cells in them.
fn held_by(holder: u32, cells: [Cell; 2]) -> Store {
    let mut store = Store::FRESH;
    for (file, cell) in cells.into_iter().enumerate() {
        store.holders[file] = holder;
        store.cells[file] = cell;
        store.marks[mark_at(file, WRITER as usize)] = OPEN;
    }
    store
}

/// Every call of the writer on a file, with COPY to the other file.
fn calls_on(file: u32) -> Vec<Call> {
    let call = |operation, extra| Call { operation, process: WRITER, file, extra };
    let others = (code::READ..code::COPY).filter(|&operation| operation != code::WRITE);
    let mut calls: Vec<Call> = others.map(|operation| call(operation, 0)).collect();
    calls.extend([0, 5].map(|figure| call(code::WRITE, figure)));
    calls.push(call(code::COPY, BOTH[1] - file));
    calls
}

/// Every call of the writer on every two cells, with the files locked by it, by the other, and by nobody.
pub fn calls() -> Vec<Held> {
    let pairs = CELLS.into_iter().flat_map(|first| CELLS.map(|second| [first, second]));
    let mut held = Vec::new();
    for cells in pairs {
        for store in [0, WRITER + 1, OTHER + 1].map(|holder| held_by(holder, cells)) {
            let calls = BOTH.into_iter().flat_map(calls_on);
            held.extend(calls.map(|call| (Box::new(two_desks()), Box::new(store.clone()), call)));
        }
    }
    held
}

/// Cells that fit and that do not, in files that exist and past them.
pub fn judged() -> Vec<Case> {
    const FIGURES: [u32; 4] = [0, 1, 256, u32::MAX];
    const MARKS: [u32; 8] = [0, 1, 2, 3, 256, 257, 1 << 31, u32::MAX];
    const PLACES: [usize; 4] = [0, 1, 2, FILES - 1];
    let mut cases = Vec::new();
    for setup in [two_desks(), Setup { files: FILES as u32, ..two_desks() }] {
        for (file, written) in PLACES.into_iter().flat_map(|file| MARKS.map(|mark| (file, mark))) {
            cases.extend(FIGURES.map(|figure| {
                let mut store = Store::FRESH;
                store.cells[file] = Cell { figure, written };
                Case::Judge(Box::new(setup.clone()), Box::new(store))
            }));
        }
    }
    cases
}

/// Every three doings on two files from a fresh store; then both are read, by the writer and by the reader.
pub fn lists() -> Vec<Case> {
    let all = |operation, process| BOTH.map(|file| [operation, process, file, 0]);
    let doings: [[u32; CALL_WIDTH]; 5] = [
        [code::WRITE, WRITER, 0, 0],
        [code::WRITE, WRITER, 0, 6],
        [code::WRITE, WRITER, 1, 9],
        [code::COPY, WRITER, 0, 1],
        [code::COPY, WRITER, 1, 0],
    ];
    let count = doings.len();
    let three = |turn: usize| [turn, turn / count, turn / count / count].map(|n| doings[n % count]);
    let list = |turn: usize| {
        let calls = [
            &all(code::OPEN, WRITER)[..],
            &all(code::LOCK, WRITER),
            &three(turn),
            &all(code::READ, WRITER),
            &all(code::UNLOCK, WRITER),
            &all(code::OPEN, READER),
            &all(code::READ, READER),
        ];
        let calls = calls.concat().concat();
        let (setup, store) = (Box::new(two_desks()), Box::new(Store::FRESH));
        Case::List { setup, store, answers: vec![KEPT; calls.len()], calls }
    };
    (0..count.pow(3)).map(list).collect()
}
