//! Stores at random: fitting ones, and forged ones that do not fit.

use crate::random::Random;
use second::setup::Setup;
use second::sizes::{FILES, PROCESSES};
use second::store::{mark_at, Cell, Store, OPEN};

/// Written marks that are none, some of which have a sound one for their low byte or half.
const NO_WRITTEN_MARKS: [u32; 9] = [2, 2, 3, 255, 256, 257, 1 << 16, 1 << 31, u32::MAX];

/// What may be written: 0 often, since it is a figure like any other.
pub fn figure(random: &mut Random) -> u32 {
    if random.once_in(3) {
        0
    } else {
        random.wild()
    }
}

/// What a file may hold: nothing, a written 0, or a figure most likely above it.
fn cell(random: &mut Random) -> Cell {
    match random.below(3) {
        0 => Cell::UNWRITTEN,
        1 => Cell::of(0),
        _ => Cell::of(random.wild()),
    }
}

/// A store that fits its setup, with locks and marks wherever the rights allow them, and files written or not.
pub fn fitting(random: &mut Random, setup: &Setup) -> Store {
    let mut store = Store::FRESH;
    let (processes, files) = (setup.processes as usize, setup.files as usize);
    let (locks, opens) = (random.between(1, 4), random.between(1, 4));
    for file in 0..files {
        store.cells[file] = cell(random);
        let holder = random.below(processes);
        if random.below(4) < locks && setup.writes(holder, file) {
            store.holders[file] = holder as u32 + 1;
        }
        for process in (0..processes).filter(|&process| setup.reads(process, file)) {
            if random.below(4) < opens {
                store.marks[mark_at(file, process)] = OPEN;
            }
        }
    }
    store
}

/// Any store that fits: fresh, or not.
pub fn any(random: &mut Random, setup: &Setup) -> Store {
    match random.below(4) {
        0 => Store::FRESH,
        _ => fitting(random, setup),
    }
}

/// A store with something in it that its setup, which could have been accepted, does not allow.
pub fn forged(random: &mut Random, setup: &Setup) -> Store {
    let mut store = any(random, setup);
    if random.once_in(40) {
        store.holders.fill_with(|| random.wild());
        store.marks.fill_with(|| random.below(3) as u8);
        let mut wild = || Cell { figure: random.wild(), written: random.below(3) as u32 };
        store.cells.fill_with(&mut wild);
    }
    damage(random, setup, &mut store);
    while random.once_in(4) {
        damage(random, setup, &mut store);
    }
    store
}

/// One entry is made wrong; where the setup leaves no room for it, nothing is.
fn damage(random: &mut Random, setup: &Setup, store: &mut Store) {
    let (processes, files) = (setup.processes as usize, setup.files as usize);
    let (file, process) = (random.below(files), random.below(processes));
    match random.below(13) {
        0 => store.holders[file] = random.pick(&[processes as u32 + 1, u32::MAX, 1 << 31, 256]),
        1 if !setup.writes(process, file) => store.holders[file] = process as u32 + 1,
        2 if !setup.reads(process, file) => store.marks[mark_at(file, process)] = OPEN,
        3 => {
            // Most often where an open mark would fit.
            let anywhere = random.once_in(3) && !setup.reads(process, file);
            let process = if anywhere { random.below(PROCESSES) } else { process };
            store.marks[mark_at(file, process)] = random.pick(&[2, 2, 3, 128, 255]);
        }
        4 if processes < PROCESSES => {
            store.marks[mark_at(file, random.between(processes, PROCESSES - 1))] = OPEN;
        }
        5 if files < FILES => {
            store.holders[random.between(files, FILES - 1)] = random.between(1, processes) as u32;
        }
        6 if files < FILES => {
            let past = random.between(files, FILES - 1);
            store.marks[mark_at(past, random.below(PROCESSES))] = OPEN;
        }
        7..=9 if files < FILES => {
            store.cells[random.between(files, FILES - 1)] = cell_of_no_file(random);
        }
        10 | 11 => damage_cell(random, &mut store.cells[file]),
        _ => store.holders[file] = random.wild(),
    }
}

/// A cell that nothing past the files may have: a figure, a written mark, or both.
fn cell_of_no_file(random: &mut Random) -> Cell {
    let (figure, mark) = (random.wild().max(1), random.pick(&NO_WRITTEN_MARKS));
    random.pick(&[
        Cell { figure, written: 0 },
        Cell { figure, written: 0 },
        Cell::of(0),
        Cell::of(0),
        Cell::of(figure),
        Cell { figure: 0, written: mark },
    ])
}

/// The cell of a file gets a mark that is none, or has a figure though it is unwritten.
fn damage_cell(random: &mut Random, cell: &mut Cell) {
    match random.below(2) {
        0 => cell.written = random.pick(&NO_WRITTEN_MARKS),
        _ => *cell = Cell { figure: random.wild().max(1), written: 0 },
    }
}

/// A store that fits no setup at all, for one that could not have been accepted.
pub fn fitting_none(random: &mut Random) -> Store {
    let mut store = Store::FRESH;
    match random.below(2) {
        0 => store = Store::REFUSED,
        _ => damage_cell(random, &mut store.cells[0]),
    }
    store
}
