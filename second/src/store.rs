//! A store: for each file who has it locked, who has it open, and its cell: a figure and a written mark.

use crate::refusal::Refusal;
use crate::rules::{Rules, Turn};
use crate::setup::{could_be_accepted, Setup};
use crate::sizes::{CELL_WIDTH, FILES, MARKS, PROCESSES};

/// What an open mark is where the process has the file open. Else it is 0.
pub const OPEN: u8 = 1;

/// A mark that is neither open nor not; it stands where no store is handed back.
pub const NO_MARK: u8 = 2;

/// What a written mark is where the file was written. Else it is 0.
pub const WRITTEN: u32 = 1;

/// The least written mark that is neither.
const NO_WRITTEN: u32 = 2;

/// What a file holds. Any two numbers may stand here; `cell_fits` tells whether they are a cell.
#[derive(Clone, Copy, PartialEq, Eq, Default, Debug)]
pub struct Cell {
    pub figure: u32,
    pub written: u32,
}

impl Cell {
    /// A file that was never written has no figure: what stands for it is 0.
    pub const UNWRITTEN: Cell = Cell { figure: 0, written: 0 };

    /// A figure that was written, which may be 0.
    pub const fn of(figure: u32) -> Cell {
        Cell { figure, written: WRITTEN }
    }

    pub fn is_written(self) -> bool {
        self.written == WRITTEN
    }

    pub fn numbers(self) -> [u32; CELL_WIDTH] {
        [self.figure, self.written]
    }
}

/// Any bytes at all may stand here; `fits` tells whether they are a store of a setup.
#[derive(Clone, PartialEq, Eq, Debug)]
pub struct Store {
    /// 0 for unlocked, else the process that has the file locked, plus one.
    pub holders: [u32; FILES],
    pub cells: [Cell; FILES],
    /// The mark of process p on file f lies at `mark_at(f, p)`.
    pub marks: [u8; MARKS],
}

pub fn mark_at(file: usize, process: usize) -> usize {
    file * PROCESSES + process
}

impl Store {
    /// Nothing locked, nothing open, nothing written.
    pub const FRESH: Store =
        Store { holders: [0; FILES], cells: [Cell::UNWRITTEN; FILES], marks: [0; MARKS] };

    /// What stands beside the number where a fresh store is refused: it fits no setup.
    pub const REFUSED: Store = Store { marks: [NO_MARK; MARKS], ..Store::FRESH };

    pub fn unlocked(&self, file: usize) -> bool {
        self.holders[file] == 0
    }

    pub fn locked_by(&self, file: usize, process: usize) -> bool {
        u64::from(self.holders[file]) == process as u64 + 1
    }

    pub fn has_open(&self, process: usize, file: usize) -> bool {
        self.marks[mark_at(file, process)] == OPEN
    }

    /// The cells as they lie in a host's memory: of each file the figure, then the mark.
    pub fn cell_numbers(&self) -> Vec<u32> {
        self.cells.iter().flat_map(|cell| cell.numbers()).collect()
    }
}

/// A fresh store is refused with 15 alone.
pub fn fresh(rules: Rules, setup: &Setup) -> Result<Store, Refusal> {
    match could_be_accepted(rules, setup) {
        true if rules.turned(Turn::FreshIsWritten) => Ok(fresh_but_written(setup)),
        true => Ok(Store::FRESH),
        false => Err(Refusal::NoSetup),
    }
}

/// Only for a turn: a fresh store whose files hold 0 as if it were written.
fn fresh_but_written(setup: &Setup) -> Store {
    let mut store = Store::FRESH;
    store.cells[..setup.files as usize].fill(Cell::of(0));
    store
}

/// 15 where the setup is none, then 16 where the store does not fit it.
pub fn judge(rules: Rules, setup: &Setup, store: &Store) -> Result<(), Refusal> {
    if !could_be_accepted(rules, setup) {
        return match rules.turned(Turn::StoreBeforeSetup) && fits_nothing(store) {
            true => Err(Refusal::StoreDoesNotFit),
            false => Err(Refusal::NoSetup),
        };
    }
    match fits(rules, setup, store) {
        true => Ok(()),
        false => Err(Refusal::StoreDoesNotFit),
    }
}

/// Only for a turn: whether a store has something in it that no setup allows.
fn fits_nothing(store: &Store) -> bool {
    let cell_fits_nothing = |&cell: &Cell| !cell_fits(Rules::UNTURNED, cell);
    store.marks.iter().any(|&mark| mark > OPEN) || store.cells.iter().any(cell_fits_nothing)
}

/// Whether a store fits a setup that could have been accepted.
fn fits(rules: Rules, setup: &Setup, store: &Store) -> bool {
    let files = setup.files as usize;
    let within = (0..files).all(|file| file_fits(rules, setup, store, file));
    let past = (files..FILES).all(|file| file_is_empty(rules, store, file));
    within && (past || rules.turned(Turn::StoreTailUnjudged))
}

fn file_fits(rules: Rules, setup: &Setup, store: &Store, file: usize) -> bool {
    let processes = setup.processes as usize;
    let holder_fits = match store.holders[file] {
        0 => true,
        held if held as usize > processes => false,
        held => setup.writes(held as usize - 1, file) || rules.turned(Turn::HolderRightUnjudged),
    };
    let most = if rules.turned(Turn::MarkOfTwoFits) { NO_MARK } else { OPEN };
    let mark_fits = |process: usize| match store.marks[mark_at(file, process)] {
        0 => true,
        mark => mark <= most && process < processes && setup.reads(process, file),
    };
    holder_fits && cell_fits(rules, store.cells[file]) && (0..PROCESSES).all(mark_fits)
}

/// A written mark is 0 or 1, and where it is 0 so is the figure.
fn cell_fits(rules: Rules, cell: Cell) -> bool {
    let judged = match rules.turn {
        Turn::WrittenMarkByLowByte => u32::from(cell.written as u8),
        _ => cell.written,
    };
    match judged {
        0 => cell.figure == 0 || rules.turned(Turn::UnwrittenFigureFits),
        NO_WRITTEN => rules.turned(Turn::WrittenMarkOfTwoFits),
        mark => mark == WRITTEN,
    }
}

fn file_is_empty(rules: Rules, store: &Store, file: usize) -> bool {
    let marks = &store.marks[mark_at(file, 0)..mark_at(file, PROCESSES)];
    let cell = store.cells[file];
    let written = rules.turned(Turn::WrittenTailFits) && cell == Cell::of(0);
    let unwritten = cell == Cell::UNWRITTEN || written;
    store.unlocked(file) && unwritten && marks.iter().all(|&mark| mark == 0)
}
