//! What a call that goes through counts for by the cells that it meets: written or not, and a figure of 0 or above.

use crate::count_calls::WAYS;
use crate::counts::Counts;
use crate::tally::Table;
use second::call::{code, Call};
use second::setup::Setup;
use second::store::{Cell, Store};

const UNWRITTEN: &str = "unwritten";
const ZERO: &str = "written 0";
const ABOVE: &str = "written above 0";

/// What a cell may be.
const CELLS: [&str; 3] = [UNWRITTEN, ZERO, ABOVE];

/// How often each must be met, for each way that a call goes. The walk meets each of them once in a text.
const READ_LEAST: [u64; WAYS.len()] = [50, 50, 1_000, 10];
const OWN_LOCK_LEAST: [u64; WAYS.len()] = [12, 12, 90, 1];
const WRITE_LEAST: [u64; WAYS.len()] = [20, 20, 200, 4];
const COPY_LEAST: [u64; WAYS.len()] = [6, 6, 30, 1];

pub fn cells() -> Table {
    let mut table = Table::new("Cells of calls that go through", &WAYS);
    for cell in CELLS {
        table.row_in(&read_name(cell, false), &READ_LEAST.map(Some));
        table.row_in(&read_name(cell, true), &OWN_LOCK_LEAST.map(Some));
    }
    for (figure, before) in CELLS.into_iter().flat_map(|cell| [(ZERO, cell), (ABOVE, cell)]) {
        table.row_in(&write_name(figure, before), &WRITE_LEAST.map(Some));
    }
    for (source, target) in CELLS.into_iter().flat_map(|source| CELLS.map(|to| (source, to))) {
        table.row_in(&copy_name(source, target), &COPY_LEAST.map(Some));
    }
    table
}

fn read_name(cell: &str, own_lock: bool) -> String {
    format!("READ: {cell}{}", if own_lock { ", own lock" } else { "" })
}

fn write_name(figure: &str, before: &str) -> String {
    let figure = figure.trim_start_matches("written ");
    format!("WRITE: {figure} onto {before}")
}

fn copy_name(source: &str, target: &str) -> String {
    format!("COPY: {source} onto {target}")
}

fn cell_name(cell: Cell) -> &'static str {
    match cell {
        Cell::UNWRITTEN => UNWRITTEN,
        Cell { figure: 0, .. } => ZERO,
        _ => ABOVE,
    }
}

/// Counts a call that is not refused and that nothing stops, if it looks at a cell.
pub fn meet_through(counts: &mut Counts, store: &Store, call: Call, way: usize) {
    let (p, f) = (call.process as usize, call.file as usize);
    let held = cell_name(store.cells[f]);
    let name = match call.operation {
        code::READ => read_name(held, store.locked_by(f, p)),
        code::WRITE => write_name(cell_name(Cell::of(call.extra)), held),
        code::COPY => copy_name(held, cell_name(store.cells[call.extra as usize])),
        _ => return,
    };
    counts.cells.met(&name, way);
}

/// Whether a store that fits has a file that is written and one that is not.
pub fn is_mixed(setup: &Setup, store: &Store) -> bool {
    let cells = &store.cells[..setup.files as usize];
    cells.iter().any(|cell| cell.is_written()) && !cells.iter().all(|cell| cell.is_written())
}
