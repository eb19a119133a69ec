//! Why an input is refused, told from the input itself, for the counts.

use crate::setups::MOST;
use second::call::{code, Call};
use second::gate::Three;
use second::refusal::Refusal;
use second::setup::{right_at, Setup, SetupBytes, RW};
use second::sizes::{CLASSES, DESKS, FILES, PROCESSES, ROUTE_NUMBERS};
use second::store::{mark_at, Cell, Store, OPEN, WRITTEN};

pub const COUNT_CAUSES: [&str; 8] = [
    "desks 0",
    "desks past the most",
    "classes 0",
    "classes past the most",
    "processes 0",
    "processes past the most",
    "files 0",
    "files past the most",
];

pub const SETUP_CAUSES: [&str; 15] = [
    COUNT_CAUSES[0],
    COUNT_CAUSES[1],
    COUNT_CAUSES[2],
    COUNT_CAUSES[3],
    COUNT_CAUSES[4],
    COUNT_CAUSES[5],
    COUNT_CAUSES[6],
    COUNT_CAUSES[7],
    "a right above 3",
    "a desk of D or more",
    "a class of T or more",
    "a right past the classes",
    "a right past the desks",
    "a desk past the processes",
    "a class past the files",
];

pub const STORE_CAUSES: [&str; 12] = [
    "held by a process that does not exist",
    "held without W",
    "open without R",
    "an open mark above 1",
    "open for a process that does not exist",
    "a file past the files is locked",
    "a file past the files is open",
    "a written mark above 1",
    "an unwritten file has a figure",
    "a file past the files has a figure",
    "a file past the files is written",
    "a file past the files has a written mark above 1",
];

/// Where the causes begin that lie in the cells.
const CELL_CAUSES: usize = 7;

pub const SLICE_CAUSES: [&str; 6] = [
    "rights too short",
    "rights too long",
    "desks too short",
    "desks too long",
    "classes too short",
    "classes too long",
];

/// The counts that lie outside their sizes.
pub fn of_counts(counts: [u32; 4]) -> Vec<&'static str> {
    let cause = |(which, count): (usize, u32)| match count as usize {
        0 => Some(COUNT_CAUSES[which * 2]),
        count if count > MOST[which] => Some(COUNT_CAUSES[which * 2 + 1]),
        _ => None,
    };
    counts.into_iter().enumerate().filter_map(cause).collect()
}

/// All causes for which a setup could not have been accepted; those of entries only if its counts fit.
pub fn of_setup(setup: &Setup) -> Vec<&'static str> {
    let counts = of_counts([setup.desks, setup.classes, setup.processes, setup.files]);
    if !counts.is_empty() {
        return counts;
    }
    let (desks, classes) = (setup.desks as usize, setup.classes as usize);
    let (processes, files) = (setup.processes as usize, setup.files as usize);
    let right = |desk, class| setup.rights[right_at(desk, class)];
    let row_past = |desk: usize| (classes..CLASSES).any(|class| right(desk, class) != 0);
    let row_above = |desk: usize| (0..classes).any(|class| right(desk, class) > RW);
    let found = [
        (0..desks).any(row_above),
        setup.desk_of[..processes].iter().any(|&desk| desk as usize >= desks),
        setup.class_of[..files].iter().any(|&class| class as usize >= classes),
        (0..desks).any(row_past),
        desks < DESKS && setup.rights[right_at(desks, 0)..].iter().any(|&right| right != 0),
        setup.desk_of[processes..].iter().any(|&desk| desk != 0),
        setup.class_of[files..].iter().any(|&class| class != 0),
    ];
    let names = SETUP_CAUSES[COUNT_CAUSES.len()..].iter();
    names.zip(found).filter(|(_, found)| *found).map(|(&name, _)| name).collect()
}

/// All causes for which a store does not fit a setup that could have been accepted.
pub fn of_store(setup: &Setup, store: &Store) -> Vec<&'static str> {
    let (processes, files) = (setup.processes as usize, setup.files as usize);
    let mut found = [false; STORE_CAUSES.len()];
    for file in 0..FILES {
        let held = store.holders[file] as usize;
        let exists = file < files;
        found[0] |= exists && held > processes;
        found[1] |= exists && (1..=processes).contains(&held) && !setup.writes(held - 1, file);
        found[5] |= !exists && held != 0;
        let cell_causes = of_cell(store.cells[file], exists);
        let cells = found[CELL_CAUSES..].iter_mut().zip(cell_causes);
        cells.for_each(|(found, has)| *found |= has);
        for process in 0..PROCESSES {
            let mark = store.marks[mark_at(file, process)];
            let open = exists && mark == OPEN;
            found[2] |= open && process < processes && !setup.reads(process, file);
            found[3] |= exists && mark > OPEN;
            found[4] |= open && process >= processes;
            found[6] |= !exists && mark != 0;
        }
    }
    STORE_CAUSES.iter().zip(found).filter(|(_, found)| *found).map(|(&name, _)| name).collect()
}

/// For each cause of a cell whether this one has it. Past the files a figure and a written mark are two causes,
/// so that each is also met by itself.
fn of_cell(cell: Cell, exists: bool) -> [bool; STORE_CAUSES.len() - CELL_CAUSES] {
    let Cell { figure, written } = cell;
    [
        exists && written > WRITTEN,
        exists && written == 0 && figure != 0,
        !exists && figure != 0,
        !exists && written == WRITTEN,
        !exists && written > WRITTEN,
    ]
}

/// Whether a cell has what no cell of any file may have.
pub fn has_unsound_cell(store: &Store) -> bool {
    store.cells.iter().any(|&cell| of_cell(cell, true).contains(&true))
}

/// The slices of a setup's bytes that do not match its counts.
pub fn of_slices(given: &SetupBytes) -> Vec<&'static str> {
    let rights = u64::from(given.desks) * u64::from(given.classes);
    let lengths = [
        (given.rights.len() as u64, rights),
        (given.desk_of.len() as u64, u64::from(given.processes)),
        (given.class_of.len() as u64, u64::from(given.files)),
    ];
    let cause = |(which, (found, due)): (usize, (u64, u64))| match found {
        found if found < due => Some(SLICE_CAUSES[which * 2]),
        found if found > due => Some(SLICE_CAUSES[which * 2 + 1]),
        _ => None,
    };
    lengths.into_iter().enumerate().filter_map(cause).collect()
}

/// Those of some refusals that apply, in their order.
fn that_apply(order: &[(bool, Refusal)]) -> Vec<Refusal> {
    order.iter().filter(|(applies, _)| *applies).map(|&(_, refusal)| refusal).collect()
}

/// Every refusal of setup bytes that applies, in order.
pub fn all_of_bytes(given: &SetupBytes) -> Vec<Refusal> {
    let counts = [given.desks, given.classes, given.processes, given.files];
    that_apply(&[
        (!of_counts(counts).is_empty(), Refusal::CountOutside),
        (!of_slices(given).is_empty(), Refusal::WrongLength),
        (given.rights.iter().any(|&right| right > RW), Refusal::RightAbove3),
        (given.desk_of.iter().any(|&desk| u32::from(desk) >= given.desks), Refusal::DeskOutside),
        (
            given.class_of.iter().any(|&class| u32::from(class) >= given.classes),
            Refusal::ClassOutside,
        ),
    ])
}

/// Every refusal of a call on a sound setup and a fitting store that applies, in order.
pub fn all_of_call(setup: &Setup, call: Call) -> Vec<Refusal> {
    let copies = call.operation == code::COPY;
    let takes_no_extra = matches!(call.operation, code::READ | code::LOCK..=code::TESTLOCK);
    let past_files = |file: u32| file >= setup.files;
    that_apply(&[
        (call.operation == 0 || call.operation > code::COPY, Refusal::NoSuchOperation),
        (call.process >= setup.processes, Refusal::NoSuchProcess),
        (past_files(call.file) || copies && past_files(call.extra), Refusal::NoSuchFile),
        (takes_no_extra && call.extra > 0, Refusal::ExtraNotZero),
        (copies && call.extra == call.file, Refusal::CopyOntoItself),
    ])
}

/// Every refusal of a grid that applies, in order.
pub fn all_of_grid(setup: &Setup, room: usize) -> Vec<Refusal> {
    let square = u64::from(setup.desks) * u64::from(setup.desks);
    that_apply(&[
        (!of_setup(setup).is_empty(), Refusal::NoSetup),
        ((room as u64) < square, Refusal::RoomTooShort),
    ])
}

/// Every refusal of a route over a sound setup that applies, in order.
pub fn all_of_route(setup: &Setup, a: u32, b: u32, room: usize) -> Vec<Refusal> {
    that_apply(&[
        (a.max(b) >= setup.desks, Refusal::NoSuchRouteDesk),
        (a == b, Refusal::SameRouteDesks),
        (room < ROUTE_NUMBERS, Refusal::RoomTooShort),
    ])
}

/// Every refusal of a gate over a sound setup that applies, in order.
pub fn all_of_gate(setup: &Setup, three: Three, room: usize) -> Vec<Refusal> {
    let Three { a, b, gate } = three;
    that_apply(&[
        (a.max(b).max(gate) >= setup.desks, Refusal::NoSuchRouteDesk),
        (a == b || a == gate || b == gate, Refusal::SameRouteDesks),
        (room < ROUTE_NUMBERS, Refusal::RoomTooShort),
    ])
}
