//! What each case counts for.

use crate::case::Case;
use crate::causes::{self, COUNT_CAUSES, SETUP_CAUSES, SLICE_CAUSES, STORE_CAUSES};
use crate::count_calls;
use crate::count_cells;
use crate::count_gates;
use crate::count_grids;
use crate::count_routes;
use crate::count_texts;
use crate::tally::Table;
use second::call::Call;
use second::refusal::Refusal;
use second::setup::{Setup, SetupBytes};
use second::sizes::{ANSWER_WIDTH, CALLS, CALL_WIDTH, LIST_NUMBERS};
use second::store::{Store, NO_MARK};

/// The entries that judge a setup, in the columns of their table.
pub mod entry {
    pub const FRESH: usize = 0;
    pub const JUDGE: usize = 1;
    pub const CALL: usize = 2;
    pub const CALL_IN_PLACE: usize = 3;
    pub const LIST: usize = 4;
    pub const ROUTE: usize = 5;
    pub const GRID: usize = 6;
    pub const GATE: usize = 7;
}

pub struct Counts {
    pub totals: Table,
    pub accepts: Table,
    pub setups: Table,
    pub stores: Table,
    pub calls: Table,
    pub answers: Table,
    pub cells: Table,
    pub lists: Table,
    pub routes: Table,
    pub texts: Table,
    pub grids: Table,
    pub gates: Table,
}

const ENTRIES: [&str; 8] =
    ["fresh", "judge", "by value", "in place", "list", "route", "grid", "gate"];

const ALIKE: &str = "fits, not fresh, all files written or none";
const MIXED: &str = "fits, not fresh, some files written and some not";
const OPEN_MARK_LATER: &str = "15 before 16, an open mark above 1";
const CELL_LATER: &str = "15 before 16, a cell that is none";

pub const TEXTS_TOTAL: &str = "texts through the program";
pub const CALLS_TOTAL: &str = "calls through the library";
pub const ROUTES_TOTAL: &str = "routes through the library";
pub const GRIDS_TOTAL: &str = "grids through the library";
pub const LINKED_TOTAL: &str = "links in a grid, held to the library's own report";
pub const UNLINKED_TOTAL: &str = "no route in a grid, held to the library's own report";
pub const SHOWN_TOTAL: &str = "lists that a report wrote, run with A's calls and without";
pub const GATES_TOTAL: &str = "gates through the library";
pub const AROUND_TOTAL: &str = "lists around a gate, run so too and searched for C's calls";

impl Counts {
    pub fn new() -> Counts {
        Counts {
            totals: totals(),
            accepts: accepts(),
            setups: setups(),
            stores: stores(),
            calls: count_calls::calls(),
            answers: count_calls::answers(),
            cells: count_cells::cells(),
            lists: lists(),
            routes: count_routes::routes(),
            texts: count_texts::texts(),
            grids: count_grids::grids(),
            gates: count_gates::gates(),
        }
    }

    pub fn tables(&self) -> [&Table; 12] {
        [
            &self.totals,
            &self.accepts,
            &self.setups,
            &self.stores,
            &self.calls,
            &self.answers,
            &self.cells,
            &self.lists,
            &self.routes,
            &self.texts,
            &self.grids,
            &self.gates,
        ]
    }

    /// Counts a case that was put to both programs.
    pub fn meet(&mut self, case: &Case) {
        match case {
            Case::Accept(given) => self.meet_bytes(given),
            Case::Fresh(setup) => self.meet_setup(setup, entry::FRESH),
            Case::Judge(setup, store) => self.meet_held(setup, store, entry::JUDGE),
            Case::Call(setup, store, call) => {
                self.meet_call((setup, store), *call, entry::CALL, count_calls::BY_VALUE);
            }
            Case::CallInPlace(setup, store, call) => {
                self.meet_call((setup, store), *call, entry::CALL_IN_PLACE, count_calls::IN_PLACE);
            }
            Case::List { setup, store, calls, answers } => {
                self.meet_held(setup, store, entry::LIST);
                self.meet_list((setup, store), calls, answers.len());
            }
            Case::Route { setup, a, b, room } => {
                self.totals.met(ROUTES_TOTAL, 0);
                self.meet_setup(setup, entry::ROUTE);
                count_routes::meet(self, setup, (*a, *b), room.len());
            }
            Case::ReadAlone(text) => count_texts::meet_alone(self, text),
            Case::ReadWithCalls { text, room } => count_texts::meet_with_calls(self, text, room),
            Case::Grid { setup, room } => {
                self.totals.met(GRIDS_TOTAL, 0);
                self.meet_setup(setup, entry::GRID);
                count_grids::meet(self, setup, room.len());
            }
            Case::Gate { setup, three, room } => {
                self.totals.met(GATES_TOTAL, 0);
                self.meet_setup(setup, entry::GATE);
                count_gates::meet(self, setup, *three, room.len());
            }
            Case::Sheets(text) => {
                self.totals.met(TEXTS_TOTAL, 0);
                count_texts::meet_sheets(self, text);
            }
        }
    }

    fn meet_bytes(&mut self, given: &SetupBytes) {
        let all = causes::all_of_bytes(given);
        let counts = causes::of_counts([given.desks, given.classes, given.processes, given.files]);
        let slices = causes::of_slices(given);
        match all[..] {
            [] => self.accepts.met("accepted", 0),
            [Refusal::RightAbove3] => self.accepts.met("2", 0),
            [Refusal::DeskOutside] => self.accepts.met("3", 0),
            [Refusal::ClassOutside] => self.accepts.met("4", 0),
            _ => {}
        }
        match (all.first(), &counts[..], &slices[..]) {
            (Some(Refusal::CountOutside), [cause], _) => {
                self.accepts.met(&format!("1: {cause}"), 0)
            }
            (Some(Refusal::WrongLength), _, [cause]) => {
                self.accepts.met(&format!("10: {cause}"), 0)
            }
            _ => {}
        }
        if let [first, then, ..] = all[..] {
            self.accepts.met(&format!("{} before {}", first.number(), then.number()), 0);
        }
    }

    fn meet_setup(&mut self, setup: &Setup, column: usize) {
        match causes::of_setup(setup)[..] {
            [] => self.setups.met("accepted", column),
            [cause] => self.setups.met(&format!("15: {cause}"), column),
            _ => self.setups.met("15: several causes", column),
        }
    }

    fn meet_held(&mut self, setup: &Setup, store: &Store, column: usize) {
        self.meet_setup(setup, column);
        let sound = causes::of_setup(setup).is_empty();
        let column = column - entry::JUDGE;
        if !sound {
            if store.marks.contains(&NO_MARK) {
                self.stores.met(OPEN_MARK_LATER, column);
            }
            if causes::has_unsound_cell(store) {
                self.stores.met(CELL_LATER, column);
            }
            return;
        }
        match causes::of_store(setup, store)[..] {
            [] if *store == Store::FRESH => self.stores.met("fits, fresh", column),
            [] if count_cells::is_mixed(setup, store) => self.stores.met(MIXED, column),
            [] => self.stores.met(ALIKE, column),
            [cause] => self.stores.met(&format!("16: {cause}"), column),
            _ => self.stores.met("16: several causes", column),
        }
    }

    fn meet_call(&mut self, held: (&Setup, &Store), call: Call, column: usize, way: usize) {
        self.totals.met(CALLS_TOTAL, 0);
        self.meet_held(held.0, held.1, column);
        count_calls::meet(self, held, call, way);
    }

    fn meet_list(&mut self, held: (&Setup, &Store), calls: &[u32], answers: usize) {
        let (length, enough) = (calls.len(), calls.len() / CALL_WIDTH * ANSWER_WIDTH);
        let wrong = length % CALL_WIDTH > 0 || length > LIST_NUMBERS;
        let short = answers < enough;
        let sound = causes::of_setup(held.0).is_empty();
        let fits = sound && causes::of_store(held.0, held.1).is_empty();
        let name = match (sound, fits, wrong, short) {
            (false, _, true, _) => "15 before 10",
            (false, _, false, true) => "15 before 11",
            (true, false, true, _) => "16 before 10",
            (true, false, false, true) => "16 before 11",
            (_, false, false, false) => return,
            (_, true, true, true) => "10 before 11",
            (_, true, true, false) if length < LIST_NUMBERS => "10: not whole calls",
            (_, true, true, false) => "10: above the most numbers",
            (_, true, false, true) if answers + 1 == enough => "11: short by one number",
            (_, true, false, true) => "11: shorter",
            _ => return self.meet_list_run(held, calls, answers),
        };
        self.lists.met(name, 0);
    }

    fn meet_list_run(&mut self, held: (&Setup, &Store), calls: &[u32], answers: usize) {
        let count = calls.len() / CALL_WIDTH;
        self.lists.met(
            match count {
                0 => "ran no call",
                CALLS => "ran the most calls",
                _ => "ran some calls",
            },
            0,
        );
        let tail = answers > count * ANSWER_WIDTH;
        self.lists.met(if tail { "answers with a tail" } else { "answers just enough" }, 0);
        self.totals.met_times(CALLS_TOTAL, 0, count as u64);
        count_calls::meet_list(self, held, calls, count_calls::IN_A_LIST);
    }
}

fn totals() -> Table {
    let mut table = Table::new("Totals", &["met"]);
    table.row(TEXTS_TOTAL, 2_000);
    table.row(CALLS_TOTAL, 200_000);
    table.row(ROUTES_TOTAL, 5_000);
    table.row(SHOWN_TOTAL, 1_000);
    table.row(GRIDS_TOTAL, 2_000);
    table.row(LINKED_TOTAL, 600);
    table.row(UNLINKED_TOTAL, 600);
    table.row(GATES_TOTAL, 4_000);
    table.row(AROUND_TOTAL, 700);
    table
}

fn accepts() -> Table {
    let mut table = Table::new("Setup bytes", &["met"]);
    table.row("accepted", 500);
    COUNT_CAUSES.iter().for_each(|cause| table.row(&format!("1: {cause}"), 20));
    SLICE_CAUSES.iter().for_each(|cause| table.row(&format!("10: {cause}"), 20));
    ["2", "3", "4"].iter().for_each(|name| table.row(name, 20));
    for order in ["1 before 10", "1 before 2", "1 before 3", "1 before 4", "10 before 2"] {
        table.row(order, 2);
    }
    for order in ["10 before 3", "10 before 4", "2 before 3", "2 before 4", "3 before 4"] {
        table.row(order, 2);
    }
    table
}

fn setups() -> Table {
    let mut table = Table::new("Setups handed in", &ENTRIES);
    table.row("accepted", 100);
    SETUP_CAUSES.iter().for_each(|cause| table.row(&format!("15: {cause}"), 3));
    table.row("15: several causes", 3);
    table
}

fn stores() -> Table {
    let mut table = Table::new("Stores handed in", &ENTRIES[entry::JUDGE..=entry::LIST]);
    table.row("fits, fresh", 50);
    table.row(ALIKE, 50);
    table.row(MIXED, 50);
    STORE_CAUSES.iter().for_each(|cause| table.row(&format!("16: {cause}"), 8));
    table.row("16: several causes", 50);
    table.row(OPEN_MARK_LATER, 50);
    table.row(CELL_LATER, 50);
    table
}

fn lists() -> Table {
    let mut table = Table::new("Lists as a whole", &["met"]);
    table.row("ran no call", 10);
    table.row("ran some calls", 500);
    table.row("ran the most calls", 5);
    table.row("answers just enough", 100);
    table.row("answers with a tail", 100);
    for name in ["10: not whole calls", "10: above the most numbers", "10 before 11"] {
        table.row(name, 5);
    }
    for name in ["11: short by one number", "11: shorter", "15 before 10", "15 before 11"] {
        table.row(name, 3);
    }
    ["16 before 10", "16 before 11"].iter().for_each(|name| table.row(name, 3));
    table
}
