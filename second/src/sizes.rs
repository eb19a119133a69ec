//! The sizes that the documents name.

pub const DESKS: usize = 16;
pub const CLASSES: usize = 16;
pub const PROCESSES: usize = 64;
pub const FILES: usize = 32;

/// The most calls in a list, and in a call text.
pub const CALLS: usize = 1024;

/// Numbers that a call takes, and its answer.
pub const CALL_WIDTH: usize = 4;
pub const ANSWER_WIDTH: usize = 2;

/// Numbers that a cell takes, which is what a file holds.
pub const CELL_WIDTH: usize = 2;

/// The longest list in numbers, which is also the room that a call text asks for.
pub const LIST_NUMBERS: usize = CALLS * CALL_WIDTH;

/// The most links in a chain with the fewest, since no desk is in it twice.
pub const LINKS: usize = DESKS - 1;

/// A route's list has so many calls for each link, and one more.
const CALLS_A_LINK: u32 = 4;

/// The calls of a list over so many links, which may be any number: one from the other program may be wrong.
pub const fn calls_over(links: u32) -> u32 {
    links.saturating_mul(CALLS_A_LINK).saturating_add(1)
}

/// The numbers of a list over so many links.
pub const fn numbers_over(links: usize) -> usize {
    calls_over(links as u32) as usize * CALL_WIDTH
}

/// The links that a list of so many calls goes over. It must have a call, as every route's list has.
pub const fn links_of(calls: u32) -> u32 {
    (calls - 1) / CALLS_A_LINK
}

/// The calls of the longest list of a route. The room that a route asks for holds it.
pub const ROUTE_CALLS: usize = calls_over(LINKS as u32) as usize;
pub const ROUTE_NUMBERS: usize = ROUTE_CALLS * CALL_WIDTH;

/// The most links in a chain that goes around a gate desk. The room for its list is a route's all the same.
pub const LINKS_AROUND: usize = LINKS - 1;

/// The numbers of the largest grid: one for each desk and each desk.
pub const GRID_NUMBERS: usize = DESKS * DESKS;

/// Entries of the table of rights, and of open marks, whatever the counts are.
pub const RIGHTS: usize = DESKS * CLASSES;
pub const MARKS: usize = FILES * PROCESSES;

/// The longest input that the program judges line by line.
pub const INPUT_BYTES: usize = 32_768;
