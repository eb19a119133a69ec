//! What a grid counts for: its desks, its numbers, its run, and its refusals.

use crate::causes::all_of_grid;
use crate::counts::Counts;
use crate::tally::Table;
use second::refusal::Refusal;
use second::setup::{right_at, Setup, RW};
use second::sizes::{DESKS, LINKS, ROUTE_NUMBERS};

/// More links than any chain has: there is none.
const NEVER: usize = LINKS + 1;

/// What a setup may look like whose grid is filled, and how often each must be met.
const SHAPES: [(&str, u64); 4] = [
    ("fewer desks than the most", 400),
    ("a desk without a process", 150),
    ("a class without a file", 300),
    ("all rights", 60),
];

/// How often a number of links must be met, from one link on.
const LINKS_LEAST: [u64; LINKS] =
    [8_000, 3_000, 2_000, 1_700, 1_400, 1_100, 900, 700, 550, 450, 350, 250, 170, 110, 50];

const JUST_ENOUGH: &str = "room just enough";
const LONGER: &str = "a longer room";
const BELOW_ROUTE: &str = "room below a route's";
const SHORT_BY_ONE: &str = "11: short by one";
const NO_NUMBER: &str = "11: no number";
const SHORTER: &str = "11: shorter";
const NO_SETUP: &str = "15";
const NO_SETUP_FIRST: &str = "15 before 11";
const DESKS_FIRST: &str = "15 before 11, desks past the most";

/// The rooms and the refusals, with how often each must be met.
const ROOMS: [(&str, u64); 9] = [
    (JUST_ENOUGH, 200),
    (LONGER, 300),
    (BELOW_ROUTE, 400),
    (SHORT_BY_ONE, 130),
    (NO_NUMBER, 5),
    (SHORTER, 80),
    (NO_SETUP, 250),
    (NO_SETUP_FIRST, 60),
    (DESKS_FIRST, 60),
];

pub fn grids() -> Table {
    let mut table = Table::new("Grids", &["met"]);
    table.row("filled", 500);
    (1..=DESKS).for_each(|desks| table.row(&format!("desks {desks:2}"), 15));
    SHAPES.iter().for_each(|(name, least)| table.row(name, *least));
    for (links, least) in (1..).zip(LINKS_LEAST) {
        table.row(&format!("numbers: links {links:2}"), least);
    }
    table.row("numbers: no route", 30_000);
    ROOMS.iter().for_each(|(name, least)| table.row(name, *least));
    table
}

pub fn meet(counts: &mut Counts, setup: &Setup, room: usize) {
    let square = setup.desks as usize * setup.desks as usize;
    let name = match all_of_grid(setup, room)[..] {
        [] => return meet_filled(counts, setup, room),
        [Refusal::NoSetup] => NO_SETUP,
        [Refusal::NoSetup, ..] if setup.desks as usize > DESKS => DESKS_FIRST,
        [Refusal::NoSetup, ..] => NO_SETUP_FIRST,
        _ if room + 1 == square => SHORT_BY_ONE,
        _ if room == 0 => NO_NUMBER,
        _ => SHORTER,
    };
    counts.grids.met(name, 0);
}

fn meet_filled(counts: &mut Counts, setup: &Setup, room: usize) {
    let desks = setup.desks as usize;
    counts.grids.met("filled", 0);
    counts.grids.met(&format!("desks {desks:2}"), 0);
    let shapes = SHAPES.iter().zip(shape(setup)).filter(|(_, has)| *has);
    shapes.for_each(|((name, _), _)| counts.grids.met(name, 0));
    let tail = room > desks * desks;
    counts.grids.met(if tail { LONGER } else { JUST_ENOUGH }, 0);
    if room < ROUTE_NUMBERS {
        counts.grids.met(BELOW_ROUTE, 0);
    }
    meet_numbers(counts, setup);
}

/// Which of the shapes a setup has, in their order.
fn shape(setup: &Setup) -> [bool; SHAPES.len()] {
    let (desks, classes) = (setup.desks as usize, setup.classes as usize);
    let seats = &setup.desk_of[..setup.processes as usize];
    let files = &setup.class_of[..setup.files as usize];
    let cells = (0..desks * classes).map(|place| right_at(place / classes, place % classes));
    [
        desks < DESKS,
        !(0..desks).all(|desk| seats.contains(&(desk as u8))),
        !(0..classes).all(|class| files.contains(&(class as u8))),
        cells.into_iter().all(|place| setup.rights[place] == RW),
    ]
}

/// Counts the numbers of a grid, but for those of a desk and itself.
fn meet_numbers(counts: &mut Counts, setup: &Setup) {
    let desks = setup.desks as usize;
    let fewest = fewest(setup);
    let pairs = (0..desks * desks).map(|place| (place / desks, place % desks));
    for (a, b) in pairs.filter(|(a, b)| a != b) {
        match fewest[a][b] {
            NEVER => counts.grids.met("numbers: no route", 0),
            links => counts.grids.met(&format!("numbers: links {links:2}"), 0),
        }
    }
}

/// The fewest links between every two desks, reckoned for the counts alone, which is quicker than the reports:
/// first single links, then chains that go through one desk more.
fn fewest(setup: &Setup) -> [[usize; DESKS]; DESKS] {
    let (desks, processes) = (setup.desks as usize, setup.processes as usize);
    let seat = |process: usize| setup.desk_of[process] as usize;
    let mut fewest = [[NEVER; DESKS]; DESKS];
    for file in 0..setup.files as usize {
        for writer in (0..processes).filter(|&process| setup.writes(process, file)) {
            for reader in (0..processes).filter(|&process| setup.reads(process, file)) {
                fewest[seat(writer)][seat(reader)] = 1;
            }
        }
    }
    for through in 0..desks {
        for (a, b) in (0..desks * desks).map(|place| (place / desks, place % desks)) {
            let links = fewest[a][through] + fewest[through][b];
            fewest[a][b] = fewest[a][b].min(links);
        }
    }
    fewest
}

#[cfg(test)]
mod tests {
    use super::*;
    use crate::case::Case;
    use crate::grids::case;
    use crate::random::Random;
    use second::grid::grid;
    use second::rules::Rules;

    const GRIDS: usize = 300;

    #[test]
    fn the_reckoning_of_the_counts_is_that_of_the_reports() {
        let mut random = Random::new(1, 0);
        for _ in 0..GRIDS {
            let Case::Grid { setup, mut room } = case(&mut random) else {
                panic!("no grid");
            };
            if grid(Rules::UNTURNED, &setup, &mut room).is_err() {
                continue;
            }
            let (desks, fewest) = (setup.desks as usize, fewest(&setup));
            for (place, &number) in room[..desks * desks].iter().enumerate() {
                let (a, b) = (place / desks, place % desks);
                let links = if a == b { NEVER } else { fewest[a][b] };
                // No route is 0 in a grid.
                assert_eq!(number as usize, links % NEVER);
            }
        }
    }
}
