//! Grid cases, by hand and at random: lines of every length among desks of every number, and runs of every length.

use crate::calls::lent;
use crate::case::Case;
use crate::families::{q, two_desks};
use crate::random::Random;
use crate::setups::{self, MOST};
use second::setup::{right_at, Setup, R, RW, W};
use second::sizes::{DESKS, GRID_NUMBERS, LINKS, ROUTE_NUMBERS};

/// What stands in a run that is lent by hand.
const KEPT: u32 = 7;

/// Runs are made for no more desks than this, also where a setup says that it has more.
const DESKS_MOST: usize = DESKS + 4;

/// The numbers that a grid of a setup has, as far as a run may hold them.
fn square(setup: &Setup) -> usize {
    (setup.desks as usize).min(DESKS_MOST).pow(2)
}

/// The lengths at which something ends: the grid, a route's room, the largest grid.
fn edges(square: usize) -> [usize; 11] {
    let short = square.saturating_sub(1);
    let (route, most) = (ROUTE_NUMBERS, GRID_NUMBERS);
    [0, 1, short, square, square + 1, square + 4, route - 1, route, most - 1, most, most + 1]
}

fn with_run(setup: &Setup, length: usize) -> Case {
    Case::Grid { setup: Box::new(setup.clone()), room: vec![KEPT; length] }
}

/// A setup whose desk, class, process and file of one number belong together, without rights.
pub fn bare(desks: usize) -> Setup {
    let count = desks as u32;
    let mut setup =
        Setup { desks: count, classes: count, processes: count, files: count, ..Setup::ZERO };
    for number in 0..desks {
        setup.desk_of[number] = number as u8;
        setup.class_of[number] = number as u8;
    }
    setup
}

/// Each desk has a link to the next, by the class of its own number; in a ring the last to the first.
pub fn chained(desks: usize, ring: bool) -> Setup {
    let mut setup = bare(desks);
    for desk in 0..if ring { desks } else { desks - 1 } {
        setup.rights[right_at(desk, desk)] |= W;
        setup.rights[right_at((desk + 1) % desks, desk)] |= R;
    }
    setup
}

fn grant_all(setup: &mut Setup) {
    for desk in 0..setup.desks as usize {
        let row = right_at(desk, 0)..right_at(desk, setup.classes as usize);
        setup.rights[row].fill(RW);
    }
}

pub fn full(desks: usize) -> Setup {
    let mut setup = bare(desks);
    grant_all(&mut setup);
    setup
}

/// A line whose middle desk has no process, and one whose middle class has no file.
pub fn broken(desks: usize) -> [Setup; 2] {
    let middle = desks / 2;
    let [mut unseated, mut unfiled] = [chained(desks, false), chained(desks, false)];
    unseated.desk_of[middle] = 0;
    unfiled.class_of[middle] = 0;
    [unseated, unfiled]
}

/// Every shape with every number of desks, with a run that is short by one, just enough, and longer.
fn shapes() -> Vec<Case> {
    let mut cases = Vec::new();
    for desks in 1..=DESKS {
        let [unseated, unfiled] = broken(desks);
        let line = chained(desks, false);
        for setup in [line, chained(desks, true), full(desks), bare(desks), unseated, unfiled] {
            let square = square(&setup);
            for length in [square, square + 1, square - 1] {
                cases.push(with_run(&setup, length));
            }
        }
    }
    cases
}

/// Setups that say they have no desk or too many: also so many that their square is 0 in 32 bits.
fn of_no_size() -> Vec<Case> {
    const WRAPS: u32 = 1 << 16;
    let desks = [0, DESKS as u32 + 1, 256, WRAPS, WRAPS + 1, u32::MAX];
    let setups = desks.map(|desks| Setup { desks, ..q() });
    setups
        .iter()
        .flat_map(|setup| edges(square(setup)).map(|length| with_run(setup, length)))
        .collect()
}

pub fn by_hand() -> Vec<Case> {
    let mut cases = Vec::new();
    for setup in [q(), two_desks()] {
        cases.extend(edges(square(&setup)).map(|length| with_run(&setup, length)));
    }
    cases.extend(of_no_size());
    cases.extend(shapes());
    cases
}

/// One desk may lose its processes to another, and one class its files, so that links break.
fn break_links(random: &mut Random, setup: &mut Setup) {
    let desks = [random.below(setup.desks as usize), random.below(setup.desks as usize)];
    let classes = [random.below(setup.classes as usize), random.below(setup.classes as usize)];
    let seats = &mut setup.desk_of[..setup.processes as usize];
    move_all(seats, desks.map(|desk| desk as u8));
    let files = &mut setup.class_of[..setup.files as usize];
    move_all(files, classes.map(|class| class as u8));
}

fn move_all(entries: &mut [u8], [from, to]: [u8; 2]) {
    entries.iter_mut().filter(|entry| **entry == from).for_each(|entry| *entry = to);
}

/// A line of any length, often of the most links, among as many desks or more; now and then it breaks.
fn line(random: &mut Random) -> Setup {
    let links = if random.once_in(6) { LINKS } else { random.between(1, LINKS) };
    let desks = random.between(links + 1, DESKS);
    let (mut setup, _) = setups::line_among(random, desks, links);
    if random.once_in(4) {
        break_links(random, &mut setup);
    }
    setup
}

fn setup(random: &mut Random) -> Setup {
    match random.below(10) {
        0..=3 => setups::forged(random),
        4..=6 => line(random),
        7 | 8 => {
            let counts = MOST.map(|most| random.between(1, most));
            let mut setup = setups::of_counts(random, counts);
            if random.once_in(3) {
                grant_all(&mut setup);
            }
            setup
        }
        _ => setups::sound(random),
    }
}

/// A run: most often just enough or longer, now and then too short, or of a length that has nothing to do with it.
fn run(random: &mut Random, setup: &Setup) -> Vec<u32> {
    let square = square(setup);
    let length = match random.below(12) {
        0 => square.saturating_sub(1),
        1 => random.below(square + 1),
        2..=4 => square,
        5 => square + 1,
        6 | 7 => square + random.between(1, 60),
        8 | 9 => random.below(GRID_NUMBERS + 60),
        _ => random.pick(&edges(square)),
    };
    lent(random, length)
}

pub fn case(random: &mut Random) -> Case {
    let setup = setup(random);
    let room = run(random, &setup);
    Case::Grid { setup: Box::new(setup), room }
}
