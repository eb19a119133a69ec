//! Grids held to single reports: what the first program has in a grid, and what it reports on that pair alone.

use crate::calls::lent;
use crate::case::{Case, DONE_KIND};
use crate::causes::all_of_grid;
use crate::programs::Found;
use crate::random::Random;
use crate::reply::{number, GUARD_WORDS};
use second::route::Report;
use second::setup::Setup;
use second::sizes::{calls_over, ANSWER_WIDTH, ROUTE_NUMBERS};

/// One filled grid in so many is asked for pair by pair.
const SHARE: usize = 24;

/// A pair of desks as a case of its own, and the number that the first program's grid has for it.
pub struct Single {
    pub case: Case,
    pub number: u32,
}

impl Single {
    /// Whether the report on the pair is that of so many links, or that there is no route.
    pub fn agrees(&self, found: &Found) -> bool {
        let Ok(found) = found else {
            return false;
        };
        let due = match self.number {
            0 => Report::NoRoute,
            links => Report::Route(calls_over(links)),
        };
        due.numbers().map(Some) == [number(found, 0), number(found, 1)]
    }
}

/// Every pair of different desks of some of the grids that the first program filled.
pub fn of_grids(random: &mut Random, cases: &[Case], found: &[Found]) -> Vec<Single> {
    let grids = cases.iter().zip(found).filter_map(filled).step_by(SHARE);
    grids.flat_map(|(setup, reply)| of_grid(random, setup, reply)).collect()
}

/// The setup and the reply of a grid that was filled, by the first program's answer, and rightly so: one that
/// should have been refused has no pairs to ask for.
fn filled<'a>((case, found): (&'a Case, &'a Found)) -> Option<(&'a Setup, &'a [u8])> {
    let (Case::Grid { setup, room }, Ok(reply)) = (case, found) else {
        return None;
    };
    let done = number(reply, 0) == Some(DONE_KIND);
    (done && all_of_grid(setup, room.len()).is_empty()).then_some((setup, reply))
}

fn of_grid(random: &mut Random, setup: &Setup, reply: &[u8]) -> Vec<Single> {
    const FIRST: usize = ANSWER_WIDTH + GUARD_WORDS;
    let desks = setup.desks;
    let mut singles = Vec::new();
    for (a, b) in (0..desks * desks).map(|turn| (turn / desks, turn % desks)) {
        let place = FIRST + (a * desks + b) as usize;
        if let Some(number) = number(reply, place).filter(|_| a != b) {
            let room = lent(random, ROUTE_NUMBERS);
            let case = Case::Route { setup: Box::new(setup.clone()), a, b, room };
            singles.push(Single { case, number });
        }
    }
    singles
}
