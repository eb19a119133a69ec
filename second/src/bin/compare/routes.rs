//! Route cases at random: lines of every length, setups of every shape, desks and rooms that are refused.

use crate::calls::lent;
use crate::case::Case;
use crate::random::Random;
use crate::setups;
use second::setup::Setup;
use second::sizes::{DESKS, ROUTE_NUMBERS};

/// A setup, and two desks that may have a route between them.
fn pair(random: &mut Random) -> (Setup, u32, u32) {
    match random.below(8) {
        0..=3 => {
            let links = random.between(1, DESKS - 1);
            let (setup, layers) = setups::line(random, links);
            let first = if random.once_in(4) { random.below(links) } else { 0 };
            let a = random.pick(&layers[first]);
            let b = random.pick(&layers[links]);
            (setup, a as u32, b as u32)
        }
        4 => (setups::forged(random), 0, 1),
        _ => {
            let setup = setups::sound(random);
            let desks = setup.desks as usize;
            let (a, b) = (random.below(desks), random.below(desks));
            (setup, a as u32, b as u32)
        }
    }
}

/// A desk that is none.
pub fn outside(random: &mut Random, setup: &Setup) -> u32 {
    let desks = setup.desks;
    let further = desks.saturating_add(random.wild());
    random.pick(&[desks, desks, DESKS as u32 + 1, u32::MAX, further])
}

/// Room for a list: most often just enough or more, now and then too short.
pub fn room(random: &mut Random) -> Vec<u32> {
    let length = match random.below(10) {
        0 => ROUTE_NUMBERS - 1,
        1 => random.below(ROUTE_NUMBERS),
        2..=5 => ROUTE_NUMBERS,
        _ => ROUTE_NUMBERS + random.between(1, 60),
    };
    lent(random, length)
}

pub fn case(random: &mut Random) -> Case {
    let (setup, mut a, mut b) = pair(random);
    match random.below(16) {
        0 => a = outside(random, &setup),
        1 => b = outside(random, &setup),
        2 => {
            a = outside(random, &setup);
            b = if random.once_in(2) { a } else { outside(random, &setup) };
        }
        3 => b = a,
        _ => {}
    }
    if random.once_in(3) {
        (a, b) = (b, a);
    }
    Case::Route { setup: Box::new(setup), a, b, room: room(random) }
}
