//! Gate cases, by hand and at random: houses, lines, rings and double ways, and desks and rooms that are refused.

use crate::calls::lent;
use crate::case::Case;
use crate::families::{q, two_desks};
use crate::grids::{bare, broken, chained, full};
use crate::random::Random;
use crate::routes::{outside, room};
use crate::setups;
use second::gate::Three;
use second::route::chain;
use second::rules::Rules;
use second::setup::{right_at, Setup, R, W};
use second::sizes::{numbers_over, DESKS, LINKS, LINKS_AROUND, ROUTE_NUMBERS};
use std::array::from_fn;

/// What stands in a run that is lent by hand.
const KEPT: u32 = 7;

/// The fewest desks that a gate can be asked about.
pub const FEWEST: usize = 3;

/// Room for the longest list that goes around a desk, which is not room enough.
pub const LONGEST: usize = numbers_over(LINKS_AROUND);

fn with_room(setup: &Setup, [a, b, gate]: [u32; 3], length: usize) -> Case {
    let (setup, three) = (Box::new(setup.clone()), Three { a, b, gate });
    Case::Gate { setup, three, room: vec![KEPT; length] }
}

/// Every three of some numbers.
fn threes(numbers: &[u32]) -> impl Iterator<Item = [u32; 3]> + '_ {
    let count = numbers.len();
    (0..count.pow(3))
        .map(move |turn| [turn / count / count, turn / count, turn].map(|n| numbers[n % count]))
}

fn are_different(&[a, b, gate]: &[u32; 3]) -> bool {
    a != b && a != gate && b != gate
}

/// Every three desks of a few setups, and of numbers past them, with room short by one, just enough, and longer.
fn every_three() -> Vec<Case> {
    let setups =
        [(q(), &[0, 1, 2, 3][..]), (two_desks(), &[0, 1, 2, u32::MAX]), (bare(1), &[0, 1, 2])];
    let mut cases = Vec::new();
    for (setup, numbers) in &setups {
        for length in [ROUTE_NUMBERS - 1, ROUTE_NUMBERS, ROUTE_NUMBERS + 1] {
            cases.extend(threes(numbers).map(|three| with_room(setup, three, length)));
        }
    }
    cases
}

/// A house in which release, desk 1, stands between scorer, 0, and buyer, 2. Beside them are a floor, 3, that tells
/// the buyer what it likes, and a clerk, 4, whom nobody reads.
fn house() -> Setup {
    let mut setup = bare(5);
    for (desk, class, right) in [
        (0, 0, W),
        (1, 0, R),
        (4, 0, R),
        (1, 1, W),
        (2, 1, R),
        (3, 1, R),
        (3, 3, W),
        (2, 3, R),
        (4, 4, W),
    ] {
        setup.rights[right_at(desk, class)] = right;
    }
    setup
}

/// The house, and with one right too many: a buyer or a floor that reads scores, or a floor that reads the clerk.
fn houses() -> [Setup; 4] {
    let with = |desk, class| {
        let mut setup = house();
        setup.rights[right_at(desk, class)] |= R;
        setup
    };
    [house(), with(2, 0), with(3, 0), with(3, 4)]
}

/// Every three desks of each house, and its gate with rooms of all lengths at which something ends.
fn of_houses() -> Vec<Case> {
    const LENGTHS: [usize; 9] = [
        0,
        1,
        numbers_over(1),
        numbers_over(2),
        LONGEST - 1,
        LONGEST,
        LONGEST + 1,
        ROUTE_NUMBERS - 1,
        ROUTE_NUMBERS + 40,
    ];
    let mut cases = Vec::new();
    for setup in houses() {
        let different = threes(&[0, 1, 2, 3, 4]).filter(are_different);
        cases.extend(different.map(|three| with_room(&setup, three, ROUTE_NUMBERS)));
        cases.extend(LENGTHS.map(|length| with_room(&setup, [0, 2, 1], length)));
    }
    cases
}

/// A ring whose desks have links both ways, so that one on the shorter way leaves the longer.
fn both_ways(desks: usize) -> Setup {
    let mut setup = chained(desks, true);
    for desk in 0..desks {
        setup.rights[right_at(desk, (desk + 1) % desks)] |= R;
    }
    setup
}

/// Every shape with every number of desks, with gates on the way, beside it, and at both sides of its ends.
fn shapes() -> Vec<Case> {
    let mut cases = Vec::new();
    for desks in FEWEST..=DESKS {
        let last = desks as u32 - 1;
        let threes = [
            [0, last, last / 2],
            [0, last, 1],
            [0, last - 1, last],
            [1, last, 0],
            [0, 2, 1],
            [last, 1, 0],
            [last, 0, last / 2],
        ];
        let [unseated, unfiled] = broken(desks);
        let (line, ring) = (chained(desks, false), chained(desks, true));
        for setup in [line, ring, both_ways(desks), full(desks), bare(desks), unseated, unfiled] {
            let different = threes.iter().copied().filter(are_different);
            cases.extend(different.map(|three| with_room(&setup, three, ROUTE_NUMBERS + 1)));
        }
    }
    cases
}

/// The last desk, and numbers past it, in each of the three places, with rooms that are enough and that are not.
fn at_limits() -> Vec<Case> {
    let mut cases = Vec::new();
    for (setup, last) in [(q(), 2), (chained(DESKS, false), DESKS as u32 - 1)] {
        for number in [last, last + 1, last + 2, DESKS as u32, 255, 256, 1 << 31, u32::MAX] {
            let threes =
                [[number, 0, 1], [0, number, 1], [1, 0, number], [number; 3], [0, 0, number]];
            for length in [0, ROUTE_NUMBERS - 1, ROUTE_NUMBERS] {
                cases.extend(threes.map(|three| with_room(&setup, three, length)));
            }
        }
    }
    cases
}

/// Setups that are none, with desks that would be refused and that would not.
fn of_no_setup() -> Vec<Case> {
    let mut forged: Vec<Setup> =
        [0, DESKS as u32 + 1, 256, 1 << 16, u32::MAX].map(|desks| Setup { desks, ..q() }).to_vec();
    let mut right = q();
    right.rights[right_at(1, 1)] = 4;
    forged.extend([right, Setup::ZERO]);
    let threes = [[0, 1, 2], [0, 1, 9], [1, 1, 2], [u32::MAX; 3]];
    let mut cases = Vec::new();
    for setup in &forged {
        for length in [0, ROUTE_NUMBERS] {
            cases.extend(threes.map(|three| with_room(setup, three, length)));
        }
    }
    cases
}

pub fn by_hand() -> Vec<Case> {
    [every_three(), of_houses(), shapes(), at_limits(), of_no_setup()].concat()
}

/// A third desk beside two, of three or more: most often one on the report's own way, which it may guard.
pub fn third(random: &mut Random, setup: &Setup, a: u32, b: u32) -> u32 {
    let way = chain(Rules::UNTURNED, setup, a as usize, b as usize).unwrap_or_default();
    let others: Vec<u32> = (0..setup.desks).filter(|&desk| desk != a && desk != b).collect();
    let on_way = others.iter().copied().filter(|&desk| way.contains(&(desk as usize)));
    let on_way: Vec<u32> = on_way.collect();
    match on_way.is_empty() || random.once_in(4) {
        true => random.pick(&others),
        false => random.pick(&on_way),
    }
}

/// A line, its first desk or a later one, its last, and a gate that may be the only one in its place.
fn of_line(random: &mut Random) -> (Setup, [u32; 3]) {
    let links = random.between(1, LINKS);
    let (setup, layers) = setups::line(random, links);
    let first = if random.once_in(4) { random.below(links) } else { 0 };
    let (a, b) = (random.pick(&layers[first]) as u32, random.pick(&layers[links]) as u32);
    let gate = third(random, &setup, a, b);
    (setup, [a, b, gate])
}

/// Two ways between two desks, and a gate on the shorter, or anywhere.
fn of_two_ways(random: &mut Random) -> (Setup, [u32; 3]) {
    let (setup, [a, b]) = setups::two_ways(random);
    let gate = third(random, &setup, a, b);
    (setup, [a, b, gate])
}

/// A setup of any shape, and three desks of it that differ if it has so many.
fn of_any(random: &mut Random) -> (Setup, [u32; 3]) {
    let setup = setups::sound(random);
    let desks = setup.desks as usize;
    if desks < FEWEST {
        return (setup, from_fn(|_| random.below(FEWEST) as u32));
    }
    let order = setups::order(random, desks);
    let (a, b) = (order[0] as u32, order[1] as u32);
    let gate = third(random, &setup, a, b);
    (setup, [a, b, gate])
}

/// One of the three, or more, is no desk; and two may be equal, be they desks or not.
fn refuse(random: &mut Random, setup: &Setup, three: &mut [u32; 3]) {
    let (one, other) = (random.below(3), random.between(1, 2));
    let other = (one + other) % 3;
    match random.below(8) {
        0..=2 => three[one] = outside(random, setup),
        3 => [one, other].iter().for_each(|&place| three[place] = outside(random, setup)),
        4 => *three = from_fn(|_| outside(random, setup)),
        5 | 6 => three[one] = three[other],
        _ => *three = [three[one]; 3],
    }
    if random.once_in(8) {
        three[one] = three[other];
    }
}

/// Room as for a route; now and then it is too short, though the list would go in.
fn run(random: &mut Random) -> Vec<u32> {
    if random.once_in(20) {
        let length = random.between(LONGEST, ROUTE_NUMBERS - 1);
        return lent(random, length);
    }
    room(random)
}

pub fn case(random: &mut Random) -> Case {
    let (setup, mut three) = match random.below(10) {
        0..=2 => of_line(random),
        3 | 4 => of_two_ways(random),
        5 => (setups::forged(random), [0, 1, 2]),
        _ => of_any(random),
    };
    if random.once_in(5) {
        refuse(random, &setup, &mut three);
    }
    if random.once_in(6) {
        three.swap(0, 1);
    }
    let [a, b, gate] = three;
    Case::Gate { setup: Box::new(setup), three: Three { a, b, gate }, room: run(random) }
}

#[cfg(test)]
mod tests {
    use super::*;
    use second::call::Call;
    use second::gate::{gate, Guard};
    use second::sizes::CALL_WIDTH;

    const SETUPS: usize = 400;

    fn links(setup: &Setup, from: u32, to: u32) -> bool {
        let at = |desk| {
            let seats = setup.desk_of[..setup.processes as usize].iter().enumerate();
            seats.filter(move |(_, &seat)| u32::from(seat) == desk).map(|(process, _)| process)
        };
        let carries = |file: usize| {
            at(from).any(|process| setup.writes(process, file))
                && at(to).any(|process| setup.reads(process, file))
        };
        (0..setup.files as usize).any(carries)
    }

    /// Every way that goes on from a beginning to b, and passes neither the gate nor any desk twice.
    fn ways(setup: &Setup, begun: Vec<u32>, three: Three) -> Vec<Vec<u32>> {
        let last = begun[begun.len() - 1];
        if last == three.b {
            return vec![begun];
        }
        let next = |desk: &u32| *desk != three.gate && !begun.contains(desk);
        let next = (0..setup.desks).filter(next).filter(|&desk| links(setup, last, desk));
        next.flat_map(|desk| ways(setup, [&begun[..], &[desk]].concat(), three)).collect()
    }

    /// The desks that a list goes along.
    fn way_of(setup: &Setup, list: &[u32]) -> Vec<u32> {
        let calls = list.chunks(CALL_WIDTH).map(Call::from_numbers);
        let mut desks: Vec<u32> =
            calls.map(|call| u32::from(setup.desk_of[call.process as usize])).collect();
        desks.dedup();
        desks
    }

    /// Of all ways the shortest, and of those the first by their desks, is the one that a list goes along.
    #[test]
    fn a_list_goes_along_the_first_of_all_ways_around() {
        let mut random = Random::new(1, 0);
        for turn in 0..SETUPS {
            let setup = match turn % 2 {
                0 => setups::sparse(&mut random),
                _ => setups::for_search(&mut random, FEWEST),
            };
            let desks: Vec<u32> = (0..setup.desks).collect();
            for [a, b, third] in threes(&desks).filter(are_different) {
                let three = Three { a, b, gate: third };
                let first = ways(&setup, vec![a], three)
                    .into_iter()
                    .min_by_key(|way| (way.len(), way.clone()));
                let mut room = [KEPT; ROUTE_NUMBERS];
                let found = match gate(Rules::UNTURNED, &setup, three, &mut room) {
                    Guard::Unguarded(calls) => {
                        Some(way_of(&setup, &room[..calls as usize * CALL_WIDTH]))
                    }
                    _ => None,
                };
                assert_eq!(found, first);
            }
        }
    }
}
