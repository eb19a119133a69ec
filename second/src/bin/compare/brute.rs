//! Demand 3 and the gate by brute force: random lists searched for a difference that one desk makes at another.

use crate::calls::{doing, lent};
use crate::case::Case;
use crate::gates::{third, FEWEST};
use crate::random::Random;
use crate::setups;
use crate::telling::tell_setup;
use second::call::{step, Answer, Call};
use second::gate::{gate, Guard, Three};
use second::route::{chain, report, Report};
use second::rules::Rules;
use second::setup::Setup;
use second::sizes::{links_of, ANSWER_WIDTH, CALL_WIDTH, LINKS, ROUTE_NUMBERS};
use second::store::Store;

/// How many lists are searched for one setup and pair of desks.
const LISTS: usize = 120;
/// The most doings in a list; each is a few calls that belong together.
const DOINGS_MOST: usize = 60;
/// One list in so many is also put to the library.
const SHARE: usize = 400;

/// Over so many links, a third desk carries what is heard.
const FAR: usize = 2;

/// How often a search must meet each thing, which is some four tenths of what one round meets.
pub struct Least {
    /// Nothing is to be heard, and lists are searched for it all the same.
    silent: u64,
    /// Something is found, over any number of links, and over two or more.
    found: u64,
    found_far: u64,
    /// A gate guards a route, which is found in lists with its calls.
    guarded: u64,
}

/// Without a gate desk there is nothing that guards.
pub const LEAST_OF_PAIRS: Least = Least { silent: 580, found: 610, found_far: 130, guarded: 0 };
pub const LEAST_OF_GATES: Least = Least { silent: 530, found: 65, found_far: 20, guarded: 195 };

/// What is searched for: that desk b hears desk a, in lists in which the gate desk, if there is one, makes no call.
#[derive(Clone, Copy)]
pub struct Asked {
    a: u32,
    b: u32,
    gate: Option<u32>,
}

/// What was searched and found, for pairs of desks or for gates.
#[derive(Default)]
pub struct Brute {
    silent: u64,
    silent_lists: u64,
    routes: u64,
    routes_found: u64,
    /// For each number of links, how many were found, and how many there were.
    by_links: [(u64, u64); LINKS + 1],
    /// Gates that guard a route, and how many of these routes were found in lists with the gate's calls.
    guarded: u64,
    guarded_found: u64,
    /// A list that shows a difference where the report says that there is none.
    contradiction: Option<(Setup, Asked, Vec<Call>)>,
    /// For the library: each report, and some lists with A's calls and without.
    pub share: Vec<Case>,
}

/// Whether a call belongs to a desk. One of a process that does not exist belongs to none; a setup that is none may
/// say that more exist than it seats.
pub fn belongs(setup: &Setup, call: &Call, desk: u32) -> bool {
    let seat = setup.desk_of.get(call.process as usize).filter(|_| call.process < setup.processes);
    seat.is_some_and(|&seat| u32::from(seat) == desk)
}

/// The calls with those of a desk struck out.
pub fn struck(setup: &Setup, calls: &[Call], desk: u32) -> Vec<Call> {
    calls.iter().copied().filter(|call| !belongs(setup, call, desk)).collect()
}

/// What a desk's calls answer in a list that runs from a fresh store.
fn heard(setup: &Setup, calls: &[Call], desk: u32) -> Vec<Answer> {
    let mut store = Store::FRESH;
    let mut answers = Vec::new();
    for call in calls {
        let answer = step(Rules::UNTURNED, setup, &mut store, *call);
        if belongs(setup, call, desk) {
            answers.push(answer);
        }
    }
    answers
}

fn differs(setup: &Setup, calls: &[Call], asked: Asked) -> bool {
    heard(setup, calls, asked.b) != heard(setup, &struck(setup, calls, asked.a), asked.b)
}

fn searching_list(random: &mut Random, setup: &Setup, asked: Asked) -> Vec<Call> {
    let doings = random.between(3, DOINGS_MOST);
    let calls: Vec<Call> = (0..doings).flat_map(|_| doing(random, setup)).collect();
    match asked.gate {
        Some(gate) => struck(setup, &calls, gate),
        None => calls,
    }
}

/// Whether random lists show a difference.
fn is_found(random: &mut Random, setup: &Setup, asked: Asked) -> bool {
    (0..LISTS).any(|_| differs(setup, &searching_list(random, setup, asked), asked))
}

/// Two desks: any, or those with the most links between them.
fn pair(random: &mut Random, setup: &Setup) -> (u32, u32) {
    let desks = setup.desks;
    let a = random.below(desks as usize) as u32;
    let any = (a, (a + random.between(1, desks as usize - 1) as u32) % desks);
    if random.once_in(2) {
        return any;
    }
    let links = |&(a, b): &(u32, u32)| {
        chain(Rules::UNTURNED, setup, a as usize, b as usize).map_or(0, |chain| chain.len())
    };
    let pairs = (0..desks * desks).map(|turn| (turn / desks, turn % desks));
    pairs.filter(|(a, b)| a != b).max_by_key(links).unwrap_or(any)
}

/// Two desks without a link from one to the other, where a few tries find such: no gate guards a link.
fn pair_apart(random: &mut Random, setup: &Setup) -> (u32, u32) {
    const TRIES: usize = 4;
    let linked = |&(a, b): &(u32, u32)| {
        let chain = chain(Rules::UNTURNED, setup, a as usize, b as usize);
        chain.is_some_and(|chain| chain.len() == 2)
    };
    let apart = (0..TRIES).map(|_| pair(random, setup)).find(|pair| !linked(pair));
    apart.unwrap_or_else(|| pair(random, setup))
}

impl Brute {
    /// One setup and pair of desks is searched, whichever the report says of it.
    pub fn search(&mut self, random: &mut Random) {
        let setup = setups::for_search(random, 2);
        let (a, b) = pair(random, &setup);
        // The library must report the same of it.
        let room = lent(random, ROUTE_NUMBERS);
        self.share.push(Case::Route { setup: Box::new(setup.clone()), a, b, room });
        let asked = Asked { a, b, gate: None };
        match report(Rules::UNTURNED, &setup, a, b, &mut [0; ROUTE_NUMBERS]) {
            Report::NoRoute => self.search_silent(random, &setup, asked),
            Report::Route(calls) => self.search_route(random, &setup, asked, calls),
            Report::Refused(_) => {}
        }
    }

    /// The same with a gate desk, which makes no call in the lists.
    pub fn search_gate(&mut self, random: &mut Random) {
        let setup = match random.below(2) {
            0 => setups::sparse(random),
            _ => setups::for_search(random, FEWEST),
        };
        let (a, b) = pair_apart(random, &setup);
        let three = Three { a, b, gate: third(random, &setup, a, b) };
        let room = lent(random, ROUTE_NUMBERS);
        self.share.push(Case::Gate { setup: Box::new(setup.clone()), three, room });
        let asked = Asked { a, b, gate: Some(three.gate) };
        match gate(Rules::UNTURNED, &setup, three, &mut [0; ROUTE_NUMBERS]) {
            Guard::Guarded => {
                self.search_silent(random, &setup, asked);
                self.search_guarded(random, &setup, asked);
            }
            Guard::Unguarded(calls) => self.search_route(random, &setup, asked, calls),
            Guard::Refused(_) => {}
        }
    }

    fn search_silent(&mut self, random: &mut Random, setup: &Setup, asked: Asked) {
        self.silent += 1;
        for _ in 0..LISTS {
            self.silent_lists += 1;
            let calls = searching_list(random, setup, asked);
            if random.once_in(SHARE) {
                self.share.extend(through_library(random, setup, &calls, asked.a));
            }
            if differs(setup, &calls, asked) && self.contradiction.is_none() {
                self.contradiction = Some((setup.clone(), asked, least(setup, calls, asked)));
            }
        }
    }

    /// Where a gate guards a route, the difference is there as soon as the gate makes calls too.
    fn search_guarded(&mut self, random: &mut Random, setup: &Setup, asked: Asked) {
        let Asked { a, b, .. } = asked;
        let own = report(Rules::UNTURNED, setup, a, b, &mut [0; ROUTE_NUMBERS]);
        if own != Report::NoRoute {
            self.guarded += 1;
            let found = is_found(random, setup, Asked { gate: None, ..asked });
            self.guarded_found += u64::from(found);
        }
    }

    fn search_route(&mut self, random: &mut Random, setup: &Setup, asked: Asked, calls: u32) {
        let found = u64::from(is_found(random, setup, asked));
        self.routes += 1;
        self.routes_found += found;
        let (links_found, all) = &mut self.by_links[links_of(calls) as usize];
        *links_found += found;
        *all += 1;
    }

    /// Whether nothing was heard where the report says so.
    pub fn silent_check(&self, said: &str, of: &str, least: &Least) -> (String, bool) {
        let Brute { silent, silent_lists, .. } = self;
        let asked = least.silent;
        let heard = if self.contradiction.is_none() { "none" } else { "one" };
        let told = format!(
            "{said}: {silent} {of} (least {asked}), {silent_lists} lists searched, {heard} is heard"
        );
        (told, self.contradiction.is_none() && *silent >= asked)
    }

    /// Whether the search has the power to find what the report says is there.
    pub fn found_check(&self, said: &str, least: &Least) -> (String, bool) {
        let Brute { routes, routes_found, by_links, .. } = self;
        let Least { found, found_far, .. } = least;
        let far: u64 = by_links[FAR..].iter().map(|(found, _)| found).sum();
        let links = by_links.iter().enumerate().filter(|(_, (_, all))| *all > 0);
        let links: Vec<String> =
            links.map(|(links, (found, all))| format!("{links} links {found} of {all}")).collect();
        let told = format!(
            "{said}: the same search finds {routes_found} of {routes} without the written list ({}; \
             least {found}, {FAR} links or more {far}, least {found_far})",
            links.join(", ")
        );
        (told, is_most(*routes_found, *routes, *found) && far >= *found_far)
    }

    /// Whether it has the power to find what the gates keep from being heard.
    pub fn guarded_check(&self, least: &Least) -> (String, bool) {
        let Brute { guarded, guarded_found, .. } = self;
        let asked = least.guarded;
        let told = format!(
            "guarded though a route exists: the same search finds {guarded_found} of {guarded} \
             with C's calls (least {asked})"
        );
        (told, is_most(*guarded_found, *guarded, asked))
    }

    /// Tells the list that contradicts a report, if one was found.
    pub fn tell_contradiction(&self, seed: u64) {
        let Some((setup, Asked { a, b, gate }, calls)) = &self.contradiction else {
            return;
        };
        match gate {
            Some(gate) => {
                println!("\nThe report says that {gate} guards {a} from {b}, with seed {seed}:")
            }
            None => println!("\nThe report says no route from {a} to {b}, with seed {seed}:"),
        }
        print!("{}", tell_setup(setup));
        calls.iter().for_each(|call| println!("  call {:?}", call.numbers()));
    }
}

/// Nine of ten must be found, and not fewer than the least.
fn is_most(found: u64, all: u64, least: u64) -> bool {
    found >= least && found * 10 >= all * 9
}

/// Both runs of a list as cases for the library.
fn through_library(random: &mut Random, setup: &Setup, calls: &[Call], a: u32) -> [Case; 2] {
    [calls.to_vec(), struck(setup, calls, a)].map(|calls| list_case(random, setup, &calls))
}

/// A list from a fresh store as a case, with a tail in the answers.
pub fn list_case(random: &mut Random, setup: &Setup, calls: &[Call]) -> Case {
    let numbers: Vec<u32> = calls.iter().flat_map(|call| call.numbers()).collect();
    let answers = lent(random, numbers.len() / CALL_WIDTH * ANSWER_WIDTH + CALL_WIDTH);
    Case::List {
        setup: Box::new(setup.clone()),
        store: Box::new(Store::FRESH),
        calls: numbers,
        answers,
    }
}

/// The list without each call that the difference does not need.
fn least(setup: &Setup, calls: Vec<Call>, asked: Asked) -> Vec<Call> {
    let mut calls = calls;
    let mut place = calls.len();
    while place > 0 {
        place -= 1;
        let mut shorter = calls.clone();
        shorter.remove(place);
        if differs(setup, &shorter, asked) {
            calls = shorter;
        }
    }
    calls
}
