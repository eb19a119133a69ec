//! What a gate counts for: whether it guards, how its list goes around it, its room, and its refusals.

use crate::causes::{all_of_gate, of_setup};
use crate::count_routes::CHOICES;
use crate::counts::Counts;
use crate::gates::LONGEST;
use crate::tally::Table;
use second::gate::{gate, Guard, Three};
use second::refusal::Refusal;
use second::route::{report, Report};
use second::rules::{Rules, Turn};
use second::setup::Setup;
use second::sizes::{links_of, LINKS_AROUND, ROUTE_NUMBERS};

const NO_ROUTE: &str = "guarded, no route at all";
const THOUGH_ROUTE: &str = "guarded though a route exists";
const UNGUARDED: &str = "not guarded";
const OWN: &str = "around: the report's own list";
const AS_LONG: &str = "around: another list, as long as the report's own";
const LONGER: &str = "around: longer than the report's own";
const NO_PROCESS: &str = "the gate has no process";

/// What is reported, and how often each must be met.
const REPORTS: [(&str, u64); 7] = [
    (NO_ROUTE, 900),
    (THOUGH_ROUTE, 450),
    (UNGUARDED, 700),
    (OWN, 380),
    (AS_LONG, 130),
    (LONGER, 170),
    (NO_PROCESS, 120),
];

/// How often a list around a gate must be met, from one link on.
const LINKS_LEAST: [u64; LINKS_AROUND] = [230, 90, 30, 28, 22, 25, 28, 40, 22, 15, 14, 12, 12, 10];

/// How often each choice of the report must decide.
const CHOICES_LEAST: [u64; CHOICES.len()] = [450, 450, 100, 110, 80, 22];

const JUST_ENOUGH: &str = "room just enough";
const LONGER_ROOM: &str = "a longer room";

const ROOMS: [(&str, u64); 2] = [(JUST_ENOUGH, 1_200), (LONGER_ROOM, 800)];

/// The refusals by their causes.
const REFUSED: [(&str, u64); 20] = [
    ("12: A", 100),
    ("12: B", 100),
    ("12: C", 120),
    ("12: A and B", 70),
    ("12: A and C", 70),
    ("12: B and C", 70),
    ("12: A and B and C", 150),
    ("12: a number one past the last desk", 150),
    ("12: the largest number", 45),
    ("12: fewer than three desks", 400),
    ("13: A and B", 50),
    ("13: A and C", 45),
    ("13: B and C", 50),
    ("13: A and B and C", 70),
    ("13: fewer than three desks", 65),
    ("11: short by one", 120),
    ("11: room for the longest list", 65),
    ("11: shorter", 110),
    ("11: guarded", 160),
    ("11: not guarded", 130),
];

const ORDERS: [(&str, u64); 6] = [
    ("12 before 13", 400),
    ("12 before 11", 110),
    ("13 before 11", 55),
    ("15 before 12", 110),
    ("15 before 13", 33),
    ("15 before 11", 55),
];

pub fn gates() -> Table {
    let mut table = Table::new("Gates", &["met"]);
    REPORTS.iter().for_each(|(name, least)| table.row(name, *least));
    for (links, least) in (1..).zip(LINKS_LEAST) {
        table.row(&format!("around: links {links:2}"), least);
    }
    let choices = CHOICES.iter().zip(CHOICES_LEAST);
    choices.for_each(|((_, name), least)| table.row(name, least));
    let rest = ROOMS.iter().chain(&REFUSED).chain(&ORDERS);
    rest.for_each(|(name, least)| table.row(name, *least));
    table
}

pub fn meet(counts: &mut Counts, setup: &Setup, three: Three, room: usize) {
    let all = all_of_gate(setup, three, room);
    if !of_setup(setup).is_empty() {
        let name = |refusal: &Refusal| format!("15 before {}", refusal.number());
        all.iter().for_each(|refusal| counts.gates.met(&name(refusal), 0));
        return;
    }
    if let [first, then, ..] = all[..] {
        counts.gates.met(&format!("{} before {}", first.number(), then.number()), 0);
    }
    match all.first() {
        Some(&refusal) => meet_refused(counts, setup, refusal, three, room),
        None => meet_report(counts, setup, three, room),
    }
}

/// The names of those of the three that something holds of, as they stand in a row.
fn named(holds: [bool; 3]) -> String {
    let names = ["A", "B", "C"].into_iter().zip(holds).filter(|(_, holds)| *holds);
    names.map(|(name, _)| name).collect::<Vec<_>>().join(" and ")
}

fn meet_refused(counts: &mut Counts, setup: &Setup, refusal: Refusal, three: Three, room: usize) {
    let numbers = [three.a, three.b, three.gate];
    let missing = numbers.map(|number| number >= setup.desks);
    let shared = numbers.map(|number| numbers.iter().filter(|&&other| other == number).count() > 1);
    let name = match refusal {
        Refusal::NoSuchRouteDesk => format!("12: {}", named(missing)),
        Refusal::SameRouteDesks => format!("13: {}", named(shared)),
        _ if room + 1 == ROUTE_NUMBERS => "11: short by one".to_string(),
        _ if room >= LONGEST => "11: room for the longest list".to_string(),
        _ => "11: shorter".to_string(),
    };
    counts.gates.met(&name, 0);
    let few = setup.desks < numbers.len() as u32;
    let more = match refusal {
        Refusal::RoomTooShort => match reported(Turn::None, setup, three) {
            (Guard::Guarded, _) => "11: guarded",
            _ => "11: not guarded",
        },
        Refusal::SameRouteDesks if few => "13: fewer than three desks",
        Refusal::SameRouteDesks => return,
        _ if few => "12: fewer than three desks",
        _ if numbers.contains(&setup.desks) => "12: a number one past the last desk",
        _ if numbers.contains(&u32::MAX) => "12: the largest number",
        _ => return,
    };
    counts.gates.met(more, 0);
}

/// The report with a rule turned, or with none, and the list that it writes.
fn reported(turn: Turn, setup: &Setup, three: Three) -> (Guard, [u32; ROUTE_NUMBERS]) {
    let mut list = [0; ROUTE_NUMBERS];
    (gate(Rules { turn }, setup, three, &mut list), list)
}

fn meet_report(counts: &mut Counts, setup: &Setup, three: Three, room: usize) {
    let tail = room > ROUTE_NUMBERS;
    counts.gates.met(if tail { LONGER_ROOM } else { JUST_ENOUGH }, 0);
    let seats = &setup.desk_of[..setup.processes as usize];
    if !seats.contains(&(three.gate as u8)) {
        counts.gates.met(NO_PROCESS, 0);
    }
    let right = reported(Turn::None, setup, three);
    meet_way(counts, setup, three, right);
    for (turn, name) in CHOICES {
        if reported(turn, setup, three) != right {
            counts.gates.met(name, 0);
        }
    }
}

/// Counts a report beside the route report on the same two desks.
fn meet_way(
    counts: &mut Counts,
    setup: &Setup,
    three: Three,
    found: (Guard, [u32; ROUTE_NUMBERS]),
) {
    let (guard, list) = found;
    let mut own_list = [0; ROUTE_NUMBERS];
    let own = report(Rules::UNTURNED, setup, three.a, three.b, &mut own_list);
    let Guard::Unguarded(calls) = guard else {
        let name = if own == Report::NoRoute { NO_ROUTE } else { THOUGH_ROUTE };
        return counts.gates.met(name, 0);
    };
    counts.gates.met(UNGUARDED, 0);
    counts.gates.met(&format!("around: links {:2}", links_of(calls)), 0);
    let name = match own {
        _ if list == own_list => OWN,
        Report::Route(own_calls) if own_calls == calls => AS_LONG,
        _ => LONGER,
    };
    counts.gates.met(name, 0);
}
