//! What a route counts for: its length, its refusals, and which of the report's choices it turns on.

use crate::causes::{all_of_route, of_setup};
use crate::counts::Counts;
use crate::tally::Table;
use second::refusal::Refusal;
use second::route::chain;
use second::route::report;
use second::rules::{Rules, Turn};
use second::setup::Setup;
use second::sizes::{LINKS, ROUTE_NUMBERS};

/// A choice of the report matters where the report with that choice turned is another.
pub const CHOICES: [(Turn, &str); 6] = [
    (Turn::HighestFile, "the lowest file decides"),
    (Turn::HighestProcess, "the lowest process decides"),
    (Turn::LargestDesk, "the smallest desk decides"),
    (Turn::ChainNotShortest, "the fewest links decide"),
    (Turn::LinkWithoutProcess, "a desk without a process decides"),
    (Turn::LinkWithoutFile, "a class without a file decides"),
];

const REFUSED: [&str; 7] =
    ["12: A", "12: B", "12: A and B", "13", "11: short by one", "11: shorter", "12 before 13"];
const ORDERS: [&str; 5] =
    ["12 before 11", "13 before 11", "15 before 12", "15 before 13", "15 before 11"];

pub fn routes() -> Table {
    let mut table = Table::new("Routes", &["met"]);
    for links in 1..=LINKS {
        table.row(&format!("links {links:2}"), 20);
    }
    table.row("no route", 200);
    CHOICES.iter().for_each(|(_, name)| table.row(name, 30));
    table.row("room just enough", 100);
    table.row("a longer room", 100);
    REFUSED.iter().for_each(|name| table.row(name, 10));
    ORDERS.iter().for_each(|name| table.row(name, 10));
    table
}

pub fn meet(counts: &mut Counts, setup: &Setup, desks: (u32, u32), room: usize) {
    let (a, b) = desks;
    let all = all_of_route(setup, a, b, room);
    if !of_setup(setup).is_empty() {
        let name = |refusal: &Refusal| format!("15 before {}", refusal.number());
        all.iter().for_each(|refusal| counts.routes.met(&name(refusal), 0));
        return;
    }
    if let [first, then, ..] = all[..] {
        counts.routes.met(&format!("{} before {}", first.number(), then.number()), 0);
    }
    match all.first() {
        Some(&refusal) => meet_refused(counts, setup, refusal, desks, room),
        None => meet_report(counts, setup, desks, room),
    }
}

fn meet_refused(
    counts: &mut Counts,
    setup: &Setup,
    refusal: Refusal,
    desks: (u32, u32),
    room: usize,
) {
    let name = match (refusal, desks.0 >= setup.desks, desks.1 >= setup.desks) {
        (Refusal::NoSuchRouteDesk, true, true) => "12: A and B",
        (Refusal::NoSuchRouteDesk, true, false) => "12: A",
        (Refusal::NoSuchRouteDesk, false, _) => "12: B",
        (Refusal::SameRouteDesks, _, _) => "13",
        _ if room + 1 == ROUTE_NUMBERS => "11: short by one",
        _ => "11: shorter",
    };
    counts.routes.met(name, 0);
}

fn meet_report(counts: &mut Counts, setup: &Setup, desks: (u32, u32), room: usize) {
    let tail = room > ROUTE_NUMBERS;
    counts.routes.met(if tail { "a longer room" } else { "room just enough" }, 0);
    match chain(Rules::UNTURNED, setup, desks.0 as usize, desks.1 as usize) {
        Some(chain) => counts.routes.met(&format!("links {:2}", chain.len() - 1), 0),
        None => counts.routes.met("no route", 0),
    }
    let reported = |turn: Turn| {
        let mut list = vec![0; ROUTE_NUMBERS];
        let report = report(Rules { turn }, setup, desks.0, desks.1, &mut list);
        (report, list)
    };
    let right = reported(Turn::None);
    for (turn, name) in CHOICES {
        if reported(turn) != right {
            counts.routes.met(name, 0);
        }
    }
}
