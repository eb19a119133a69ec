//! The trial: puts families of cases to both programs, and keeps what it met, found and could not find.

use crate::brute::{Brute, LEAST_OF_GATES, LEAST_OF_PAIRS};
use crate::case::Case;
use crate::counts::{Counts, LINKED_TOTAL, UNLINKED_TOTAL};
use crate::eyes::Eyes;
use crate::families::{Family, FAMILIES};
use crate::least::Cutter;
use crate::options::Options;
use crate::programs::{Found, Lack, Patience, Programs, REPLY_LIMIT};
use crate::random::Random;
use crate::singles;
use crate::telling::{tell, tell_grids};
use crate::written::{self, RUNS};
use second::rules::{Rules, Turn};
use std::time::{Duration, Instant};

/// Cases that one process of the driver answers.
const BATCH: usize = 1_000;
/// How many differences of a family are cut down and told, and how long each may take.
const TOLD: u64 = 2;
const CUTTING: Duration = Duration::from_secs(30);
/// How often the first program may hang before it is asked no more.
const HANGS: usize = 3;
/// The same while an input is cut down: an input that hangs is put many times, so none may cost much.
const CUTTING_LIMIT: Duration = Duration::from_secs(2);
const CUTTING_HANGS: usize = 10;
/// Setups that a round searches by brute force.
const SEARCHES: usize = 3_000;
/// The same with a gate desk.
const GATE_SEARCHES: usize = 1_500;

pub const WRITTEN: &str = "lists that reports wrote";
pub const SEARCHED: &str = "lists and reports of the search";
pub const SINGLES: &str = "reports on the pairs of grids";

/// What became of a family.
pub struct Result {
    pub family: &'static str,
    pub cases: u64,
    pub differences: u64,
    pub unasked: u64,
    pub time: Duration,
}

pub struct Trial {
    pub options: Options,
    programs: Programs,
    pub patience: Patience,
    rules: Rules,
    pub counts: Counts,
    pub results: Vec<Result>,
    pub eyes: Eyes,
    pub brute: Brute,
    pub gates: Brute,
    /// Lists that a report wrote and that do not show what they are to show.
    pub unshown: u64,
    /// Lists that are to go around a gate desk and have a call of it.
    pub through: u64,
    /// Numbers of grids that are not what the first program itself reports on the pair.
    pub unlike: u64,
}

impl Trial {
    pub fn new(options: Options) -> Trial {
        Trial {
            programs: Programs {
                driver: options.driver.clone(),
                sheets: options.sheets.clone(),
                threads: options.threads,
            },
            patience: Patience::new(REPLY_LIMIT, HANGS),
            rules: Rules { turn: options.turn },
            counts: Counts::new(),
            results: Vec::new(),
            eyes: Eyes::new(),
            brute: Brute::default(),
            gates: Brute::default(),
            unshown: 0,
            through: 0,
            unlike: 0,
            options,
        }
    }

    /// One round: every family, and the search. The first has the cases made by hand too.
    pub fn round(&mut self, round: u64) {
        for (place, family) in FAMILIES.iter().enumerate() {
            let stream = round * 100 + place as u64;
            self.family(family, Random::new(self.options.seed, stream), round == 0);
        }
        self.search(Random::new(self.options.seed, round * 100 + 99));
    }

    fn family(&mut self, family: &Family, random: Random, first: bool) {
        let mut random = random;
        if first {
            for cases in (family.hand_made)().chunks(BATCH) {
                self.put_and_run(family.name, &mut random, cases);
            }
        }
        let mut left = family.count;
        while left > 0 {
            let count = left.min(BATCH);
            let cases: Vec<Case> = (0..count).map(|_| (family.make)(&mut random)).collect();
            self.put_and_run(family.name, &mut random, &cases);
            left -= count;
        }
    }

    /// Puts a batch, runs the list of each report in it, and asks for reports on the pairs of its grids.
    fn put_and_run(&mut self, family: &'static str, random: &mut Random, cases: &[Case]) {
        let found = self.put(family, cases);
        self.run_written(random, cases, &found);
        self.ask_singly(random, cases, &found);
    }

    /// Puts a batch of cases to both programs, and hands back what the first gave.
    fn put(&mut self, family: &'static str, cases: &[Case]) -> Vec<Found> {
        let start = Instant::now();
        let found = self.programs.ask(cases, &self.patience);
        let mut differing = Vec::new();
        let mut unasked = 0;
        for (case, found) in cases.iter().zip(&found) {
            if *found == Err(Lack::NotAsked) {
                unasked += 1;
                continue;
            }
            self.counts.meet(case);
            if !case.due(self.rules).is(found) {
                differing.push((case, found));
            }
        }
        let told = TOLD.saturating_sub(self.result(family).differences);
        for (case, found) in differing.iter().take(told as usize) {
            self.tell_difference(family, case, found);
        }
        let differences = differing.len() as u64;
        if differences + unasked == 0 && self.rules.turn == Turn::None {
            self.eyes.look(family, cases, &found);
        }
        let result = self.result(family);
        result.cases += cases.len() as u64;
        result.differences += differences;
        result.unasked += unasked;
        result.time += start.elapsed();
        found
    }

    /// What became of a family so far.
    fn result(&mut self, family: &'static str) -> &mut Result {
        let known = self.results.iter().position(|result| result.family == family);
        let place = known.unwrap_or_else(|| {
            let time = Duration::ZERO;
            self.results.push(Result { family, cases: 0, differences: 0, unasked: 0, time });
            self.results.len() - 1
        });
        &mut self.results[place]
    }

    /// Tells a case on which the programs differ: the least one, where that differs when it is put anew.
    fn tell_difference(&self, family: &str, case: &Case, found: &Found) {
        let until = Instant::now() + CUTTING;
        let patience = Patience::new(CUTTING_LIMIT, CUTTING_HANGS);
        let cutter = Cutter { programs: &self.programs, rules: self.rules, until, patience };
        let least = cutter.least(case);
        let once = Patience::new(REPLY_LIMIT, 1);
        let anew = &self.programs.ask(std::slice::from_ref(&least), &once)[0];
        let (case, found, how) = match least.due(self.rules).is(anew) {
            false => (&least, anew, "cut down"),
            true => (case, found, "which did not come again"),
        };
        let due = case.due(self.rules);
        println!("\nA difference in {family}, with seed {}, {how}:", self.options.seed);
        print!("{}{}", tell(case), tell_grids(case, &due, found));
        println!("  {}", due.difference(found));
    }

    /// Runs each list that the first program's reports wrote, with A's calls and without, and seeks a gate's calls.
    fn run_written(&mut self, random: &mut Random, cases: &[Case], found: &[Found]) {
        for lists in written::of_reports(random, cases, found).chunks(BATCH / RUNS) {
            let runs: Vec<Case> = lists.iter().flat_map(|list| list.runs.clone()).collect();
            let found = self.put(WRITTEN, &runs);
            for (list, found) in lists.iter().zip(found.chunks(RUNS)) {
                self.counts.totals.met(list.total, 0);
                self.unshown += u64::from(!list.shows(found));
                self.through += u64::from(list.passes_gate);
            }
        }
    }

    /// Holds each number of some grids that the first program filled to its own report on that pair.
    fn ask_singly(&mut self, random: &mut Random, cases: &[Case], found: &[Found]) {
        for singles in singles::of_grids(random, cases, found).chunks(BATCH) {
            let cases: Vec<Case> = singles.iter().map(|single| single.case.clone()).collect();
            let found = self.put(SINGLES, &cases);
            for (single, found) in singles.iter().zip(&found) {
                let total = if single.number > 0 { LINKED_TOTAL } else { UNLINKED_TOTAL };
                self.counts.totals.met(total, 0);
                self.unlike += u64::from(!single.agrees(found));
            }
        }
    }

    /// Searches random lists for what one desk can hear of another, and for what it can past a gate.
    fn search(&mut self, random: Random) {
        let mut random = random;
        (0..SEARCHES).for_each(|_| self.brute.search(&mut random));
        (0..GATE_SEARCHES).for_each(|_| self.gates.search_gate(&mut random));
        for share in [&mut self.brute.share, &mut self.gates.share].map(std::mem::take) {
            for cases in share.chunks(BATCH) {
                self.put_and_run(SEARCHED, &mut random, cases);
            }
        }
    }

    /// Tells the lists that contradict a report, if any was found.
    pub fn tell_contradiction(&self) {
        let seed = self.options.seed;
        [&self.brute, &self.gates].iter().for_each(|brute| brute.tell_contradiction(seed));
    }

    /// What the families, and the searches, amount to: a name and whether it is so.
    pub fn checks(&self) -> Vec<(String, bool)> {
        let mut checks = Vec::new();
        for Result { family, cases, differences, unasked, time } in &self.results {
            let seconds = time.as_secs_f32();
            let left = if *unasked > 0 { format!(", {unasked} not asked") } else { String::new() };
            let told =
                format!("{family}: {cases} cases, {differences} differ{left}, {seconds:.1} s");
            checks.push((told, differences + unasked == 0));
        }
        checks.extend(self.search_checks());
        checks.push((
            format!("written lists: {} do not show figure 1, and nothing without A", self.unshown),
            self.unshown == 0,
        ));
        checks.push((
            format!("gates: {} written lists have a call of C", self.through),
            self.through == 0,
        ));
        checks.push((
            format!("grids: {} numbers are not as the first program reports", self.unlike),
            self.unlike == 0,
        ));
        checks
    }

    /// What the searches met, found, and must not find.
    fn search_checks(&self) -> [(String, bool); 5] {
        let of_gates = "gates without their calls";
        [
            self.brute.silent_check("no route", "pairs of desks", &LEAST_OF_PAIRS),
            self.brute.found_check("route", &LEAST_OF_PAIRS),
            self.gates.silent_check("guarded", of_gates, &LEAST_OF_GATES),
            self.gates.found_check("not guarded", &LEAST_OF_GATES),
            self.gates.guarded_check(&LEAST_OF_GATES),
        ]
    }

    pub fn count_checks(&self) -> Vec<(String, bool)> {
        let told = |title: &str| format!("counts: {title}");
        let tables = self.counts.tables();
        tables.iter().map(|table| (told(table.title()), table.reached())).collect()
    }

    pub fn eye_checks(&self) -> Vec<(String, bool)> {
        let told = |sight: &crate::eyes::Sight| match sight.found {
            Some((family, case)) => {
                (format!("turn {:?}: found in {family}, after {case} cases", sight.turn), true)
            }
            None => (format!("turn {:?}: not found", sight.turn), false),
        };
        self.eyes.sights.iter().map(told).collect()
    }
}
