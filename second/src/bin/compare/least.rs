//! Cutting an input down to the least that still shows a difference.

use crate::case::Case;
use crate::programs::{Found, Patience, Programs};
use crate::simpler::{ways, Simpler};
use second::rules::Rules;
use second::sizes::CALL_WIDTH;
use std::time::Instant;

/// Ways that are tried in one process.
const TRIED_AT_ONCE: usize = 64;

pub struct Cutter<'a> {
    pub programs: &'a Programs,
    pub rules: Rules,
    /// Cutting stops then, with the least that was reached.
    pub until: Instant,
    pub patience: Patience,
}

impl Cutter<'_> {
    /// For each case whether the programs differ on it. One that was not asked, since too many processes ended
    /// before, may differ: it is put again before it is taken. None does once the time or the patience is over.
    fn differing(&self, cases: &[Case]) -> Vec<bool> {
        if Instant::now() > self.until || self.patience.is_over() {
            return vec![false; cases.len()];
        }
        let found = self.programs.ask(cases, &self.patience);
        let differs = |(case, found): (&Case, &Found)| !case.due(self.rules).is(found);
        cases.iter().zip(&found).map(differs).collect()
    }

    fn differs(&self, case: &Case) -> bool {
        self.differing(std::slice::from_ref(case)) == [true]
    }

    pub fn least(&self, case: &Case) -> Case {
        let mut least = case.clone();
        loop {
            let before = least.clone();
            least = self.shorter(least);
            least = self.simpler(least);
            if least == before || Instant::now() > self.until {
                return least;
            }
        }
    }

    /// Drops what can be dropped of each run that a case has.
    fn shorter(&self, case: Case) -> Case {
        match &case {
            Case::List { calls, .. } => {
                let calls = calls.chunks(CALL_WIDTH).map(<[u32]>::to_vec).collect();
                let case = self.drop_parts(case.clone(), calls, set_calls);
                self.drop_tail(case)
            }
            Case::Route { .. } | Case::Grid { .. } | Case::Gate { .. } => self.drop_tail(case),
            Case::ReadAlone(_) | Case::Sheets(_) | Case::ReadWithCalls { .. } => {
                let text = text_of(&case);
                let lines = text.split_inclusive(|&byte| byte == b'\n').map(<[u8]>::to_vec);
                let case = self.drop_parts(case.clone(), lines.collect(), set_text);
                let bytes = text_of(&case).iter().map(|&byte| vec![byte]).collect();
                let case = self.drop_parts(case, bytes, set_text);
                self.drop_tail(case)
            }
            _ => case,
        }
    }

    /// Drops parts of a run while the difference stays: halves first, single parts last.
    fn drop_parts<T: Clone>(
        &self,
        case: Case,
        parts: Vec<Vec<T>>,
        set: fn(&mut Case, Vec<T>),
    ) -> Case {
        let (mut case, mut parts) = (case, parts);
        let mut size = parts.len().div_ceil(2);
        while size > 0 {
            let mut start = 0;
            while start < parts.len() {
                let end = parts.len().min(start + size);
                let kept = [&parts[..start], &parts[end..]].concat();
                let mut shorter = case.clone();
                set(&mut shorter, kept.concat());
                if self.differs(&shorter) {
                    (case, parts) = (shorter, kept);
                } else {
                    start += size;
                }
            }
            size /= 2;
        }
        case
    }

    /// Shortens the room that is lent, from its end.
    fn drop_tail(&self, case: Case) -> Case {
        let mut case = case;
        let mut size = room_in(&mut case).map_or(0, |room| room.len());
        while size > 0 {
            let mut shorter = case.clone();
            if let Some(room) = room_in(&mut shorter) {
                room.truncate(room.len().saturating_sub(size));
            }
            match shorter != case && self.differs(&shorter) {
                true => case = shorter,
                false => size /= 2,
            }
        }
        case
    }

    /// Takes the ways to make a case simpler that leave the difference, all at once where that does.
    fn simpler(&self, case: Case) -> Case {
        let mut case = case;
        for tried in ways(&case).chunks(TRIED_AT_ONCE) {
            let simpler: Vec<Case> = tried.iter().map(|way| changed(&case, [way])).collect();
            let differing = self.differing(&simpler);
            let good =
                simpler.iter().zip(differing).map(|(simpler, differs)| differs && *simpler != case);
            let good: Vec<&Simpler> =
                tried.iter().zip(good).filter(|(_, good)| *good).map(|(way, _)| way).collect();
            case = self.take(case, &good);
        }
        case
    }

    /// Ways that leave the difference one by one, taken together or, failing that, one after the other.
    fn take(&self, case: Case, ways: &[&Simpler]) -> Case {
        let together = changed(&case, ways.iter().copied());
        if ways.len() > 1 && self.differs(&together) {
            return together;
        }
        let mut case = case;
        for way in ways {
            let simpler = changed(&case, [*way]);
            if simpler != case && self.differs(&simpler) {
                case = simpler;
            }
        }
        case
    }
}

fn changed<'a>(case: &Case, ways: impl IntoIterator<Item = &'a Simpler>) -> Case {
    let mut changed = case.clone();
    ways.into_iter().for_each(|way| way(&mut changed));
    changed
}

fn set_calls(case: &mut Case, numbers: Vec<u32>) {
    if let Case::List { calls, .. } = case {
        *calls = numbers;
    }
}

fn room_in(case: &mut Case) -> Option<&mut Vec<u32>> {
    match case {
        Case::List { answers, .. } => Some(answers),
        Case::Route { room, .. } | Case::ReadWithCalls { room, .. } => Some(room),
        Case::Grid { room, .. } | Case::Gate { room, .. } => Some(room),
        _ => None,
    }
}

fn text_of(case: &Case) -> Vec<u8> {
    match case {
        Case::ReadAlone(text) | Case::Sheets(text) => text.clone(),
        Case::ReadWithCalls { text, .. } => text.clone(),
        _ => Vec::new(),
    }
}

fn set_text(case: &mut Case, bytes: Vec<u8>) {
    match case {
        Case::ReadAlone(text) | Case::Sheets(text) => *text = bytes,
        Case::ReadWithCalls { text, .. } => *text = bytes,
        _ => {}
    }
}
