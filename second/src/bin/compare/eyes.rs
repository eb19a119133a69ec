//! Whether the comparison would notice: each turn of the second program must differ from the first.

use crate::case::Case;
use crate::programs::Found;
use second::rules::{Rules, Turn, TURNS};

/// A turn, and the family in which it was first found, after so many cases in all.
pub struct Sight {
    pub turn: Turn,
    pub found: Option<(&'static str, usize)>,
    looked: usize,
}

pub struct Eyes {
    pub sights: Vec<Sight>,
}

impl Eyes {
    pub fn new() -> Eyes {
        let sight = |turn| Sight { turn, found: None, looked: 0 };
        Eyes { sights: TURNS.into_iter().map(sight).collect() }
    }

    /// Looks at cases for which the first program gave what is due: a turn is found where it gives another.
    pub fn look(&mut self, family: &'static str, cases: &[Case], found: &[Found]) {
        for sight in self.sights.iter_mut().filter(|sight| sight.found.is_none()) {
            let rules = Rules { turn: sight.turn };
            let other = |(case, found): (&Case, &Found)| {
                may_show(case, sight.turn) && !case.due(rules).is(found)
            };
            let place = cases.iter().zip(found).position(other);
            sight.found = place.map(|place| (family, sight.looked + place + 1));
            sight.looked += cases.len();
        }
    }
}

/// A turn of the grid is looked for in grids alone, and one of the gate in gates, since to do all else over for it
/// takes long.
fn may_show(case: &Case, turn: Turn) -> bool {
    match (turn.is_of_grid(), turn.is_of_gate()) {
        (true, _) => matches!(case, Case::Grid { .. }),
        (_, true) => matches!(case, Case::Gate { .. }),
        _ => true,
    }
}
