//! The moves of a table by their source and by their target.

use super::moves::{action, source, target};
use super::sizes::{MOST_MOVES, MOST_STATES};

/// Where each state's moves begin, with one more for the end.
type Starts = [u16; MOST_STATES as usize + 1];

/// The sorted table itself, and a copy of it sorted by target.
pub struct Index<'a> {
    moves: &'a [u32],
    leaving: Starts,
    arriving: [u32; MOST_MOVES],
    arrivals: Starts,
}

impl<'a> Index<'a> {
    /// Counts the moves of each state, and sorts them by target.
    pub fn new(moves: &'a [u32], states: usize) -> Index<'a> {
        let leaving = starts(moves, states, source);
        let arrivals = starts(moves, states, target);
        let mut arriving = [0; MOST_MOVES];
        let mut free = arrivals;
        for packed in moves {
            let place = &mut free[target(*packed) as usize];
            arriving[usize::from(*place)] = *packed;
            *place += 1;
        }
        Index {
            moves,
            leaving,
            arriving,
            arrivals,
        }
    }

    /// The targets of a state's moves with an action.
    pub fn targets(&self, state: usize, named: u32) -> impl Iterator<Item = usize> + '_ {
        let own = &self.moves[self.leaving[state].into()..self.leaving[state + 1].into()];
        let with = own.iter().filter(move |m| action(**m) == named);
        with.map(|m| target(*m) as usize)
    }

    /// The sources of the moves with an action into a state.
    pub fn sources(&self, state: usize, named: u32) -> impl Iterator<Item = usize> + '_ {
        let into = &self.arriving[self.arrivals[state].into()..self.arrivals[state + 1].into()];
        let with = into.iter().filter(move |m| action(**m) == named);
        with.map(|m| source(*m) as usize)
    }
}

/// Where each state's moves begin when they are sorted by a key.
fn starts(moves: &[u32], states: usize, key: fn(u32) -> u32) -> Starts {
    let mut starts = [0; MOST_STATES as usize + 1];
    for packed in moves {
        starts[key(*packed) as usize + 1] += 1;
    }
    for state in 0..states {
        starts[state + 1] += starts[state];
    }
    starts
}
