//! A model as a system of equations over pairs: what a pair's equation gives, and which pairs lean on it.

use super::equation::{Equation, AND, BOX, DIAMOND, OR};
use super::index::Index;
use super::sizes::{Sizes, MOST_VARIABLES};

/// A model with what is needed to move through it quickly.
pub struct System<'a> {
    pub states: usize,
    pub equations: Vec<Equation>,
    labels: &'a [u32],
    index: Index<'a>,
    /// For each variable the set of variables whose equations name it.
    users: [u32; MOST_VARIABLES as usize],
}

impl<'a> System<'a> {
    /// The system of a checked model.
    pub fn new(sizes: Sizes, labels: &'a [u32], words: &[u32], moves: &'a [u32]) -> System<'a> {
        let states = sizes.states as usize;
        let words = &words[..sizes.variables as usize];
        let equations: Vec<Equation> = words.iter().map(|word| Equation::unpack(*word)).collect();
        System {
            states,
            users: users(&equations),
            equations,
            labels,
            index: Index::new(moves, states),
        }
    }

    /// Where a pair's value and mark lie.
    pub fn pair(&self, variable: usize, state: usize) -> usize {
        variable * self.states + state
    }

    /// What the equation of a pair gives for these values.
    pub fn gives(&self, values: &[u8], variable: usize, state: usize) -> u8 {
        let e = &self.equations[variable];
        let value = |x: u32, s: usize| values[self.pair(x as usize, s)];
        let is_true = |s: usize| value(e.second, s) == 1;
        match e.operator {
            0 => 0,
            1 => 1,
            2 => self.holds(state, e.first),
            3 => 1 - self.holds(state, e.first),
            OR => value(e.first, state) | value(e.second, state),
            AND => value(e.first, state) & value(e.second, state),
            DIAMOND => self.index.targets(state, e.first).any(is_true).into(),
            _ => self.index.targets(state, e.first).all(is_true).into(),
        }
    }

    /// 1 where a proposition holds at a state.
    fn holds(&self, state: usize, proposition: u32) -> u8 {
        (self.labels[state] >> proposition & 1) as u8
    }

    /// Calls `see` with variable and state of each pair that leans on this one, once for each leaning, among the variables of
    /// a set.
    pub fn leaners(
        &self,
        variable: usize,
        state: usize,
        within: u32,
        mut see: impl FnMut(usize, usize),
    ) {
        let mut left = self.users[variable] & within;
        while left != 0 {
            let user = left.trailing_zeros() as usize;
            left &= left - 1;
            let e = &self.equations[user];
            if e.operator == DIAMOND || e.operator == BOX {
                let sources = self.index.sources(state, e.first);
                sources.for_each(|source| see(user, source));
                continue;
            }
            for named in [e.first, e.second] {
                if named as usize == variable {
                    see(user, state);
                }
            }
        }
    }
}

/// For each variable the set of variables whose equations name it.
fn users(equations: &[Equation]) -> [u32; MOST_VARIABLES as usize] {
    let mut users = [0; MOST_VARIABLES as usize];
    for (user, e) in equations.iter().enumerate() {
        if matches!(e.operator, OR | AND) {
            users[e.first as usize] |= 1 << user;
        }
        if matches!(e.operator, OR | AND | DIAMOND | BOX) {
            users[e.second as usize] |= 1 << user;
        }
    }
    users
}
