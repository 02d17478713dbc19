//! A checked model with its two indexes.

use super::index::{Arrivals, Into};
use super::names::Names;
use crate::ordinary::equation::Equation;
use crate::ordinary::sizes::{Sizes, MOST_VARIABLES};

/// What an update reads.
pub struct System<'a> {
    pub states: usize,
    pub labels: &'a [u32],
    pub equations: [Equation; MOST_VARIABLES as usize],
    pub variables: usize,
    pub arrivals: Arrivals<'a>,
    pub names: Names,
}

impl<'a> System<'a> {
    /// The system of a checked model, with the index of its moves in a lent room.
    pub fn new(
        sizes: Sizes,
        labels: &'a [u32],
        words: &[u32],
        moves: &'a [u32],
        index: &'a mut [u16],
    ) -> System<'a> {
        let states = sizes.states as usize;
        let words = &words[..sizes.variables as usize];
        let mut equations = [Equation::default(); MOST_VARIABLES as usize];
        for (equation, word) in equations.iter_mut().zip(words) {
            *equation = Equation::unpack(*word);
        }
        System {
            states,
            labels: &labels[..states],
            names: Names::new(states, &equations[..words.len()]),
            equations,
            variables: words.len(),
            arrivals: Arrivals::new(moves, sizes.actions as usize, states, index),
        }
    }

    /// The places of a variable's pairs.
    pub fn row(&self, variable: u32) -> std::ops::Range<usize> {
        let from = variable as usize * self.states;
        from..from + self.states
    }

    /// The moves of an action by target.
    pub fn into(&self, action: u32) -> Into<'a> {
        let arrivals = self.arrivals;
        let heads = &arrivals.heads[self.row(action)];
        Into { arrivals, heads }
    }
}
