//! How many of each thing a model has, and the most of each that there may be.

use crate::rooms::Rooms;

pub const MOST_STATES: u32 = 256;
pub const MOST_ACTIONS: u32 = 16;
pub const MOST_PROPOSITIONS: u32 = 32;
pub const MOST_VARIABLES: u32 = 32;
pub const MOST_BLOCKS: u32 = 8;
pub const MOST_MOVES: usize = 1024;
pub const MOST_CHANGES: usize = 64;

/// The sizes of a model, good or not.
#[derive(Clone, Copy, Debug)]
pub struct Sizes {
    pub states: u32,
    pub actions: u32,
    pub propositions: u32,
    pub variables: u32,
    /// 0 where each equation has a sign of its own.
    pub blocks: u32,
}

impl Sizes {
    /// The sizes among a session's numbers.
    pub fn of(session: &[u32; 8]) -> Sizes {
        let [states, actions, propositions, variables, blocks, ..] = *session;
        Sizes {
            states,
            actions,
            propositions,
            variables,
            blocks,
        }
    }

    /// Whether each size lies between its least and its most.
    pub fn in_limits(&self) -> bool {
        (1..=MOST_STATES).contains(&self.states)
            && (1..=MOST_ACTIONS).contains(&self.actions)
            && self.propositions <= MOST_PROPOSITIONS
            && (1..=MOST_VARIABLES).contains(&self.variables)
            && self.blocks <= MOST_BLOCKS
    }

    /// How many pairs there are.
    pub fn pairs(&self) -> usize {
        (self.states * self.variables) as usize
    }

    /// Whether the rooms for labels, equations, values and marks are as long as the sizes need.
    pub fn fit(&self, rooms: &Rooms) -> bool {
        self.states as usize <= rooms.labels.len()
            && self.variables as usize <= rooms.equations.len()
            && self.pairs() <= rooms.values.len()
            && self.pairs() <= rooms.marks.len()
    }

    /// Whether the work rooms are as long as the sizes and the room for moves need.
    pub fn fit_work(&self, rooms: &Rooms) -> bool {
        rooms.work.fits(*self, rooms.moves.len())
    }

    /// Whether the highest proposition of a set lies below the count.
    pub fn hold_set(&self, set: u32) -> bool {
        32 - set.leading_zeros() <= self.propositions
    }

    /// Whether source, action and target lie below their counts.
    pub fn hold_move(&self, source: u32, action: u32, target: u32) -> bool {
        source < self.states && action < self.actions && target < self.states
    }

    /// Whether an operator is known, what it uses lies below its count and what it does not use is 0.
    pub fn hold_operands(&self, operator: u32, first: u32, second: u32) -> bool {
        match operator {
            0 | 1 => first == 0 && second == 0,
            2 | 3 => first < self.propositions && second == 0,
            4 | 5 => first < self.variables && second < self.variables,
            6 | 7 => first < self.actions && second < self.variables,
            _ => false,
        }
    }
}
