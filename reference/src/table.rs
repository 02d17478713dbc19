//! States, actions, variables, moves, and the stamp of a table of moves.

/// The number of a state.
#[derive(Clone, Copy, Debug, Default, PartialEq, Eq, PartialOrd, Ord, Hash)]
pub struct State(pub u16);

/// The number of an action.
#[derive(Clone, Copy, Debug, Default, PartialEq, Eq, PartialOrd, Ord, Hash)]
pub struct Action(pub u8);

/// The number of a variable.
#[derive(Clone, Copy, Debug, Default, PartialEq, Eq, PartialOrd, Ord, Hash)]
pub struct Variable(pub u8);

/// A labelled move. The derived order is the table's: by source, action, target.
#[derive(Clone, Copy, Debug, Default, PartialEq, Eq, PartialOrd, Ord, Hash)]
pub struct Move {
    pub source: State,
    pub action: Action,
    pub target: State,
}

impl Move {
    /// Builds a move from its three bare numbers.
    pub fn new(source: u16, action: u8, target: u16) -> Move {
        Move {
            source: State(source),
            action: Action(action),
            target: State(target),
        }
    }
}

/// The lowest state that is the source of no move by any action, if there is one.
pub fn hanging(states: u16, moves: &[Move]) -> Option<State> {
    let mut states = (0..states).map(State);
    states.find(|state| moves.iter().all(|m| m.source != *state))
}

/// The stamp of a table: one term for each move, summed and wrapping at 2^32.
pub fn stamp(moves: &[Move]) -> u32 {
    let mut sum: u64 = 0;
    for m in moves {
        let source = u64::from(m.source.0);
        let action = u64::from(m.action.0);
        let target = u64::from(m.target.0);
        sum += 65_537 * source + 4_099 * action + 257 * target + 1;
    }
    (sum % (1 << 32)) as u32
}
