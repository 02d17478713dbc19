//! A session: the rooms it lends, whether it holds together, and the questions about a pair.

use crate::components::components;
use crate::limits::*;
use crate::model::{read_model, Model};
use crate::records::{Block, Equation, Sizes, Style};
use crate::refusal::{demand, Refusal};
use crate::table::{stamp, Move, State, Variable};
use crate::write::spell_session;

/// Everything a session holds. The vectors are rooms: they may be longer than the sizes need,
/// and all fields are open so that a damaged session can be built and judged.
#[derive(Clone, Debug, PartialEq, Eq)]
pub struct Session {
    pub sizes: Sizes,
    /// 1 for a live model and 0 for any other.
    pub live: u8,
    /// The blocks; only the first `sizes.blocks` of them count.
    pub blocks: [Block; MOST_BLOCKS as usize],
    /// For each variable its sign; they count only where `sizes.blocks` is 0.
    pub signs: [u8; MOST_VARIABLES as usize],
    /// For each variable the number of its component; they count only where `sizes.blocks` is 0.
    pub components: [u8; MOST_VARIABLES as usize],
    /// For each state its set of propositions.
    pub labels: Vec<u32>,
    /// For each variable its equation.
    pub equations: Vec<Equation>,
    /// The room for moves; the first `move_count` of them are the table.
    pub moves: Vec<Move>,
    pub move_count: usize,
    /// For each pair its value, at `sizes.pair(state, variable)`.
    pub values: Vec<u8>,
    /// For each pair its mark, at the same index as its value.
    pub marks: Vec<u8>,
    /// The rooms to work in. Nothing is kept there: a load and a batch ask how long they are, and
    /// leave the places that the sizes need at 0.
    pub index: Vec<u16>,
    pub queue: Vec<u16>,
    /// The stamp, if one is kept. A load keeps one; a batch renews it where one is kept.
    pub stamp: Option<u32>,
}

/// How many places each lent room has.
#[derive(Clone, Copy, Debug, PartialEq, Eq)]
pub struct Rooms {
    pub labels: usize,
    pub equations: usize,
    pub values: usize,
    pub marks: usize,
    pub moves: usize,
    pub index: usize,
    pub queue: usize,
}

impl Rooms {
    /// Rooms large enough for every model.
    pub fn most() -> Rooms {
        Rooms {
            labels: usize::from(MOST_STATES),
            equations: usize::from(MOST_VARIABLES),
            values: MOST_PAIRS,
            marks: MOST_PAIRS,
            moves: MOST_MOVES,
            index: MOST_INDEX,
            queue: MOST_QUEUE,
        }
    }

    /// Whether the rooms for labels, equations, values and marks are as long as the sizes need.
    pub fn hold(&self, sizes: &Sizes) -> bool {
        self.labels >= usize::from(sizes.states)
            && self.equations >= usize::from(sizes.variables)
            && self.values >= sizes.pairs()
            && self.marks >= sizes.pairs()
    }

    /// Whether the rooms to work in are as long as the sizes and the room for moves need.
    pub fn hold_work(&self, sizes: &Sizes) -> bool {
        self.index >= sizes.index(self.moves) && self.queue >= sizes.queue()
    }
}

impl Session {
    /// A session with nothing loaded and all its rooms filled with 0.
    pub fn new(rooms: Rooms) -> Session {
        Session {
            sizes: Sizes::default(),
            live: 0,
            blocks: Default::default(),
            signs: Default::default(),
            components: Default::default(),
            labels: vec![0; rooms.labels],
            equations: vec![Equation::default(); rooms.equations],
            moves: vec![Move::default(); rooms.moves],
            move_count: 0,
            values: vec![0; rooms.values],
            marks: vec![0; rooms.marks],
            index: vec![0; rooms.index],
            queue: vec![0; rooms.queue],
            stamp: None,
        }
    }

    /// An empty session with room for every model.
    pub fn roomy() -> Session {
        Session::new(Rooms::most())
    }

    /// The lengths of the session's rooms.
    pub fn rooms(&self) -> Rooms {
        Rooms {
            labels: self.labels.len(),
            equations: self.equations.len(),
            values: self.values.len(),
            marks: self.marks.len(),
            moves: self.moves.len(),
            index: self.index.len(),
            queue: self.queue.len(),
        }
    }

    /// The moves of the table, as far as the room goes.
    pub fn table(&self) -> &[Move] {
        &self.moves[..self.move_count.min(self.moves.len())]
    }

    /// How many pairs are true.
    pub fn true_pairs(&self) -> usize {
        let values = self.values.iter().take(self.sizes.pairs());
        values.filter(|value| **value == 1).count()
    }

    /// Stores a model's sizes, flag, labels and rules; places past them keep what they had.
    pub(crate) fn store_model(&mut self, model: &Model) {
        self.sizes = model.sizes;
        self.live = u8::from(model.live);
        self.labels[..model.labels.len()].copy_from_slice(&model.labels);
        self.blocks[..model.blocks.len()].copy_from_slice(&model.blocks);
        self.equations[..model.equations.len()].copy_from_slice(&model.equations);
        if model.sizes.style() == Style::Signs {
            let components = components(&model.equations);
            self.signs[..model.signs.len()].copy_from_slice(&model.signs);
            self.components[..components.len()].copy_from_slice(&components);
        }
    }

    /// Stores the values and marks of all pairs; places past them keep what they had.
    pub(crate) fn store_values(&mut self, values: &[bool], marks: &[u8]) {
        for (place, value) in self.values.iter_mut().zip(values) {
            *place = u8::from(*value);
        }
        self.marks[..marks.len()].copy_from_slice(marks);
    }

    /// Stores the table of moves; places past it keep what they had.
    pub(crate) fn store_moves(&mut self, moves: &[Move]) {
        self.moves[..moves.len()].copy_from_slice(moves);
        self.move_count = moves.len();
    }

    /// Leaves the places of the rooms to work in that the sizes need at 0, and no other.
    pub(crate) fn clear_work(&mut self) {
        let (index, queue) = (self.sizes.index(self.moves.len()), self.sizes.queue());
        self.index[..index].fill(0);
        self.queue[..queue].fill(0);
    }
}

/// Asks 12 for the sizes and the move count, then 13 for the rooms that hold the session. Neither
/// the flag nor the rooms to work in are looked at.
fn check_sizes_and_rooms(session: &Session) -> Result<(), Refusal> {
    let most = MOST_MOVES.min(session.moves.len());
    demand(session.sizes.in_table(), 12, 0)?;
    demand(session.move_count <= most, 12, 0)?;
    demand(session.rooms().hold(&session.sizes), 13, 0)
}

/// Whether a session with signs has stored the right number of each variable's component.
fn right_components(session: &Session) -> bool {
    if session.sizes.style() == Style::Blocks {
        return true;
    }
    let variables = usize::from(session.sizes.variables);
    let right = components(&session.equations[..variables]);
    session.components[..variables] == right
}

/// Asks 12 for the rest: whether load accepts what the session holds, and whether its components,
/// its values, its marks and the stamp it keeps are good. Gives the model. How long the rooms are was
/// asked before, but for the moves'.
fn check_rest(session: &Session) -> Result<Model, Refusal> {
    let pairs = session.sizes.pairs();
    let rooms = Rooms {
        moves: session.moves.len(),
        ..Rooms::most()
    };
    let read = read_model(&spell_session(session), &rooms);
    demand(read.is_ok(), 12, 0)?;
    demand(right_components(session), 12, 0)?;
    demand(session.values[..pairs].iter().all(|v| *v <= 1), 12, 0)?;
    demand(session.marks[..pairs].iter().all(|m| *m <= 3), 12, 0)?;
    let right = stamp(session.table());
    demand(session.stamp.is_none_or(|kept| kept == right), 12, 0)?;
    read
}

/// What a writing asks of a session: 12 for the flag and the sizes, 13 for the rooms and 12 for the
/// rest. Gives the model held. A live session in which a state has no move is no model that load
/// accepts.
pub fn check(session: &Session) -> Result<Model, Refusal> {
    demand(session.live <= 1, 12, 0)?;
    check_sizes_and_rooms(session)?;
    check_rest(session)
}

/// What a batch asks of a session: the same, and 13 for the rooms to work in with that for the other
/// rooms.
pub fn check_to_work(session: &Session) -> Result<Model, Refusal> {
    demand(session.live <= 1, 12, 0)?;
    check_sizes_and_rooms(session)?;
    demand(session.rooms().hold_work(&session.sizes), 13, 0)?;
    check_rest(session)
}

/// Where a pair is kept: asks 12 for the sizes, 13 for the rooms, and 4 for the pair's numbers.
fn locate(session: &Session, state: State, variable: Variable) -> Result<usize, Refusal> {
    check_sizes_and_rooms(session)?;
    demand(state.0 < session.sizes.states, 4, 0)?;
    demand(variable.0 < session.sizes.variables, 4, 0)?;
    Ok(session.sizes.pair(state, variable))
}

/// The value of one pair, with 12 where the byte read is over 1.
pub fn ask_value(session: &Session, state: State, variable: Variable) -> Result<bool, Refusal> {
    let value = session.values[locate(session, state, variable)?];
    demand(value <= 1, 12, 0)?;
    Ok(value == 1)
}

/// The mark of one pair, with 12 where the byte read is over 3.
pub fn ask_mark(session: &Session, state: State, variable: Variable) -> Result<u8, Refusal> {
    let mark = session.marks[locate(session, state, variable)?];
    demand(mark <= 3, 12, 0)?;
    Ok(mark)
}
