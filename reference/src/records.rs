//! The wire: the records, how they are read from bytes, and how they are spelled in bytes.

use crate::limits::*;
use crate::refusal::{refuse, Refusal};
use crate::table::{Action, Move, State, Variable};

/// The two ways to spell a model's rules.
#[derive(Clone, Copy, Debug, PartialEq, Eq)]
pub enum Style {
    /// Blocks with their equations, kinds 3 and 4.
    Blocks,
    /// Equations that have signs of their own, kind 11.
    Signs,
}

/// The sizes of a model, as a sizes record gives them, good or not. Blocks are 0 for a model with
/// signs.
#[derive(Clone, Copy, Debug, Default, PartialEq, Eq)]
pub struct Sizes {
    pub states: u16,
    pub actions: u8,
    pub propositions: u8,
    pub variables: u8,
    pub blocks: u8,
}

/// A block as its record gives it, good or not: kind 0 is least and 1 is greatest.
#[derive(Clone, Copy, Debug, Default, PartialEq, Eq)]
pub struct Block {
    pub kind: u8,
    pub variables: u8,
}

/// An equation as its record gives it, good or not.
#[derive(Clone, Copy, Debug, Default, PartialEq, Eq)]
pub struct Equation {
    pub operator: u8,
    pub first: u8,
    pub second: u8,
}

/// One record of any of the eleven kinds, its numbers not yet judged.
#[derive(Clone, Copy, Debug, PartialEq, Eq)]
pub enum Record {
    Sizes(Sizes),
    Label {
        state: State,
        set: u32,
    },
    Block(Block),
    Equation(Equation),
    Move(Move),
    End,
    Stamp(u32),
    Insert(Move),
    Delete(Move),
    /// The model is live: each of its states has a move.
    Live,
    /// An equation with its sign: 0 is least and 1 is greatest.
    Signed {
        sign: u8,
        equation: Equation,
    },
}

impl Sizes {
    /// How the model spells its rules, which the number of blocks alone decides.
    pub fn style(&self) -> Style {
        if self.blocks == 0 {
            Style::Signs
        } else {
            Style::Blocks
        }
    }

    /// Whether every size lies within the table of document 01, or blocks are 0 for signs.
    pub fn in_table(&self) -> bool {
        (1..=MOST_STATES).contains(&self.states)
            && (1..=MOST_ACTIONS).contains(&self.actions)
            && self.propositions <= MOST_PROPOSITIONS
            && (1..=MOST_VARIABLES).contains(&self.variables)
            && self.blocks <= MOST_BLOCKS
    }

    /// How many pairs of a state and a variable there are.
    pub fn pairs(&self) -> usize {
        usize::from(self.states) * usize::from(self.variables)
    }

    /// How many places of the index a load or a batch needs, where the room for moves is so long:
    /// states times actions, and one for each move that the room can take.
    pub fn index(&self, move_room: usize) -> usize {
        usize::from(self.states) * usize::from(self.actions) + move_room.min(MOST_MOVES)
    }

    /// How many places of the queue a load or a batch needs: one for each pair, and one more.
    pub fn queue(&self) -> usize {
        self.pairs() + 1
    }

    /// Where the value and the mark of a pair are kept: states in order, and for each state
    /// its variables in order.
    pub fn pair(&self, state: State, variable: Variable) -> usize {
        usize::from(state.0) * usize::from(self.variables) + usize::from(variable.0)
    }

    /// The state of the pair kept at an index.
    pub fn state_of(&self, pair: usize) -> State {
        State((pair / usize::from(self.variables)) as u16)
    }

    /// The variable of the pair kept at an index.
    pub fn variable_of(&self, pair: usize) -> Variable {
        Variable((pair % usize::from(self.variables)) as u8)
    }

    /// Whether a move's three numbers all lie below their counts.
    pub fn holds_move(&self, m: Move) -> bool {
        m.source.0 < self.states && m.action.0 < self.actions && m.target.0 < self.states
    }

    /// Whether a label's state is below the state count and its set is neither empty nor too high.
    pub fn holds_label(&self, state: State, set: u32) -> bool {
        let past_highest = 32 - set.leading_zeros();
        state.0 < self.states && set != 0 && past_highest <= u32::from(self.propositions)
    }

    /// Whether an equation's operator is known, its numbers lie below their counts, and the
    /// bytes that its operator doesn't use are 0.
    pub fn holds_equation(&self, equation: Equation) -> bool {
        let Equation {
            operator,
            first,
            second,
        } = equation;
        match operator {
            0 | 1 => first == 0 && second == 0,
            2 | 3 => first < self.propositions && second == 0,
            4 | 5 => first < self.variables && second < self.variables,
            6 | 7 => first < self.actions && second < self.variables,
            _ => false,
        }
    }
}

impl Equation {
    /// The variables that the equation names.
    pub fn named(&self) -> Vec<Variable> {
        match self.operator {
            4 | 5 => vec![Variable(self.first), Variable(self.second)],
            6 | 7 => vec![Variable(self.second)],
            _ => vec![],
        }
    }
}

/// How many bytes follow the kind byte, or nothing for an unknown kind.
pub fn body_length(kind: u8) -> Option<usize> {
    match kind {
        1 => Some(6),
        2 => Some(6),
        3 => Some(2),
        4 => Some(3),
        5 | 8 | 9 => Some(5),
        6 | 10 => Some(0),
        7 | 11 => Some(4),
        _ => None,
    }
}

/// A reader that holds the bytes and its place in them.
#[derive(Clone, Debug)]
pub struct Reader<'a> {
    bytes: &'a [u8],
    place: usize,
}

impl<'a> Reader<'a> {
    /// Starts reading at the first byte.
    pub fn new(bytes: &'a [u8]) -> Reader<'a> {
        Reader { bytes, place: 0 }
    }

    /// Reads one record and gives it with the place of its first byte. Refuses with 1 where no
    /// byte is left, where the kind is unknown, and where the bytes end inside the record.
    pub fn record(&mut self) -> Result<(usize, Record), Refusal> {
        let place = self.place;
        let Some(&kind) = self.bytes.get(place) else {
            return refuse(1, place);
        };
        let Some(length) = body_length(kind) else {
            return refuse(1, place);
        };
        let Some(body) = self.bytes.get(place + 1..place + 1 + length) else {
            return refuse(1, place);
        };
        self.place = place + 1 + length;
        Ok((place, decode(kind, body)))
    }

    /// Refuses with 2 at the next byte, if there is one.
    pub fn nothing_left(&self) -> Result<(), Refusal> {
        if self.place < self.bytes.len() {
            return refuse(2, self.place);
        }
        Ok(())
    }
}

/// Reads two bytes as a number, low byte first.
fn two(bytes: &[u8]) -> u16 {
    u16::from(bytes[0]) + 256 * u16::from(bytes[1])
}

/// Reads four bytes as a number, low byte first.
fn four(bytes: &[u8]) -> u32 {
    u32::from(two(&bytes[..2])) + 65_536 * u32::from(two(&bytes[2..]))
}

/// Reads the three bytes of an equation.
fn three(bytes: &[u8]) -> Equation {
    Equation {
        operator: bytes[0],
        first: bytes[1],
        second: bytes[2],
    }
}

/// Reads the five bytes of a move.
fn five(bytes: &[u8]) -> Move {
    Move {
        source: State(two(&bytes[..2])),
        action: Action(bytes[2]),
        target: State(two(&bytes[3..])),
    }
}

/// Takes the body of a known kind apart; the body has the length that the kind fixes.
fn decode(kind: u8, body: &[u8]) -> Record {
    match kind {
        1 => Record::Sizes(Sizes {
            states: two(&body[..2]),
            actions: body[2],
            propositions: body[3],
            variables: body[4],
            blocks: body[5],
        }),
        2 => Record::Label {
            state: State(two(&body[..2])),
            set: four(&body[2..]),
        },
        3 => Record::Block(Block {
            kind: body[0],
            variables: body[1],
        }),
        4 => Record::Equation(three(body)),
        5 => Record::Move(five(body)),
        6 => Record::End,
        7 => Record::Stamp(four(body)),
        8 => Record::Insert(five(body)),
        9 => Record::Delete(five(body)),
        10 => Record::Live,
        _ => Record::Signed {
            sign: body[0],
            equation: three(&body[1..]),
        },
    }
}

/// Adds a move record of one of the kinds 5, 8 and 9 to the bytes.
fn spell_move(kind: u8, m: Move, bytes: &mut Vec<u8>) {
    bytes.push(kind);
    bytes.extend(m.source.0.to_le_bytes());
    bytes.push(m.action.0);
    bytes.extend(m.target.0.to_le_bytes());
}

/// Adds the bytes of one record.
pub fn spell(record: Record, bytes: &mut Vec<u8>) {
    match record {
        Record::Sizes(sizes) => {
            bytes.push(1);
            bytes.extend(sizes.states.to_le_bytes());
            bytes.extend([sizes.actions, sizes.propositions]);
            bytes.extend([sizes.variables, sizes.blocks]);
        }
        Record::Label { state, set } => {
            bytes.push(2);
            bytes.extend(state.0.to_le_bytes());
            bytes.extend(set.to_le_bytes());
        }
        Record::Block(block) => bytes.extend([3, block.kind, block.variables]),
        Record::Equation(e) => bytes.extend([4, e.operator, e.first, e.second]),
        Record::Signed { sign, equation: e } => {
            bytes.extend([11, sign, e.operator, e.first, e.second]);
        }
        Record::Move(m) => spell_move(5, m, bytes),
        Record::End => bytes.push(6),
        Record::Stamp(stamp) => {
            bytes.push(7);
            bytes.extend(stamp.to_le_bytes());
        }
        Record::Insert(m) => spell_move(8, m, bytes),
        Record::Delete(m) => spell_move(9, m, bytes),
        Record::Live => bytes.push(10),
    }
}

/// The bytes of several records on end.
pub fn spell_all(records: &[Record]) -> Vec<u8> {
    let mut bytes = Vec::new();
    for record in records {
        spell(*record, &mut bytes);
    }
    bytes
}
