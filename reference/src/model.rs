//! A model: how it is read record by record, and how it is loaded into a session.

use crate::components::{components, mixed};
use crate::limits::MOST_MOVES;
use crate::records::{Block, Equation, Reader, Record, Sizes, Style};
use crate::refusal::{demand, refuse, Refusal};
use crate::session::{Rooms, Session};
use crate::solve::solve;
use crate::table::{hanging, stamp, Action, Move, State, Variable};

/// A model that load accepts. Its vectors are exactly as long as its sizes say, and a state
/// without a label has the empty set. It has blocks or signs, as its style says.
#[derive(Clone, Debug, Default, PartialEq, Eq)]
pub struct Model {
    pub sizes: Sizes,
    /// Whether the model is live. Each state of a live model has a move.
    pub live: bool,
    pub labels: Vec<u32>,
    pub blocks: Vec<Block>,
    /// For each variable its sign.
    pub signs: Vec<u8>,
    pub equations: Vec<Equation>,
    pub moves: Vec<Move>,
}

/// Whether a group has its smallest or its largest solution.
#[derive(Clone, Copy, Debug, PartialEq, Eq)]
pub enum Kind {
    Least,
    Greatest,
}

/// The variables that are solved together: those of a block or those of a component. A group
/// names variables of its own and of groups before it alone.
#[derive(Clone, Debug, PartialEq, Eq)]
pub struct Group {
    pub kind: Kind,
    /// Ascending.
    pub variables: Vec<Variable>,
}

/// The right side of an equation.
#[derive(Clone, Copy, Debug, PartialEq, Eq)]
pub enum Formula {
    False,
    True,
    Proposition(u8),
    NotProposition(u8),
    Or(Variable, Variable),
    And(Variable, Variable),
    Diamond(Action, Variable),
    Box(Action, Variable),
}

impl Kind {
    /// The kind that a block record or a sign gives: 0 is least and 1 is greatest.
    pub fn of(kind: u8) -> Kind {
        if kind == 0 {
            Kind::Least
        } else {
            Kind::Greatest
        }
    }
}

impl Group {
    /// Whether a variable belongs to the group.
    pub fn holds(&self, variable: Variable) -> bool {
        self.variables.binary_search(&variable).is_ok()
    }
}

impl Model {
    /// Whether the model is live and some state has no move.
    pub fn hangs(&self) -> bool {
        self.live && hanging(self.sizes.states, &self.moves).is_some()
    }

    /// The groups in the order in which they are solved.
    pub fn groups(&self) -> Vec<Group> {
        match self.sizes.style() {
            Style::Blocks => self.blocks_as_groups(),
            Style::Signs => self.components_as_groups(),
        }
    }

    /// The blocks in order, each with the variables that it covers.
    fn blocks_as_groups(&self) -> Vec<Group> {
        let mut first = 0;
        let mut groups = Vec::new();
        for block in &self.blocks {
            let end = first + block.variables;
            groups.push(Group {
                kind: Kind::of(block.kind),
                variables: (first..end).map(Variable).collect(),
            });
            first = end;
        }
        groups
    }

    /// The components by their numbers, each of the one sign that all its variables have.
    fn components_as_groups(&self) -> Vec<Group> {
        let components = components(&self.equations);
        let mut groups: Vec<Group> = Vec::new();
        for number in 0..self.sizes.variables {
            let of_number = |x: &u8| components[usize::from(*x)] == number;
            let variables: Vec<u8> = (0..self.sizes.variables).filter(of_number).collect();
            if let Some(one) = variables.first() {
                groups.push(Group {
                    kind: Kind::of(self.signs[usize::from(*one)]),
                    variables: variables.into_iter().map(Variable).collect(),
                });
            }
        }
        groups
    }

    /// The right side of a variable's equation.
    pub fn formula(&self, variable: Variable) -> Formula {
        let Equation {
            operator,
            first,
            second,
        } = self.equations[usize::from(variable.0)];
        match operator {
            0 => Formula::False,
            1 => Formula::True,
            2 => Formula::Proposition(first),
            3 => Formula::NotProposition(first),
            4 => Formula::Or(Variable(first), Variable(second)),
            5 => Formula::And(Variable(first), Variable(second)),
            6 => Formula::Diamond(Action(first), Variable(second)),
            _ => Formula::Box(Action(first), Variable(second)),
        }
    }

    /// Whether a proposition is true at a state.
    pub fn labelled(&self, state: State, proposition: u8) -> bool {
        self.labels[usize::from(state.0)] >> proposition & 1 == 1
    }

    /// The indices of all pairs of a group, states in order.
    pub fn pairs_of(&self, group: &Group) -> Vec<usize> {
        let mut pairs = Vec::new();
        for state in 0..self.sizes.states {
            for variable in &group.variables {
                pairs.push(self.sizes.pair(State(state), *variable));
            }
        }
        pairs
    }
}

/// Which kinds of record may come next in a model.
#[derive(Clone, Copy, Debug, PartialEq, Eq)]
enum Due {
    Sizes,
    LabelOrBlock,
    Equation,
    Block,
    LabelOrSigned,
    Signed,
    MoveOrEnd,
    Nothing,
}

/// A model in the middle of being read.
struct Reading<'a> {
    rooms: &'a Rooms,
    due: Due,
    /// Whether the record before was the sizes, so that kind 10 is due too.
    after_sizes: bool,
    last_label: Option<State>,
    /// Where the records of the equations with signs begin.
    signed_at: Vec<usize>,
    model: Model,
}

/// Reads a whole model, record by record, or gives the first refusal.
pub fn read_model(bytes: &[u8], rooms: &Rooms) -> Result<Model, Refusal> {
    let mut reader = Reader::new(bytes);
    let mut reading = Reading {
        rooms,
        due: Due::Sizes,
        after_sizes: false,
        last_label: None,
        signed_at: vec![],
        model: Model::default(),
    };
    while reading.due != Due::Nothing {
        let (place, record) = reader.record()?;
        reading.take(place, record)?;
    }
    reader.nothing_left()?;
    Ok(reading.model)
}

impl Reading<'_> {
    /// Takes one whole record in, refusing with 2 where its kind isn't due.
    fn take(&mut self, place: usize, record: Record) -> Result<(), Refusal> {
        let after_sizes = std::mem::replace(&mut self.after_sizes, false);
        match (self.due, record) {
            (_, Record::Live) if after_sizes => {
                self.model.live = true;
                Ok(())
            }
            (Due::Sizes, Record::Sizes(sizes)) => self.take_sizes(place, sizes),
            (Due::LabelOrBlock | Due::LabelOrSigned, Record::Label { state, set }) => {
                self.take_label(place, state, set)
            }
            (Due::LabelOrBlock | Due::Block, Record::Block(block)) => self.take_block(place, block),
            (Due::Equation, Record::Equation(equation)) => self.take_equation(place, equation),
            (Due::LabelOrSigned | Due::Signed, Record::Signed { sign, equation }) => {
                self.take_signed(place, sign, equation)
            }
            (Due::MoveOrEnd, Record::Move(m)) => self.take_move(place, m),
            (Due::MoveOrEnd, Record::End) => self.take_end(place),
            _ => refuse(2, place),
        }
    }

    /// Takes the sizes: 3 where one lies outside the table, then 13 where a room is too short, one
    /// to work in like any other.
    fn take_sizes(&mut self, place: usize, sizes: Sizes) -> Result<(), Refusal> {
        demand(sizes.in_table(), 3, place)?;
        demand(self.rooms.hold(&sizes), 13, 0)?;
        demand(self.rooms.hold_work(&sizes), 13, 0)?;
        self.after_sizes = true;
        self.model.sizes = sizes;
        self.model.labels = vec![0; usize::from(sizes.states)];
        self.due = match sizes.style() {
            Style::Blocks => Due::LabelOrBlock,
            Style::Signs => Due::LabelOrSigned,
        };
        Ok(())
    }

    /// Takes a label: 4 for its numbers, then 6 where its state isn't after the last one's.
    fn take_label(&mut self, place: usize, state: State, set: u32) -> Result<(), Refusal> {
        demand(self.model.sizes.holds_label(state, set), 4, place)?;
        demand(self.last_label.is_none_or(|last| last < state), 6, place)?;
        self.last_label = Some(state);
        self.model.labels[usize::from(state.0)] = set;
        Ok(())
    }

    /// How many variables the blocks read so far cover.
    fn covered(&self) -> u8 {
        self.model.blocks.iter().map(|block| block.variables).sum()
    }

    /// Takes a block: 3 for its number of variables, then 4 for its kind.
    fn take_block(&mut self, place: usize, block: Block) -> Result<(), Refusal> {
        let remain = self.model.sizes.variables - self.covered();
        let is_last = self.model.blocks.len() + 1 == usize::from(self.model.sizes.blocks);
        demand((1..=remain).contains(&block.variables), 3, place)?;
        demand(!is_last || block.variables == remain, 3, place)?;
        demand(block.kind <= 1, 4, place)?;
        self.model.blocks.push(block);
        self.due = Due::Equation;
        Ok(())
    }

    /// Takes an equation: 4 for its numbers, then 5 where it names a later block's variable.
    fn take_equation(&mut self, place: usize, equation: Equation) -> Result<(), Refusal> {
        let covered = self.covered();
        demand(self.model.sizes.holds_equation(equation), 4, place)?;
        let not_later = equation.named().iter().all(|named| named.0 < covered);
        demand(not_later, 5, place)?;
        self.model.equations.push(equation);
        if self.model.equations.len() == usize::from(covered) {
            let more = self.model.blocks.len() < usize::from(self.model.sizes.blocks);
            self.due = if more { Due::Block } else { Due::MoveOrEnd };
        }
        Ok(())
    }

    /// Takes an equation with its sign: 4 for its numbers. After the last one 5 where a closed chain
    /// holds both signs, at the lowest equation on such a chain.
    fn take_signed(&mut self, place: usize, sign: u8, equation: Equation) -> Result<(), Refusal> {
        let in_range = sign <= 1 && self.model.sizes.holds_equation(equation);
        demand(in_range, 4, place)?;
        self.signed_at.push(place);
        self.model.signs.push(sign);
        self.model.equations.push(equation);
        self.due = Due::Signed;
        if self.model.equations.len() == usize::from(self.model.sizes.variables) {
            if let Some(guilty) = mixed(&self.model.equations, &self.model.signs) {
                return refuse(5, self.signed_at[usize::from(guilty.0)]);
            }
            self.due = Due::MoveOrEnd;
        }
        Ok(())
    }

    /// Takes a move: 4 for its numbers, 6 where it isn't after the last one, then 10 where it is
    /// one too many.
    fn take_move(&mut self, place: usize, m: Move) -> Result<(), Refusal> {
        demand(self.model.sizes.holds_move(m), 4, place)?;
        let ascending = self.model.moves.last().is_none_or(|last| *last < m);
        demand(ascending, 6, place)?;
        let most = MOST_MOVES.min(self.rooms.moves);
        demand(self.model.moves.len() < most, 10, place)?;
        self.model.moves.push(m);
        Ok(())
    }

    /// Takes the end: 16 where the model is live and some state has no move.
    fn take_end(&mut self, place: usize) -> Result<(), Refusal> {
        demand(!self.model.hangs(), 16, place)?;
        self.due = Due::Nothing;
        Ok(())
    }
}

/// The answer to an accepted load.
#[derive(Clone, Copy, Debug, PartialEq, Eq)]
pub struct Loaded {
    /// How many pairs are true.
    pub true_pairs: usize,
    /// How many pairs there are.
    pub pairs: usize,
    /// The stamp of the loaded moves.
    pub stamp: u32,
}

/// Loads a model into the session's rooms with its values solved and all marks 0, and leaves the rooms
/// to work in cleared. A refusal changes nothing.
pub fn load(session: &mut Session, bytes: &[u8]) -> Result<Loaded, Refusal> {
    let model = read_model(bytes, &session.rooms())?;
    let values = solve(&model);
    let loaded = Loaded {
        true_pairs: values.iter().filter(|value| **value).count(),
        pairs: values.len(),
        stamp: stamp(&model.moves),
    };
    session.store_model(&model);
    session.store_values(&values, &vec![0; values.len()]);
    session.store_moves(&model.moves);
    session.clear_work();
    session.stamp = Some(loaded.stamp);
    Ok(loaded)
}
