//! A model read from the wire and judged, then stored in the rooms.

use super::components;
use super::equation::Equation;
use super::moves;
use super::records::{read as read_record, Record, Triple};
use super::sizes::{Sizes, MOST_MOVES};
use crate::answers::{demand, refuse, Refusal};
use crate::rooms::Rooms;

/// A good model.
pub struct Model {
    pub sizes: Sizes,
    pub live: bool,
    pub labels: Vec<u32>,
    pub equations: Vec<u32>,
    pub moves: Vec<u32>,
}

/// The bytes and the place of the next record.
struct Reader<'a> {
    bytes: &'a [u8],
    at: usize,
}

impl Reader<'_> {
    /// The next record and the place after it, or 1.
    fn peek(&self) -> Result<(Record, usize), Refusal> {
        match read_record(self.bytes, self.at) {
            Some(found) => Ok(found),
            None => refuse(1, self.at),
        }
    }
}

/// Reads a whole model for rooms of the lengths lent.
pub fn read(bytes: &[u8], rooms: &Rooms) -> Result<Model, Refusal> {
    let mut reader = Reader { bytes, at: 0 };
    let sizes = read_sizes(&mut reader, rooms)?;
    let live = read_live(&mut reader)?;
    let labels = read_labels(&mut reader, sizes)?;
    let equations = match sizes.blocks {
        0 => read_signed(&mut reader, sizes)?,
        _ => read_blocks(&mut reader, sizes)?,
    };
    let moves = read_moves(&mut reader, sizes, live, rooms.moves.len())?;
    demand(reader.at == bytes.len(), 2, reader.at)?;
    Ok(Model {
        sizes,
        live,
        labels,
        equations,
        moves,
    })
}

/// The sizes record, and whether the rooms fit it.
fn read_sizes(reader: &mut Reader, rooms: &Rooms) -> Result<Sizes, Refusal> {
    let (Record::Sizes(sizes), next) = reader.peek()? else {
        return refuse(2, 0);
    };
    demand(sizes.in_limits(), 3, 0)?;
    demand(sizes.fit(rooms) && sizes.fit_work(rooms), 13, 0)?;
    reader.at = next;
    Ok(sizes)
}

/// Whether the record that makes a model live comes next.
fn read_live(reader: &mut Reader) -> Result<bool, Refusal> {
    let (Record::Live, next) = reader.peek()? else {
        return Ok(false);
    };
    reader.at = next;
    Ok(true)
}

/// The labels, by ascending state.
fn read_labels(reader: &mut Reader, sizes: Sizes) -> Result<Vec<u32>, Refusal> {
    let mut labels = vec![0; sizes.states as usize];
    let mut least = 0;
    while let (Record::Label { state, set }, next) = reader.peek()? {
        let good = state < sizes.states && set != 0 && sizes.hold_set(set);
        demand(good, 4, reader.at)?;
        demand(least <= state, 6, reader.at)?;
        labels[state as usize] = set;
        least = state + 1;
        reader.at = next;
    }
    Ok(labels)
}

/// Each block with its equations.
fn read_blocks(reader: &mut Reader, sizes: Sizes) -> Result<Vec<u32>, Refusal> {
    let mut equations = Vec::with_capacity(sizes.variables as usize);
    for block in 0..sizes.blocks {
        let (Record::Block { kind, variables }, next) = reader.peek()? else {
            return refuse(2, reader.at);
        };
        let end = equations.len() as u32 + variables;
        let last = block + 1 == sizes.blocks;
        let fits = variables > 0 && end <= sizes.variables && (!last || end == sizes.variables);
        demand(fits, 3, reader.at)?;
        demand(kind <= 1, 4, reader.at)?;
        reader.at = next;
        for _ in 0..variables {
            equations.push(read_equation(reader, sizes, block, kind == 1, end)?);
        }
    }
    Ok(equations)
}

/// One equation of a block whose variables lie below `end`, packed.
fn read_equation(
    reader: &mut Reader,
    sizes: Sizes,
    block: u32,
    greatest: bool,
    end: u32,
) -> Result<u32, Refusal> {
    let (
        Record::Equation {
            operator,
            first,
            second,
        },
        next,
    ) = reader.peek()?
    else {
        return refuse(2, reader.at);
    };
    let equation = Equation {
        operator,
        first,
        second,
        block,
        greatest,
    };
    demand(sizes.hold_operands(operator, first, second), 4, reader.at)?;
    demand(equation.names_below(end), 5, reader.at)?;
    reader.at = next;
    Ok(equation.pack())
}

/// The equations of a model without blocks, packed with their components; no component may hold both signs.
fn read_signed(reader: &mut Reader, sizes: Sizes) -> Result<Vec<u32>, Refusal> {
    let mut equations = Vec::with_capacity(sizes.variables as usize);
    let mut places = Vec::with_capacity(sizes.variables as usize);
    for _ in 0..sizes.variables {
        places.push(reader.at);
        equations.push(read_sign(reader, sizes)?);
    }
    let numbers = components::numbers(&equations);
    if let Some(x) = components::first_mixed(&equations, &numbers) {
        return refuse(5, places[x]);
    }
    let packed = equations
        .iter()
        .zip(numbers)
        .map(|(e, block)| Equation { block, ..*e }.pack());
    Ok(packed.collect())
}

/// One equation with its sign, its component not yet known.
fn read_sign(reader: &mut Reader, sizes: Sizes) -> Result<Equation, Refusal> {
    let (
        Record::Signed {
            kind,
            operator,
            first,
            second,
        },
        next,
    ) = reader.peek()?
    else {
        return refuse(2, reader.at);
    };
    let good = kind <= 1 && sizes.hold_operands(operator, first, second);
    demand(good, 4, reader.at)?;
    reader.at = next;
    Ok(Equation {
        operator,
        first,
        second,
        block: 0,
        greatest: kind == 1,
    })
}

/// The moves, ascending, and the end record; in a live model each state has one.
fn read_moves(
    reader: &mut Reader,
    sizes: Sizes,
    live: bool,
    room: usize,
) -> Result<Vec<u32>, Refusal> {
    let most = MOST_MOVES.min(room);
    let mut found = Vec::with_capacity(most);
    loop {
        let (record, next) = reader.peek()?;
        match record {
            Record::Move(m) => found.push(judge_move(m, sizes, &found, most, reader.at)?),
            Record::End => {
                let hangs = live && !moves::leave_all(&found, sizes.states);
                demand(!hangs, 16, reader.at)?;
                reader.at = next;
                return Ok(found);
            }
            _ => return refuse(2, reader.at),
        }
        reader.at = next;
    }
}

/// A move after those found so far, packed.
fn judge_move(
    m: Triple,
    sizes: Sizes,
    found: &[u32],
    most: usize,
    at: usize,
) -> Result<u32, Refusal> {
    demand(sizes.hold_move(m.source, m.action, m.target), 4, at)?;
    let packed = moves::pack(m.source, m.action, m.target);
    demand(found.last().is_none_or(|last| *last < packed), 6, at)?;
    demand(found.len() < most, 10, at)?;
    Ok(packed)
}

/// Stores a model; the places past what it needs keep what they had.
pub fn store(model: &Model, rooms: &mut Rooms) {
    let sizes = model.sizes;
    rooms.session = [
        sizes.states,
        sizes.actions,
        sizes.propositions,
        sizes.variables,
        sizes.blocks,
        model.moves.len() as u32,
        moves::stamp(&model.moves),
        model.live.into(),
    ];
    rooms.labels[..model.labels.len()].copy_from_slice(&model.labels);
    rooms.equations[..model.equations.len()].copy_from_slice(&model.equations);
    rooms.moves[..model.moves.len()].copy_from_slice(&model.moves);
}
