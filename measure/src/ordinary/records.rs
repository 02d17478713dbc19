//! The records of the wire.

use super::sizes::Sizes;

/// One record, its numbers not yet judged.
#[derive(Clone, Copy, Debug)]
pub enum Record {
    Sizes(Sizes),
    Label {
        state: u32,
        set: u32,
    },
    Block {
        kind: u32,
        variables: u32,
    },
    Equation {
        operator: u32,
        first: u32,
        second: u32,
    },
    Signed {
        kind: u32,
        operator: u32,
        first: u32,
        second: u32,
    },
    Move(Triple),
    End,
    Stamp(u32),
    Insert(Triple),
    Delete(Triple),
    Live,
}

/// Source, action and target.
#[derive(Clone, Copy, Debug)]
pub struct Triple {
    pub source: u32,
    pub action: u32,
    pub target: u32,
}

/// Two bytes, the low one first.
fn two(low: u8, high: u8) -> u32 {
    u32::from(u16::from_le_bytes([low, high]))
}

/// The body of a move, an insert or a delete.
fn triple(body: &[u8]) -> Option<Triple> {
    let [s, t, a, u, v] = *body.first_chunk()?;
    Some(Triple {
        source: two(s, t),
        action: a.into(),
        target: two(u, v),
    })
}

/// The body of a sizes record.
fn sizes(body: &[u8]) -> Option<Sizes> {
    let [s, t, actions, propositions, variables, blocks] = *body.first_chunk()?;
    Some(Sizes {
        states: two(s, t),
        actions: actions.into(),
        propositions: propositions.into(),
        variables: variables.into(),
        blocks: blocks.into(),
    })
}

/// The body of a label record.
fn label(body: &[u8]) -> Option<Record> {
    let [s, t, set @ ..] = *body.first_chunk::<6>()?;
    Some(Record::Label {
        state: two(s, t),
        set: u32::from_le_bytes(set),
    })
}

/// The body of a block record.
fn block(body: &[u8]) -> Option<Record> {
    let [kind, variables] = *body.first_chunk()?;
    Some(Record::Block {
        kind: kind.into(),
        variables: variables.into(),
    })
}

/// The body of an equation record.
fn equation(body: &[u8]) -> Option<Record> {
    let [operator, first, second] = *body.first_chunk()?;
    Some(Record::Equation {
        operator: operator.into(),
        first: first.into(),
        second: second.into(),
    })
}

/// The body of an equation record with a sign.
fn signed(body: &[u8]) -> Option<Record> {
    let [kind, operator, first, second] = *body.first_chunk()?;
    Some(Record::Signed {
        kind: kind.into(),
        operator: operator.into(),
        first: first.into(),
        second: second.into(),
    })
}

/// The record at a place and the place after it; nothing where the kind is unknown or the bytes end too soon.
pub fn read(bytes: &[u8], at: usize) -> Option<(Record, usize)> {
    let (kind, body) = bytes.get(at..)?.split_first()?;
    let (record, length) = match kind {
        1 => (Record::Sizes(sizes(body)?), 6),
        2 => (label(body)?, 6),
        3 => (block(body)?, 2),
        4 => (equation(body)?, 3),
        5 => (Record::Move(triple(body)?), 5),
        6 => (Record::End, 0),
        7 => (Record::Stamp(u32::from_le_bytes(*body.first_chunk()?)), 4),
        8 => (Record::Insert(triple(body)?), 5),
        9 => (Record::Delete(triple(body)?), 5),
        10 => (Record::Live, 0),
        11 => (signed(body)?, 4),
        _ => return None,
    };
    Some((record, at + 1 + length))
}
