//! The second program behind the same four calls. The rooms are read into its own session, it makes the call, and what it
//! left is put into those places of the rooms that document 01 says are written. It never sees any other place.

use reference::limits::{MOST_BLOCKS, MOST_VARIABLES};
use reference::{
    ask_value, Block, Equation, Move, Refusal, Session, Sizes, State, Style, Variable,
};

use crate::boundary::{Answer, Boundary, Call};
use crate::rooms::{Rooms, LIVE, MOVES, REPORT, SESSION, STAMP};

/// The second program.
pub struct Mirrored;

impl Boundary for Mirrored {
    fn call(&self, call: Call, rooms: &mut Rooms) -> Answer {
        if rooms.session.len() < SESSION {
            return Answer::refused(13, 0);
        }
        let answer = match call {
            Call::Load(bytes) => load(rooms, bytes),
            Call::Batch(bytes) => batch(rooms, bytes),
            Call::Write => write(rooms),
            Call::Ask(state, variable) => ask(rooms, State(state), Variable(variable)),
        };
        answer.map_or_else(refused, Answer::accepted)
    }
}

/// A refusal as an answer.
fn refused(refusal: Refusal) -> Answer {
    Answer::refused(u32::from(refusal.number), refusal.place as u32)
}

/// Load, into a session whose rooms are as long as those lent. What they held does not matter, but that the rooms to work in are
/// cleared as far as the second program clears them.
fn load(rooms: &mut Rooms, bytes: &[u8]) -> Result<u32, Refusal> {
    let mut session = Session {
        index: rooms.index.clone(),
        queue: rooms.queue.clone(),
        ..Session::new(lengths(rooms))
    };
    reference::load(&mut session, bytes)?;
    put_model(&session, rooms);
    put_table(&session, rooms);
    put_work(session, rooms);
    Ok(0)
}

/// Batch. Places that the move list frees at its end become 0.
fn batch(rooms: &mut Rooms, bytes: &[u8]) -> Result<u32, Refusal> {
    if rooms.report.len() < REPORT {
        return reference::refusal::refuse(13, 0);
    }
    let mut session = session_in(rooms);
    let before = session.move_count;
    let updated = reference::batch(&mut session, bytes)?;
    put_table(&session, rooms);
    if session.move_count < before {
        rooms.moves[session.move_count..before].fill(0);
    }
    rooms.report[0] = updated.shift_visits as i64;
    rooms.report[1] = updated.settle_visits as i64;
    rooms.report[2] = updated.net;
    put_work(session, rooms);
    Ok(0)
}

/// Write. No room to work in is lent. The answer tells the number of bytes.
fn write(rooms: &mut Rooms) -> Result<u32, Refusal> {
    let session = Session {
        index: vec![],
        queue: vec![],
        ..session_in(rooms)
    };
    reference::write(&session, &mut rooms.out).map(|written| written as u32)
}

/// Ask. No room but that of the values is lent, so the others are as long as any model needs, and neither the move count nor
/// the flag is asked.
fn ask(rooms: &Rooms, state: State, variable: Variable) -> Result<u32, Refusal> {
    let sizes = sizes_in(&rooms.session);
    let session = Session {
        sizes,
        values: by_states(&rooms.values, sizes),
        ..Session::new(reference::Rooms {
            values: 0,
            moves: 0,
            index: 0,
            queue: 0,
            ..reference::Rooms::most()
        })
    };
    ask_value(&session, state, variable).map(u32::from)
}

/// How long the rooms lent are.
fn lengths(rooms: &Rooms) -> reference::Rooms {
    reference::Rooms {
        labels: rooms.labels.len(),
        equations: rooms.equations.len(),
        values: rooms.values.len(),
        marks: rooms.marks.len(),
        moves: rooms.moves.len(),
        index: rooms.index.len(),
        queue: rooms.queue.len(),
    }
}

/// A number of a session as a byte. One too large for its kind becomes the largest of it, which is outside its limits too.
fn byte_in(session: &[u32], at: usize) -> u8 {
    u8::try_from(session[at]).unwrap_or(u8::MAX)
}

/// The sizes of a session, numbers too large for their kinds cut in the same way.
pub fn sizes_in(session: &[u32]) -> Sizes {
    Sizes {
        states: u16::try_from(session[0]).unwrap_or(u16::MAX),
        actions: byte_in(session, 1),
        propositions: byte_in(session, 2),
        variables: byte_in(session, 3),
        blocks: byte_in(session, 4),
    }
}

/// The session that lies in the rooms, good or not.
fn session_in(rooms: &Rooms) -> Session {
    let sizes = sizes_in(&rooms.session);
    let counted = usize::from(sizes.variables).min(rooms.equations.len());
    let words = &rooms.equations[..counted];
    Session {
        sizes,
        live: byte_in(&rooms.session, LIVE),
        blocks: blocks_in(words, usize::from(sizes.blocks)),
        signs: in_tops(words, |top| top & 1),
        components: in_tops(words, |top| top >> 1),
        labels: rooms.labels.clone(),
        equations: rooms.equations.iter().map(|w| equation_in(*w)).collect(),
        moves: rooms.moves.iter().map(|w| move_in(*w)).collect(),
        move_count: rooms.session[MOVES] as usize,
        values: by_states(&rooms.values, sizes),
        marks: by_states(&rooms.marks, sizes),
        index: rooms.index.clone(),
        queue: rooms.queue.clone(),
        stamp: Some(rooms.session[STAMP]),
    }
}

/// The blocks that stand in the top bytes of the equations. Where they are not numbered one by one from 0 up to their count,
/// or one changes its kind, the blocks given are of no variables, which no model has.
fn blocks_in(words: &[u32], blocks: usize) -> [Block; MOST_BLOCKS as usize] {
    let none = [Block::default(); MOST_BLOCKS as usize];
    let mut found = none;
    let (mut count, mut last) = (0, None);
    for word in words {
        let top = word >> 24;
        if last != Some(top) {
            if count == found.len() || top >> 1 != count as u32 {
                return none;
            }
            found[count].kind = (top & 1) as u8;
            count += 1;
            last = Some(top);
        }
        found[count - 1].variables += 1;
    }
    if count == blocks {
        found
    } else {
        none
    }
}

/// What stands in the top bytes of the equations of a model with signs.
fn in_tops(words: &[u32], part: impl Fn(u8) -> u8) -> [u8; MOST_VARIABLES as usize] {
    let mut found = [0; MOST_VARIABLES as usize];
    for (place, word) in found.iter_mut().zip(words) {
        *place = part((word >> 24) as u8);
    }
    found
}

/// The equation that a word is, without what stands in its top byte.
pub fn equation_in(word: u32) -> Equation {
    let [operator, first, second, _] = word.to_le_bytes();
    Equation {
        operator,
        first,
        second,
    }
}

/// The move that a word is.
pub fn move_in(word: u32) -> Move {
    let (source, action, target) = (word >> 16, word >> 10 & 63, word & 1_023);
    Move::new(source as u16, action as u8, target as u16)
}

/// A word per pair of the boundary's order, variable by variable, in the second program's order, state by state. Where the
/// room is shorter than the sizes need, no order is asked.
fn by_states(room: &[u8], sizes: Sizes) -> Vec<u8> {
    let mut ordered = room.to_vec();
    if sizes.in_table() && sizes.pairs() <= room.len() {
        for (pair, place) in pairs(sizes) {
            ordered[pair] = room[place];
        }
    }
    ordered
}

/// Each pair's place in the second program's order and in the boundary's.
fn pairs(sizes: Sizes) -> impl Iterator<Item = (usize, usize)> {
    let states = usize::from(sizes.states);
    (0..sizes.states).flat_map(move |state| {
        (0..sizes.variables).map(move |variable| {
            let pair = sizes.pair(State(state), Variable(variable));
            (pair, usize::from(variable) * states + usize::from(state))
        })
    })
}

/// Puts the labels and the equations of a loaded session into the rooms.
fn put_model(session: &Session, rooms: &mut Rooms) {
    let states = usize::from(session.sizes.states);
    rooms.labels[..states].copy_from_slice(&session.labels[..states]);
    let words = rooms.equations.iter_mut();
    for ((word, equation), top) in words.zip(&session.equations).zip(tops(session)) {
        let Equation {
            operator,
            first,
            second,
        } = *equation;
        *word = u32::from_le_bytes([operator, first, second, top]);
    }
}

/// The top byte of each variable's equation: twice the number of its block or component, and its kind or sign.
fn tops(session: &Session) -> Vec<u8> {
    if session.sizes.style() == Style::Signs {
        let both = session.components.iter().zip(&session.signs);
        let tops = both.map(|(component, sign)| 2 * component + sign);
        return tops.take(usize::from(session.sizes.variables)).collect();
    }
    let mut tops = Vec::new();
    let blocks = session.blocks[..usize::from(session.sizes.blocks)].iter();
    for (number, block) in blocks.enumerate() {
        let top = 2 * number as u8 + block.kind;
        tops.extend(vec![top; usize::from(block.variables)]);
    }
    tops
}

/// Puts the rooms to work in back as the second program left them.
fn put_work(session: Session, rooms: &mut Rooms) {
    (rooms.index, rooms.queue) = (session.index, session.queue);
}

/// Puts the values, the marks, the moves and the numbers of a session into the rooms.
fn put_table(session: &Session, rooms: &mut Rooms) {
    for (pair, place) in pairs(session.sizes) {
        rooms.values[place] = session.values[pair];
        rooms.marks[place] = session.marks[pair];
    }
    for (place, m) in rooms.moves.iter_mut().zip(session.table()) {
        let (source, action) = (u32::from(m.source.0), u32::from(m.action.0));
        *place = 65_536 * source + 1_024 * action + u32::from(m.target.0);
    }
    let sizes = session.sizes;
    let small = [
        sizes.actions,
        sizes.propositions,
        sizes.variables,
        sizes.blocks,
    ];
    rooms.session[0] = u32::from(sizes.states);
    for (place, number) in rooms.session[1..].iter_mut().zip(small) {
        *place = u32::from(number);
    }
    rooms.session[MOVES] = session.move_count as u32;
    rooms.session[STAMP] = session.stamp.unwrap_or(0);
    rooms.session[LIVE] = u32::from(session.live);
}
