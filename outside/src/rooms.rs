//! The rooms that a caller lends, of any length, each filled with known numbers first.

use reference::random::Random;
use reference::records::body_length;

/// How many numbers a session is.
pub const SESSION: usize = 8;
/// How many numbers a report is.
pub const REPORT: usize = 3;
/// Which of a session's numbers are the number of blocks, which is 0 for signs, the move count, the stamp and the flag, which is
/// 1 for a live model.
pub const BLOCKS: usize = 4;
pub const MOVES: usize = 5;
pub const STAMP: usize = 6;
pub const LIVE: usize = 7;

/// All rooms of all calls. A call looks at those that it is lent; the others must stay as they are all the same.
#[derive(Clone, Debug, PartialEq, Eq)]
pub struct Rooms {
    pub session: Vec<u32>,
    pub labels: Vec<u32>,
    pub equations: Vec<u32>,
    pub values: Vec<u8>,
    pub marks: Vec<u8>,
    pub moves: Vec<u32>,
    /// The rooms to work in.
    pub index: Vec<u16>,
    pub queue: Vec<u16>,
    pub report: Vec<i64>,
    pub out: Vec<u8>,
}

/// How long the rooms must be for a model.
#[derive(Clone, Copy, Debug, Default, PartialEq, Eq)]
pub struct Needs {
    pub labels: usize,
    pub equations: usize,
    pub pairs: usize,
    pub moves: usize,
    /// How many places there are of a state and an action.
    pub heads: usize,
}

/// The most states, actions and variables by which a room is lent, all of them past their limits.
const WIDEST: [usize; 3] = [300, 20, 40];

impl Needs {
    /// What so many states, actions, variables and moves ask for, whether or not they are good. Numbers far past every limit are
    /// cut, so that no room is huge.
    fn new(sizes: [usize; 3], moves: usize) -> Needs {
        let [labels, actions, equations] = [0, 1, 2].map(|at| sizes[at].min(WIDEST[at]));
        Needs {
            labels,
            equations,
            pairs: labels * equations,
            moves,
            heads: labels * actions,
        }
    }

    /// How long the index must be where the room for moves is so long.
    pub fn index(&self, move_room: usize) -> usize {
        self.heads + move_room.min(1_024)
    }

    /// How long the queue must be.
    pub fn queue(&self) -> usize {
        self.pairs + 1
    }

    /// What the sizes record and the move records of a model ask for.
    pub fn of_model(bytes: &[u8]) -> Needs {
        let [1, low, high, actions, _, variables, _, ..] = *bytes else {
            return Needs::default();
        };
        let states = u16::from_le_bytes([low, high]);
        let sizes = [states, u16::from(actions), u16::from(variables)];
        Needs::new(sizes.map(usize::from), count_moves(bytes))
    }

    /// What the sizes of a session ask for.
    pub fn of_session(session: &[u32]) -> Needs {
        let number = |at: usize| session.get(at).map_or(0, |n| *n as usize);
        Needs::new([0, 1, 3].map(number), number(MOVES).min(2_000))
    }
}

/// How many move records there are up to the end record, as far as kinds are known.
fn count_moves(bytes: &[u8]) -> usize {
    let (mut place, mut moves) = (0, 0);
    while let Some(&kind) = bytes.get(place) {
        let Some(length) = body_length(kind) else {
            break;
        };
        if kind == 6 {
            break;
        }
        moves += usize::from(kind == 5);
        place += 1 + length;
    }
    moves
}

/// Bytes that the random numbers alone decide, and that differ from place to place.
pub fn known_bytes(random: &mut Random, length: usize) -> Vec<u8> {
    let start = random.byte();
    let places = 0..length;
    places
        .map(|at| start.wrapping_add((at as u8).wrapping_mul(37)))
        .collect()
}

/// The same as words.
fn known_words(random: &mut Random, length: usize) -> Vec<u32> {
    let start = random.bits() as u32;
    let places = 0..length;
    places
        .map(|at| start.wrapping_add((at as u32).wrapping_mul(0x9e37_79b1)))
        .collect()
}

/// The same as words of 16 bits.
fn known_halves(random: &mut Random, length: usize) -> Vec<u16> {
    let start = random.bits() as u16;
    let places = 0..length;
    places
        .map(|at| start.wrapping_add((at as u16).wrapping_mul(0x9e37)))
        .collect()
}

/// How much longer than needed a room is to be.
fn extra(random: &mut Random) -> usize {
    match random.below(10) {
        0 => 0,
        1 => 1,
        _ => random.between(1, 40),
    }
}

/// How many moves there is room for, where a model has so many: most often enough for any batch, now and then the most
/// exactly, or so little that a batch or the load itself meets it.
fn room_for_moves(random: &mut Random, moves: usize) -> usize {
    match random.below(100) {
        0..=3 => moves + random.below(4),
        4..=7 => moves + random.below(70),
        8..=9 => random.below(moves + 1),
        10..=19 => 1_024,
        _ => 1_024 + extra(random),
    }
}

impl Rooms {
    /// Rooms at least as long as a model needs, each longer by a random amount, filled with known numbers.
    pub fn lend(random: &mut Random, needs: Needs) -> Rooms {
        let [session, labels, equations, values, marks, report] = [(); 6].map(|_| extra(random));
        let moves = room_for_moves(random, needs.moves);
        let mut rooms = Rooms {
            session: known_words(random, SESSION + session),
            labels: known_words(random, needs.labels + labels),
            equations: known_words(random, needs.equations + equations),
            values: known_bytes(random, needs.pairs + values),
            marks: known_bytes(random, needs.pairs + marks),
            moves: known_words(random, moves),
            index: vec![],
            queue: vec![],
            report: (0..REPORT + report).map(|_| random.bits() as i64).collect(),
            out: vec![],
        };
        rooms.lend_work(random, needs);
        rooms
    }

    /// Lends other rooms to work in, at least as long as a model needs in the room for moves that there is.
    pub fn lend_work(&mut self, random: &mut Random, needs: Needs) {
        let [index, queue] = [(); 2].map(|_| extra(random));
        self.index = known_halves(random, needs.index(self.moves.len()) + index);
        self.queue = known_halves(random, needs.queue() + queue);
    }

    /// Makes the room for moves so long, and the index long enough for it.
    pub fn make_move_room(&mut self, places: usize, needs: Needs) {
        self.moves.resize(places, 0xfafa_fafa);
        let index = needs.index(places).max(self.index.len());
        self.index.resize(index, 0xfafa);
    }

    /// The most bytes that the model of this session can be spelled with.
    pub fn most_written(&self) -> usize {
        let needs = Needs::of_session(&self.session);
        9 + 7 * needs.labels + 3 * 8 + 5 * needs.equations + 6 * needs.moves
    }
}
