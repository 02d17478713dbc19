//! A session and its rooms, packed as embed/huepaxochi.h says. All versions work in these.

use crate::ordinary::sizes::{Sizes, MOST_ACTIONS, MOST_MOVES, MOST_STATES, MOST_VARIABLES};

/// Rooms lent for the length of a call, in which nothing is kept.
#[derive(Clone, Debug, PartialEq, Eq)]
pub struct Work {
    /// An index of the moves: a place for each action and state, and one for each move that the room of the moves can take.
    pub index: Vec<u16>,
    /// Pairs that wait: a place for each pair, and one more.
    pub queue: Vec<u16>,
}

impl Work {
    /// Rooms that are long enough for any model.
    fn most() -> Work {
        let heads = (MOST_STATES * MOST_ACTIONS) as usize;
        let pairs = (MOST_STATES * MOST_VARIABLES) as usize;
        Work {
            index: vec![0; heads + MOST_MOVES],
            queue: vec![0; pairs + 1],
        }
    }

    /// How many places sizes and a room for moves need of the index and of the queue.
    pub fn needs(sizes: Sizes, room: usize) -> [usize; 2] {
        let heads = (sizes.states * sizes.actions) as usize;
        [heads + room.min(MOST_MOVES), sizes.pairs() + 1]
    }

    /// Whether both rooms are long enough.
    pub fn fits(&self, sizes: Sizes, room: usize) -> bool {
        let [index, queue] = Work::needs(sizes, room);
        index <= self.index.len() && queue <= self.queue.len()
    }

    /// Both rooms, cut to what is needed.
    pub fn cut(&mut self, sizes: Sizes, room: usize) -> (&mut [u16], &mut [u16]) {
        let [index, queue] = Work::needs(sizes, room);
        (&mut self.index[..index], &mut self.queue[..queue])
    }

    /// Leaves what is needed of both rooms at 0.
    pub fn clear(&mut self, sizes: Sizes, room: usize) {
        let (index, queue) = self.cut(sizes, room);
        index.fill(0);
        queue.fill(0);
    }
}

/// The session's eight numbers and the rooms lent with it.
#[derive(Clone, Debug, PartialEq, Eq)]
pub struct Rooms {
    /// States, actions, propositions, variables, blocks, moves, stamp, live.
    pub session: [u32; 8],
    /// For each state the set of its propositions.
    pub labels: Vec<u32>,
    /// For each variable operator, first, second and 2 × block + kind, a byte each, lowest first. Where there are no blocks,
    /// the component takes the block's place.
    pub equations: Vec<u32>,
    /// For each pair its value; that of state s and variable x is at x × states + s.
    pub values: Vec<u8>,
    /// For each pair its mark, at the same place.
    pub marks: Vec<u8>,
    /// The moves, ascending: 65536 × source + 1024 × action + target.
    pub moves: Vec<u32>,
    pub work: Work,
}

impl Rooms {
    /// Rooms for any model within the limits, filled with 0.
    pub fn most() -> Rooms {
        Rooms::of([256, 32, 8192, 8192, 1024])
    }

    /// Rooms of these lengths: labels, equations, values, marks, moves. The work rooms are long enough for any model.
    pub fn of(lengths: [usize; 5]) -> Rooms {
        let [labels, equations, values, marks, moves] = lengths;
        Rooms {
            session: [0; 8],
            labels: vec![0; labels],
            equations: vec![0; equations],
            values: vec![0; values],
            marks: vec![0; marks],
            moves: vec![0; moves],
            work: Work::most(),
        }
    }

    /// The moves of the table.
    pub fn table(&self) -> &[u32] {
        &self.moves[..self.session[5] as usize]
    }

    /// The stamp that the next batch must begin with.
    pub fn stamp(&self) -> u32 {
        self.session[6]
    }

    /// Whether the model is live: each of its states must have a move.
    pub fn is_live(&self) -> bool {
        self.session[7] == 1
    }
}
