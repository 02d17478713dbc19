//! The proved library, called from rooms that stand between fences.

use std::fmt::Debug;

use huepaxochi::ffi;

use crate::boundary::{Answer, Boundary, Call};
use crate::rooms::Rooms;

/// How many places a fence has.
const FENCE: usize = 8;

/// What each place of a fence holds.
const POST: u8 = 0x5a;

/// A copy of a room with a fence before it and one behind it, which no call may touch.
struct Fenced<T> {
    cells: Vec<T>,
}

impl<T: Copy + PartialEq + Debug + From<u8>> Fenced<T> {
    /// The room, fenced in.
    fn of(room: &[T]) -> Fenced<T> {
        let fence = [T::from(POST); FENCE];
        let cells = [&fence[..], room, &fence[..]].concat();
        Fenced { cells }
    }

    /// The room between the fences.
    fn lent(&mut self) -> &mut [T] {
        let end = self.cells.len() - FENCE;
        &mut self.cells[FENCE..end]
    }

    /// Gives the room's places back. It is an error that stops the run where a fence was touched.
    fn give_back(&mut self, room: &mut [T]) {
        room.copy_from_slice(self.lent());
        let fence = [T::from(POST); FENCE];
        let whole = self.cells.starts_with(&fence) && self.cells.ends_with(&fence);
        assert!(whole, "a place outside a room was written");
    }
}

/// All rooms between fences.
struct Lent {
    session: Fenced<u32>,
    labels: Fenced<u32>,
    equations: Fenced<u32>,
    values: Fenced<u8>,
    marks: Fenced<u8>,
    moves: Fenced<u32>,
    index: Fenced<u16>,
    queue: Fenced<u16>,
    report: Fenced<i64>,
    out: Fenced<u8>,
}

impl Lent {
    /// All rooms, fenced in.
    fn of(rooms: &Rooms) -> Lent {
        Lent {
            session: Fenced::of(&rooms.session),
            labels: Fenced::of(&rooms.labels),
            equations: Fenced::of(&rooms.equations),
            values: Fenced::of(&rooms.values),
            marks: Fenced::of(&rooms.marks),
            moves: Fenced::of(&rooms.moves),
            index: Fenced::of(&rooms.index),
            queue: Fenced::of(&rooms.queue),
            report: Fenced::of(&rooms.report),
            out: Fenced::of(&rooms.out),
        }
    }

    /// Makes the call.
    fn call(&mut self, call: Call) -> u64 {
        let session = self.session.lent();
        let (labels, equations) = (self.labels.lent(), self.equations.lent());
        let (values, marks) = (self.values.lent(), self.marks.lent());
        let (index, queue) = (self.index.lent(), self.queue.lent());
        let (moves, report) = (self.moves.lent(), self.report.lent());
        let out = self.out.lent();
        match call {
            Call::Load(bytes) => ffi::load(
                bytes, session, labels, equations, values, marks, moves, index, queue,
            ),
            Call::Batch(bytes) => ffi::batch(
                session, bytes, labels, equations, values, marks, moves, index, queue, report,
            ),
            Call::Write => ffi::write(session, labels, equations, values, marks, moves, out),
            Call::Ask(state, variable) => ffi::ask(session, values, state, variable),
        }
    }

    /// Gives all rooms back.
    fn give_back(&mut self, rooms: &mut Rooms) {
        self.session.give_back(&mut rooms.session);
        self.labels.give_back(&mut rooms.labels);
        self.equations.give_back(&mut rooms.equations);
        self.values.give_back(&mut rooms.values);
        self.marks.give_back(&mut rooms.marks);
        self.moves.give_back(&mut rooms.moves);
        self.index.give_back(&mut rooms.index);
        self.queue.give_back(&mut rooms.queue);
        self.report.give_back(&mut rooms.report);
        self.out.give_back(&mut rooms.out);
    }
}

/// The proved library.
pub struct Proved;

impl Boundary for Proved {
    fn call(&self, call: Call, rooms: &mut Rooms) -> Answer {
        let mut lent = Lent::of(rooms);
        let answer = lent.call(call);
        lent.give_back(rooms);
        Answer::of(answer)
    }
}
