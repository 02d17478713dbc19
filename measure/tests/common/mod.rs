//! What the tests share; each takes what it needs.
#![allow(dead_code)]

use measure::answers::{Refusal, Report};
use measure::rooms::Rooms;
use measure::sides::{Side, SIDES};
use reference::generate::generate;
use reference::program::cut;

/// Longer than any model is when written.
pub const LONG: usize = 9_000;

/// The parts of a stream: a model, then batches; what is left where no end record is reached is the last part.
pub fn parts(bytes: &[u8]) -> Vec<&[u8]> {
    let mut left = bytes;
    let mut parts = Vec::new();
    while !left.is_empty() {
        let length = cut(left).unwrap_or(left.len());
        let (part, rest) = left.split_at(length);
        parts.push(part);
        left = rest;
    }
    parts
}

/// The parts of the generator's stream, where its model loads and the rooms are as asked.
pub fn loaded_parts(seed: u64, asked: fn(&Rooms) -> bool) -> Option<Vec<Vec<u8>>> {
    let bytes = generate(seed).bytes;
    let parts: Vec<Vec<u8>> = parts(&bytes).iter().map(|part| part.to_vec()).collect();
    let mut rooms = Rooms::most();
    let loads = Side::Ordinary.load(parts.first()?, &mut rooms).is_ok();
    (loads && asked(&rooms)).then_some(parts)
}

/// A refusal at the start.
pub fn at_start<T>(number: u32) -> Result<T, Refusal> {
    Err(Refusal { number, place: 0 })
}

/// What every version refuses a model with.
pub fn refused(bytes: &[u8]) -> Option<(u32, usize)> {
    let answer = Sides::new().load(bytes);
    answer.err().map(|refusal| (refusal.number, refusal.place))
}

/// Copies of the same rooms for every version. Each call is made by all of them, and they must agree on the answer and on
/// every place of every room.
#[derive(Clone)]
pub struct Sides {
    rooms: [Rooms; SIDES],
}

impl Sides {
    /// Rooms for any model.
    pub fn new() -> Sides {
        Sides::of(&Rooms::most())
    }

    /// These rooms.
    pub fn of(rooms: &Rooms) -> Sides {
        Sides {
            rooms: std::array::from_fn(|_| rooms.clone()),
        }
    }

    /// Rooms with a model loaded.
    pub fn loaded(bytes: &[u8]) -> Sides {
        let mut sides = Sides::new();
        sides.load(bytes).unwrap();
        sides
    }

    /// The rooms as they are.
    pub fn rooms(&self) -> &Rooms {
        &self.rooms[0]
    }

    /// Changes the rooms of all alike.
    pub fn change(&mut self, change: impl Fn(&mut Rooms)) {
        self.rooms.iter_mut().for_each(change);
    }

    /// Makes a call of every version.
    fn all<T: PartialEq + std::fmt::Debug>(
        &mut self,
        name: &str,
        bytes: &[u8],
        call: impl Fn(Side, &mut Rooms) -> T,
    ) -> T {
        let before = self.rooms().clone();
        let [first, others @ ..] = Side::ALL;
        let answer = call(first, &mut self.rooms[0]);
        for (at, side) in (1..).zip(others) {
            let other = call(side, &mut self.rooms[at]);
            assert_eq!(answer, other, "{side:?}: {name} {bytes:?} on {before:?}");
            let same = self.rooms[0] == self.rooms[at];
            assert!(same, "{side:?}: rooms after {name} {bytes:?} on {before:?}");
        }
        answer
    }

    /// Loads a model.
    pub fn load(&mut self, bytes: &[u8]) -> Result<(), Refusal> {
        self.all("load", bytes, |side, rooms| side.load(bytes, rooms))
    }

    /// Applies a batch.
    pub fn batch(&mut self, bytes: &[u8]) -> Result<Report, Refusal> {
        self.all("batch", bytes, |side, rooms| side.batch(bytes, rooms))
    }

    /// Writes into a room of a length that holds something, and gives what is written.
    pub fn write(&mut self, length: usize) -> Result<Vec<u8>, Refusal> {
        let (answer, room) = self.all("write", &[], |side, rooms| {
            let mut room = vec![7; length];
            (side.write(rooms, &mut room), room)
        });
        answer.map(|written| room[..written].to_vec())
    }

    /// Asks for a pair.
    pub fn ask(&mut self, state: u16, variable: u8) -> Result<bool, Refusal> {
        self.all("ask", &[], |side, rooms| side.ask(rooms, state, variable))
    }
}
