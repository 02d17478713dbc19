//! The versions by one name each, so that whatever is done to one is done to the others.

use crate::answers::{Refusal, Report};
use crate::rooms::Rooms;
use crate::{ordinary, proved, strong};

/// The proved library, the ordinary version or the strong one.
#[derive(Clone, Copy, Debug, PartialEq, Eq)]
pub enum Side {
    Ours,
    Ordinary,
    Strong,
}

/// How many versions there are.
pub const SIDES: usize = 3;

impl Side {
    /// All of them.
    pub const ALL: [Side; SIDES] = [Side::Ours, Side::Ordinary, Side::Strong];

    /// Reads a model into the rooms.
    pub fn load(self, bytes: &[u8], rooms: &mut Rooms) -> Result<(), Refusal> {
        match self {
            Side::Ours => proved::load(bytes, rooms),
            Side::Ordinary => ordinary::load(bytes, rooms),
            Side::Strong => strong::load(bytes, rooms),
        }
    }

    /// Applies a batch to the rooms.
    pub fn batch(self, bytes: &[u8], rooms: &mut Rooms) -> Result<Report, Refusal> {
        match self {
            Side::Ours => proved::batch(bytes, rooms),
            Side::Ordinary => ordinary::batch(bytes, rooms),
            Side::Strong => strong::batch(bytes, rooms),
        }
    }

    /// Writes the model in the rooms into `out`.
    pub fn write(self, rooms: &Rooms, out: &mut [u8]) -> Result<usize, Refusal> {
        match self {
            Side::Ours => proved::write(rooms, out),
            Side::Ordinary => ordinary::write(rooms, out),
            Side::Strong => strong::write(rooms, out),
        }
    }

    /// The value of one pair.
    pub fn ask(self, rooms: &Rooms, state: u16, variable: u8) -> Result<bool, Refusal> {
        match self {
            Side::Ours => proved::ask(rooms, state, variable),
            Side::Ordinary => ordinary::ask(rooms, state, variable),
            Side::Strong => strong::ask(rooms, state, variable),
        }
    }
}
