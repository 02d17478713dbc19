//! What both sides are: four calls over rooms of any length.

use crate::rooms::Rooms;

/// One call. The rooms stand apart from it.
#[derive(Clone, Copy, Debug, PartialEq, Eq)]
pub enum Call<'a> {
    Load(&'a [u8]),
    Batch(&'a [u8]),
    Write,
    Ask(u16, u8),
}

/// How many calls there are.
pub const CALLS: usize = 4;

/// The names of the calls, by their numbers.
pub const NAMES: [&str; CALLS] = ["load", "batch", "write", "ask"];

impl Call<'_> {
    /// The number of the call.
    pub fn index(&self) -> usize {
        match self {
            Call::Load(_) => 0,
            Call::Batch(_) => 1,
            Call::Write => 2,
            Call::Ask(..) => 3,
        }
    }

    /// The name of the call.
    pub fn name(&self) -> &'static str {
        NAMES[self.index()]
    }
}

/// An answer: number 0 with what an acceptance tells, or a refusal's number with its place.
#[derive(Clone, Copy, Debug, PartialEq, Eq)]
pub struct Answer {
    pub number: u32,
    pub told: u32,
}

impl Answer {
    /// The answer that one number of the boundary is.
    pub fn of(answer: u64) -> Answer {
        Answer {
            number: answer as u32,
            told: (answer >> 32) as u32,
        }
    }

    /// An acceptance that tells this.
    pub fn accepted(told: u32) -> Answer {
        Answer { number: 0, told }
    }

    /// A refusal with this number at this place.
    pub fn refused(number: u32, place: u32) -> Answer {
        Answer {
            number,
            told: place,
        }
    }

    /// Whether the call was accepted.
    pub fn is_accepted(&self) -> bool {
        self.number == 0
    }
}

/// One side: makes a call on the rooms and answers.
pub trait Boundary {
    fn call(&self, call: Call, rooms: &mut Rooms) -> Answer;
}
