//! The proved checker for Rust: a [`Checker`] owns the rooms that the four proved calls are lent, also those that they only work in.
//!
//! A model has its equations in blocks, or a sign on each equation and no blocks; `write` gives back the style that was loaded.
//! A model may be live: each of its states has a move then, and what would leave a state without one is refused with 16.
//!
//! ```
//! use huepaxochi::{Checker, State, Variable};
//!
//! let model = [1, 2, 0, 1, 0, 1, 1, 3, 1, 1, 4, 6, 0, 0, 6];
//! let mut checker = Checker::new();
//! checker.load(&model).unwrap();
//! assert_eq!(checker.ask(State(0), Variable(0)), Ok(false));
//! let report = checker.batch(&[7, 0, 0, 0, 0, 8, 0, 0, 0, 0, 0, 6]).unwrap();
//! assert_eq!((report.shift_visits, report.settle_visits, report.net), (1, 0, 1));
//! assert_eq!(checker.ask(State(0), Variable(0)), Ok(true));
//! assert_eq!(checker.load(&[9]).unwrap_err().number, 1);
//! ```

/// The four calls over slices of any length, for callers that keep rooms of their own.
pub mod ffi;

/// A state, by its number.
#[derive(Clone, Copy, Debug, PartialEq, Eq)]
pub struct State(pub u16);

/// A variable, by its number.
#[derive(Clone, Copy, Debug, PartialEq, Eq)]
pub struct Variable(pub u8);

/// Why a call was refused: the number, as embed/huepaxochi.h tells them, and the place in the bytes. The header also says how to
/// find the state that has no move after a refusal with 16.
#[derive(Clone, Copy, Debug, PartialEq, Eq)]
pub struct Refusal {
    pub number: u32,
    pub place: u32,
}

impl std::fmt::Display for Refusal {
    fn fmt(&self, f: &mut std::fmt::Formatter<'_>) -> std::fmt::Result {
        write!(f, "refused {} at {}", self.number, self.place)
    }
}

impl std::error::Error for Refusal {}

/// What an accepted batch came to: leanings on shifted and on settled pairs, and the change in the number of true pairs.
#[derive(Clone, Copy, Debug, PartialEq, Eq)]
pub struct Report {
    pub shift_visits: i64,
    pub settle_visits: i64,
    pub net: i64,
}

/// How long each room is that a session lies in. The rooms to work in follow from these.
#[derive(Clone, Copy, Debug, PartialEq, Eq)]
pub struct Lengths {
    pub labels: usize,
    pub equations: usize,
    pub values: usize,
    pub marks: usize,
    pub moves: usize,
}

impl Lengths {
    /// The most that any model within the limits needs.
    pub const MOST: Lengths = Lengths {
        labels: 256,
        equations: 32,
        values: 8192,
        marks: 8192,
        moves: 1024,
    };

    /// How many places any model that fits into these rooms needs of the index: one for each state and action, and one for each
    /// move that there is room for.
    fn index(&self) -> usize {
        const MOST_ACTIONS: usize = 16;
        let states = self.labels.min(Lengths::MOST.labels);
        states * MOST_ACTIONS + self.moves.min(Lengths::MOST.moves)
    }

    /// How many it needs of the queue: one for each pair, and one more.
    fn queue(&self) -> usize {
        self.values.min(self.marks).min(Lengths::MOST.values) + 1
    }
}

/// How many numbers a session and a report are.
const SESSION: usize = 8;
const REPORT: usize = 3;

/// The most bytes that a model within the limits is spelled with: a live one whose 32 equations have signs.
const MOST_BYTES: usize = 9 + 7 * 256 + 5 * 32 + 6 * 1024;

/// A session with its rooms, and the two rooms that a load and a batch work in, which are 0 between calls. A refusal leaves all of
/// them as they were.
#[derive(Clone, Debug, PartialEq, Eq)]
pub struct Checker {
    session: Vec<u32>,
    labels: Vec<u32>,
    equations: Vec<u32>,
    values: Vec<u8>,
    marks: Vec<u8>,
    moves: Vec<u32>,
    index: Vec<u16>,
    queue: Vec<u16>,
}

/// What an answer's high half tells where its low half is 0, else the refusal.
fn told(answer: u64) -> Result<u32, Refusal> {
    let (number, told) = (answer as u32, (answer >> 32) as u32);
    if number == 0 {
        Ok(told)
    } else {
        Err(Refusal {
            number,
            place: told,
        })
    }
}

impl Checker {
    /// A checker with room for any model within the limits. It holds no model yet: all but `load` is refused with 12.
    pub fn new() -> Checker {
        Checker::with_rooms(Lengths::MOST)
    }

    /// A checker whose rooms have these lengths. Its rooms to work in are as long as any model that fits there needs, so that they
    /// are never why one is refused.
    pub fn with_rooms(lengths: Lengths) -> Checker {
        Checker {
            session: vec![0; SESSION],
            labels: vec![0; lengths.labels],
            equations: vec![0; lengths.equations],
            values: vec![0; lengths.values],
            marks: vec![0; lengths.marks],
            moves: vec![0; lengths.moves],
            index: vec![0; lengths.index()],
            queue: vec![0; lengths.queue()],
        }
    }

    /// Reads a model of either style, live or not, and finds the value of every pair.
    pub fn load(&mut self, bytes: &[u8]) -> Result<(), Refusal> {
        told(ffi::load(
            bytes,
            &mut self.session,
            &mut self.labels,
            &mut self.equations,
            &mut self.values,
            &mut self.marks,
            &mut self.moves,
            &mut self.index,
            &mut self.queue,
        ))
        .map(|_| ())
    }

    /// Applies a batch of inserts and deletes.
    pub fn batch(&mut self, bytes: &[u8]) -> Result<Report, Refusal> {
        let mut report = [0; REPORT];
        told(ffi::batch(
            &mut self.session,
            bytes,
            &self.labels,
            &self.equations,
            &mut self.values,
            &mut self.marks,
            &mut self.moves,
            &mut self.index,
            &mut self.queue,
            &mut report,
        ))?;
        let [shift_visits, settle_visits, net] = report;
        Ok(Report {
            shift_visits,
            settle_visits,
            net,
        })
    }

    /// The bytes of the model that the session holds, as `load` reads them, in the style that was loaded and live if it was.
    pub fn write(&self) -> Result<Vec<u8>, Refusal> {
        let mut out = vec![0; MOST_BYTES];
        let n = self.write_into(&mut out)?;
        out.truncate(n);
        Ok(out)
    }

    /// The same into a room of the caller's; the answer is how many bytes were written.
    pub fn write_into(&self, out: &mut [u8]) -> Result<usize, Refusal> {
        told(ffi::write(
            &self.session,
            &self.labels,
            &self.equations,
            &self.values,
            &self.marks,
            &self.moves,
            out,
        ))
        .map(|n| n as usize)
    }

    /// The value of one pair.
    pub fn ask(&self, state: State, variable: Variable) -> Result<bool, Refusal> {
        told(ffi::ask(&self.session, &self.values, state.0, variable.0)).map(|v| v == 1)
    }

    /// The stamp that the next batch must begin with.
    pub fn stamp(&self) -> u32 {
        self.session[6]
    }

    /// Whether the model that was loaded is live: each of its states has a move, and batches keep it so.
    pub fn is_live(&self) -> bool {
        self.session[7] == 1
    }

    /// The marks of all pairs; that of state s and variable x is at x × states + s.
    pub fn marks(&self) -> &[u8] {
        &self.marks[..self.session[0] as usize * self.session[3] as usize]
    }
}

impl Default for Checker {
    fn default() -> Checker {
        Checker::new()
    }
}

#[cfg(test)]
mod tests;
