//! The least and most of everything a session holds.

/// The most states; the least is 1.
pub const MOST_STATES: u16 = 256;
/// The most actions; the least is 1.
pub const MOST_ACTIONS: u8 = 16;
/// The most propositions; the least is 0.
pub const MOST_PROPOSITIONS: u8 = 32;
/// The most variables; the least is 1.
pub const MOST_VARIABLES: u8 = 32;
/// The most blocks; the least is 1, and 0 is for a model with signs.
pub const MOST_BLOCKS: u8 = 8;
/// The most moves, where the lent room isn't smaller.
pub const MOST_MOVES: usize = 1_024;
/// The most changes in one batch.
pub const MOST_CHANGES: usize = 64;
/// The most pairs of a state and a variable.
pub const MOST_PAIRS: usize = MOST_STATES as usize * MOST_VARIABLES as usize;
/// The most places that any model needs of the index, one of the two rooms to work in.
pub const MOST_INDEX: usize = MOST_STATES as usize * MOST_ACTIONS as usize + MOST_MOVES;
/// The most places that any model needs of the queue, the other room to work in.
pub const MOST_QUEUE: usize = MOST_PAIRS + 1;
