//! A move in one word, and the stamp of a table.

/// A move as one word; words ascend as source, action, target do.
pub fn pack(source: u32, action: u32, target: u32) -> u32 {
    source << 16 | action << 10 | target
}

/// The source of a packed move.
pub fn source(packed: u32) -> u32 {
    packed >> 16
}

/// The action of a packed move.
pub fn action(packed: u32) -> u32 {
    packed >> 10 & 63
}

/// The target of a packed move.
pub fn target(packed: u32) -> u32 {
    packed & 1023
}

/// Whether each state is the source of one of these ascending moves, whose sources lie below the number of states.
pub fn leave_all(moves: &[u32], states: u32) -> bool {
    let mut first_without = 0;
    for packed in moves {
        first_without += u32::from(source(*packed) == first_without);
    }
    first_without == states
}

/// What a move adds to the stamp.
pub fn weight(packed: u32) -> u32 {
    let weighed = source(packed).wrapping_mul(65_537);
    let weighed = weighed.wrapping_add(action(packed) * 4_099);
    weighed.wrapping_add(target(packed) * 257 + 1)
}

/// The stamp of a table.
pub fn stamp(moves: &[u32]) -> u32 {
    moves
        .iter()
        .fold(0, |sum, packed| sum.wrapping_add(weight(*packed)))
}
