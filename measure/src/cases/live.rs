//! A model that must not hang: each of its states has a move.

use super::Case;

/// The same model, live.
pub fn live(case: &Case) -> Case {
    Case {
        name: format!("{}, live", case.name),
        bytes: made_live(&case.bytes),
        moves: case.moves.clone(),
        sizes: case.sizes,
    }
}

/// The bytes of a model with the live record directly after the sizes.
pub fn made_live(bytes: &[u8]) -> Vec<u8> {
    let (sizes, rest) = bytes.split_at(7);
    [sizes, &[10], rest].concat()
}
