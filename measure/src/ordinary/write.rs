//! The spelling of the model that a session holds.

use super::equation::Equation;
use super::moves;
use super::sizes::Sizes;
use crate::rooms::Rooms;

/// How many bytes the spelling has.
pub fn length(sizes: Sizes, rooms: &Rooms) -> usize {
    let labels = &rooms.labels[..sizes.states as usize];
    let labelled = labels.iter().filter(|set| **set != 0).count();
    let (variables, blocks) = (sizes.variables as usize, sizes.blocks as usize);
    let equations = match blocks {
        0 => 5 * variables,
        _ => 3 * blocks + 4 * variables,
    };
    let live = usize::from(rooms.is_live());
    7 + live + 7 * labelled + equations + 6 * rooms.table().len() + 1
}

/// A room that is written from its front on.
struct Out<'a> {
    left: &'a mut [u8],
}

impl Out<'_> {
    /// Puts down the next bytes.
    fn put<const N: usize>(&mut self, bytes: [u8; N]) {
        let left = std::mem::take(&mut self.left);
        let (here, rest) = left.split_at_mut(N);
        here.copy_from_slice(&bytes);
        self.left = rest;
    }
}

/// Writes the spelling of a checked session into a room of just its length.
pub fn spell(sizes: Sizes, rooms: &Rooms, out: &mut [u8]) {
    let mut out = Out {
        left: spell_front(sizes, rooms, out),
    };
    for packed in rooms.table() {
        let [s, t, ..] = moves::source(*packed).to_le_bytes();
        let [u, v, ..] = moves::target(*packed).to_le_bytes();
        out.put([5, s, t, moves::action(*packed) as u8, u, v]);
    }
    out.put([6]);
}

/// Writes all that comes before the moves, and gives what is left of the room.
pub fn spell_front<'a>(sizes: Sizes, rooms: &Rooms, out: &'a mut [u8]) -> &'a mut [u8] {
    let mut out = Out { left: out };
    let [low, high, ..] = sizes.states.to_le_bytes();
    let [actions, propositions, variables, blocks] = [
        sizes.actions,
        sizes.propositions,
        sizes.variables,
        sizes.blocks,
    ]
    .map(|n| n as u8);
    out.put([1, low, high, actions, propositions, variables, blocks]);
    if rooms.is_live() {
        out.put([10]);
    }
    spell_labels(&rooms.labels[..sizes.states as usize], &mut out);
    let equations = &rooms.equations[..sizes.variables as usize];
    match sizes.blocks {
        0 => spell_signed(equations, &mut out),
        _ => spell_blocks(equations, &mut out),
    }
    out.left
}

/// The label records.
fn spell_labels(labels: &[u32], out: &mut Out) {
    for (state, set) in labels.iter().enumerate().filter(|(_, set)| **set != 0) {
        let [s, t] = (state as u16).to_le_bytes();
        let [a, b, c, d] = set.to_le_bytes();
        out.put([2, s, t, a, b, c, d]);
    }
}

/// The equation records with their signs.
fn spell_signed(words: &[u32], out: &mut Out) {
    for word in words {
        let [operator, first, second, top] = word.to_le_bytes();
        out.put([11, top & 1, operator, first, second]);
    }
}

/// The block records, each with its equations.
fn spell_blocks(words: &[u32], out: &mut Out) {
    for block in words.chunk_by(|one, next| one >> 24 == next >> 24) {
        let kind = Equation::unpack(block[0]).greatest;
        out.put([3, kind.into(), block.len() as u8]);
        for word in block {
            let [operator, first, second, _] = word.to_le_bytes();
            out.put([4, operator, first, second]);
        }
    }
}
