//! The spelling of the model that a session holds. All but the moves is spelt as the ordinary version does.

use crate::ordinary::moves::{action, source, target};
use crate::ordinary::sizes::Sizes;
use crate::ordinary::write::spell_front;
use crate::rooms::Rooms;

pub use crate::ordinary::write::length;

/// Writes the spelling of a checked session into a room of just its length.
pub fn spell(sizes: Sizes, rooms: &Rooms, out: &mut [u8]) {
    let table = rooms.table();
    let (front, moves) = out.split_at_mut(out.len() - 6 * table.len() - 1);
    spell_front(sizes, rooms, front);
    let (records, end) = moves.as_chunks_mut::<6>();
    for (record, packed) in records.iter_mut().zip(table) {
        let [s, t, ..] = source(*packed).to_le_bytes();
        let [u, v, ..] = target(*packed).to_le_bytes();
        *record = [5, s, t, action(*packed) as u8, u, v];
    }
    end.fill(6);
}
