//! The changes made in the sorted table of moves: deletes first, so that they make room.

use super::changes::Change;
use super::moves;
use crate::rooms::Rooms;

/// Makes judged changes; places freed at the end of the table become 0, and the session's count and stamp follow.
pub fn apply(changes: &[Change], rooms: &mut Rooms) {
    let mut count = rooms.session[5] as usize;
    let mut stamp = rooms.session[6];
    for change in changes.iter().filter(|change| !change.insert) {
        remove(&mut rooms.moves[..count], change.packed);
        stamp = stamp.wrapping_sub(moves::weight(change.packed));
        count -= 1;
    }
    for change in changes.iter().filter(|change| change.insert) {
        insert(&mut rooms.moves[..count + 1], change.packed);
        stamp = stamp.wrapping_add(moves::weight(change.packed));
        count += 1;
    }
    rooms.session[5] = count as u32;
    rooms.session[6] = stamp;
}

/// Takes a move that is there out of the table.
fn remove(table: &mut [u32], packed: u32) {
    let at = table.partition_point(|m| *m < packed);
    table.copy_within(at + 1.., at);
    table[table.len() - 1] = 0;
}

/// Puts a move into a table whose last place is free.
fn insert(table: &mut [u32], packed: u32) {
    let last = table.len() - 1;
    let at = table[..last].partition_point(|m| *m < packed);
    table.copy_within(at..last, at + 1);
    table[at] = packed;
}
