//! The changes made in the sorted table of moves: each stretch between two of them is moved once to close the gaps of the
//! deletes, and once to make room for the inserts.

use super::changes::Changes;
use crate::ordinary::moves::weight;
use crate::rooms::Rooms;

/// Makes judged changes; places freed at the end of the table become 0, and the session's count and stamp follow.
pub fn apply(changes: &Changes, rooms: &mut Rooms) {
    let count = rooms.session[5] as usize;
    let left = take_out(changes, &mut rooms.moves[..count]);
    let after = left + changes.inserts();
    put_in(changes, &mut rooms.moves[..after], left);
    rooms.session[5] = after as u32;
    for (packed, insert) in changes.iter() {
        let stamp = &mut rooms.session[6];
        *stamp = match insert {
            true => stamp.wrapping_add(weight(packed)),
            false => stamp.wrapping_sub(weight(packed)),
        };
    }
}

/// Takes the deleted moves out of the table, and answers how many are left.
fn take_out(changes: &Changes, table: &mut [u32]) -> usize {
    let mut places = changes.places(false).peekable();
    let Some(mut to) = places.peek().copied() else {
        return table.len();
    };
    while let Some(place) = places.next() {
        let end = places.peek().copied().unwrap_or(table.len());
        table.copy_within(place + 1..end, to);
        to += end - place - 1;
    }
    table[to..].fill(0);
    to
}

/// Puts the inserted moves into a table of which the first so many places are taken.
fn put_in(changes: &Changes, table: &mut [u32], taken: usize) {
    let mut end = taken;
    let mut to = table.len();
    for (packed, _) in changes.iter().rev().filter(|(_, insert)| *insert) {
        let place = table[..end].partition_point(|m| *m < packed);
        table.copy_within(place..end, to - (end - place));
        to -= end - place + 1;
        table[to] = packed;
        end = place;
    }
}
