//! The changes of a batch: read from the wire, and judged against the table.

use super::moves;
use super::records::{read as read_record, Record, Triple};
use super::sizes::{Sizes, MOST_CHANGES, MOST_MOVES};
use crate::answers::{demand, refuse, Refusal};
use crate::rooms::Rooms;

/// An insert or a delete of a packed move.
#[derive(Clone, Copy, Debug)]
pub struct Change {
    pub insert: bool,
    pub packed: u32,
}

/// Where the record of the i-th change stands.
fn place(i: usize) -> usize {
    5 + 6 * i
}

/// The stamp and the changes, or 1 to 4.
pub fn read(bytes: &[u8], sizes: Sizes) -> Result<(u32, Vec<Change>), Refusal> {
    let Some((first, mut at)) = read_record(bytes, 0) else {
        return refuse(1, 0);
    };
    let Record::Stamp(stamp) = first else {
        return refuse(2, 0);
    };
    let mut changes = Vec::with_capacity(MOST_CHANGES);
    loop {
        let Some((record, next)) = read_record(bytes, at) else {
            return refuse(1, at);
        };
        let (insert, named) = match record {
            Record::Insert(named) => (true, named),
            Record::Delete(named) => (false, named),
            Record::End => {
                demand(next == bytes.len(), 2, next)?;
                return Ok((stamp, changes));
            }
            _ => return refuse(2, at),
        };
        demand(changes.len() < MOST_CHANGES, 3, at)?;
        changes.push(change(insert, named, sizes, at)?);
        at = next;
    }
}

/// One change, its numbers in range.
fn change(insert: bool, named: Triple, sizes: Sizes, at: usize) -> Result<Change, Refusal> {
    let Triple {
        source,
        action,
        target,
    } = named;
    demand(sizes.hold_move(source, action, target), 4, at)?;
    let packed = moves::pack(source, action, target);
    Ok(Change { insert, packed })
}

/// Asks 11, then 9, then 7 and 8, then 10, then 16.
pub fn judge(stamp: u32, changes: &[Change], rooms: &Rooms) -> Result<(), Refusal> {
    let table = rooms.table();
    demand(stamp == rooms.stamp(), 11, 0)?;
    if let Some(i) = first_repeat(changes) {
        return refuse(9, place(i));
    }
    for (i, change) in changes.iter().enumerate() {
        let present = table.binary_search(&change.packed).is_ok();
        demand(!(change.insert && present), 7, place(i))?;
        demand(change.insert || present, 8, place(i))?;
    }
    let inserts = changes.iter().filter(|change| change.insert).count();
    let after = table.len() + inserts - (changes.len() - inserts);
    demand(after <= MOST_MOVES.min(rooms.moves.len()), 10, 0)?;
    demand(!rooms.is_live() || keep_all(changes, table), 16, 0)
}

/// Whether each state that loses a move has one left or gains one. In the table every state has a move.
fn keep_all(changes: &[Change], table: &[u32]) -> bool {
    let mut deletes = changes.iter().filter(|change| !change.insert);
    deletes.all(|change| {
        let state = moves::source(change.packed);
        let before = table.partition_point(|m| moves::source(*m) < state);
        let held = table[before..].partition_point(|m| moves::source(*m) == state);
        let own = changes.iter().filter(|c| moves::source(c.packed) == state);
        let grown: i32 = own.map(|c| if c.insert { 1 } else { -1 }).sum();
        held as i32 + grown > 0
    })
}

/// The first change that names a move which an earlier one names.
fn first_repeat(changes: &[Change]) -> Option<usize> {
    let mut named: Vec<(u32, usize)> = changes.iter().map(|c| c.packed).zip(0..).collect();
    named.sort_unstable();
    let again = named.windows(2).filter(|two| two[0].0 == two[1].0);
    again.map(|two| two[1].1).min()
}
