//! A batch: how it is read, judged against the table, and carried out.

use std::collections::BTreeSet;

use crate::limits::{MOST_CHANGES, MOST_MOVES};
use crate::model::Model;
use crate::records::{Reader, Record, Sizes};
use crate::refusal::{demand, refuse, Refusal};
use crate::session::{check_to_work, Session};
use crate::table::{stamp, Move};
use crate::update::{update, Act, Change};

/// A batch as read: its stamp, and its changes in order, each with the place of its record.
#[derive(Clone, Debug, PartialEq, Eq)]
pub struct Batch {
    pub stamp: u32,
    pub changes: Vec<(usize, Change)>,
}

/// The answer to an accepted batch.
#[derive(Clone, Copy, Debug, PartialEq, Eq)]
pub struct Updated {
    /// True pairs after less true pairs before.
    pub net: i64,
    /// Leanings inside one group on shifted pairs.
    pub shift_visits: usize,
    /// Leanings inside one group on settled pairs.
    pub settle_visits: usize,
    /// How many pairs are true now.
    pub true_pairs: usize,
    /// How many pairs there are.
    pub pairs: usize,
    /// The stamp of the table now.
    pub stamp: u32,
}

/// Reads a batch record by record, refusing with 1 to 4 for what can be seen without the table.
pub fn read_batch(bytes: &[u8], sizes: &Sizes) -> Result<Batch, Refusal> {
    let mut reader = Reader::new(bytes);
    let (place, record) = reader.record()?;
    let Record::Stamp(stamp) = record else {
        return refuse(2, place);
    };
    let mut changes = Vec::new();
    loop {
        let (place, record) = reader.record()?;
        let (act, what) = match record {
            Record::Insert(what) => (Act::Insert, what),
            Record::Delete(what) => (Act::Delete, what),
            Record::End => break,
            _ => return refuse(2, place),
        };
        demand(changes.len() < MOST_CHANGES, 3, place)?;
        demand(sizes.holds_move(what), 4, place)?;
        changes.push((place, Change { act, what }));
    }
    reader.nothing_left()?;
    Ok(Batch { stamp, changes })
}

/// Judges a batch against the model that it meets: 11, then 9, then 7 and 8 in batch order, then
/// 10, then 16. Gives the model after the batch, its moves in order.
pub fn judge(batch: &Batch, model: Model, room: usize) -> Result<Model, Refusal> {
    let moves = edited(batch, &model.moves)?;
    demand(moves.len() <= MOST_MOVES.min(room), 10, 0)?;
    let after = Model { moves, ..model };
    demand(!after.hangs(), 16, 0)?;
    Ok(after)
}

/// The table after a batch, in order: asks 11, then 9, then 7 and 8 in batch order.
fn edited(batch: &Batch, table: &[Move]) -> Result<Vec<Move>, Refusal> {
    demand(batch.stamp == stamp(table), 11, 0)?;
    let mut named = BTreeSet::new();
    for (place, change) in &batch.changes {
        demand(named.insert(change.what), 9, *place)?;
    }
    let old: BTreeSet<Move> = table.iter().copied().collect();
    let mut new = old.clone();
    for (place, change) in &batch.changes {
        match change.act {
            Act::Insert => {
                demand(!old.contains(&change.what), 7, *place)?;
                new.insert(change.what);
            }
            Act::Delete => {
                demand(old.contains(&change.what), 8, *place)?;
                new.remove(&change.what);
            }
        }
    }
    Ok(new.into_iter().collect())
}

/// Carries out a batch on the session: asks 12, 13 and 12, reads and judges the batch, then moves
/// the table, the values and the marks, and leaves the rooms to work in cleared. The flag stays. A
/// refusal changes nothing.
pub fn batch(session: &mut Session, bytes: &[u8]) -> Result<Updated, Refusal> {
    let model = check_to_work(session)?;
    let batch = read_batch(bytes, &model.sizes)?;
    let model = judge(&batch, model, session.moves.len())?;
    let pairs = model.sizes.pairs();
    let old: Vec<bool> = session.values[..pairs].iter().map(|v| *v == 1).collect();
    let changes: Vec<Change> = batch.changes.iter().map(|(_, change)| *change).collect();
    let outcome = update(&model, &changes, &old);
    session.store_values(&outcome.values, &outcome.marks);
    let places_before = session.move_count;
    session.store_moves(&model.moves);
    for place in model.moves.len()..places_before {
        session.moves[place] = Move::default();
    }
    session.clear_work();
    let stamp = stamp(&model.moves);
    session.stamp = session.stamp.map(|_| stamp);
    Ok(Updated {
        net: outcome.net,
        shift_visits: outcome.shift_visits,
        settle_visits: outcome.settle_visits,
        true_pairs: session.true_pairs(),
        pairs,
        stamp,
    })
}
