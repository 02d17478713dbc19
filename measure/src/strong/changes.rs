//! The changes of a batch: a quick test of its bytes against the table, with the ordinary judge behind it for the refusal.

use crate::answers::Refusal;
use crate::ordinary::changes as full;
use crate::ordinary::moves::{pack, source};
use crate::ordinary::sizes::{Sizes, MOST_CHANGES, MOST_MOVES};
use crate::rooms::Rooms;

/// Good changes, ascending: 2 × packed move, and 1 more for an insert.
pub struct Changes {
    words: [u32; MOST_CHANGES],
    /// Where each move stands in the table before the batch, or would stand.
    places: [u16; MOST_CHANGES],
    count: usize,
    /// The set of the actions.
    actions: u64,
}

/// The changes of a good batch, or what it is refused with.
pub fn read(bytes: &[u8], sizes: Sizes, rooms: &Rooms) -> Result<Changes, Refusal> {
    if let Some(changes) = quick(bytes, sizes, rooms) {
        return Ok(changes);
    }
    let (stamp, changes) = full::read(bytes, sizes)?;
    full::judge(stamp, &changes, rooms)?;
    unreachable!("the quick test takes every good batch")
}

/// The changes, where nothing is wrong with them.
fn quick(bytes: &[u8], sizes: Sizes, rooms: &Rooms) -> Option<Changes> {
    let (first, rest) = bytes.split_first_chunk::<5>()?;
    let (end, records) = rest.split_last()?;
    let [7, stamp @ ..] = *first else {
        return None;
    };
    let count = records.len() / 6;
    let spelt = *end == 6 && records.len() % 6 == 0 && count <= MOST_CHANGES;
    if !spelt || u32::from_le_bytes(stamp) != rooms.stamp() {
        return None;
    }
    let mut changes = Changes {
        words: [0; MOST_CHANGES],
        places: [0; MOST_CHANGES],
        count,
        actions: 0,
    };
    let good = changes.read(records, sizes) && changes.fit(rooms);
    good.then_some(changes)
}

impl Changes {
    /// Each move and whether it is inserted.
    pub fn iter(&self) -> impl DoubleEndedIterator<Item = (u32, bool)> + '_ {
        let words = self.words[..self.count].iter();
        words.map(|word| (word >> 1, word & 1 == 1))
    }

    /// Where the inserted or the deleted moves stand in the table before the batch.
    pub fn places(&self, inserts: bool) -> impl Iterator<Item = usize> + '_ {
        let all = self.iter().zip(&self.places);
        let some = all.filter(move |((_, insert), _)| *insert == inserts);
        some.map(|(_, place)| usize::from(*place))
    }

    /// How many moves are inserted.
    pub fn inserts(&self) -> usize {
        self.iter().filter(|(_, insert)| *insert).count()
    }

    /// Whether some change has an action.
    pub fn touch(&self, action: u32) -> bool {
        self.actions >> action & 1 == 1
    }

    /// Reads the records, and tells whether each is a change in range and none names the same move as another.
    fn read(&mut self, records: &[u8], sizes: Sizes) -> bool {
        let words = &mut self.words[..self.count];
        let mut good = true;
        for (word, record) in words.iter_mut().zip(records.as_chunks::<6>().0) {
            let [kind, s, t, action, u, v] = *record;
            let source = u32::from(u16::from_le_bytes([s, t]));
            let target = u32::from(u16::from_le_bytes([u, v]));
            let action = u32::from(action);
            good &= (kind == 8 || kind == 9) && sizes.hold_move(source, action, target);
            *word = pack(source, action, target) << 1 | u32::from(kind == 8);
            self.actions |= 1 << (action & 63);
        }
        words.sort_unstable();
        let mut twos = words.windows(2);
        good && twos.all(|two| two[0] >> 1 != two[1] >> 1)
    }

    /// Finds the places in the table, and tells whether inserts are absent, deletes present, the room long enough and no
    /// state left without a move where that must not be.
    fn fit(&mut self, rooms: &Rooms) -> bool {
        let table = rooms.table();
        let mut good = true;
        for (place, word) in self.places.iter_mut().zip(&self.words[..self.count]) {
            let found = table.partition_point(|m| *m < word >> 1);
            let present = table.get(found) == Some(&(word >> 1));
            good &= present != (word & 1 == 1);
            *place = found as u16;
        }
        let inserts = self.inserts();
        let after =
            table.len() + inserts <= MOST_MOVES.min(rooms.moves.len()) + self.count - inserts;
        good && after && (!rooms.is_live() || self.keep_all(table))
    }

    /// Whether each state that loses a move has one left or gains one. In the table every state has a move.
    fn keep_all(&self, table: &[u32]) -> bool {
        let words = &self.words[..self.count];
        let mut states = words.chunk_by(|one, next| source(one >> 1) == source(next >> 1));
        states.all(|own| {
            let state = source(own[0] >> 1);
            let inserts = own.iter().filter(|word| *word & 1 == 1).count();
            let before = table.partition_point(|m| source(*m) < state);
            let held = table[before..].partition_point(|m| source(*m) == state);
            held + inserts > own.len() - inserts
        })
    }
}
