//! The author of a stream: adds batch after batch and follows what becomes of them.

use std::collections::BTreeSet;
use std::ops::Range;

use crate::batch::batch;
use crate::limits::{MOST_CHANGES, MOST_MOVES};
use crate::model::load;
use crate::program::cut;
use crate::random::Random;
use crate::records::{spell_all, Record};
use crate::session::Session;
use crate::table::{stamp, Move, State};

use super::damage::damage;
use super::faults::{cut_or_unknown, Draft, BATCH_NUMBERS};
use super::live::{spare, turnover};
use super::models::any_move;
use super::{Family, Intent};

/// The author: the stream so far, the session that a reader of it would have now, and the
/// habits of this stream.
pub struct Author {
    random: Random,
    family: Family,
    bytes: Vec<u8>,
    intents: Vec<(Range<usize>, Intent)>,
    session: Session,
    /// Moves deleted earlier, which are put back with some likelihood.
    deleted: Vec<Move>,
    /// The number of moves that the table is kept near.
    target: usize,
    /// How many batches in a hundred aren't good.
    trouble: usize,
    /// Set once the bytes so far don't end with a whole part.
    over: bool,
}

impl Author {
    /// Starts a stream with a good model.
    pub fn new(mut random: Random, family: Family, model: &[Record]) -> Author {
        let bytes = spell_all(model);
        let mut session = Session::roomy();
        let over = load(&mut session, &bytes).is_err();
        let target = session.move_count;
        let trouble = random.pick(&[0, 5, 30, 60]);
        Author {
            random,
            family,
            intents: vec![(0..bytes.len(), Intent::Loaded)],
            bytes,
            session,
            deleted: vec![],
            target,
            trouble,
            over,
        }
    }

    /// Gives the stream up, with what is known of its parts.
    pub fn finish(self) -> (Vec<u8>, Vec<(Range<usize>, Intent)>) {
        (self.bytes, self.intents)
    }

    /// Adds as many batches as suit the family, and now and then a last one that is cut off.
    pub fn write_batches(&mut self) {
        let most = match self.family {
            Family::Tiny | Family::Small => self.random.pick(&[3, 20, 60, 200]),
            Family::Large => self.random.pick(&[3, 10, 25]),
            _ => self.random.pick(&[5, 20, 60]),
        };
        for _ in 0..self.random.between(1, most) {
            self.write_batch();
        }
        if self.random.chance(15) {
            self.write_broken();
        }
    }

    /// Adds batches until the stream is longer than the limit. Every other time one refused
    /// batch is made to end exactly there, or a byte to either side.
    pub fn write_past(&mut self, limit: usize) {
        let exact = self.random.chance(50);
        while self.bytes.len() <= limit + 400 && !self.over {
            let gap = (limit + self.random.pick(&[0, 0, 1])).saturating_sub(self.bytes.len());
            if exact && (50..=900).contains(&gap) {
                let short = self.random.below(2);
                self.write_filler(gap - short);
                self.write_batch();
                return;
            }
            self.write_batch();
        }
    }

    /// Adds one batch of any sort.
    fn write_batch(&mut self) {
        if self.over {
            return;
        }
        if self.is_live() && self.random.chance(20) {
            return self.write_turnover();
        }
        if !self.random.chance(self.trouble) {
            return self.write_good();
        }
        match self.random.below(10) {
            0..=5 => {
                let number = self.fault();
                self.write_faulty(&[number]);
            }
            6..=7 => {
                let numbers = [0, 1].map(|_| self.fault());
                self.write_faulty(&numbers);
            }
            _ => self.write_damaged(),
        }
    }

    /// Whether the session is live.
    fn is_live(&self) -> bool {
        self.session.live == 1
    }

    /// The number of a fault: 10 more often where the table is nearly full, 16 where it is live.
    fn fault(&mut self) -> u8 {
        let brimming = self.session.move_count + 3 > MOST_MOVES;
        if brimming && self.random.chance(40) {
            10
        } else if self.is_live() && self.random.chance(20) {
            16
        } else {
            self.random.pick(&BATCH_NUMBERS)
        }
    }

    /// Adds a part, remembers what must become of it if that is known, and follows it.
    fn add(&mut self, part: &[u8], intent: Option<Intent>) {
        let start = self.bytes.len();
        self.bytes.extend(part);
        if let Some(intent) = intent {
            self.intents.push((start..self.bytes.len(), intent));
        }
        let mut rest = part;
        while let Some(length) = cut(rest) {
            let before = self.session.table().to_vec();
            let accepted = batch(&mut self.session, &rest[..length]).is_ok();
            if accepted {
                let now = self.session.table();
                let gone = before.iter().filter(|m| now.binary_search(m).is_err());
                self.deleted.extend(gone);
            }
            rest = &rest[length..];
        }
        self.over = !rest.is_empty();
    }

    /// Adds a good batch.
    fn write_good(&mut self) {
        let records = self.good();
        self.add(&spell_all(&records), Some(Intent::Updated));
    }

    /// Adds a batch that turns over the moves of one state of a live table, or a good one where
    /// none is found.
    fn write_turnover(&mut self) {
        let table = self.session.table().to_vec();
        match turnover(&mut self.random, &self.session.sizes, &table) {
            Some((records, intent)) => self.add(&spell_all(&records), Some(intent)),
            None => self.write_good(),
        }
    }

    /// Adds a batch with the faults of these numbers. The outcome is known where there is one
    /// fault and it could be put in.
    fn write_faulty(&mut self, numbers: &[u8]) {
        let mut draft = Draft {
            sizes: self.session.sizes,
            live: self.is_live(),
            table: self.session.table().to_vec(),
            records: self.good(),
        };
        let mut done = true;
        for number in numbers {
            done &= draft.put_fault(&mut self.random, *number);
        }
        let known = done && numbers.len() == 1;
        let intent = known.then(|| Intent::Refused(numbers[0]));
        let records = draft.records;
        self.add(&spell_all(&records), intent);
    }

    /// Adds a good batch that was damaged blindly, if what is left still ends with a whole part.
    fn write_damaged(&mut self) {
        let mut part = spell_all(&self.good());
        damage(&mut self.random, &mut part, 0);
        let mut rest = &part[..];
        while let Some(length) = cut(rest) {
            rest = &rest[length..];
        }
        if rest.is_empty() {
            self.add(&part, None);
        }
    }

    /// Adds the last batch of a stream, cut short or with an unknown kind in it.
    fn write_broken(&mut self) {
        if self.over {
            return;
        }
        let records = self.good();
        let part = cut_or_unknown(&mut self.random, &records);
        let intent = (!part.is_empty()).then_some(Intent::Refused(1));
        self.add(&part, intent);
    }

    /// Adds a batch of exactly this many bytes, at least 49, that is refused for its labels.
    fn write_filler(&mut self, length: usize) {
        let labels = (length - 6) % 6;
        let inserts = (length - 6 - 7 * labels) / 6;
        let label = Record::Label {
            state: State(0),
            set: 1,
        };
        let mut records = vec![Record::Stamp(stamp(self.session.table()))];
        records.extend(vec![label; labels]);
        records.extend(vec![Record::Insert(Move::default()); inserts]);
        records.push(Record::End);
        self.add(&spell_all(&records), None);
    }

    /// How many changes the next good batch is to have: few, most often.
    fn wanted_changes(&mut self) -> usize {
        match self.random.below(100) {
            0..=3 => 0,
            4..=54 => self.random.between(1, 3),
            55..=84 => self.random.between(4, 16),
            85..=93 => self.random.between(17, 63),
            _ => MOST_CHANGES,
        }
    }

    /// The records of a good batch against the present table, in which a live one hangs no state.
    fn good(&mut self) -> Vec<Record> {
        let wanted = self.wanted_changes();
        let table = self.session.table().to_vec();
        let mut named = BTreeSet::new();
        let (mut deletes, mut inserts) = (vec![], vec![]);
        for _ in 0..3 * wanted {
            if named.len() == wanted {
                break;
            }
            let deleting = if table.len() > self.target { 60 } else { 45 };
            if self.random.chance(deleting) && !table.is_empty() {
                let m = self.random.pick(&table);
                if named.insert(m) {
                    deletes.push(m);
                }
            } else if let Some(m) = self.absent(&table) {
                if named.insert(m) {
                    inserts.push(m);
                }
            }
        }
        inserts.truncate(MOST_MOVES + deletes.len() - table.len());
        if self.is_live() {
            spare(&self.session.sizes, &table, &mut deletes, &mut inserts);
        }
        let deletes = deletes.into_iter().map(Record::Delete);
        let inserts = inserts.into_iter().map(Record::Insert);
        let mut changes: Vec<Record> = deletes.chain(inserts).collect();
        self.random.shuffle(&mut changes);
        let mut records = vec![Record::Stamp(stamp(&table))];
        records.extend(changes);
        records.push(Record::End);
        records
    }

    /// A move that isn't in the table: one deleted earlier, or any, if a few draws find one.
    fn absent(&mut self, table: &[Move]) -> Option<Move> {
        for _ in 0..20 {
            let m = if self.random.chance(45) && !self.deleted.is_empty() {
                self.random.pick(&self.deleted)
            } else {
                any_move(&mut self.random, &self.session.sizes)
            };
            if table.binary_search(&m).is_err() {
                return Some(m);
            }
        }
        None
    }
}
