//! The models that are timed, and the batches that are applied to them.

mod crowded;
mod eight;
mod grid;
mod halves;
mod live;
mod maximal;
mod signs;

use reference::records::spell_all;
use reference::{stamp, Action, Block, Equation, Move, Record, Sizes, State};

pub use crowded::crowded;
pub use eight::{eight, led_elsewhere, Touched};
pub use grid::{grid, MIXED_RULE, STRICT_RULE};
pub use halves::halves;
pub use live::{live, made_live};
pub use maximal::maximal;
pub use signs::{rewritten, signs};

/// A model by name, as bytes, and its moves.
pub struct Case {
    pub name: String,
    pub bytes: Vec<u8>,
    pub moves: Vec<Move>,
    pub sizes: Sizes,
}

/// A block: 0 for least and 1 for greatest, and its equations as operator, first, second.
type Rule = [(u8, Vec<[u8; 3]>)];

/// A model from its parts; variables and blocks are counted from the rule.
fn case(name: &str, counts: [u16; 3], labels: &[u32], rule: &Rule, moves: Vec<Move>) -> Case {
    let variables: usize = rule.iter().map(|(_, equations)| equations.len()).sum();
    let sizes = Sizes {
        states: counts[0],
        actions: counts[1] as u8,
        propositions: counts[2] as u8,
        variables: variables as u8,
        blocks: rule.len() as u8,
    };
    let mut records = vec![Record::Sizes(sizes)];
    for (state, set) in (0..).zip(labels).filter(|(_, set)| **set != 0) {
        let (state, set) = (State(state), *set);
        records.push(Record::Label { state, set });
    }
    for (kind, equations) in rule {
        let (kind, variables) = (*kind, equations.len() as u8);
        records.push(Record::Block(Block { kind, variables }));
        records.extend(equations.iter().map(equation));
    }
    records.extend(moves.iter().map(|m| Record::Move(*m)));
    records.push(Record::End);
    Case {
        name: name.to_string(),
        bytes: spell_all(&records),
        moves,
        sizes,
    }
}

/// An equation record.
fn equation(parts: &[u8; 3]) -> Record {
    let [operator, first, second] = *parts;
    Record::Equation(Equation {
        operator,
        first,
        second,
    })
}

/// A batch and the one that undoes it.
pub struct ThereAndBack {
    pub there: Vec<u8>,
    pub back: Vec<u8>,
}

impl Case {
    /// The deletion of some moves that are there with the insertion of some that are not, and the way back.
    pub fn changes(&self, deleted: &[Move], inserted: &[Move]) -> ThereAndBack {
        let mut after: Vec<Move> = self.moves.clone();
        after.retain(|m| !deleted.contains(m));
        after.extend(inserted);
        ThereAndBack {
            there: batch(stamp(&self.moves), deleted, inserted),
            back: batch(stamp(&after), inserted, deleted),
        }
    }

    /// So many of the moves, evenly spread over the table, by turns from even and odd places: on the grid these are the writer's
    /// and the reader's.
    pub fn spread(&self, count: usize) -> Vec<Move> {
        let step = self.moves.len() / count;
        let odd = |i: usize| if step > 1 { i % 2 } else { 0 };
        (0..count).map(|i| self.moves[i * step + odd(i)]).collect()
    }

    /// So many moves that are not in the table, spread over the states and actions.
    pub fn absent(&self, count: usize) -> Vec<Move> {
        let states = usize::from(self.sizes.states);
        let drawn = (0..).map(|i: usize| Move {
            source: State((i * 37 % states) as u16),
            action: Action((i * 11 % usize::from(self.sizes.actions)) as u8),
            target: State((i * 101 % states) as u16),
        });
        let absent = drawn.filter(|m| self.moves.binary_search(m).is_err());
        absent.take(count).collect()
    }
}

/// A batch of deletes and then inserts.
fn batch(stamp: u32, deleted: &[Move], inserted: &[Move]) -> Vec<u8> {
    let mut records = vec![Record::Stamp(stamp)];
    records.extend(deleted.iter().map(|m| Record::Delete(*m)));
    records.extend(inserted.iter().map(|m| Record::Insert(*m)));
    records.push(Record::End);
    spell_all(&records)
}
