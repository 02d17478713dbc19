//! Live models: a move for every state, models in which a state hangs, and batches that turn over
//! the moves of one state.

use std::collections::BTreeSet;

use crate::limits::{MOST_CHANGES, MOST_MOVES};
use crate::random::Random;
use crate::records::{Record, Sizes};
use crate::table::{hanging, stamp, Move, State};

use super::models::{any_move, put_moves, sizes_of, take_moves};
use super::Intent;

/// A move of a given state.
fn own_move(random: &mut Random, sizes: &Sizes, state: State) -> Move {
    Move {
        source: state,
        ..any_move(random, sizes)
    }
}

/// A move from any other state into a given one, where there is another.
fn move_into(random: &mut Random, sizes: &Sizes, state: State) -> Move {
    let m = Move {
        target: state,
        ..any_move(random, sizes)
    };
    not_from(m, sizes, state)
}

/// The move with the next source where it has the given one, which needs a second state.
fn not_from(m: Move, sizes: &Sizes, state: State) -> Move {
    if m.source == state {
        let source = State((state.0 + 1) % sizes.states);
        return Move { source, ..m };
    }
    m
}

/// Adds a move for each state that has none.
pub fn give_each_a_move(random: &mut Random, sizes: &Sizes, moves: &mut BTreeSet<Move>) {
    for state in (0..sizes.states).map(State) {
        if moves.iter().all(|m| m.source != state) {
            moves.insert(own_move(random, sizes, state));
        }
    }
}

/// 16 in a model: it is live, and one state, now and then another one or every one, has no move.
/// Most often a move leads into the first of them.
pub fn hang_model(random: &mut Random, records: &mut Vec<Record>) {
    let sizes = sizes_of(records);
    if records[1] != Record::Live {
        records.insert(1, Record::Live);
    }
    let mut moves = take_moves(records);
    let any = random.below(usize::from(sizes.states)) as u16;
    let state = State(random.pick(&[0, sizes.states - 1, any, any]));
    moves.retain(|m| m.source != state);
    match random.below(10) {
        0 => moves.clear(),
        1 => moves.retain(|m| m.source.0 != any),
        2 => {}
        _ if sizes.states > 1 && moves.len() < MOST_MOVES => {
            moves.insert(move_into(random, &sizes, state));
        }
        _ => {}
    }
    put_moves(records, moves);
}

/// Puts kind 10 where it isn't due: in front, directly after the sizes once more, or further on.
pub fn put_stray(random: &mut Random, records: &mut Vec<Record>) {
    if random.chance(40) && records[1] != Record::Live {
        records.insert(1, Record::Live);
    }
    let any = random.below(records.len());
    let at = random.pick(&[0, 0, 1, 2, any, any]);
    let due = at == 1 && records[1] != Record::Live;
    records.insert(if due { 2 } else { at }, Record::Live);
}

/// The table after deletes and inserts, in no order.
fn after(table: &[Move], deletes: &[Move], inserts: &[Move]) -> Vec<Move> {
    let kept = table.iter().filter(|m| !deletes.contains(m));
    kept.chain(inserts).copied().collect()
}

/// Takes deletes out of a batch against a live table until each state keeps or gets a move, and
/// inserts that have no room then.
pub fn spare(sizes: &Sizes, table: &[Move], deletes: &mut Vec<Move>, inserts: &mut Vec<Move>) {
    while let Some(state) = hanging(sizes.states, &after(table, deletes, inserts)) {
        let Some(at) = deletes.iter().position(|m| m.source == state) else {
            return;
        };
        deletes.swap_remove(at);
        inserts.truncate(MOST_MOVES + deletes.len() - table.len());
    }
}

/// What else a batch does that deletes the moves of one state.
#[derive(Clone, Copy, Debug, PartialEq, Eq)]
enum Turn {
    /// Nothing.
    Empty,
    /// It inserts moves into the state.
    Into,
    /// It leaves one of the moves.
    Spare,
    /// It inserts another move of the state.
    Replace,
    /// It inserts moves of other states, so many that the table is full.
    Brim,
    /// It inserts one more than that.
    Overflow,
}

use Turn::{Brim, Empty, Into, Overflow, Replace, Spare};

/// Moves that a draw gives and that the table hasn't, this many, if a few draws for each find them.
fn absent(
    random: &mut Random,
    table: &[Move],
    count: usize,
    draw: impl Fn(&mut Random) -> Move,
) -> Option<Vec<Move>> {
    let mut found = BTreeSet::new();
    for _ in 0..20 * count {
        let m = draw(random);
        if found.len() < count && table.binary_search(&m).is_err() {
            found.insert(m);
        }
    }
    (found.len() == count).then(|| found.into_iter().collect())
}

/// The inserts of a turn, and what must become of the batch. Nothing where there is no way to.
fn turned(
    random: &mut Random,
    sizes: &Sizes,
    table: &[Move],
    own: &mut Vec<Move>,
    turn: Turn,
) -> Option<(Vec<Move>, Intent)> {
    let state = own[0].source;
    let full = MOST_MOVES + own.len() - table.len();
    let elsewhere = |r: &mut Random| not_from(any_move(r, sizes), sizes, state);
    let inserts = match turn {
        Spare if own.len() < 2 => return None,
        Into | Brim | Overflow if sizes.states < 2 => return None,
        Empty => vec![],
        Spare => {
            own.pop();
            vec![]
        }
        Into => absent(random, table, 1, |r| move_into(r, sizes, state))?,
        Replace => absent(random, table, 1, |r| own_move(r, sizes, state))?,
        Brim => absent(random, table, full, elsewhere)?,
        Overflow => absent(random, table, full + 1, elsewhere)?,
    };
    let intent = match turn {
        Spare | Replace => Intent::Updated,
        Empty | Into | Brim => Intent::Refused(16),
        Overflow => Intent::Refused(10),
    };
    Some((inserts, intent))
}

/// A batch against a live table that deletes the moves of one state, and what must become of it.
/// Nothing where a few draws don't lead to one.
pub fn turnover(
    random: &mut Random,
    sizes: &Sizes,
    table: &[Move],
) -> Option<(Vec<Record>, Intent)> {
    let turn = match table.len() + 40 > MOST_MOVES {
        true => random.pick(&[Empty, Into, Spare, Replace, Brim, Brim, Overflow, Overflow]),
        false => random.pick(&[Empty, Into, Spare, Replace, Replace]),
    };
    let state = random.pick(table).source;
    let of_state = table.iter().filter(|m| m.source == state);
    let mut own: Vec<Move> = of_state.copied().collect();
    random.shuffle(&mut own);
    let (inserts, intent) = turned(random, sizes, table, &mut own, turn)?;
    let mut changes: Vec<Record> = own.into_iter().map(Record::Delete).collect();
    changes.extend(inserts.into_iter().map(Record::Insert));
    if changes.len() > MOST_CHANGES {
        return None;
    }
    random.shuffle(&mut changes);
    let mut records = vec![Record::Stamp(stamp(table))];
    records.extend(changes);
    records.push(Record::End);
    Some((records, intent))
}
