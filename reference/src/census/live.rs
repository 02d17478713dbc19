//! What the census counts of live models and of kind 10.

use std::collections::BTreeSet;

use crate::batch::read_batch;
use crate::limits::MOST_MOVES;
use crate::records::{Reader, Record};
use crate::refusal::Refusal;
use crate::session::Session;
use crate::table::{hanging, Move, State};
use crate::update::Act;

/// The names that hold.
fn those(names: &[(bool, &'static str)]) -> Vec<&'static str> {
    let hold = names.iter().filter(|(holds, _)| *holds);
    hold.map(|(_, name)| *name).collect()
}

/// The names for an accepted model.
pub fn of_loaded(session: &Session) -> Vec<&'static str> {
    let live = session.live == 1;
    let signs = session.sizes.blocks == 0;
    let one_each = session.move_count == usize::from(session.sizes.states);
    those(&[
        (live, "models accepted, live"),
        (live && signs, "models accepted, live with signs"),
        (live && one_each, "models accepted, live, one move each"),
    ])
}

/// The names for a refused model.
pub fn of_refused_model(part: &[u8], refusal: Refusal) -> Vec<&'static str> {
    let place = refusal.place;
    let stray = refusal.number == 2 && part.get(place) == Some(&10);
    let hangs = refusal.number == 16;
    those(&[
        (stray && place == 0, "model refused  2, kind 10 in front"),
        (stray && place == 8, "model refused  2, kind 10 twice"),
        (stray && place > 8, "model refused  2, kind 10 later"),
        (
            hangs && led_into(part),
            "model refused 16, a move leads into the state",
        ),
    ])
}

/// Whether a move of a model leads into a state that has none.
fn led_into(part: &[u8]) -> bool {
    let mut reader = Reader::new(part);
    let mut moves = Vec::new();
    while let Ok((_, record)) = reader.record() {
        if let Record::Move(m) = record {
            moves.push(m);
        }
    }
    let sources: BTreeSet<State> = moves.iter().map(|m| m.source).collect();
    moves.iter().any(|m| !sources.contains(&m.target))
}

/// The moves that a batch inserts or deletes, as far as it can be read.
fn named(part: &[u8], session: &Session, act: Act) -> BTreeSet<Move> {
    let changes = read_batch(part, &session.sizes).map_or(vec![], |batch| batch.changes);
    let of_act = changes.iter().filter(|(_, change)| change.act == act);
    of_act.map(|(_, change)| change.what).collect()
}

/// The names for an accepted batch, by the session after it.
pub fn of_updated(part: &[u8], session: &Session) -> Vec<&'static str> {
    let live = session.live == 1;
    let deletes = named(part, session, Act::Delete);
    let inserts = named(part, session, Act::Insert);
    let only_deletes = !deletes.is_empty() && inserts.is_empty();
    let of = |moves: &BTreeSet<Move>, state| moves.iter().filter(|m| m.source == state).count();
    let replaced = |state: &State| {
        let mut own = session.table().iter().filter(|m| m.source == *state);
        of(&deletes, *state) > 0 && own.all(|m| inserts.contains(m))
    };
    let states: Vec<State> = (0..session.sizes.states).map(State).collect();
    let swapped = states.iter().any(replaced);
    let fewer = |s: &State| replaced(s) && of(&inserts, *s) < of(&deletes, *s);
    let shrunk = states.iter().any(fewer);
    those(&[
        (live, "batches accepted, live"),
        (
            live && only_deletes,
            "batches accepted, live, nothing but deletes",
        ),
        (
            live && swapped,
            "batches accepted, live, all moves of a state replaced",
        ),
        (
            live && shrunk,
            "batches accepted, live, all moves of a state replaced by fewer",
        ),
    ])
}

/// The names for a refused batch, by the session that it met.
pub fn of_refused_batch(part: &[u8], refusal: Refusal, session: &Session) -> Vec<&'static str> {
    let live = session.live == 1;
    let deletes = named(part, session, Act::Delete);
    let inserts = named(part, session, Act::Insert);
    let kept = session.table().iter().filter(|m| !deletes.contains(m));
    let after: Vec<Move> = kept.chain(&inserts).copied().collect();
    let hangs = live && hanging(session.sizes.states, &after).is_some();
    let is = |number: u8| refusal.number == number;
    let stray = is(2) && part.get(refusal.place) == Some(&10);
    those(&[
        (stray, "batch refused  2, kind 10"),
        (hangs && is(7), "batch refused  7, hangs too"),
        (hangs && is(8), "batch refused  8, hangs too"),
        (hangs && is(9), "batch refused  9, hangs too"),
        (hangs && is(10), "batch refused 10, hangs too"),
        (hangs && is(11), "batch refused 11, hangs too"),
        (
            is(16) && inserts.is_empty(),
            "batch refused 16, nothing but deletes",
        ),
        (
            is(16) && !inserts.is_empty(),
            "batch refused 16, inserts too",
        ),
        (
            is(16) && after.len() == MOST_MOVES,
            "batch refused 16, 1,024 moves after",
        ),
    ])
}
