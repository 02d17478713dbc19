//! Whether a session is one that load accepts.

use super::components;
use super::equation::Equation;
use super::moves;
use super::sizes::{Sizes, MOST_MOVES};
use crate::answers::{demand, Refusal};
use crate::rooms::Rooms;

/// Asks 12 for the sizes, the number of moves and the live flag, and 13 for the rooms that hold the session.
pub fn sizes(rooms: &Rooms) -> Result<Sizes, Refusal> {
    let sizes = Sizes::of(&rooms.session);
    let count = rooms.session[5] as usize;
    demand(sizes.in_limits(), 12, 0)?;
    demand(count <= MOST_MOVES.min(rooms.moves.len()), 12, 0)?;
    demand(rooms.session[7] <= 1, 12, 0)?;
    demand(sizes.fit(rooms), 13, 0)?;
    Ok(sizes)
}

/// Asks 12 for what the rooms hold.
pub fn contents(sizes: Sizes, rooms: &Rooms) -> Result<(), Refusal> {
    let good = labels_ok(sizes, &rooms.labels[..sizes.states as usize])
        && equations_ok(sizes, &rooms.equations[..sizes.variables as usize])
        && none_over(1, &rooms.values[..sizes.pairs()])
        && none_over(3, &rooms.marks[..sizes.pairs()])
        && moves_ok(sizes, rooms.table())
        && moves::stamp(rooms.table()) == rooms.stamp()
        && (!rooms.is_live() || moves::leave_all(rooms.table(), sizes.states));
    demand(good, 12, 0)
}

/// Whether every set holds known propositions only.
fn labels_ok(sizes: Sizes, labels: &[u32]) -> bool {
    sizes.hold_set(labels.iter().fold(0, |all, set| all | set))
}

/// Whether no byte is over `most`, which is one less than a power of two.
fn none_over(most: u8, bytes: &[u8]) -> bool {
    bytes.iter().fold(0, |all, byte| all | byte) <= most
}

/// Whether the moves are in range and strictly ascend.
fn moves_ok(sizes: Sizes, table: &[u32]) -> bool {
    let in_range = table.iter().fold(true, |ok, m| {
        ok & sizes.hold_move(moves::source(*m), moves::action(*m), moves::target(*m))
    });
    let ascends = table
        .windows(2)
        .fold(true, |ok, two| ok & (two[0] < two[1]));
    in_range && ascends
}

/// Whether the equations are ones that load accepts, in either style.
pub fn equations_ok(sizes: Sizes, words: &[u32]) -> bool {
    match sizes.blocks {
        0 => signed_ok(sizes, words),
        _ => blocks_ok(sizes, words),
    }
}

/// Whether each equation has the number of its component, and no component holds both signs.
fn signed_ok(sizes: Sizes, words: &[u32]) -> bool {
    let equations: Vec<Equation> = words.iter().map(|word| Equation::unpack(*word)).collect();
    let held = |e: &Equation| sizes.hold_operands(e.operator, e.first, e.second);
    if !equations.iter().all(held) {
        return false;
    }
    let numbers = components::numbers(&equations);
    let numbered = equations
        .iter()
        .map(|e| e.block)
        .eq(numbers.iter().copied());
    numbered && components::first_mixed(&equations, &numbers).is_none()
}

/// Whether the equations stand in blocks numbered from 0 on, each of one kind, and name nothing of a later block.
fn blocks_ok(sizes: Sizes, words: &[u32]) -> bool {
    let mut blocks = 0;
    let mut end = 0;
    for block in words.chunk_by(|one, next| one >> 24 == next >> 24) {
        end += block.len() as u32;
        let good = |word: &u32| {
            let e = Equation::unpack(*word);
            e.block == blocks
                && sizes.hold_operands(e.operator, e.first, e.second)
                && e.names_below(end)
        };
        if !block.iter().all(good) {
            return false;
        }
        blocks += 1;
    }
    blocks == sizes.blocks
}
