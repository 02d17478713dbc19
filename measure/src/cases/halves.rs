//! A table whose load is dear for whoever looks at an easy step outwards from the move along which the visit comes: the pairs
//! that it leads to fall so that each fall joins two equal stretches that have fallen already.

use super::{case, Case};
use reference::Move;

const STATES: u16 = 256;
const VARIABLES: usize = 32;
const MOVES: usize = 1_024;

/// How many states have moves by action 0: one to each state, the last of them to as many as there is room for.
const SOURCES: u16 = 4;

/// 256 states, two actions and one greatest block: X0 = diamond 1 X0, and each of the other 31 is diamond 0 X0. Four states have
/// the moves by action 0. The moves by action 1 make a tree over the states in order, with state 127 as its root, 63 and 191
/// under it, and so on: each state with two halves under it has a move to the middle of the right one. The states with an even
/// number, and the last, have none, and so at a load X0 falls there first. Then it falls at those that stand over one state on
/// either side, then at those over three, and so on to the root. At each fall all diamonds of the four sources are visited, and
/// whoever looks outwards from the fallen state passes both its halves before it finds a state that has not fallen: for n moves
/// about n times the logarithm of n in all. Nothing is true as it stands; a deletion turns no pair, and whatever an insertion
/// turns comes back.
pub fn halves() -> Case {
    let tree = (0..STATES).filter_map(|s| Some(Move::new(s, 1, under(s)?)));
    let mut moves: Vec<Move> = tree.collect();
    let all = (0..SOURCES).flat_map(|s| (0..STATES).map(move |t| Move::new(s, 0, t)));
    moves.extend(all.take(MOVES - moves.len()));
    moves.sort_unstable();
    let mut equations = vec![[6, 0, 0]; VARIABLES];
    equations[0] = [6, 1, 0];
    let rule = [(1, equations)];
    let name = "crowded, falling by halves";
    case(name, [STATES, 2, 0], &[], &rule, moves)
}

/// The middle of the right half of the states under one, where it has any.
fn under(state: u16) -> Option<u16> {
    let half = 1 << (state + 1).trailing_zeros() >> 1;
    (half != 0 && state + half < STATES).then_some(state + half)
}
