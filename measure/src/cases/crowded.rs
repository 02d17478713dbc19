//! A table whose load is dear for whoever looks at all pairs before any turns, and evaluates an easy step again from its first
//! move on at each visit: few states with every move there is.

use super::{case, Case};
use reference::Move;

const STATES: u16 = 256;
const VARIABLES: usize = 32;

/// How many states have moves: one to each state, and so 1,024 in all.
const SOURCES: u16 = 4;

/// 256 states, one action and one greatest block: X0 = false, and each of the other 31 is diamond 0 X0. At a load X0 is true
/// everywhere at first and falls state by state in ascending order, and at each fall all diamonds of the four sources are
/// visited. Whoever goes over a source's moves from the first on at a visit passes the targets that have fallen already, which
/// is quadratic in the moves of a state and action; whoever looks outwards from the fallen one finds the next after it; whoever
/// turns a pair as soon as it is looked at finds all targets fallen at the first look. Nothing is true as it stands; a deletion
/// turns no pair, and an insertion turns the diamonds of its source there and back.
pub fn crowded() -> Case {
    let moves = (0..SOURCES).flat_map(|s| (0..STATES).map(move |t| Move::new(s, 0, t)));
    let mut equations = vec![[6, 0, 0]; VARIABLES];
    equations[0] = [0, 0, 0];
    let rule = [(1, equations)];
    case("crowded", [STATES, 1, 0], &[], &rule, moves.collect())
}
