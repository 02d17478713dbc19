//! A table with the most of everything.

use std::collections::BTreeSet;

use super::{case, Case};
use reference::random::Random;
use reference::Move;

/// 256 states, 16 actions, 32 propositions, 8 blocks of 4 variables, least and greatest by turns, and 1,024 moves: a ring
/// with action 0, a stride with action 1, and 512 scattered moves with the other actions.
pub fn maximal() -> Case {
    let mut random = Random::new(12);
    let labels: Vec<u32> = (0..256).map(|_| random.bits() as u32).collect();
    let rule: Vec<(u8, Vec<[u8; 3]>)> = (0..8).map(block).collect();
    let mut moves = BTreeSet::new();
    for s in 0..256 {
        moves.insert(Move::new(s, 0, (s + 1) % 256));
        moves.insert(Move::new(s, 1, (5 * s + 7) % 256));
    }
    while moves.len() < 1_024 {
        let (source, target) = (random.below(256) as u16, random.below(256) as u16);
        moves.insert(Move::new(source, random.between(2, 15) as u8, target));
    }
    let moves = moves.into_iter().collect();
    case("maximal", [256, 16, 32], &labels, &rule, moves)
}

/// The b-th block: W = X op Y, where X is a proposition, or what an earlier block says, Y a step back to W by action 0 or 1,
/// and Z a step by a scattered action, or a constant.
fn block(b: u8) -> (u8, Vec<[u8; 3]>) {
    let greatest = b % 2;
    let w = 4 * b;
    let (join, step, other) = if greatest == 1 { (5, 7, 6) } else { (4, 6, 7) };
    let x = match b % 4 {
        0 => [2, b, 0],
        1 => [3, b, 0],
        2 => [5, w - 4, w - 8 + 3],
        _ => [4, w - 4, w - 8],
    };
    let y = [step, b / 2 % 2, w];
    let z = match b {
        0 => [0, 0, 0],
        1 => [1, 0, 0],
        _ => [other, 2 + b, w],
    };
    (greatest, vec![[join, w + 1, w + 2], x, y, z])
}
