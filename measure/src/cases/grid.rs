//! The grid of document 02's request 12: a strip of sixteen slots on which a writer and a reader go round. State k is the
//! writer on slot k div 16 and the reader on slot k mod 16. Action 0 takes the writer on, action 1 the reader. With fewer
//! writers' slots it is the same grid with fewer states.

use super::{case, Case};
use reference::Move;

/// A rule over the grid: what it is called, on how many slots a meeting is a bad read, and its two blocks.
pub struct GridRule {
    name: &'static str,
    guarded: usize,
    greatest: &'static [[u8; 3]],
    least: &'static [[u8; 3]],
}

/// Greatest: X0 "no bad read, whatever both do" = X1 and X2, X1 = not p0, X2 = X3 and X4, X3 = box 0 X0, X4 = box 1 X0.
/// Least: X5 "the reader alone can come to a bad read" = X6 or X7, X6 = p0, X7 = diamond 1 X5. On the whole grid X0 is false
/// everywhere and X5 true everywhere, so that one deletion shifts nearly every pair and most come back: the dearest sort of
/// change.
pub const STRICT_RULE: GridRule = GridRule {
    name: "strict rule",
    guarded: 16,
    greatest: &[[5, 1, 2], [3, 0, 0], [5, 3, 4], [7, 0, 0], [7, 1, 0]],
    least: &[[4, 6, 7], [2, 0, 0], [6, 1, 5]],
};

/// A meeting is bad on the first eight slots only. Greatest: X0 "no bad read while the writer alone moves" = X1 and X2,
/// X1 = not p0, X2 = box 0 X0, X3 "nor after a step of the reader" = box 1 X0. Least: X4 "can be brought to X0" = X0 or X5,
/// X5 = X6 or X7, X6 = diamond 0 X4, X7 = diamond 1 X4. Half of X0 is true, and the least block leans on the greatest.
pub const MIXED_RULE: GridRule = GridRule {
    name: "mixed rule",
    guarded: 8,
    greatest: &[[5, 1, 2], [3, 0, 0], [7, 0, 0], [7, 1, 0]],
    least: &[[4, 0, 5], [4, 6, 7], [6, 0, 4], [6, 1, 4]],
};

/// The grid with so many slots for the writer under a rule; 16 make the grid of request 12.
pub fn grid(writers: u16, rule: &GridRule) -> Case {
    let states = 16 * writers;
    let mut moves = Vec::new();
    let mut labels = Vec::new();
    for k in 0..states {
        let (writer, reader) = (k / 16, k % 16);
        moves.push(Move::new(k, 0, (k + 16) % states));
        moves.push(Move::new(k, 1, 16 * writer + (k + 1) % 16));
        let bad = writer == reader && usize::from(reader) < rule.guarded;
        labels.push(u32::from(bad));
    }
    let blocks = [(1, rule.greatest.to_vec()), (0, rule.least.to_vec())];
    let name = format!("grid, {}", rule.name);
    case(&name, [states, 2, 1], &labels, &blocks, moves)
}
