//! Eight blocks over the grid's states, each of which leans on the one before, and batches that touch only what the first of
//! them or the last of them names.

use super::{case, Case, ThereAndBack};
use reference::{Action, Move, State};

/// The action that only the first block names, and the one that only the last names. Those between name the grid's two.
const FIRST: u8 = 2;
const LAST: u8 = 3;

const STATES: u16 = 256;
const ACTIONS: u8 = 4;
const BLOCKS: u8 = 8;

/// Which block a batch touches.
#[derive(Clone, Copy, Debug, PartialEq, Eq)]
pub enum Touched {
    First,
    Last,
}

/// 256 states, four actions and 1,024 moves, one from each state by each action: actions 0 and 2 take the grid's writer on,
/// actions 1 and 3 its reader. Each block says of the moves of its action: can come to, or stays in, what its proposition and
/// the block before make of a state. As it stands the last is true everywhere and the others are false; where a move that the
/// first names is led elsewhere, those between become true.
pub fn eight() -> Case {
    let mut moves = Vec::new();
    let mut labels = Vec::new();
    for k in 0..STATES {
        let (writer, reader) = (k / 16, k % 16);
        let targets = [(k + 16) % STATES, 16 * writer + (k + 1) % 16];
        moves.extend((0..ACTIONS).map(|a| Move::new(k, a, targets[usize::from(a % 2)])));
        labels.push((0..BLOCKS).fold(0, |set, b| set | label(b, writer == reader) << b));
    }
    let rule: Vec<_> = (0..BLOCKS).map(block).collect();
    let counts = [STATES, ACTIONS.into(), BLOCKS.into()];
    case("eight blocks", counts, &labels, &rule, moves)
}

/// Whether the b-th block's proposition holds where the writer and the reader meet or do not: of the greatest ones where they
/// do not, of the last where they do, of the others everywhere.
fn label(b: u8, meet: bool) -> u32 {
    let holds = match b {
        _ if b + 1 == BLOCKS => meet,
        _ => b % 2 == 1 || !meet,
    };
    holds.into()
}

/// The b-th block, least and greatest by turns: W = U join Y, where Y is a step back to W, and U joins a proposition with the
/// block before.
fn block(b: u8) -> (u8, Vec<[u8; 3]>) {
    let greatest = 1 - b % 2;
    let w = 4 * b;
    let action = match b {
        0 => FIRST,
        _ if b + 1 == BLOCKS => LAST,
        _ => b % 2,
    };
    let before = if b == 0 { w + 2 } else { w - 4 };
    let either = greatest == 1 || b + 1 == BLOCKS;
    let u = [if either { 4 } else { 5 }, w + 2, before];
    let equations = vec![
        [4 + greatest, w + 1, w + 3],
        u,
        [2, b, 0],
        [6 + greatest, action, w],
    ];
    (greatest, equations)
}

/// Batches that lead one move elsewhere, back to its own source, spread over the states.
pub fn led_elsewhere(case: &Case, touched: Touched, count: u16) -> Vec<ThereAndBack> {
    let action = Action(match touched {
        Touched::First => FIRST,
        Touched::Last => LAST,
    });
    let led = |i: u16| {
        let source = State(i * 37 % STATES);
        let own = |m: &&Move| m.source == source && m.action == action;
        let stays = Move {
            source,
            action,
            target: source,
        };
        let moved = case.moves.iter().find(own).expect("a move by each action");
        case.changes(&[*moved], &[stays])
    };
    (0..count).map(led).collect()
}
