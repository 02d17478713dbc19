//! What the values mean and how a batch moves them, on models made by hand.

mod common;

use common::*;
use reference::{Session, State, Variable};

/// A session of one action and no propositions, from its blocks and moves.
fn model(states: u16, blocks: &[(u8, &[[u8; 3]])], moves: &[[u16; 2]]) -> Session {
    let count = blocks
        .iter()
        .map(|(_, equations)| equations.len())
        .sum::<usize>();
    let mut records = vec![sizes(states, 1, 0, count as u8, blocks.len() as u8)];
    for (kind, equations) in blocks {
        records.push(block(*kind, equations.len() as u8));
        for [operator, first, second] in *equations {
            records.push(equation(*operator, *first, *second));
        }
    }
    records.extend(moves.iter().map(|[s, t]| step(*s, 0, *t)));
    records.push(end());
    loaded(&join(&records))
}

/// Carries out changes with the right stamp and gives net, shift visits and settle visits.
fn change(session: &mut Session, changes: &[Vec<u8>]) -> (i64, usize, usize) {
    let right = session.stamp.unwrap();
    let updated = accept(session, &[stamp(right), join(changes), end()]);
    (updated.net, updated.shift_visits, updated.settle_visits)
}

/// Operators.
const FALSE: [u8; 3] = [0, 0, 0];
const TRUE: [u8; 3] = [1, 0, 0];
const LEAST: u8 = 0;
const GREATEST: u8 = 1;

/// X or Y.
const fn or(x: u8, y: u8) -> [u8; 3] {
    [4, x, y]
}

/// X and Y.
const fn and(x: u8, y: u8) -> [u8; 3] {
    [5, x, y]
}

/// Diamond 0 X.
const fn diamond(x: u8) -> [u8; 3] {
    [6, 0, x]
}

/// Box 0 X.
const fn boxed(x: u8) -> [u8; 3] {
    [7, 0, x]
}

/// Diamond with no move is false and box with none is true, in both kinds of block.
#[test]
fn no_moves() {
    for kind in [LEAST, GREATEST] {
        let session = model(1, &[(kind, &[diamond(2), boxed(3), TRUE, FALSE])], &[]);
        assert_eq!(values(&session), [0, 1, 1, 0]);
    }
}

/// A proposition and its negation follow the labels.
#[test]
fn propositions() {
    let session = loaded(&join(&[
        sizes(2, 1, 2, 2, 1),
        label(1, 2),
        block(0, 2),
        equation(2, 1, 0),
        equation(3, 1, 0),
        end(),
    ]));
    assert_eq!(values(&session), [0, 1, 1, 0]);
}

/// A loop is false in a least block and true in a greatest one.
#[test]
fn loops_follow_the_kind_of_block() {
    let loops: [&[[u8; 3]]; 4] = [&[or(0, 0)], &[and(0, 0)], &[diamond(0)], &[boxed(0)]];
    for equations in loops {
        assert_eq!(values(&model(1, &[(LEAST, equations)], &[[0, 0]])), [0]);
        assert_eq!(values(&model(1, &[(GREATEST, equations)], &[[0, 0]])), [1]);
    }
}

/// Later blocks see earlier ones as fixed: a least reach of a greatest loop.
#[test]
fn later_blocks_see_earlier_ones() {
    let blocks: [(u8, &[[u8; 3]]); 2] =
        [(GREATEST, &[diamond(0)]), (LEAST, &[or(0, 2), diamond(1)])];
    let session = model(4, &blocks, &[[0, 1], [1, 2], [2, 2]]);
    let expected = [[1, 1, 1], [1, 1, 1], [1, 1, 1], [0, 0, 0]];
    assert_eq!(values(&session), expected.concat());
}

/// A diamond looks at its own action only.
#[test]
fn actions_are_kept_apart() {
    let session = loaded(&join(&[
        sizes(1, 2, 0, 3, 1),
        block(1, 3),
        equation(6, 0, 2),
        equation(6, 1, 2),
        equation(1, 0, 0),
        step(0, 1, 0),
        end(),
    ]));
    assert_eq!(values(&session), [0, 1, 1]);
}

/// A greatest diamond and a least box shift by gaining, the others only settle.
#[test]
fn seeds_by_gaining() {
    let gain = [insert(0, 0, 0)];
    let mut session = model(1, &[(GREATEST, &[diamond(1), TRUE])], &[]);
    assert_eq!(change(&mut session, &gain), (1, 0, 0));
    assert_eq!(marks(&session), [1, 0]);
    let mut session = model(1, &[(LEAST, &[boxed(1), FALSE])], &[]);
    assert_eq!(change(&mut session, &gain), (-1, 0, 0));
    assert_eq!(marks(&session), [1, 0]);
    let mut session = model(1, &[(LEAST, &[diamond(1), TRUE])], &[]);
    assert_eq!(change(&mut session, &gain), (1, 0, 0));
    assert_eq!(marks(&session), [3, 0]);
    let mut session = model(1, &[(GREATEST, &[boxed(1), FALSE])], &[]);
    assert_eq!(change(&mut session, &gain), (-1, 0, 0));
    assert_eq!(marks(&session), [3, 0]);
}

/// A greatest box and a least diamond shift by losing, the others only settle.
#[test]
fn seeds_by_losing() {
    let lose = [delete(0, 0, 0)];
    let mut session = model(1, &[(GREATEST, &[boxed(1), FALSE])], &[[0, 0]]);
    assert_eq!(change(&mut session, &lose), (1, 0, 0));
    assert_eq!(marks(&session), [1, 0]);
    let mut session = model(1, &[(LEAST, &[diamond(1), TRUE])], &[[0, 0]]);
    assert_eq!(change(&mut session, &lose), (-1, 0, 0));
    assert_eq!(marks(&session), [1, 0]);
    let mut session = model(1, &[(LEAST, &[boxed(1), FALSE])], &[[0, 0]]);
    assert_eq!(change(&mut session, &lose), (1, 0, 0));
    assert_eq!(marks(&session), [3, 0]);
    let mut session = model(1, &[(GREATEST, &[diamond(1), TRUE])], &[[0, 0]]);
    assert_eq!(change(&mut session, &lose), (-1, 0, 0));
    assert_eq!(marks(&session), [3, 0]);
}

/// A greatest box seeds only by losing a move to an old-false target pair, and a least diamond
/// only by losing one to an old-true target pair.
#[test]
fn losing_a_move_that_was_no_reason() {
    // X1 is the proposition, which one state has; X0 at state 0 has a move to either state.
    let start = |kind: u8, operator: u8, labelled: u16| {
        loaded(&join(&[
            sizes(2, 1, 1, 2, 1),
            label(labelled, 1),
            block(kind, 2),
            equation(operator, 0, 1),
            equation(2, 0, 0),
            step(0, 0, 0),
            step(0, 0, 1),
            end(),
        ]))
    };
    for (kind, operator, labelled, net) in [(GREATEST, 7, 1, 1), (LEAST, 6, 0, -1)] {
        let mut session = start(kind, operator, labelled);
        assert_eq!(change(&mut session, &[delete(0, 0, 1)]), (0, 0, 0));
        assert_eq!(marks(&session), [0, 0, 0, 0]);
        let mut session = start(kind, operator, labelled);
        assert_eq!(change(&mut session, &[delete(0, 0, 0)]), (net, 0, 0));
        assert_eq!(marks(&session), [1, 0, 0, 0]);
    }
}

/// A pair that shifts and comes back has mark 2 and no net change.
#[test]
fn shifted_and_came_back() {
    let mut session = model(1, &[(LEAST, &[boxed(1), TRUE])], &[]);
    assert_eq!(change(&mut session, &[insert(0, 0, 0)]), (0, 0, 0));
    assert_eq!(marks(&session), [2, 0]);
}

/// Two leanings are counted where X is Y.
#[test]
fn two_leanings_where_x_is_y() {
    for operator in [or(0, 0), and(0, 0)] {
        let mut session = model(1, &[(GREATEST, &[diamond(0), operator])], &[]);
        assert_eq!(change(&mut session, &[insert(0, 0, 0)]), (2, 3, 0));
        assert_eq!(change(&mut session, &[delete(0, 0, 0)]), (-2, 0, 2));
    }
}

/// A pair of an earlier block that went over seeds a later block of the kind that it helps.
#[test]
fn an_earlier_block_seeds_a_later_one() {
    let blocks: [(u8, &[[u8; 3]]); 2] = [(GREATEST, &[diamond(0)]), (GREATEST, &[and(0, 1)])];
    let mut session = model(1, &blocks, &[]);
    assert_eq!(values(&session), [0, 0]);
    assert_eq!(change(&mut session, &[insert(0, 0, 0)]), (2, 2, 0));
    assert_eq!(marks(&session), [1, 1]);
    assert_eq!(change(&mut session, &[delete(0, 0, 0)]), (-2, 0, 1));
    assert_eq!(marks(&session), [3, 3]);
}

/// The other way a later block of the other kind only settles.
#[test]
fn an_earlier_block_settles_a_later_one() {
    let blocks: [(u8, &[[u8; 3]]); 2] = [(GREATEST, &[diamond(0)]), (LEAST, &[or(0, 1)])];
    let mut session = model(1, &blocks, &[]);
    assert_eq!(change(&mut session, &[insert(0, 0, 0)]), (2, 1, 1));
    assert_eq!(marks(&session), [1, 3]);
    assert_eq!(change(&mut session, &[delete(0, 0, 0)]), (-2, 1, 0));
    assert_eq!(marks(&session), [3, 1]);
}

/// Reading 17: an earlier block's pair that shifted and came back seeds nothing.
#[test]
fn reading_17_came_back_did_not_go() {
    let blocks: [(u8, &[[u8; 3]]); 2] = [(GREATEST, &[diamond(0)]), (GREATEST, &[and(0, 1)])];
    let mut session = model(2, &blocks, &[]);
    assert_eq!(change(&mut session, &[insert(0, 0, 1)]), (0, 0, 0));
    assert_eq!(marks(&session), [2, 0, 0, 0]);
}

/// Reading 18: settled pairs are marks 2 and 3, both counted in settle visits.
#[test]
fn reading_18_settled_are_marks_2_and_3() {
    let mut session = model(3, &[(GREATEST, &[diamond(0)])], &[[1, 0]]);
    assert_eq!(change(&mut session, &[insert(0, 0, 2)]), (0, 1, 1));
    assert_eq!(marks(&session), [2, 2, 0]);
    let mut session = model(2, &[(GREATEST, &[diamond(0)])], &[[0, 0], [1, 0]]);
    assert_eq!(change(&mut session, &[delete(0, 0, 0)]), (-2, 0, 1));
    assert_eq!(marks(&session), [3, 3]);
}

/// Reading 19: whoever leans counts, also a pair that doesn't turn.
#[test]
fn reading_19_whoever_leans_counts() {
    let mut session = model(1, &[(GREATEST, &[diamond(0), TRUE, or(1, 0)])], &[]);
    assert_eq!(change(&mut session, &[insert(0, 0, 0)]), (1, 2, 0));
    assert_eq!(marks(&session), [1, 0, 0]);
}

/// Reading 19: leanings from another block don't count.
#[test]
fn reading_19_other_blocks_do_not_count() {
    let blocks: [(u8, &[[u8; 3]]); 2] = [(GREATEST, &[diamond(0)]), (LEAST, &[TRUE, or(1, 0)])];
    let mut session = model(1, &blocks, &[]);
    assert_eq!(change(&mut session, &[insert(0, 0, 0)]), (1, 1, 0));
}

/// Reading 19: leanings are those of the new moves, for shifting and for counting.
#[test]
fn reading_19_leanings_of_the_new_moves() {
    let mut session = model(2, &[(GREATEST, &[diamond(0)])], &[[1, 0]]);
    let changes = [insert(0, 0, 0), delete(1, 0, 0)];
    assert_eq!(change(&mut session, &changes), (1, 1, 0));
    assert_eq!(marks(&session), [1, 0]);
}

/// Reading 20: a lost move's target pair goes by its old value, also in an earlier block.
#[test]
fn reading_20_the_old_value_of_the_target_pair() {
    let start = |kind: u8, inner: u8, outer: u8| {
        loaded(&join(&[
            sizes(2, 2, 0, 2, 2),
            block(kind, 1),
            equation(inner, 1, 0),
            block(kind, 1),
            equation(outer, 0, 0),
            step(0, 0, 1),
            end(),
        ]))
    };
    let changes = [insert(1, 1, 1), delete(0, 0, 1)];
    let mut session = start(GREATEST, 6, 7);
    assert_eq!(values(&session), [0, 0, 0, 1]);
    assert_eq!(change(&mut session, &changes), (2, 1, 0));
    assert_eq!(values(&session), [0, 1, 1, 1]);
    assert_eq!(marks(&session), [0, 1, 1, 0]);
    let mut session = start(LEAST, 7, 6);
    assert_eq!(values(&session), [1, 1, 1, 0]);
    assert_eq!(change(&mut session, &changes), (-2, 1, 0));
    assert_eq!(values(&session), [1, 0, 0, 0]);
    assert_eq!(marks(&session), [0, 1, 1, 0]);
}

/// Reading 21: a chain from a touched pair may cross blocks.
#[test]
fn reading_21_a_chain_crosses_blocks() {
    let blocks: [(u8, &[[u8; 3]]); 3] = [
        (GREATEST, &[diamond(0)]),
        (GREATEST, &[or(0, 0)]),
        (GREATEST, &[and(1, 1)]),
    ];
    let mut session = model(1, &blocks, &[]);
    assert_eq!(change(&mut session, &[insert(0, 0, 0)]), (3, 1, 0));
    assert_eq!(marks(&session), [1, 1, 1]);
}

/// Values that don't solve the model are taken as found: an empty batch settles them.
#[test]
fn values_are_taken_as_found() {
    let mut session = loaded(&G);
    session.values[..2].fill(1);
    assert_eq!(change(&mut session, &[]), (-2, 0, 0));
    assert_eq!(values(&session), [0, 0]);
    assert_eq!(marks(&session), [3, 3]);
    let mut session = model(1, &[(GREATEST, &[TRUE])], &[]);
    session.values[0] = 0;
    assert_eq!(change(&mut session, &[]), (0, 0, 0));
    assert_eq!(values(&session), [0]);
}

/// A batch clears the marks of the batch before.
#[test]
fn marks_are_of_the_last_batch() {
    let mut session = loaded(&G);
    change(&mut session, &[insert(0, 0, 0)]);
    assert_eq!(marks(&session), [1, 0]);
    change(&mut session, &[insert(1, 0, 0)]);
    assert_eq!(marks(&session), [0, 1]);
    let mark = reference::ask_mark(&session, State(1), Variable(0));
    assert_eq!(mark, Ok(1));
}

/// The stamp follows its formula and wraps at 2^32.
#[test]
fn stamps() {
    let one = |s, a, t| reference::stamp(&[reference::Move::new(s, a, t)]);
    assert_eq!(reference::stamp(&[]), 0);
    assert_eq!(one(0, 0, 0), 1);
    assert_eq!(one(1, 1, 1), 65_537 + 4_099 + 257 + 1);
    assert_eq!(one(255, 15, 255), 255 * 65_537 + 15 * 4_099 + 255 * 257 + 1);
    let many = vec![reference::Move::new(255, 15, 255); 1_024];
    let sum = 1_024 * u64::from(one(255, 15, 255));
    assert!(sum > u64::from(u32::MAX));
    assert_eq!(reference::stamp(&many), sum as u32);
}
