//! The bench cases A to H of document 01.

mod common;

use common::*;
use reference::{Session, State, Variable};

/// G loads with both pairs false and stamp 0.
#[test]
fn model_g_has_both_pairs_false() {
    let session = loaded(&G);
    assert_eq!(values(&session), [0, 0]);
    assert_eq!(marks(&session), [0, 0]);
    assert_eq!(session.stamp, Some(0));
}

/// A: a loop put at state 0 makes itself true.
fn after_a() -> Session {
    let mut session = loaded(&G);
    let updated = accept(&mut session, &[stamp(0), insert(0, 0, 0), end()]);
    assert_eq!(figures(updated), (1, 1, 0, 1));
    assert_eq!((updated.true_pairs, updated.pairs), (1, 2));
    session
}

/// B after A: state 1 gains a move to the loop.
fn after_b() -> Session {
    let mut session = after_a();
    let updated = accept(&mut session, &[stamp(1), insert(1, 0, 0), end()]);
    assert_eq!(figures(updated), (1, 0, 0, 65_539));
    session
}

/// Case A.
#[test]
fn case_a() {
    let session = after_a();
    assert_eq!(values(&session), [1, 0]);
    assert_eq!(marks(&session), [1, 0]);
    assert_eq!(session.stamp, Some(1));
}

/// Case B.
#[test]
fn case_b() {
    let session = after_b();
    assert_eq!(values(&session), [1, 1]);
    assert_eq!(marks(&session), [0, 1]);
}

/// Case C.
#[test]
fn case_c() {
    let mut session = after_b();
    let updated = accept(&mut session, &[stamp(65_539), delete(0, 0, 0), end()]);
    assert_eq!(figures(updated), (-2, 0, 1, 65_538));
    assert_eq!(values(&session), [0, 0]);
    assert_eq!(marks(&session), [3, 3]);
}

/// Case D.
#[test]
fn case_d() {
    let mut session = loaded(&G);
    let updated = accept(&mut session, &[stamp(0), insert(0, 0, 1), end()]);
    assert_eq!(figures(updated), (0, 0, 0, 258));
    assert_eq!(values(&session), [0, 0]);
    assert_eq!(marks(&session), [2, 0]);
}

/// Case E.
#[test]
fn case_e() {
    let mut session = loaded(&join(&[
        sizes(2, 1, 1, 3, 1),
        label(1, 1),
        block(0, 3),
        equation(4, 1, 2),
        equation(2, 0, 0),
        equation(6, 0, 0),
        step(0, 0, 0),
        step(0, 0, 1),
        end(),
    ]));
    assert_eq!(values(&session), [1, 0, 1, 1, 1, 0]);
    assert_eq!(session.stamp, Some(1 + 258));
    let updated = accept(&mut session, &[stamp(259), delete(0, 0, 1), end()]);
    assert_eq!(figures(updated), (-2, 2, 0, 1));
    assert_eq!(values(&session), [0, 0, 0, 1, 1, 0]);
    assert_eq!(marks(&session), [1, 0, 1, 0, 0, 0]);
}

/// Case F: an empty batch changes nothing but marks.
#[test]
fn case_f() {
    let mut session = after_b();
    let before = session.clone();
    let updated = accept(&mut session, &[stamp(65_539), end()]);
    assert_eq!(figures(updated), (0, 0, 0, 65_539));
    assert_eq!(marks(&session), [0, 0]);
    session.marks.clone_from(&before.marks);
    assert_eq!(session, before);
}

/// Case G1: 256 states load and 257 give 3.
#[test]
fn case_g1() {
    let model = |states| {
        join(&[
            sizes(states, 1, 0, 1, 1),
            block(0, 1),
            equation(1, 0, 0),
            end(),
        ])
    };
    let session = loaded(&model(256));
    assert_eq!(session.true_pairs(), 256);
    let last = reference::ask_value(&session, State(255), Variable(0));
    assert_eq!(last, Ok(true));
    assert_eq!(load_refusal(&model(257)), (3, 0));
}

/// Case G2: 1,024 moves load and the 1,025th gives 10 at its record.
#[test]
fn case_g2() {
    let most = many_moves(1_024);
    let session = loaded(&join(&[join(&most), end()]));
    assert_eq!(session.move_count, 1_024);
    assert_eq!(load_number(&most, &[step(16, 0, 0), end()]), 10);
}

/// Case H: with 1,024 moves, one delete and one insert pass, in either order.
#[test]
fn case_h() {
    let before = loaded(&join(&[join(&many_moves(1_024)), end()]));
    let right = before.stamp.unwrap();
    let changes = [insert(63, 0, 0), delete(0, 0, 0)];
    for order in [[0, 1], [1, 0]] {
        let mut session = before.clone();
        let [one, two] = order.map(|i| changes[i].clone());
        let updated = accept(&mut session, &[stamp(right), one, two, end()]);
        assert_eq!(updated.stamp, right - 1 + 65_537 * 63 + 1);
        assert_eq!(session.move_count, 1_024);
    }
}
