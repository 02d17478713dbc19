//! What calls leave alone in the lent rooms.

mod common;

use common::*;
use reference::{load, write, write_vec, Block, Equation, Move, Session};

/// A session whose rooms are all filled with something that no model holds.
fn littered() -> Session {
    let mut session = Session::roomy();
    session.labels.fill(0xdead_beef);
    session.equations.fill(Equation {
        operator: 77,
        first: 77,
        second: 77,
    });
    session.moves.fill(Move::new(777, 77, 777));
    session.values.fill(77);
    session.marks.fill(77);
    session.blocks = [Block {
        kind: 77,
        variables: 77,
    }; 8];
    session
}

/// A load leaves every room past what the sizes need, and the places past its last move.
#[test]
fn a_load_leaves_the_rest_alone() {
    let before = littered();
    let mut after = before.clone();
    let model = [&G[..14], &step(1, 0, 1), &end()].concat();
    load(&mut after, &model).unwrap();
    assert_eq!(after.labels[..2], [0, 0]);
    assert_eq!(after.labels[2..], before.labels[2..]);
    assert_eq!(after.equations[1..], before.equations[1..]);
    assert_eq!(after.values[..2], [0, 1]);
    assert_eq!(after.values[2..], before.values[2..]);
    assert_eq!(after.marks[..2], [0, 0]);
    assert_eq!(after.marks[2..], before.marks[2..]);
    assert_eq!(after.moves[0], Move::new(1, 0, 1));
    assert_eq!(after.moves[1..], before.moves[1..]);
    assert_eq!(after.blocks[1..], before.blocks[1..]);
}

/// Places that a batch frees at the end of the move list become 0, and those past them stay.
#[test]
fn freed_places_become_0() {
    let mut session = littered();
    let moves = [step(0, 0, 0), step(0, 0, 1), step(1, 0, 1)].concat();
    load(&mut session, &[&G[..14], &moves, &end()].concat()).unwrap();
    let right = session.stamp.unwrap();
    let changes = [delete(0, 0, 0), delete(1, 0, 1)];
    accept(&mut session, &[stamp(right), join(&changes), end()]);
    assert_eq!(session.move_count, 1);
    let zero = Move::default();
    assert_eq!(session.moves[..3], [Move::new(0, 0, 1), zero, zero]);
    assert_eq!(session.moves[3..], littered().moves[3..]);
    assert_eq!(session.values[2..], littered().values[2..]);
    assert_eq!(session.marks[2..], littered().marks[2..]);
}

/// A batch that inserts uses the next places of the move room and leaves the others.
#[test]
fn inserts_take_the_next_places() {
    let mut session = littered();
    load(&mut session, &G).unwrap();
    accept(
        &mut session,
        &[stamp(0), insert(1, 0, 0), insert(0, 0, 1), end()],
    );
    assert_eq!(session.moves[..2], [Move::new(0, 0, 1), Move::new(1, 0, 0)]);
    assert_eq!(session.moves[2..], littered().moves[2..]);
}

/// Writing leaves the output past what was written.
#[test]
fn writing_leaves_the_rest_alone() {
    let session = loaded(&G);
    let mut output = [0xaa; 20];
    assert_eq!(write(&session, &mut output), Ok(15));
    assert_eq!(output[..15], G);
    assert_eq!(output[15..], [0xaa; 5]);
}

/// A model is written to the letter as it was loaded, labels and moves in order.
#[test]
fn writing_gives_back_the_bytes() {
    let model = join(&[
        sizes(3, 2, 32, 2, 2),
        label(0, 1 << 31),
        label(2, 3),
        block(1, 1),
        equation(3, 31, 0),
        block(0, 1),
        equation(7, 1, 0),
        step(0, 0, 0),
        step(0, 1, 0),
        step(2, 0, 1),
        end(),
    ]);
    assert_eq!(write_vec(&loaded(&model)), Ok(model));
}
