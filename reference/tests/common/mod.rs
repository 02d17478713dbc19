//! Helpers for the tests: bytes put together by hand, and calls that check that a refusal
//! changed nothing.
#![allow(dead_code)]

pub mod literal;

use reference::{batch, load, Session, Updated};

/// All kinds of record.
pub const KINDS: [u8; 11] = [1, 2, 3, 4, 5, 6, 7, 8, 9, 10, 11];

/// The bytes of model G: two states, X = diamond 0 X, greatest, no moves.
pub const G: [u8; 15] = [1, 2, 0, 1, 0, 1, 1, 3, 1, 1, 4, 6, 0, 0, 6];

/// A sizes record.
pub fn sizes(states: u16, actions: u8, propositions: u8, variables: u8, blocks: u8) -> Vec<u8> {
    let [low, high] = states.to_le_bytes();
    vec![1, low, high, actions, propositions, variables, blocks]
}

/// The record that makes a model live.
pub fn live() -> Vec<u8> {
    vec![10]
}

/// A label record.
pub fn label(state: u16, set: u32) -> Vec<u8> {
    let mut bytes = vec![2];
    bytes.extend(state.to_le_bytes());
    bytes.extend(set.to_le_bytes());
    bytes
}

/// A block record.
pub fn block(kind: u8, variables: u8) -> Vec<u8> {
    vec![3, kind, variables]
}

/// An equation record.
pub fn equation(operator: u8, first: u8, second: u8) -> Vec<u8> {
    vec![4, operator, first, second]
}

/// A record of an equation with its sign.
pub fn signed(sign: u8, operator: u8, first: u8, second: u8) -> Vec<u8> {
    vec![11, sign, operator, first, second]
}

/// A record of kind 5, 8 or 9.
fn move_record(kind: u8, source: u16, action: u8, target: u16) -> Vec<u8> {
    let [sl, sh] = source.to_le_bytes();
    let [tl, th] = target.to_le_bytes();
    vec![kind, sl, sh, action, tl, th]
}

/// A move record.
pub fn step(source: u16, action: u8, target: u16) -> Vec<u8> {
    move_record(5, source, action, target)
}

/// An insert record.
pub fn insert(source: u16, action: u8, target: u16) -> Vec<u8> {
    move_record(8, source, action, target)
}

/// A delete record.
pub fn delete(source: u16, action: u8, target: u16) -> Vec<u8> {
    move_record(9, source, action, target)
}

/// An end record.
pub fn end() -> Vec<u8> {
    vec![6]
}

/// A stamp record.
pub fn stamp(stamp: u32) -> Vec<u8> {
    let mut bytes = vec![7];
    bytes.extend(stamp.to_le_bytes());
    bytes
}

/// Records on end.
pub fn join(records: &[Vec<u8>]) -> Vec<u8> {
    records.concat()
}

/// A whole record of a kind, its body all 0.
pub fn blank(kind: u8) -> Vec<u8> {
    let length = [0, 7, 7, 3, 4, 6, 1, 5, 6, 6, 1, 5][usize::from(kind)];
    let mut bytes = vec![0; length];
    bytes[0] = kind;
    bytes
}

/// A session with this model loaded.
pub fn loaded(model: &[u8]) -> Session {
    let mut session = Session::roomy();
    load(&mut session, model).expect("a good model");
    session
}

/// The refusal of a load into this session, which it must leave as it was.
pub fn load_refusal_in(session: &Session, model: &[u8]) -> (u8, usize) {
    let mut after = session.clone();
    let refusal = load(&mut after, model).expect_err("a bad model");
    assert!(after == *session, "a refused load changed something");
    (refusal.number, refusal.place)
}

/// The refusal of a load into a session that already holds model G with a move.
pub fn load_refusal(model: &[u8]) -> (u8, usize) {
    let mut session = loaded(&G);
    accept(&mut session, &[stamp(0), insert(0, 0, 0), end()]);
    load_refusal_in(&session, model)
}

/// The number of a refused load whose guilty record must start right after the good ones.
pub fn load_number(good: &[Vec<u8>], rest: &[Vec<u8>]) -> u8 {
    let (number, place) = load_refusal(&[join(good), join(rest)].concat());
    assert_eq!(place, join(good).len());
    number
}

/// The refusal of a batch on this session, which it must leave as it was.
pub fn batch_refusal(session: &Session, bytes: &[u8]) -> (u8, usize) {
    let mut after = session.clone();
    let refusal = batch(&mut after, bytes).expect_err("a bad batch");
    assert!(after == *session, "a refused batch changed something");
    (refusal.number, refusal.place)
}

/// The number of a refused batch whose guilty record must start right after the good ones.
pub fn batch_number(session: &Session, good: &[Vec<u8>], rest: &[Vec<u8>]) -> u8 {
    let (number, place) = batch_refusal(session, &[join(good), join(rest)].concat());
    assert_eq!(place, join(good).len());
    number
}

/// Carries out a batch that must be accepted.
pub fn accept(session: &mut Session, records: &[Vec<u8>]) -> Updated {
    batch(session, &join(records)).expect("a good batch")
}

/// The values of all pairs, state by state.
pub fn values(session: &Session) -> &[u8] {
    &session.values[..session.sizes.pairs()]
}

/// The marks of all pairs, state by state.
pub fn marks(session: &Session) -> &[u8] {
    &session.marks[..session.sizes.pairs()]
}

/// What an accepted batch answers besides the counts of pairs: net, visits and stamp.
pub fn figures(updated: Updated) -> (i64, usize, usize, u32) {
    let Updated {
        net,
        shift_visits,
        settle_visits,
        stamp,
        ..
    } = updated;
    (net, shift_visits, settle_visits, stamp)
}

/// The records of a model of 64 states and one action, X = diamond 0 X, with this many moves of
/// the shape (i / 64, 0, i % 64), and no end.
pub fn many_moves(count: u16) -> Vec<Vec<u8>> {
    let mut records = vec![sizes(64, 1, 0, 1, 1), block(1, 1), equation(6, 0, 0)];
    records.extend((0..count).map(|i| step(i / 64, 0, i % 64)));
    records
}
