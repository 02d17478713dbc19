//! A row is a variable at all states. Each loop here goes over whole rows without a jump, so that it becomes vector code; in
//! a row of answers 1 stands for yes.

use super::index::Into;
use crate::ordinary::sizes::MOST_STATES;

const MOST: usize = MOST_STATES as usize;

/// A row of answers. The places past the states are 0.
pub type Row = [u8; MOST];

/// Whether some pair of a row has a value.
pub fn has(values: &[u8], value: u8) -> bool {
    values.iter().fold(0, |any, v| any | (v ^ value ^ 1)) == 1
}

/// Whether some pair of a row has an odd mark: it turned and did not come back.
pub fn has_gone(marks: &[u8]) -> bool {
    marks.iter().fold(0, |any, mark| any | mark) & 1 == 1
}

/// Where a proposition, or its absence, does not give the value `own`.
pub fn fails_label(labels: &[u32], proposition: u32, flip: u8, bad: &mut [u8]) {
    for (bad, set) in bad.iter_mut().zip(labels) {
        *bad = (set >> proposition) as u8 & 1 ^ flip;
    }
}

/// Where one of two rows is not `own`.
pub fn fails_either(one: &[u8], two: &[u8], own: u8, bad: &mut [u8]) {
    for ((bad, one), two) in bad.iter_mut().zip(one).zip(two) {
        *bad = (one ^ own) | (two ^ own);
    }
}

/// Where both of two rows are not `own`.
pub fn fails_both(one: &[u8], two: &[u8], own: u8, bad: &mut [u8]) {
    for ((bad, one), two) in bad.iter_mut().zip(one).zip(two) {
        *bad = (one ^ own) & (two ^ own);
    }
}

/// Where some move of an action leads to a pair of the row that is not `own`; the row of answers has no yes yet. Eight targets
/// that are `own` are passed over together.
pub fn fails_some(moves: Into, row: &[u8], own: u8, bad: &mut Row) {
    if !has(row, own ^ 1) {
        return;
    }
    let all = [own; 8];
    for (heads, values) in moves.heads.chunks(8).zip(row.chunks(8)) {
        if values == all {
            continue;
        }
        for (head, value) in heads.iter().zip(values) {
            let fails = value ^ own;
            moves.arrivals.sources(*head, |s, _| bad[s % MOST] |= fails);
        }
    }
}

/// Where no move of an action leads to a pair of the row that is `own`.
pub fn fails_all(moves: Into, row: &[u8], own: u8, bad: &mut Row) {
    bad[..row.len()].fill(1);
    for (head, value) in moves.heads.iter().zip(row) {
        if *value == own {
            moves.arrivals.sources(*head, |s, _| bad[s % MOST] = 0);
        }
    }
}

/// Keeps the yes of pairs that have a value, and tells whether any is left.
pub fn keep(values: &[u8], kept: u8, turns: &mut [u8]) -> bool {
    let mut any = 0;
    for (turn, value) in turns.iter_mut().zip(values) {
        *turn &= value ^ kept ^ 1;
        any |= *turn;
    }
    any == 1
}

/// Adds where the pairs of a row of an earlier component have gone to `own`.
pub fn add_gone(values: &[u8], marks: &[u8], own: u8, seeds: &mut [u8]) {
    for ((seed, value), mark) in seeds.iter_mut().zip(values).zip(marks) {
        *seed |= mark & (value ^ own ^ 1) & 1;
    }
}

/// Adds the sources of an action's moves into pairs of a row of an earlier component that have gone to `own`.
pub fn add_gone_sources(moves: Into, values: &[u8], marks: &[u8], own: u8, seeds: &mut Row) {
    for ((head, value), mark) in moves.heads.iter().zip(values).zip(marks) {
        if mark & 1 == 1 && *value == own {
            moves.arrivals.sources(*head, |s, _| seeds[s % MOST] = 1);
        }
    }
}

/// Turns the bits `by` of the marks round where the answer is yes.
pub fn mark(turns: &[u8], by: u8, marks: &mut [u8]) {
    for (mark, turn) in marks.iter_mut().zip(turns) {
        *mark ^= turn * by;
    }
}

/// Puts the pairs whose answer is yes at the end of the queue, and tells where it ends then. It may write one place past that.
pub fn enqueue(turns: &Row, states: usize, first: u16, queue: &mut [u16], tail: usize) -> usize {
    let mut tail = tail;
    let (eights, _) = turns.as_chunks::<8>();
    for (eight, from) in eights[..states.div_ceil(8)]
        .iter()
        .zip((first..).step_by(8))
    {
        if u64::from_ne_bytes(*eight) == 0 {
            continue;
        }
        for (turn, waits) in eight.iter().zip(from..) {
            queue[tail] = waits;
            tail += usize::from(*turn);
        }
    }
    tail
}
