//! The looks of a phase: which pairs of a variable must turn, told for all of them together before any pair of the phase has
//! turned. They get their mark and come to wait in the queue, and each look answers where the queue ends then.

use super::changes::Changes;
use super::names::is_easy;
use super::rows::{self, Row};
use super::system::System;
use super::turns::waiting;
use crate::ordinary::equation::{Equation, AND, DIAMOND, OR};
use crate::ordinary::moves;
use crate::ordinary::sizes::MOST_STATES;

/// A row without a yes.
const NONE: Row = [0; MOST_STATES as usize];

/// Has the pairs of a variable wait that have the component's own value and whose equation gives the other.
pub fn settle(
    system: &System,
    y: usize,
    values: &[u8],
    marks: &mut [u8],
    queue: &mut [u16],
    tail: usize,
) -> usize {
    let e = &system.equations[y];
    let (own, row) = (u8::from(e.greatest), system.row(y as u32));
    if !rows::has(&values[row.clone()], own) {
        return tail;
    }
    let mut bad = NONE;
    fails(system, e, own, values, &mut bad);
    let here = &mut bad[..system.states];
    if !rows::keep(&values[row.clone()], own, here) {
        return tail;
    }
    rows::mark(here, 3, &mut marks[row]);
    rows::enqueue(&bad, system.states, waiting(y, 0), queue, tail)
}

/// Says where an equation gives not `own`.
fn fails(system: &System, e: &Equation, own: u8, values: &[u8], bad: &mut Row) {
    let here = &mut bad[..system.states];
    let row = |x: u32| &values[system.row(x)];
    match (e.operator, is_easy(e)) {
        (0 | 1, _) => here.fill(e.operator as u8 ^ own),
        (2 | 3, _) => {
            let flip = e.operator as u8 & 1 ^ own;
            rows::fails_label(system.labels, e.first, flip, here);
        }
        (OR | AND, true) => rows::fails_both(row(e.first), row(e.second), own, here),
        (OR | AND, false) => rows::fails_either(row(e.first), row(e.second), own, here),
        (_, true) => rows::fails_all(system.into(e.first), row(e.second), own, bad),
        (_, false) => rows::fails_some(system.into(e.first), row(e.second), own, bad),
    }
}

/// Has the pairs of a variable wait that have not the component's own value and that the changes or the earlier components
/// seed.
pub fn shift(
    system: &System,
    y: usize,
    changes: &Changes,
    values: &[u8],
    marks: &mut [u8],
    queue: &mut [u16],
    tail: usize,
) -> usize {
    let e = &system.equations[y];
    if e.operator < OR {
        return tail;
    }
    let (own, row) = (u8::from(e.greatest), system.row(y as u32));
    let mut seeds = NONE;
    let changed = e.operator >= DIAMOND && changes.touch(e.first);
    if changed {
        add_changed(system, e, changes, values, marks, &mut seeds);
    }
    let gone = add_gone(system, e, values, marks, &mut seeds);
    let here = &mut seeds[..system.states];
    if !(changed || gone) || !rows::keep(&values[row.clone()], own ^ 1, here) {
        return tail;
    }
    rows::mark(here, 1, &mut marks[row]);
    rows::enqueue(&seeds, system.states, waiting(y, 0), queue, tail)
}

/// Adds the sources of changes that seed a diamond or a box: an insert where that can help, a delete of a move to a pair that
/// had not the component's own value where that can. Of the component's own pairs none has turned yet, though some may wait.
fn add_changed(
    system: &System,
    e: &Equation,
    changes: &Changes,
    values: &[u8],
    marks: &[u8],
    seeds: &mut Row,
) {
    let (own, gains) = (u8::from(e.greatest), is_easy(e));
    let done = u8::from(system.equations[e.second as usize].block != e.block);
    let row = system.row(e.second);
    let (values, marks) = (&values[row.clone()], &marks[row]);
    for (packed, insert) in changes.iter().filter(|(m, _)| moves::action(*m) == e.first) {
        let target = moves::target(packed) as usize;
        let old = values[target] ^ (marks[target] & done);
        if insert == gains && (gains || old != own) {
            seeds[moves::source(packed) as usize] = 1;
        }
    }
}

/// Adds the pairs that lean on a pair of an earlier component which has gone to this component's own value, and tells whether
/// one may have.
fn add_gone(system: &System, e: &Equation, values: &[u8], marks: &[u8], seeds: &mut Row) -> bool {
    let own = u8::from(e.greatest);
    let gone = |x: u32| {
        let row = system.row(x);
        let earlier = system.equations[x as usize].block != e.block;
        (earlier && rows::has_gone(&marks[row.clone()]))
            .then(|| (&values[row.clone()], &marks[row]))
    };
    let second = gone(e.second);
    if e.operator >= DIAMOND {
        second.inspect(|(v, m)| rows::add_gone_sources(system.into(e.first), v, m, own, seeds));
        return second.is_some();
    }
    let first = gone(e.first);
    for (values, marks) in first.iter().chain(&second) {
        rows::add_gone(values, marks, own, seeds);
    }
    first.is_some() || second.is_some()
}
