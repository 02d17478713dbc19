//! The turns of a phase. A pair that must turn gets its mark and waits in the queue with its old value. First come, first
//! served: it gets its other value when it is taken from the front, then the pairs of its component that lean on it are
//! visited, and those that must turn as well wait behind the others. So values are only 0 and 1, and value and mark tell at any
//! time who waits. A pair that waits is one number, 1,024 × variable + state.

use super::names::{Operand, EASY, STEP};
use super::system::System;
use crate::ordinary::moves::target;
use std::cell::Cell;

/// The phases: pairs come to their component's own value, or lose it.
pub const SHIFTING: bool = false;
pub const SETTLING: bool = true;

/// How many pairs turned in a phase, and how many leanings on them were visited.
#[derive(Clone, Copy, Default)]
pub struct Turned {
    pub pairs: usize,
    pub visits: usize,
}

/// A pair as it waits.
pub fn waiting(variable: usize, state: usize) -> u16 {
    (variable << 10 | state) as u16
}

/// The variable and the state of a pair that waits.
fn taken(waits: u16) -> (usize, usize) {
    (usize::from(waits >> 10), usize::from(waits & 1023))
}

/// A phase of a component under way.
struct Run<'a> {
    system: &'a System<'a>,
    /// The component's own value.
    own: u8,
    values: &'a mut [u8],
    marks: &'a mut [u8],
    queue: &'a [Cell<u16>],
    /// Where the queue ends.
    tail: usize,
    visits: usize,
}

/// Turns the first so many pairs of the queue, and whoever comes to wait behind them.
#[inline(always)]
pub fn turn<const PHASE: bool>(
    system: &System,
    own: u8,
    values: &mut [u8],
    marks: &mut [u8],
    queue: &mut [u16],
    waits: usize,
) -> Turned {
    if waits == 0 {
        return Turned::default();
    }
    turn_all::<PHASE>(system, own, values, marks, queue, waits)
}

/// The same for a queue that is not empty. The pairs are taken in rounds, each up to where the queue ended when the round began:
/// the order is that of the queue, and a round is a slice, so that no place in it is tested against the end of the queue.
#[inline(never)]
fn turn_all<const PHASE: bool>(
    system: &System,
    own: u8,
    values: &mut [u8],
    marks: &mut [u8],
    queue: &mut [u16],
    waits: usize,
) -> Turned {
    let mut run = Run {
        system,
        own,
        marks: &mut marks[..values.len()],
        values,
        queue: Cell::from_mut(queue).as_slice_of_cells(),
        tail: waits,
        visits: 0,
    };
    let mut front = 0;
    while front < run.tail {
        let round = &run.queue[front..run.tail];
        front = run.tail;
        for waits in round {
            run.take::<PHASE>(waits.get());
        }
    }
    Turned {
        pairs: run.tail,
        visits: run.visits,
    }
}

impl Run<'_> {
    /// Turns a pair that waited, and visits the pairs that lean on it.
    #[inline(always)]
    fn take<const PHASE: bool>(&mut self, waited: u16) {
        let system = self.system;
        let (x, state) = taken(waited);
        let row = x * system.states;
        self.values[row + state] = self.own ^ u8::from(PHASE == SETTLING);
        let mut place = x;
        loop {
            let operand = system.names.operand(place);
            if operand.is & STEP != 0 {
                self.visit_steps::<PHASE>(operand, row, state);
            } else if operand.is != 0 {
                self.visit_join::<PHASE>(operand, state);
            }
            place = operand.next.into();
            if place == 0 {
                break;
            }
        }
    }

    /// Visits the pair of a join that leans by an operand on a pair of the same state.
    #[inline(always)]
    fn visit_join<const PHASE: bool>(&mut self, operand: &Operand, state: usize) {
        let own = self.own;
        self.visit::<PHASE>(operand, state, |values| {
            operand.is & EASY != 0 && values[usize::from(operand.other) + state] == own
        });
    }

    /// Visits the pairs of a diamond or box that lean by an operand on the pair of a state in a row.
    #[inline(always)]
    fn visit_steps<const PHASE: bool>(&mut self, operand: &Operand, row: usize, state: usize) {
        let arrivals = self.system.arrivals;
        let head = arrivals.heads[usize::from(operand.other) + state];
        let looks = PHASE == SETTLING && operand.is & EASY != 0;
        if looks && usize::from(head) < arrivals.moves.len() {
            let run = Run {
                values: self.values,
                marks: self.marks,
                ..*self
            };
            (self.tail, self.visits) = settle_easy(run, operand, row, head);
        } else {
            arrivals.sources(head, |source, _| {
                self.visit::<PHASE>(operand, source, |_| false);
            });
        }
    }

    /// Has a pair wait that has the value to turn from and does not wait yet; `still` tells in a settling whether it keeps
    /// that value.
    #[inline(always)]
    fn visit<const PHASE: bool>(
        &mut self,
        operand: &Operand,
        state: usize,
        still: impl FnOnce(&[u8]) -> bool,
    ) {
        self.visits += 1;
        let pair = usize::from(operand.row) + state;
        let (value, mark) = (self.values[pair], self.marks[pair]);
        let turns = match PHASE {
            SHIFTING => value != self.own && mark == 0,
            SETTLING => value == self.own && mark < 2 && !still(self.values),
        };
        if turns {
            self.marks[pair] = if PHASE == SETTLING { 3 - mark } else { 1 };
            self.queue[self.tail].set(operand.first | state as u16);
            self.tail += 1;
        }
    }
}

/// Visits in a settling the pairs of an easy diamond or box by the chain of moves that begins at a head; those lead to a pair of
/// the row that begins at a place. It answers where the queue ends then and how many visits there were. It is marked as rare
/// so that the loop that calls it keeps its registers.
#[cold]
#[inline(never)]
fn settle_easy(mut run: Run, operand: &Operand, row: usize, head: u16) -> (usize, usize) {
    let (arrivals, own) = (run.system.arrivals, run.own);
    arrivals.sources(head, |source, place| {
        run.visit::<SETTLING>(operand, source, |values| {
            leads(arrivals.moves, place, own, &values[row..])
        });
    });
    (run.tail, run.visits)
}

/// Whether a move with the source and the action of the one at a place, which leads to a pair that has lost the component's own
/// value, leads to a pair of the row that has it. The look goes outwards from the place, on both sides by turns. What it passes
/// on the shorter side becomes part of a stretch twice as long: so all looks at n moves pass at most about n times the
/// logarithm of n.
#[inline(always)]
fn leads(moves: &[u32], place: usize, own: u8, row: &[u8]) -> bool {
    let (before, after) = moves.split_at(place);
    let Some((along, after)) = after.split_first() else {
        return false;
    };
    let same = |packed: &&u32| part(**packed) == part(*along);
    let has = |packed: &u32| row[target(*packed) as usize] == own;
    let mut up = after.iter().take_while(same);
    let mut down = before.iter().rev().take_while(same);
    loop {
        match up.next() {
            None => return down.any(has),
            Some(packed) if has(packed) => return true,
            _ => {}
        }
        match down.next() {
            None => return up.any(has),
            Some(packed) if has(packed) => return true,
            _ => {}
        }
    }
}

/// The source and the action of a packed move as one number.
fn part(packed: u32) -> u32 {
    packed >> 10
}
