//! How the values follow a batch: component by component, shift and settle, each all looks first and then all turns.

use super::changes::Changes;
use super::components::components;
use super::looks;
use super::system::System;
use super::turns::{self, SETTLING, SHIFTING};
use crate::answers::Report;

/// The values before any change: the solution of the equations. The marks become 0.
pub fn solve(system: &System, values: &mut [u8], marks: &mut [u8], queue: &mut [u16]) {
    let equations = &system.equations[..system.variables];
    for (row, e) in values.chunks_mut(system.states).zip(equations) {
        row.fill(e.greatest.into());
    }
    marks.fill(0);
    for component in components(equations) {
        let mut tail = 0;
        for y in component.variables() {
            tail = looks::settle(system, y, values, marks, queue, tail);
        }
        turns::turn::<SETTLING>(system, component.own, values, marks, queue, tail);
    }
    marks.fill(0);
}

/// The values follow the changes that made the table what it is; the marks say what turned.
pub fn update(
    system: &System,
    changes: &Changes,
    values: &mut [u8],
    marks: &mut [u8],
    queue: &mut [u16],
) -> Report {
    let mut report = Report::default();
    marks.fill(0);
    for component in components(&system.equations[..system.variables]) {
        let own = component.own;
        let mut tail = 0;
        for y in component.variables() {
            tail = looks::shift(system, y, changes, values, marks, queue, tail);
        }
        let shifted = turns::turn::<SHIFTING>(system, own, values, marks, queue, tail);
        tail = 0;
        for y in component.variables() {
            tail = looks::settle(system, y, values, marks, queue, tail);
        }
        let settled = turns::turn::<SETTLING>(system, own, values, marks, queue, tail);
        report.shift_visits += shifted.visits as i64;
        report.settle_visits += settled.visits as i64;
        let grown = shifted.pairs as i64 - settled.pairs as i64;
        report.net += if own == 1 { grown } else { -grown };
    }
    report
}
