//! How a batch moves the values: shift and settle, group by group.

use crate::model::{Formula, Group, Kind, Model};
use crate::solve::{settle, start_value, Leanings};
use crate::table::{Action, Move, State, Variable};

/// Whether a change inserts or deletes its move.
#[derive(Clone, Copy, Debug, PartialEq, Eq)]
pub enum Act {
    Insert,
    Delete,
}

/// One change of a batch.
#[derive(Clone, Copy, Debug, PartialEq, Eq)]
pub struct Change {
    pub act: Act,
    pub what: Move,
}

/// What a batch did to the values.
#[derive(Clone, Debug, PartialEq, Eq)]
pub struct Outcome {
    pub values: Vec<bool>,
    pub marks: Vec<u8>,
    /// Leanings inside one group on shifted pairs.
    pub shift_visits: usize,
    /// Leanings inside one group on settled pairs.
    pub settle_visits: usize,
    /// True pairs after less true pairs before.
    pub net: i64,
}

/// One group's turn: the model with its new moves, the changes that led to it, the values before
/// the batch, and the group.
struct Turn<'a> {
    model: &'a Model,
    leanings: &'a Leanings,
    changes: &'a [Change],
    old: &'a [bool],
    group: &'a Group,
}

/// Applies the shift and settle rule. The model has the new moves already; `old` are the values
/// found before the batch, whether or not they solve anything.
pub fn update(model: &Model, changes: &[Change], old: &[bool]) -> Outcome {
    let leanings = Leanings::of(model);
    let mut values = old.to_vec();
    let mut shifted = vec![false; old.len()];
    let mut settled = vec![false; old.len()];
    for group in &model.groups() {
        let turn = Turn {
            model,
            leanings: &leanings,
            changes,
            old,
            group,
        };
        for pair in turn.shifted(&values) {
            shifted[pair] = true;
            values[pair] = start_value(group.kind);
        }
        let before = values.clone();
        settle(model, &leanings, group, &mut values);
        for pair in model.pairs_of(group) {
            settled[pair] = before[pair] != values[pair];
        }
    }
    let trues = |values: &[bool]| values.iter().filter(|value| **value).count() as i64;
    Outcome {
        marks: marks(&shifted, &settled),
        shift_visits: visits(model, &leanings, &shifted),
        settle_visits: visits(model, &leanings, &settled),
        net: trues(&values) - trues(old),
        values,
    }
}

impl Turn<'_> {
    /// The group's shifted set, each pair once. `values` are the new values of earlier groups.
    fn shifted(&self, values: &[bool]) -> Vec<usize> {
        let mut waiting = self.model.pairs_of(self.group);
        waiting.retain(|pair| self.may_shift(*pair) && self.is_seed(values, *pair));
        let mut is_shifted = vec![false; self.old.len()];
        let mut shifted = Vec::new();
        while let Some(pair) = waiting.pop() {
            if is_shifted[pair] {
                continue;
            }
            is_shifted[pair] = true;
            shifted.push(pair);
            let leaners = self.leanings.by[pair].iter();
            waiting.extend(leaners.filter(|leaner| self.may_shift(**leaner)));
        }
        shifted
    }

    /// Whether a pair is of this group and was old-false (for a least group: old-true).
    fn may_shift(&self, pair: usize) -> bool {
        let variable = self.model.sizes.variable_of(pair);
        self.group.holds(variable) && self.old[pair] != start_value(self.group.kind)
    }

    /// Whether a pair shifts of itself: through its own moves or through another group. A greatest
    /// group's diamonds seed by gaining and its boxes by losing; in a least group the boxes seed by
    /// gaining and the diamonds by losing.
    fn is_seed(&self, values: &[bool], pair: usize) -> bool {
        let state = self.model.sizes.state_of(pair);
        let greatest = self.group.kind == Kind::Greatest;
        let by_own_moves = match self.model.formula(self.model.sizes.variable_of(pair)) {
            Formula::Diamond(action, _) if greatest => self.gains(state, action),
            Formula::Diamond(action, x) => self.loses(state, action, x),
            Formula::Box(action, x) if greatest => self.loses(state, action, x),
            Formula::Box(action, _) => self.gains(state, action),
            _ => false,
        };
        by_own_moves || self.leans_on_gone_over(values, pair)
    }

    /// Whether the batch inserts one of a state's moves with an action.
    fn gains(&self, state: State, action: Action) -> bool {
        self.changes.iter().any(|change| {
            let own = change.what.source == state && change.what.action == action;
            own && change.act == Act::Insert
        })
    }

    /// Whether the batch deletes one of a state's moves with an action whose target pair was
    /// old-false (for a least group: old-true).
    fn loses(&self, state: State, action: Action, x: Variable) -> bool {
        self.changes.iter().any(|change| {
            let own = change.what.source == state && change.what.action == action;
            own && change.act == Act::Delete && self.old_other(change.what.target, x)
        })
    }

    /// Whether a pair was old-false (for a least group: old-true), whatever its group.
    fn old_other(&self, state: State, variable: Variable) -> bool {
        self.old[self.model.sizes.pair(state, variable)] != start_value(self.group.kind)
    }

    /// Whether a pair leans on another group's pair that went from false to true (for a least
    /// group: from true to false) over the whole batch.
    fn leans_on_gone_over(&self, values: &[bool], pair: usize) -> bool {
        let start = start_value(self.group.kind);
        self.leanings.on[pair].iter().any(|operand| {
            let other = !self.group.holds(self.model.sizes.variable_of(*operand));
            other && self.old[*operand] != start && values[*operand] == start
        })
    }
}

/// The marks: 0 never turned, 1 shifted and stayed, 2 shifted and came back, 3 turned by settling
/// only.
fn marks(shifted: &[bool], settled: &[bool]) -> Vec<u8> {
    let both = shifted.iter().zip(settled);
    both.map(|pair| match pair {
        (false, false) => 0,
        (true, false) => 1,
        (true, true) => 2,
        (false, true) => 3,
    })
    .collect()
}

/// How many leanings have both ends in one group and lean on a pair of the set.
fn visits(model: &Model, leanings: &Leanings, set: &[bool]) -> usize {
    let mut visits = 0;
    for group in model.groups() {
        for pair in model.pairs_of(&group) {
            for operand in &leanings.on[pair] {
                if set[*operand] && group.holds(model.sizes.variable_of(*operand)) {
                    visits += 1;
                }
            }
        }
    }
    visits
}
