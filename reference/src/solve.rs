//! What the values mean: leanings, equations, and the fixpoints group by group.

use crate::model::{Formula, Group, Kind, Model};
use crate::table::{Action, Move, State, Variable};

/// The leanings of a model under its moves, by the indices of the pairs.
#[derive(Clone, Debug)]
pub struct Leanings {
    /// For each pair the pairs it leans on, one entry for each leaning.
    pub on: Vec<Vec<usize>>,
    /// For each pair the pairs that lean on it, one entry for each leaning.
    pub by: Vec<Vec<usize>>,
}

/// The targets of a state's moves with an action.
fn targets(moves: &[Move], state: State, action: Action) -> impl Iterator<Item = State> + '_ {
    let start = moves.partition_point(|m| m.source < state);
    moves[start..]
        .iter()
        .take_while(move |m| m.source == state)
        .filter(move |m| m.action == action)
        .map(|m| m.target)
}

/// The pairs that one pair leans on: two for or and and, one for each move with the action for
/// diamond and box, none for the rest.
fn leans_on(model: &Model, state: State, variable: Variable) -> Vec<usize> {
    let pair = |state, variable| model.sizes.pair(state, variable);
    match model.formula(variable) {
        Formula::Or(x, y) | Formula::And(x, y) => vec![pair(state, x), pair(state, y)],
        Formula::Diamond(action, x) | Formula::Box(action, x) => {
            targets(&model.moves, state, action)
                .map(|target| pair(target, x))
                .collect()
        }
        _ => vec![],
    }
}

impl Leanings {
    /// All leanings of a model.
    pub fn of(model: &Model) -> Leanings {
        let pairs = model.sizes.pairs();
        let mut on = Vec::with_capacity(pairs);
        let mut by = vec![Vec::new(); pairs];
        for pair in 0..pairs {
            let (state, variable) = (model.sizes.state_of(pair), model.sizes.variable_of(pair));
            on.push(leans_on(model, state, variable));
            for operand in &on[pair] {
                by[*operand].push(pair);
            }
        }
        Leanings { on, by }
    }
}

/// What the equation of a pair gives under these values.
pub fn evaluate(model: &Model, leanings: &Leanings, values: &[bool], pair: usize) -> bool {
    let state = model.sizes.state_of(pair);
    let operands = &leanings.on[pair];
    match model.formula(model.sizes.variable_of(pair)) {
        Formula::False => false,
        Formula::True => true,
        Formula::Proposition(p) => model.labelled(state, p),
        Formula::NotProposition(p) => !model.labelled(state, p),
        Formula::Or(..) | Formula::Diamond(..) => operands.iter().any(|o| values[*o]),
        Formula::And(..) | Formula::Box(..) => operands.iter().all(|o| values[*o]),
    }
}

/// The value that a group's pairs start from when it is solved, and that shifted pairs take:
/// true for a greatest group, false for a least one.
pub fn start_value(kind: Kind) -> bool {
    kind == Kind::Greatest
}

/// Settles a group: any pair with the start value whose equation gives the other value takes
/// that other value, until none is left. A turned pair has all that lean on it looked at again.
pub fn settle(model: &Model, leanings: &Leanings, group: &Group, values: &mut [bool]) {
    let start = start_value(group.kind);
    let mut waiting = model.pairs_of(group);
    while let Some(pair) = waiting.pop() {
        if values[pair] == start && evaluate(model, leanings, values, pair) != start {
            values[pair] = !start;
            for leaner in &leanings.by[pair] {
                if group.holds(model.sizes.variable_of(*leaner)) {
                    waiting.push(*leaner);
                }
            }
        }
    }
}

/// The values of a model: group by group, the smallest solution of a least group and the largest
/// solution of a greatest one, with the groups before it fixed.
pub fn solve(model: &Model) -> Vec<bool> {
    let leanings = Leanings::of(model);
    let mut values = vec![false; model.sizes.pairs()];
    for group in model.groups() {
        for pair in model.pairs_of(&group) {
            values[pair] = start_value(group.kind);
        }
        settle(model, &leanings, &group, &mut values);
    }
    values
}
