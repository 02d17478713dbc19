//! The document's sentences once more, as slow sweeps over sets of pairs. Only for small models.

use std::collections::BTreeSet;

use reference::batch::Batch;
use reference::model::{Formula, Group, Kind, Model};
use reference::update::{Act, Change, Outcome};
use reference::{Move, State, Style, Variable};

/// A pair of a state and a variable.
pub type Pair = (State, Variable);

/// All pairs of a group.
pub fn pairs(model: &Model, group: &Group) -> Vec<Pair> {
    let states = (0..model.sizes.states).map(State);
    states
        .flat_map(|s| group.variables.iter().map(move |x| (s, *x)))
        .collect()
}

/// For any two variables whether a chain of names, of one name or more, leads from the first to
/// the second: the names, closed under going on through each variable in turn.
pub fn leads(model: &Model) -> Vec<Vec<bool>> {
    let count = model.equations.len();
    let mut leads = vec![vec![false; count]; count];
    for (x, equation) in model.equations.iter().enumerate() {
        for named in equation.named() {
            leads[x][usize::from(named.0)] = true;
        }
    }
    for through in 0..count {
        for from in 0..count {
            for to in 0..count {
                leads[from][to] |= leads[from][through] && leads[through][to];
            }
        }
    }
    leads
}

/// The blocks in order; or the components, each taken as soon as all that it names are taken.
pub fn groups(model: &Model) -> Vec<Group> {
    if model.sizes.style() == Style::Blocks {
        return model.groups();
    }
    let leads = leads(model);
    let count = model.equations.len();
    let with = |x: usize, y: usize| x == y || (leads[x][y] && leads[y][x]);
    let mut groups: Vec<Group> = Vec::new();
    let mut taken = vec![false; count];
    while let Some(next) = (0..count)
        .find(|x| !taken[*x] && (0..count).all(|y| !leads[*x][y] || with(*x, y) || taken[y]))
    {
        let members: Vec<usize> = (0..count).filter(|y| with(next, *y)).collect();
        members.iter().for_each(|y| taken[*y] = true);
        groups.push(Group {
            kind: Kind::of(model.signs[next]),
            variables: members.iter().map(|y| Variable(*y as u8)).collect(),
        });
    }
    groups
}

/// What a pair leans on, one entry for each leaning.
pub fn operands(model: &Model, pair: Pair) -> Vec<Pair> {
    let (state, variable) = pair;
    match model.formula(variable) {
        Formula::Or(x, y) | Formula::And(x, y) => vec![(state, x), (state, y)],
        Formula::Diamond(a, x) | Formula::Box(a, x) => {
            let own = model.moves.iter();
            let own = own.filter(|m| m.source == state && m.action == a);
            own.map(|m| (m.target, x)).collect()
        }
        _ => vec![],
    }
}

/// What a pair's equation gives where exactly these pairs are true.
pub fn gives(model: &Model, trues: &BTreeSet<Pair>, pair: Pair) -> bool {
    let (state, variable) = pair;
    let label = model.labels[usize::from(state.0)];
    let leans = operands(model, pair);
    match model.formula(variable) {
        Formula::False => false,
        Formula::True => true,
        Formula::Proposition(p) => label & (1 << p) != 0,
        Formula::NotProposition(p) => label & (1 << p) == 0,
        Formula::Or(..) | Formula::Diamond(..) => leans.iter().any(|o| trues.contains(o)),
        Formula::And(..) | Formula::Box(..) => leans.iter().all(|o| trues.contains(o)),
    }
}

/// The values by trying every assignment of every group and taking the smallest or the largest
/// that solves it. Nothing where a group has more than ten pairs.
pub fn solve(model: &Model) -> Option<BTreeSet<Pair>> {
    let mut trues = BTreeSet::new();
    for group in groups(model) {
        let pairs = pairs(model, &group);
        if pairs.len() > 10 {
            return None;
        }
        let mut solutions = Vec::new();
        for bits in 0..1u32 << pairs.len() {
            let chosen = (0..pairs.len()).filter(|i| bits >> i & 1 == 1);
            let mut tried: BTreeSet<Pair> = trues.clone();
            tried.extend(chosen.map(|i| pairs[i]));
            let solves = |p: &Pair| gives(model, &tried, *p) == tried.contains(p);
            if pairs.iter().all(solves) {
                solutions.push(tried);
            }
        }
        let extreme = solutions.iter().find(|s| match group.kind {
            Kind::Least => solutions.iter().all(|other| s.is_subset(other)),
            Kind::Greatest => solutions.iter().all(|other| s.is_superset(other)),
        });
        trues = extreme.expect("a smallest and a largest solution").clone();
    }
    Some(trues)
}

/// The pairs that are true in a vector of values.
pub fn trues(model: &Model, values: &[bool]) -> BTreeSet<Pair> {
    let all = (0..values.len()).filter(|i| values[*i]);
    all.map(|i| (model.sizes.state_of(i), model.sizes.variable_of(i)))
        .collect()
}

/// One sentence of the shift rule for a pair of a group that is old-false (least: old-true):
/// whether it belongs to the shifted set, given the pairs already known to.
fn shifts(
    model: &Model,
    changes: &[Change],
    (old, now): (&BTreeSet<Pair>, &BTreeSet<Pair>),
    group: &Group,
    shifted: &BTreeSet<Pair>,
    pair: Pair,
) -> bool {
    let (state, variable) = pair;
    let greatest = group.kind == Kind::Greatest;
    let own = |c: &&Change, a| c.what.source == state && c.what.action == a;
    let own_moves = match (greatest, model.formula(variable)) {
        (true, Formula::Diamond(a, _)) | (false, Formula::Box(a, _)) => {
            let mut own = changes.iter().filter(|c| own(c, a));
            own.any(|c| c.act == Act::Insert)
        }
        (true, Formula::Box(a, x)) | (false, Formula::Diamond(a, x)) => {
            let mut own = changes.iter().filter(|c| own(c, a));
            let other = |c: &Change| old.contains(&(c.what.target, x)) != greatest;
            own.any(|c| c.act == Act::Delete && other(c))
        }
        _ => false,
    };
    let leans = operands(model, pair);
    let went = |o: &Pair| {
        let (before, after) = (old.contains(o), now.contains(o));
        before != greatest && after == greatest
    };
    let other = leans
        .iter()
        .any(|o| !group.variables.contains(&o.1) && went(o));
    own_moves || other || leans.iter().any(|o| shifted.contains(o))
}

/// The smallest shifted set of a group: pairs are added, sweep after sweep, until none is.
fn shifted_set(
    model: &Model,
    changes: &[Change],
    (old, now): (&BTreeSet<Pair>, &BTreeSet<Pair>),
    group: &Group,
) -> BTreeSet<Pair> {
    let greatest = group.kind == Kind::Greatest;
    let mut shifted = BTreeSet::new();
    loop {
        let before = shifted.len();
        for pair in pairs(model, group) {
            let candidate = old.contains(&pair) != greatest;
            if candidate && shifts(model, changes, (old, now), group, &shifted, pair) {
                shifted.insert(pair);
            }
        }
        if shifted.len() == before {
            return shifted;
        }
    }
}

/// Settles a group by sweeps and gives the pairs that turned.
fn settle(model: &Model, group: &Group, now: &mut BTreeSet<Pair>) -> BTreeSet<Pair> {
    let greatest = group.kind == Kind::Greatest;
    let mut settled = BTreeSet::new();
    loop {
        let before = settled.len();
        for pair in pairs(model, group) {
            let is = now.contains(&pair);
            if is == greatest && gives(model, now, pair) != greatest {
                settled.insert(pair);
                if greatest {
                    now.remove(&pair);
                } else {
                    now.insert(pair);
                }
            }
        }
        if settled.len() == before {
            return settled;
        }
    }
}

/// How many leanings inside one group lean on a pair of the set.
fn visits(model: &Model, set: &BTreeSet<Pair>) -> usize {
    let mut visits = 0;
    for group in groups(model) {
        for pair in pairs(model, &group) {
            let inside = operands(model, pair).into_iter();
            let inside = inside.filter(|o| group.variables.contains(&o.1) && set.contains(o));
            visits += inside.count();
        }
    }
    visits
}

/// The whole rule of a batch. The model has the new moves; `old` are the values found.
pub fn update(model: &Model, changes: &[Change], old: &[bool]) -> Outcome {
    let old_trues = trues(model, old);
    let mut now = old_trues.clone();
    let mut shifted = BTreeSet::new();
    let mut settled = BTreeSet::new();
    for group in &groups(model) {
        let shifting = shifted_set(model, changes, (&old_trues, &now), group);
        for pair in &shifting {
            match group.kind {
                Kind::Greatest => now.insert(*pair),
                Kind::Least => now.remove(pair),
            };
        }
        shifted.extend(shifting);
        settled.extend(settle(model, group, &mut now));
    }
    let all = (0..old.len()).map(|i| (model.sizes.state_of(i), model.sizes.variable_of(i)));
    let all: Vec<Pair> = all.collect();
    let mark = |p: &Pair| match (shifted.contains(p), settled.contains(p)) {
        (false, false) => 0,
        (true, false) => 1,
        (true, true) => 2,
        (false, true) => 3,
    };
    Outcome {
        values: all.iter().map(|p| now.contains(p)).collect(),
        marks: all.iter().map(mark).collect(),
        shift_visits: visits(model, &shifted),
        settle_visits: visits(model, &settled),
        net: now.len() as i64 - old_trues.len() as i64,
    }
}

/// Whether some state has no move: the sources of the moves are fewer than the states.
pub fn hangs(states: u16, moves: &BTreeSet<Move>) -> bool {
    let sources: BTreeSet<State> = moves.iter().map(|m| m.source).collect();
    sources.len() < usize::from(states)
}

/// The old moves less the deletes plus the inserts.
pub fn changed(old: &BTreeSet<Move>, batch: &Batch) -> BTreeSet<Move> {
    let of = |act: Act| -> BTreeSet<Move> {
        let changes = batch.changes.iter();
        let of_act = changes.filter(|(_, change)| change.act == act);
        of_act.map(|(_, change)| change.what).collect()
    };
    let kept: BTreeSet<Move> = old.difference(&of(Act::Delete)).copied().collect();
    kept.union(&of(Act::Insert)).copied().collect()
}

/// What a batch that can be read is refused with, if anything: 11, then 9, then 7 and 8 in batch
/// order, then 10, then 16.
pub fn refusal(model: &Model, batch: &Batch, room: usize) -> Option<(u8, usize)> {
    let old: BTreeSet<Move> = model.moves.iter().copied().collect();
    if batch.stamp != reference::stamp(&model.moves) {
        return Some((11, 0));
    }
    let changes = &batch.changes;
    let repeats = |at: &usize| (0..*at).any(|a| changes[a].1.what == changes[*at].1.what);
    if let Some(at) = (0..changes.len()).find(repeats) {
        return Some((9, changes[at].0));
    }
    for (place, change) in changes {
        match (change.act, old.contains(&change.what)) {
            (Act::Insert, true) => return Some((7, *place)),
            (Act::Delete, false) => return Some((8, *place)),
            _ => {}
        }
    }
    let new = changed(&old, batch);
    if new.len() > room.min(1_024) {
        return Some((10, 0));
    }
    (model.live && hangs(model.sizes.states, &new)).then_some((16, 0))
}

/// The values of a model with signs as nested fixpoints, the variable of the front outermost: each
/// one's states start from none or all and are found again, with everything inside solved anew,
/// until they stay. No component is asked for, so every order must give the same. Only for a few
/// states and variables.
pub fn nested(model: &Model, order: &[Variable], trues: &mut BTreeSet<Pair>) {
    let Some((x, inside)) = order.split_first() else {
        return;
    };
    let states = (0..model.sizes.states).map(State);
    let of_x: Vec<Pair> = states.map(|state| (state, *x)).collect();
    let kind = Kind::of(model.signs[usize::from(x.0)]);
    put(&of_x, |_| kind == Kind::Greatest, trues);
    loop {
        nested(model, inside, trues);
        let found: Vec<bool> = of_x.iter().map(|p| gives(model, trues, *p)).collect();
        let stays = of_x
            .iter()
            .zip(&found)
            .all(|(p, f)| trues.contains(p) == *f);
        if stays {
            return;
        }
        put(&of_x, |at| found[at], trues);
    }
}

/// Makes each of the pairs true or false.
fn put(pairs: &[Pair], value: impl Fn(usize) -> bool, trues: &mut BTreeSet<Pair>) {
    for (at, pair) in pairs.iter().enumerate() {
        if value(at) {
            trues.insert(*pair);
        } else {
            trues.remove(pair);
        }
    }
}
