//! Properties of every run, on generated streams.

mod common;

use std::collections::BTreeSet;
use std::ops::Range;

use common::literal;
use reference::batch::read_batch;
use reference::generate::{generate, generate_family, Family};
use reference::model::{Formula, Kind, Model};
use reference::program::{walk, Line};
use reference::random::Random;
use reference::session::check;
use reference::solve::{solve, Leanings};
use reference::update::{update, Change};
use reference::{load, write_vec, Session, Updated};

/// The values of all pairs as truths.
fn truths(session: &Session) -> Vec<bool> {
    let values = common::values(session).iter();
    values.map(|value| *value == 1).collect()
}

/// One accepted batch: the session before and after, the changes and the answer.
struct Accepted {
    before: Session,
    after: Session,
    changes: Vec<Change>,
    updated: Updated,
}

/// All accepted batches of a stream, up to a number of them.
fn accepted(bytes: &[u8], most: usize) -> Vec<Accepted> {
    let mut found = Vec::new();
    let mut last: Option<Session> = None;
    walk(bytes, |part: Range<usize>, line, session| {
        if found.len() == most {
            return;
        }
        if let (Line::Updated(updated), Some(before)) = (line, &last) {
            let batch = read_batch(&bytes[part], &session.sizes).unwrap();
            found.push(Accepted {
                before: before.clone(),
                after: session.clone(),
                changes: batch
                    .changes
                    .into_iter()
                    .map(|(_, change)| change)
                    .collect(),
                updated,
            });
        }
        last = Some(session.clone());
    });
    found
}

/// Some accepted batches out of streams of all families, small and large.
fn samples(most: usize) -> Vec<Accepted> {
    let mut samples = Vec::new();
    for seed in 0..30 {
        for family in [Family::Tiny, Family::Small, Family::Medium, Family::Chain] {
            let stream = generate_family(seed, family);
            samples.extend(accepted(&stream.bytes, most));
        }
    }
    for seed in 0..3 {
        for family in [Family::Large, Family::Full] {
            let stream = generate_family(seed, family);
            samples.extend(accepted(&stream.bytes, most.min(6)));
        }
    }
    samples
}

/// After any run of batches the values equal a fresh solve of the table as it is now.
#[test]
fn values_equal_a_fresh_solve() {
    for sample in samples(40) {
        let model = check(&sample.after).expect("a good session");
        assert_eq!(solve(&model), truths(&sample.after));
    }
}

/// The table becomes the old one less the deletes plus the inserts, in order, with its stamp.
#[test]
fn tables_follow_the_changes() {
    use reference::update::Act;
    for sample in samples(12) {
        let mut table: BTreeSet<_> = sample.before.table().iter().copied().collect();
        for change in &sample.changes {
            let done = match change.act {
                Act::Insert => table.insert(change.what),
                Act::Delete => table.remove(&change.what),
            };
            assert!(done);
        }
        let table: Vec<_> = table.into_iter().collect();
        assert_eq!(sample.after.table(), table);
        assert_eq!(sample.updated.stamp, reference::stamp(&table));
        assert_eq!(sample.after.stamp, Some(sample.updated.stamp));
    }
}

/// How many leanings inside one group lean on a pair with one of these marks.
fn leanings_on(model: &Model, leanings: &Leanings, marks: &[u8], of: [u8; 2]) -> usize {
    let mut count = 0;
    for group in model.groups() {
        for pair in model.pairs_of(&group) {
            for operand in &leanings.on[pair] {
                let inside = group.holds(model.sizes.variable_of(*operand));
                count += usize::from(inside && of.contains(&marks[*operand]));
            }
        }
    }
    count
}

/// Marks say which values changed and in which direction, and the visits and the net follow from
/// them.
#[test]
fn marks_visits_and_net_agree() {
    for sample in samples(25) {
        let model = check(&sample.after).unwrap();
        let (old, new) = (truths(&sample.before), truths(&sample.after));
        let marks = common::marks(&sample.after);
        for group in model.groups() {
            let greatest = group.kind == Kind::Greatest;
            for pair in model.pairs_of(&group) {
                let (was, is) = match marks[pair] {
                    0 => (old[pair], old[pair]),
                    1 => (!greatest, greatest),
                    2 => (!greatest, !greatest),
                    _ => (greatest, !greatest),
                };
                assert_eq!((old[pair], new[pair]), (was, is));
            }
        }
        let leanings = Leanings::of(&model);
        let Updated { net, .. } = sample.updated;
        let shift = leanings_on(&model, &leanings, marks, [1, 2]);
        let settle = leanings_on(&model, &leanings, marks, [2, 3]);
        assert_eq!(sample.updated.shift_visits, shift);
        assert_eq!(sample.updated.settle_visits, settle);
        let trues = |values: &[bool]| values.iter().filter(|v| **v).count();
        assert_eq!(net, trues(&new) as i64 - trues(&old) as i64);
        assert_eq!(sample.updated.true_pairs, trues(&new));
        assert_eq!(sample.updated.pairs, new.len());
    }
}

/// Every pair with a mark leans, through a chain that may cross blocks, on a pair whose own moves
/// the batch touched.
#[test]
fn reading_21_marked_pairs_lean_on_touched_ones() {
    for sample in samples(25) {
        let model = check(&sample.after).unwrap();
        let leanings = Leanings::of(&model);
        let touched = |pair: &usize| match model.formula(model.sizes.variable_of(*pair)) {
            Formula::Diamond(a, _) | Formula::Box(a, _) => sample
                .changes
                .iter()
                .any(|c| c.what.source == model.sizes.state_of(*pair) && c.what.action == a),
            _ => false,
        };
        let mut reached = vec![false; model.sizes.pairs()];
        let mut waiting: Vec<usize> = (0..reached.len()).filter(touched).collect();
        while let Some(pair) = waiting.pop() {
            if !reached[pair] {
                reached[pair] = true;
                waiting.extend(&leanings.by[pair]);
            }
        }
        let marks = common::marks(&sample.after);
        assert!((0..marks.len()).all(|pair| marks[pair] == 0 || reached[pair]));
    }
}

/// A solve finds the smallest or largest of all solutions, block by block, on models small enough
/// to try every assignment.
#[test]
fn solve_agrees_with_trying_everything() {
    let mut tried = 0;
    for seed in 0..400 {
        let stream = generate_family(seed, Family::Tiny);
        let mut session = Session::roomy();
        let length = reference::program::cut(&stream.bytes).unwrap();
        load(&mut session, &stream.bytes[..length]).unwrap();
        let model = check(&session).unwrap();
        if let Some(expected) = literal::solve(&model) {
            assert_eq!(literal::trues(&model, &solve(&model)), expected);
            tried += 1;
        }
    }
    assert!(tried > 300);
}

/// The rule agrees with the document's sentences taken literally, on values that solve the model.
#[test]
fn update_agrees_with_the_sentences() {
    for sample in samples(25) {
        let model = check(&sample.after).unwrap();
        if model.sizes.pairs() > 300 {
            continue;
        }
        let old = truths(&sample.before);
        let expected = literal::update(&model, &sample.changes, &old);
        assert_eq!(update(&model, &sample.changes, &old), expected);
        assert_eq!(truths(&sample.after), expected.values);
        assert_eq!(common::marks(&sample.after), expected.marks);
    }
}

/// The rule agrees with the document's sentences on values that don't solve anything.
#[test]
fn update_agrees_on_any_values() {
    let mut random = Random::new(1);
    for sample in samples(12) {
        let model = check(&sample.after).unwrap();
        if model.sizes.pairs() > 150 {
            continue;
        }
        for _ in 0..4 {
            let old: Vec<bool> = (0..model.sizes.pairs())
                .map(|_| random.chance(50))
                .collect();
            let expected = literal::update(&model, &sample.changes, &old);
            assert_eq!(update(&model, &sample.changes, &old), expected);
        }
    }
}

/// Loading and then writing gives back the bytes of every model.
#[test]
fn load_then_write_gives_back_the_bytes() {
    let mut models = 0;
    for seed in 0..150 {
        let stream = generate(seed);
        let mut session = Session::roomy();
        let length = reference::program::cut(&stream.bytes).unwrap_or(0);
        let model = &stream.bytes[..length];
        if load(&mut session, model).is_ok() {
            assert_eq!(write_vec(&session).unwrap(), model);
            models += 1;
        }
    }
    assert!(models > 100);
}

/// Writing after any run of batches and loading again gives back the session but for the marks.
#[test]
fn write_then_load_gives_back_the_session() {
    for sample in samples(15) {
        let bytes = write_vec(&sample.after).unwrap();
        let mut again = Session::roomy();
        load(&mut again, &bytes).unwrap();
        assert!(common::marks(&again).iter().all(|mark| *mark == 0));
        assert_eq!(write_vec(&again).unwrap(), bytes);
        let pairs = again.sizes.pairs();
        assert_eq!(again.sizes, sample.after.sizes);
        assert_eq!(again.live, sample.after.live);
        assert_eq!(again.labels, sample.after.labels);
        assert_eq!(again.equations, sample.after.equations);
        assert_eq!(again.blocks, sample.after.blocks);
        assert_eq!(again.signs, sample.after.signs);
        assert_eq!(again.components, sample.after.components);
        assert_eq!(again.table(), sample.after.table());
        assert_eq!(again.values[..pairs], sample.after.values[..pairs]);
        assert_eq!(again.stamp, sample.after.stamp);
    }
}

/// A refused batch leaves the whole session as it was.
#[test]
fn refused_batches_change_nothing() {
    for seed in 0..60 {
        let stream = generate_family(seed, Family::Damaged);
        let mut last: Option<Session> = None;
        walk(&stream.bytes, |_, line, session| {
            if let (Line::Refused(_), Some(before)) = (line, &last) {
                assert!(before == session);
            }
            last = Some(session.clone());
        });
    }
}
