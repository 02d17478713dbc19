//! What a model with signs means: components, values, marks and visits, and old models rewritten.

mod common;

use std::collections::BTreeSet;

use common::*;
use reference::batch::read_batch;
use reference::components::components;
use reference::generate::{generate, generate_family, Family};
use reference::model::Model;
use reference::program::{cut, run, walk, Line, MOST_BYTES};
use reference::random::Random;
use reference::records::{spell_all, Record};
use reference::session::check;
use reference::solve::solve;
use reference::update::{update, Change};
use reference::{in_signs, load, stream_in_signs, write_vec};
use reference::{Block, Equation, Session, Sizes, State, Style, Updated, Variable};

const LEAST: u8 = 0;
const GREATEST: u8 = 1;

/// The bytes of a model of one action, no propositions and these equations with their signs.
fn spelled(states: u16, equations: &[[u8; 4]], moves: &[[u16; 2]]) -> Vec<u8> {
    let mut records = vec![sizes(states, 1, 0, equations.len() as u8, 0)];
    records.extend(equations.iter().map(|[s, o, x, y]| signed(*s, *o, *x, *y)));
    records.extend(moves.iter().map(|[s, t]| step(*s, 0, *t)));
    records.push(end());
    join(&records)
}

/// Carries out changes with the right stamp and gives net, shift visits and settle visits.
fn change(session: &mut Session, changes: &[Vec<u8>]) -> (i64, usize, usize) {
    let right = session.stamp.unwrap();
    let updated = accept(session, &[stamp(right), join(changes), end()]);
    (updated.net, updated.shift_visits, updated.settle_visits)
}

/// The model of case E with blocks.
fn model_e() -> Vec<u8> {
    join(&[
        sizes(2, 1, 1, 3, 1),
        label(1, 1),
        block(0, 3),
        equation(4, 1, 2),
        equation(2, 0, 0),
        equation(6, 0, 0),
        step(0, 0, 0),
        step(0, 0, 1),
        end(),
    ])
}

/// Case E rewritten: X1 is component 0, X0 and X2 are component 1. The delete shifts X2 and X0 at
/// state 0; X0 leans on X2 and, round the loop, X2 on X0, which makes 2 visits inside component 1.
#[test]
fn case_e_with_signs() {
    let rewritten = in_signs(&model_e()).unwrap();
    let expected = [
        sizes(2, 1, 1, 3, 0),
        label(1, 1),
        signed(0, 4, 1, 2),
        signed(0, 2, 0, 0),
        signed(0, 6, 0, 0),
        step(0, 0, 0),
        step(0, 0, 1),
        end(),
    ];
    assert_eq!(rewritten, join(&expected));
    let mut session = loaded(&rewritten);
    assert_eq!(session.components[..3], [1, 0, 1]);
    assert_eq!(values(&session), [1, 0, 1, 1, 1, 0]);
    let updated = accept(&mut session, &[stamp(259), delete(0, 0, 1), end()]);
    assert_eq!(figures(updated), (-2, 2, 0, 1));
    assert_eq!(values(&session), [0, 0, 0, 1, 1, 0]);
    assert_eq!(marks(&session), [1, 0, 1, 0, 0, 0]);
}

/// Cases A to D rewritten: model G has one component, so everything is as with its block.
#[test]
fn cases_a_to_d_with_signs() {
    let g = in_signs(&G).unwrap();
    assert_eq!(g, spelled(2, &[[GREATEST, 6, 0, 0]], &[]));
    let mut session = loaded(&g);
    assert_eq!(change(&mut session, &[insert(0, 0, 0)]), (1, 1, 0));
    assert_eq!(change(&mut session, &[insert(1, 0, 0)]), (1, 0, 0));
    assert_eq!(change(&mut session, &[delete(0, 0, 0)]), (-2, 0, 1));
    assert_eq!(marks(&session), [3, 3]);
    let mut session = loaded(&g);
    assert_eq!(change(&mut session, &[insert(0, 0, 1)]), (0, 0, 0));
    assert_eq!(marks(&session), [2, 0]);
}

/// Visits go by components: in one block X1 = X0 or X0 adds two leanings, as a component of its own
/// it adds none.
#[test]
fn visits_go_by_components() {
    let blocks = join(&[
        sizes(1, 1, 0, 2, 1),
        block(1, 2),
        equation(6, 0, 0),
        equation(4, 0, 0),
        end(),
    ]);
    let mut old = loaded(&blocks);
    let mut new = loaded(&in_signs(&blocks).unwrap());
    assert_eq!(change(&mut old, &[insert(0, 0, 0)]), (2, 3, 0));
    assert_eq!(change(&mut new, &[insert(0, 0, 0)]), (2, 1, 0));
    assert_eq!((marks(&old), marks(&new)), (&[1, 1][..], &[1, 1][..]));
    assert_eq!(change(&mut old, &[delete(0, 0, 0)]), (-2, 0, 2));
    assert_eq!(change(&mut new, &[delete(0, 0, 0)]), (-2, 0, 0));
    assert_eq!(values(&old), values(&new));
}

/// Marks may differ too: a pair that shifts through its own block only settles where its operand
/// is another component that came back.
#[test]
fn marks_may_differ() {
    let blocks = join(&[
        sizes(2, 1, 0, 2, 1),
        block(1, 2),
        equation(6, 0, 0),
        equation(4, 0, 0),
        end(),
    ]);
    let mut old = loaded(&blocks);
    let mut new = loaded(&in_signs(&blocks).unwrap());
    assert_eq!(change(&mut old, &[insert(0, 0, 1)]), (0, 2, 2));
    assert_eq!(change(&mut new, &[insert(0, 0, 1)]), (0, 0, 0));
    assert_eq!(marks(&old), [2, 2, 0, 0]);
    assert_eq!(marks(&new), [2, 0, 0, 0]);
}

/// Components are numbered by their reach, whatever the order of the variables.
#[test]
fn numbers_of_components() {
    let number = |equations: &[[u8; 3]]| {
        let made = |[operator, first, second]: &[u8; 3]| Equation {
            operator: *operator,
            first: *first,
            second: *second,
        };
        components(&equations.iter().map(made).collect::<Vec<_>>())
    };
    let none = [0, 0, 0];
    let to = |x: u8| [6, 0, x];
    assert_eq!(number(&[none]), [0]);
    assert_eq!(number(&[to(0)]), [0]);
    assert_eq!(number(&[none, none, none]), [0, 1, 2]);
    assert_eq!(number(&[to(1), to(2), none]), [2, 1, 0]);
    assert_eq!(number(&[none, to(0), to(1)]), [0, 1, 2]);
    assert_eq!(number(&[to(1), to(2), to(0)]), [0, 0, 0]);
    // Reaches 1001, 0010, 1100 and 1000 in bits.
    assert_eq!(number(&[to(3), none, to(3), none]), [2, 0, 3, 1]);
    // The propositions and the actions of an equation are no names.
    assert_eq!(number(&[[2, 1, 0], [6, 0, 1]]), [0, 1]);
    assert_eq!(number(&[[6, 1, 0], [6, 0, 1]]), [0, 1]);
    let ladder: Vec<[u8; 3]> = (0..32)
        .map(|x| if x == 31 { none } else { to(x + 1) })
        .collect();
    let down: Vec<u8> = (0..32).rev().collect();
    assert_eq!(number(&ladder), down);
    let ring: Vec<[u8; 3]> = (0..32).map(|x| to((x + 1) % 32)).collect();
    assert_eq!(number(&ring), [0; 32]);
}

/// Components come after those that they name though their variables come before: X0 reaches, by a
/// least loop through X1, a greatest loop X2. The new loop shifts X2 at three states, each with one
/// leaning on it, and X0 and X1 settle there, again with one leaning each inside their component.
#[test]
fn components_against_the_order_of_variables() {
    let equations = [[LEAST, 4, 2, 1], [LEAST, 6, 0, 0], [GREATEST, 6, 0, 2]];
    let session = loaded(&spelled(4, &equations, &[[0, 1], [1, 2], [2, 2]]));
    assert_eq!(session.components[..3], [1, 1, 0]);
    let expected = [[1, 1, 1], [1, 1, 1], [1, 1, 1], [0, 0, 0]];
    assert_eq!(values(&session), expected.concat());
    let mut session = loaded(&spelled(4, &equations, &[[0, 1], [1, 2]]));
    assert_eq!(values(&session), [0; 12]);
    assert_eq!(change(&mut session, &[insert(2, 0, 2)]), (9, 3, 6));
    assert_eq!(values(&session), expected.concat());
    assert_eq!(marks(&session)[..3], [3, 3, 1]);
}

/// A variable that stands alone and doesn't name itself has one value, but its own sign says
/// whether it shifts or settles.
#[test]
fn a_variable_alone_goes_by_its_own_sign() {
    for (sign, mark) in [(GREATEST, 1), (LEAST, 3)] {
        let equations = [[sign, 6, 0, 1], [LEAST, 1, 0, 0]];
        let mut session = loaded(&spelled(1, &equations, &[]));
        assert_eq!(values(&session), [0, 1]);
        assert_eq!(change(&mut session, &[insert(0, 0, 0)]), (1, 0, 0));
        assert_eq!(marks(&session), [mark, 0]);
    }
    for (sign, mark) in [(GREATEST, 3), (LEAST, 1)] {
        let equations = [[sign, 7, 0, 1], [GREATEST, 0, 0, 0]];
        let mut session = loaded(&spelled(1, &equations, &[]));
        assert_eq!(values(&session), [1, 0]);
        assert_eq!(change(&mut session, &[insert(0, 0, 0)]), (-1, 0, 0));
        assert_eq!(marks(&session), [mark, 0]);
    }
}

/// A variable that names itself alone has the smallest or the largest solution by its sign.
#[test]
fn a_loop_goes_by_its_sign() {
    for [o, x, y] in [[4, 0, 0], [5, 0, 0], [6, 0, 0], [7, 0, 0]] {
        for sign in [LEAST, GREATEST] {
            let session = loaded(&spelled(1, &[[sign, o, x, y]], &[[0, 0]]));
            assert_eq!(values(&session), [sign]);
        }
    }
}

/// A pair of another component that went over seeds, though its variable's number is higher.
#[test]
fn another_component_seeds() {
    let equations = [[GREATEST, 5, 1, 0], [GREATEST, 6, 0, 1]];
    let mut session = loaded(&spelled(1, &equations, &[]));
    assert_eq!(session.components[..2], [1, 0]);
    assert_eq!(change(&mut session, &[insert(0, 0, 0)]), (2, 2, 0));
    assert_eq!(marks(&session), [1, 1]);
    assert_eq!(change(&mut session, &[delete(0, 0, 0)]), (-2, 0, 1));
    assert_eq!(marks(&session), [3, 3]);
}

/// A stream with signs runs through the program, and what is written is what was loaded.
#[test]
fn the_program_reads_signs() {
    let model = spelled(2, &[[GREATEST, 6, 0, 0]], &[]);
    let a = join(&[stamp(0), insert(0, 0, 0), end()]);
    let mixed = spelled(2, &[[0, 6, 0, 1], [1, 6, 0, 0]], &[]);
    let printed = run(&[&model[..], &a, &mixed, &a].concat());
    let lines = [
        "loaded true 0 of 2 stamp 0\n",
        "batch net 1 visits 1 0 true 1 of 2 stamp 1\n",
        "refused 2 at 0\n",
        "refused 11 at 0\n",
    ];
    assert_eq!(printed, lines.concat());
    assert_eq!(run(&[mixed, a].concat()), "refused 5 at 7\n");
}

/// The models with signs of some generated streams.
fn signed_models(families: &[Family], seeds: u64) -> Vec<(Vec<u8>, Model)> {
    let mut models = Vec::new();
    for seed in 0..seeds {
        for family in families {
            let bytes = generate_family(seed, *family).bytes;
            let bytes = bytes[..cut(&bytes).unwrap()].to_vec();
            let model = check(&loaded(&bytes)).unwrap();
            if model.sizes.style() == Style::Signs {
                models.push((bytes, model));
            }
        }
    }
    models
}

/// Families of models of all sizes.
const SIZES: [Family; 4] = [Family::Tiny, Family::Small, Family::Medium, Family::Chain];

/// Components are what the definition says: variables that lead to each other, numbered by how many
/// reaches are smaller, each after those that it names.
#[test]
fn components_follow_the_definition() {
    for (_, model) in signed_models(&SIZES, 100) {
        let leads = literal::leads(&model);
        let found = components(&model.equations);
        let count = found.len();
        let reach = |x: usize| -> u64 {
            (0..count)
                .map(|y| u64::from(x == y || leads[x][y]) << y)
                .sum()
        };
        let reaches: BTreeSet<u64> = (0..count).map(reach).collect();
        for x in 0..count {
            let smaller = reaches.iter().filter(|r| **r < reach(x)).count();
            assert_eq!(usize::from(found[x]), smaller);
            for y in 0..count {
                let together = x == y || (leads[x][y] && leads[y][x]);
                assert_eq!(found[x] == found[y], together);
                assert!(!leads[x][y] || found[y] <= found[x]);
            }
        }
    }
}

/// The values are those of nested fixpoints in any order of the variables, in which no component
/// is asked for.
#[test]
fn values_are_nested_fixpoints() {
    let mut random = Random::new(3);
    let models = signed_models(&[Family::Tiny], 400);
    assert!(models.len() > 100);
    for (_, model) in models {
        let mut order: Vec<Variable> = (0..model.sizes.variables).map(Variable).collect();
        let solved = literal::trues(&model, &solve(&model));
        for _ in 0..3 {
            random.shuffle(&mut order);
            let mut trues = BTreeSet::new();
            literal::nested(&model, &order, &mut trues);
            assert_eq!(trues, solved);
        }
    }
}

/// The model with its components as blocks, in their order, and which variable each one became. The
/// number of blocks may be more than a sizes record holds.
fn as_blocks(model: &Model) -> (Model, Vec<u8>) {
    let mut became = vec![0; model.equations.len()];
    let mut order: Vec<usize> = Vec::new();
    let mut blocks = Vec::new();
    for group in literal::groups(model) {
        blocks.push(Block {
            kind: model.signs[usize::from(group.variables[0].0)],
            variables: group.variables.len() as u8,
        });
        order.extend(group.variables.iter().map(|x| usize::from(x.0)));
    }
    for (at, x) in order.iter().enumerate() {
        became[*x] = at as u8;
    }
    let renamed = |e: Equation| match e.operator {
        4 | 5 => [became[usize::from(e.first)], became[usize::from(e.second)]],
        6 | 7 => [e.first, became[usize::from(e.second)]],
        _ => [e.first, e.second],
    };
    let equations = order.iter().map(|x| model.equations[*x]).map(|e| Equation {
        operator: e.operator,
        first: renamed(e)[0],
        second: renamed(e)[1],
    });
    let with_blocks = Model {
        sizes: Sizes {
            blocks: blocks.len() as u8,
            ..model.sizes
        },
        equations: equations.collect(),
        blocks,
        signs: vec![],
        ..model.clone()
    };
    (with_blocks, became)
}

/// What stands at each pair of the model with signs, out of what stands at the pairs of the model
/// with blocks.
fn back<T: Copy>(model: &Model, became: &[u8], found: &[T]) -> Vec<T> {
    let pairs = 0..model.sizes.pairs();
    let other = |pair| {
        let variable = Variable(became[usize::from(model.sizes.variable_of(pair).0)]);
        model.sizes.pair(model.sizes.state_of(pair), variable)
    };
    pairs.map(|pair| found[other(pair)]).collect()
}

/// The bytes of a model with at most eight blocks.
fn bytes_of(model: &Model) -> Vec<u8> {
    let mut records = vec![Record::Sizes(model.sizes)];
    records.extend(model.live.then_some(Record::Live));
    for (state, set) in (0..).zip(&model.labels).filter(|(_, set)| **set != 0) {
        let (state, set) = (State(state), *set);
        records.push(Record::Label { state, set });
    }
    let mut equations = model.equations.iter();
    for block in &model.blocks {
        records.push(Record::Block(*block));
        let own = equations.by_ref().take(usize::from(block.variables));
        records.extend(own.map(|equation| Record::Equation(*equation)));
    }
    records.extend(model.moves.iter().map(|m| Record::Move(*m)));
    records.push(Record::End);
    spell_all(&records)
}

/// The values are those of the model with its components as blocks, solved as a model with blocks,
/// and loaded as one where there are at most eight.
#[test]
fn values_are_those_of_components_as_blocks() {
    let mut by_bytes = 0;
    for (bytes, model) in signed_models(&SIZES, 60) {
        let (with_blocks, became) = as_blocks(&model);
        let solved = back(&model, &became, &solve(&with_blocks));
        assert_eq!(solve(&model), solved);
        if with_blocks.blocks.len() <= 8 {
            let other = loaded(&bytes_of(&with_blocks));
            let moved = back(&model, &became, values(&other));
            assert_eq!(values(&loaded(&bytes)), moved);
            by_bytes += 1;
        }
    }
    assert!(by_bytes > 50);
}

/// An accepted batch on a model with signs: the model after it, the values before it, the changes,
/// and the session and the answer after it.
struct Accepted {
    model: Model,
    old: Vec<bool>,
    changes: Vec<Change>,
    after: Session,
    updated: Updated,
}

/// Some accepted batches on models with signs.
fn batches() -> Vec<Accepted> {
    let mut found = Vec::new();
    for seed in 0..40 {
        for family in SIZES {
            let bytes = generate_family(seed, family).bytes;
            let mut last: Option<Vec<bool>> = None;
            let mut count = 0;
            walk(&bytes, |part, line, session| {
                if session.sizes.style() == Style::Blocks || count == 12 {
                    return;
                }
                if let (Line::Updated(updated), Some(old)) = (line, last.take()) {
                    let batch = read_batch(&bytes[part], &session.sizes).unwrap();
                    found.push(Accepted {
                        model: check(session).unwrap(),
                        old,
                        changes: batch.changes.iter().map(|(_, change)| *change).collect(),
                        after: session.clone(),
                        updated,
                    });
                    count += 1;
                }
                last = Some(values(session).iter().map(|value| *value == 1).collect());
            });
        }
    }
    assert!(found.len() > 300);
    found
}

/// A batch gives the values, marks, visits and net of the model with its components as blocks.
#[test]
fn batches_are_those_of_components_as_blocks() {
    for sample in batches() {
        let (with_blocks, became) = as_blocks(&sample.model);
        let mut old = vec![false; sample.old.len()];
        for (pair, value) in sample.old.iter().enumerate() {
            let variable = Variable(became[usize::from(sample.model.sizes.variable_of(pair).0)]);
            let state = sample.model.sizes.state_of(pair);
            old[with_blocks.sizes.pair(state, variable)] = *value;
        }
        let outcome = update(&with_blocks, &sample.changes, &old);
        let truths: Vec<bool> = values(&sample.after).iter().map(|v| *v == 1).collect();
        assert_eq!(back(&sample.model, &became, &outcome.values), truths);
        let moved = back(&sample.model, &became, &outcome.marks);
        assert_eq!(moved, marks(&sample.after));
        let visits = (sample.updated.shift_visits, sample.updated.settle_visits);
        assert_eq!((outcome.shift_visits, outcome.settle_visits), visits);
        assert_eq!(outcome.net, sample.updated.net);
    }
}

/// After batches the values are those of a fresh load of what is written, in the same style.
#[test]
fn batches_end_where_a_fresh_load_does() {
    for sample in batches() {
        let bytes = write_vec(&sample.after).unwrap();
        assert_eq!(bytes[6], 0);
        let again = loaded(&bytes);
        assert_eq!(values(&again), values(&sample.after));
        assert_eq!(again.components, sample.after.components);
        assert_eq!(again.signs, sample.after.signs);
    }
}

/// Writing gives back the bytes that were loaded, in both styles.
#[test]
fn writing_returns_the_style() {
    let mut styles = [0, 0];
    for seed in 0..200 {
        let bytes = generate_family(seed, Family::Small).bytes;
        let model = &bytes[..cut(&bytes).unwrap()];
        let session = loaded(model);
        assert_eq!(write_vec(&session).unwrap(), model);
        styles[usize::from(session.sizes.style() == Style::Signs)] += 1;
    }
    assert!(styles[0] > 40 && styles[1] > 40);
}

/// An old model rewritten loads with the same values, labels and moves, and can't be rewritten
/// once more; a refused one can't be rewritten at all.
#[test]
fn rewritten_models_have_the_same_values() {
    let mut rewritten = 0;
    for seed in 0..200 {
        let bytes = generate(seed).bytes;
        let length = cut(&bytes).unwrap_or(0);
        let model = &bytes[..length];
        let mut old = Session::roomy();
        let accepted = load(&mut old, model).is_ok();
        let Some(signs) = in_signs(model) else {
            assert!(!accepted || old.sizes.style() == Style::Signs);
            continue;
        };
        let new = loaded(&signs);
        assert_eq!(
            new.sizes,
            Sizes {
                blocks: 0,
                ..old.sizes
            }
        );
        assert_eq!(values(&new), values(&old));
        assert_eq!(new.live, old.live);
        assert_eq!((new.table(), &new.labels), (old.table(), &old.labels));
        assert_eq!(new.equations, old.equations);
        assert_eq!(in_signs(&signs), None);
        rewritten += 1;
    }
    assert!(rewritten > 100);
    assert_eq!(in_signs(&G[..14]), None);
    assert_eq!(in_signs(&[]), None);
}

/// A line without its visits.
fn without_visits(line: &str) -> String {
    let words: Vec<&str> = line.split(' ').collect();
    match words[..] {
        ["batch", "net", net, "visits", _, _, ref rest @ ..] => format!("{net} {}", rest.join(" ")),
        _ => line.into(),
    }
}

/// A whole stream with its model rewritten prints the same but for visits.
#[test]
fn rewritten_streams_print_the_same_but_for_visits() {
    let (mut streams, mut different) = (0, 0);
    for seed in 0..100 {
        let old = generate(seed).bytes;
        let Some(new) = stream_in_signs(&old) else {
            continue;
        };
        if old.len().max(new.len()) > MOST_BYTES {
            continue;
        }
        let (old, new) = (run(&old), run(&new));
        different += usize::from(old != new);
        let lines = |printed: &str| printed.lines().map(without_visits).collect::<Vec<_>>();
        assert_eq!(lines(&old), lines(&new));
        streams += 1;
    }
    assert!(streams > 40 && different > 10);
}
