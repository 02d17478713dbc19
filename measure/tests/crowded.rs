//! What is said of the crowded tables that are timed: nothing is true as they stand, a deletion turns no pair, and an insertion
//! turns pairs there and back: on the first the diamonds of its source.

mod common;

use common::Sides;
use measure::answers::Report;
use measure::cases::{crowded, halves};

/// The places of the 31 diamonds of a state.
fn diamonds(state: usize) -> Vec<usize> {
    (1..32).map(|x| 256 * x + state).collect()
}

#[test]
fn nothing_is_true_before_or_after_a_change() {
    let case = crowded();
    let mut sides = Sides::loaded(&case.bytes);
    assert_eq!(sides.rooms().table().len(), 1_024);
    assert!(sides.rooms().values.iter().all(|value| *value == 0));
    for m in case.spread(32) {
        let single = case.changes(&[m], &[]);
        assert_eq!(sides.batch(&single.there), Ok(Report::default()));
        assert!(sides.rooms().marks.iter().all(|mark| *mark == 0));
        assert_eq!(sides.batch(&single.back), Ok(Report::default()));
        let marks = sides.rooms().marks.iter().enumerate();
        let turned = marks.filter(|(_, mark)| **mark != 0);
        let back: Vec<usize> = turned.map(|(pair, _)| pair).collect();
        assert_eq!(back, diamonds(m.source.0.into()));
        assert!(back.iter().all(|pair| sides.rooms().marks[*pair] == 2));
        assert!(sides.rooms().values.iter().all(|value| *value == 0));
    }
}

#[test]
fn nothing_is_true_where_states_fall_by_halves() {
    let case = halves();
    let mut sides = Sides::loaded(&case.bytes);
    assert_eq!(sides.rooms().table().len(), 1_024);
    assert!(sides.rooms().values.iter().all(|value| *value == 0));
    let tree = case.moves.iter().filter(|m| m.action.0 == 1);
    for m in case.spread(32).iter().chain(tree) {
        let single = case.changes(&[*m], &[]);
        assert_eq!(sides.batch(&single.there), Ok(Report::default()));
        assert!(sides.rooms().marks.iter().all(|mark| *mark == 0));
        assert_eq!(sides.batch(&single.back).unwrap().net, 0);
        let marks = &sides.rooms().marks;
        let variable = if m.action.0 == 1 { 0 } else { 1 };
        assert_eq!(marks[256 * variable + usize::from(m.source.0)], 2);
        assert!(marks.iter().all(|mark| *mark == 0 || *mark == 2));
        assert!(sides.rooms().values.iter().all(|value| *value == 0));
    }
}

/// So the states fall from the leaves of the tree to its root.
#[test]
fn each_state_of_the_tree_leads_to_one_with_half_as_many_under_it() {
    let case = halves();
    let tree = case.moves.iter().filter(|m| m.action.0 == 1);
    let levels = tree.map(|m| [m.source, m.target].map(|s| (s.0 + 1).trailing_zeros()));
    let levels: Vec<[u32; 2]> = levels.collect();
    assert_eq!(levels.len(), 127);
    assert!(levels.iter().all(|[over, under]| *over == under + 1));
}
