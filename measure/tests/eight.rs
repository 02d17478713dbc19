//! What is said of the eight blocks that are timed: where a batch touches what only the last names, nothing of the others
//! turns; where it touches what only the first names, pairs of every block turn.

mod common;

use common::Sides;
use measure::cases::{eight, led_elsewhere, Touched};

const STATES: usize = 256;

/// For each batch there and back, how many pairs of each block turned.
fn turned(touched: Touched) -> Vec<[usize; 8]> {
    let case = eight();
    let mut sides = Sides::loaded(&case.bytes);
    let all = led_elsewhere(&case, touched, 32);
    let batches = all.iter().flat_map(|one| [&one.there, &one.back]);
    let counted = batches.map(|bytes| {
        sides.batch(bytes).unwrap();
        let mut blocks = sides.rooms().marks.chunks(4 * STATES);
        std::array::from_fn(|_| blocks.next().unwrap().iter().filter(|m| **m != 0).count())
    });
    counted.collect()
}

#[test]
fn only_the_last_is_true_as_it_stands() {
    let sides = Sides::loaded(&eight().bytes);
    let rows: Vec<&[u8]> = sides.rooms().values.chunks(STATES).collect();
    for block in 0..8 {
        let value = u8::from(block == 7);
        assert!(rows[4 * block].iter().all(|v| *v == value));
    }
}

#[test]
fn what_the_last_names_leaves_the_others_alone() {
    for turned in turned(Touched::Last) {
        assert_eq!(turned[..7], [0; 7]);
        assert!((1..64).contains(&turned[7]));
    }
}

#[test]
fn what_the_first_names_turns_pairs_of_every_block() {
    let all = turned(Touched::First);
    let every = all.iter().filter(|turned| !turned.contains(&0));
    assert!(every.count() >= 60);
}
