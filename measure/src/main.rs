//! Times the proved library beside the ordinary version and the strong one, and prints one table.

use std::hint::black_box;

use measure::cases::{
    crowded, eight, grid, halves, led_elsewhere, live, maximal, signs, Case, ThereAndBack, Touched,
    MIXED_RULE, STRICT_RULE,
};
use measure::clock::{in_turns, microseconds, middle, worst, Timed};
use measure::rooms::Rooms;
use measure::sides::{Side, SIDES};

/// How many different moves are deleted and inserted again, one at a time.
const SPREAD: usize = 32;

/// Prints one row.
fn row(name: &str, timed: Timed) {
    let [ours, ordinary, strong] = timed;
    let (over, beside) = (ours / ordinary, ours / strong);
    println!("{name:<60} {ours:>10.3} {ordinary:>12.3} {strong:>10.3} {over:>14.2} {beside:>12.2}");
}

/// Rooms of each version with a model loaded.
struct Loaded {
    rooms: [Rooms; SIDES],
}

impl Loaded {
    /// Loads a model into all.
    fn new(case: &Case) -> Loaded {
        let rooms = Side::ALL.map(|side| {
            let mut rooms = Rooms::most();
            side.load(&case.bytes, &mut rooms).unwrap();
            rooms
        });
        let loaded = Loaded { rooms };
        loaded.agree();
        loaded
    }

    /// The rooms of one version.
    fn of(&mut self, side: Side) -> &mut Rooms {
        &mut self.rooms[side as usize]
    }

    /// All rooms must be equal.
    fn agree(&self) {
        let [first, others @ ..] = &self.rooms;
        others.iter().for_each(|other| assert_eq!(first, other));
    }

    /// Times N batches, each applied where the one before it left the rooms; the last one leaves them as they were.
    fn batches<const N: usize>(&mut self, rounds: usize, batches: [&[u8]; N]) -> [Timed; N] {
        let times = in_turns(rounds, |side| {
            let rooms = self.of(side);
            batches.map(|bytes| {
                microseconds(|| {
                    let report = side.batch(black_box(bytes), rooms);
                    black_box(report).unwrap();
                })
            })
        });
        self.agree();
        times
    }

    /// Times batches and their undoings, so many times each. Every round goes through all of them, so that a busy moment of
    /// the machine does not fall on one of them alone. The first is made and undone once in front and not counted: the calls
    /// that a version makes directly after another are slower, and the worst would be these, whatever they change.
    fn there_and_back(&mut self, rounds: usize, changes: &[ThereAndBack]) -> Vec<Timed> {
        let batches: [&[u8]; 2 + 2 * SPREAD] = std::array::from_fn(|i| {
            let one = &changes[(i / 2).saturating_sub(1)];
            match i % 2 {
                0 => &one.there[..],
                _ => &one.back,
            }
        });
        self.batches(rounds, batches)[2..].to_vec()
    }
}

/// Loads a model again and again.
fn time_load(case: &Case, rounds: usize) -> Timed {
    let mut loaded = Loaded::new(case);
    let [timed] = in_turns(rounds, |side| {
        let rooms = loaded.of(side);
        [microseconds(|| {
            black_box(side.load(black_box(&case.bytes), rooms)).unwrap();
        })]
    });
    loaded.agree();
    timed
}

/// Deletes and inserts single moves, spread over the table: the figures of the deletes and those of the inserts.
fn time_single(case: &Case, rounds: usize) -> [Vec<Timed>; 2] {
    let moves = case.spread(SPREAD);
    let singles: Vec<_> = moves.iter().map(|m| case.changes(&[*m], &[])).collect();
    let times = Loaded::new(case).there_and_back(rounds, &singles);
    [0, 1].map(|back| times.iter().skip(back).step_by(2).copied().collect())
}

/// Load, and single moves, of one model.
fn rows_of(case: &Case, rounds: usize) {
    let name = &case.name;
    row(&format!("{name}: load"), time_load(case, rounds));
    let [deleted, inserted] = time_single(case, rounds);
    row(
        &format!("{name}: delete one move, median"),
        middle(&deleted),
    );
    row(&format!("{name}: delete one move, worst"), worst(&deleted));
    row(
        &format!("{name}: insert one move, median"),
        middle(&inserted),
    );
    row(&format!("{name}: insert one move, worst"), worst(&inserted));
}

/// A batch of 64 changes and its undoing, half of each deletes and half inserts.
fn row_of_64(case: &Case, rounds: usize) {
    let batches = case.changes(&case.spread(32), &case.absent(32));
    let [there, back] = Loaded::new(case).batches(rounds, [&batches.there, &batches.back]);
    row(&format!("{}: batch of 64 changes", case.name), there);
    row(&format!("{}: the same undone", case.name), back);
}

/// Batches that touch only what the first of eight blocks names, only what the last names, or nothing.
fn rows_of_eight(rounds: usize) {
    let case = eight();
    let name = &case.name;
    for (touched, which) in [(Touched::First, "first"), (Touched::Last, "last")] {
        let changes = led_elsewhere(&case, touched, SPREAD as u16);
        let times = Loaded::new(&case).there_and_back(rounds, &changes);
        row(
            &format!("{name}: a batch that touches only what the {which} names"),
            middle(&times),
        );
    }
    let nothing = case.changes(&[], &[]).there;
    let [timed] = Loaded::new(&case).batches(rounds, [&nothing]);
    row(&format!("{name}: a batch of no changes"), timed);
}

/// Questions about every pair, and the writing of the model.
fn rows_of_reading(case: &Case, rounds: usize) {
    let mut loaded = Loaded::new(case);
    let (states, variables) = (case.sizes.states, case.sizes.variables);
    let [asked] = in_turns(rounds, |side| {
        let rooms = &*loaded.of(side);
        let all = microseconds(|| {
            for variable in 0..variables {
                for state in 0..states {
                    black_box(side.ask(rooms, black_box(state), variable)).unwrap();
                }
            }
        });
        [all / f64::from(states) / f64::from(variables)]
    });
    row(&format!("{}: ask one pair", case.name), asked);
    let mut out = vec![0; 9_000];
    let [written] = in_turns(rounds, |side| {
        let rooms = &*loaded.of(side);
        [microseconds(|| {
            black_box(side.write(black_box(rooms), &mut out)).unwrap();
        })]
    });
    row(&format!("{}: write", case.name), written);
}

/// How load and single moves grow with the number of states at two moves a state.
fn rows_of_growth(rounds: usize) {
    for writers in [1, 2, 4, 8, 16] {
        let case = grid(writers, &STRICT_RULE);
        let [deleted, inserted] = time_single(&case, rounds);
        let states = 16 * writers;
        row(
            &format!("growth, {states} states: load"),
            time_load(&case, rounds),
        );
        row(
            &format!("growth, {states} states: delete one move"),
            middle(&deleted),
        );
        row(
            &format!("growth, {states} states: insert one move"),
            middle(&inserted),
        );
    }
}

/// The whole table. The one argument, if there is one, is the number of rounds.
fn main() {
    let argument = std::env::args().nth(1);
    let rounds = argument.map_or(51, |word| word.parse().expect("a number of rounds"));
    println!(
        "{:<60} {:>10} {:>12} {:>10} {:>14} {:>12}",
        "case", "ours µs", "ordinary µs", "strong µs", "ours/ordinary", "ours/strong"
    );
    rows_of(&grid(16, &STRICT_RULE), rounds);
    rows_of(&grid(16, &MIXED_RULE), rounds);
    rows_of(&maximal(), rounds);
    row_of_64(&maximal(), rounds);
    rows_of_eight(rounds);
    rows_of(&crowded(), rounds);
    rows_of(&halves(), rounds);
    rows_of_growth(rounds);
    rows_of_reading(&grid(16, &STRICT_RULE), rounds);
    rows_of_reading(&maximal(), rounds);
    let signed = signs(&maximal());
    rows_of(&signed, rounds);
    row_of_64(&signed, rounds);
    rows_of_reading(&signed, rounds);
    let strict = live(&grid(16, &STRICT_RULE));
    rows_of(&strict, rounds);
    rows_of_reading(&strict, rounds);
    row_of_64(&live(&maximal()), rounds);
}
