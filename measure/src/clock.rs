//! Times of all versions on the same calls, taken in turns.

use std::time::Instant;

use crate::sides::{Side, SIDES};

/// Microseconds of each version, in the order of `Side::ALL`.
pub type Timed = [f64; SIDES];

/// How long a call takes, in microseconds.
pub fn microseconds(call: impl FnOnce()) -> f64 {
    let start = Instant::now();
    call();
    start.elapsed().as_secs_f64() * 1e6
}

/// The middle one of some numbers.
pub fn median(numbers: &[f64]) -> f64 {
    let mut sorted = numbers.to_vec();
    sorted.sort_by(f64::total_cmp);
    sorted[sorted.len() / 2]
}

/// Runs N calls of each version in turns, so many rounds after a tenth as many that are not counted, and gives for each of
/// the N calls the medians. The version that goes first changes with every round.
pub fn in_turns<const N: usize>(
    rounds: usize,
    mut calls: impl FnMut(Side) -> [f64; N],
) -> [Timed; N] {
    let mut kept = [const { Vec::new() }; SIDES];
    for round in 0..rounds / 10 + 1 + rounds {
        for turn in round..round + SIDES {
            let times = calls(Side::ALL[turn % SIDES]);
            if round > rounds / 10 {
                kept[turn % SIDES].push(times);
            }
        }
    }
    let of = |times: &Vec<[f64; N]>, i: usize| times.iter().map(|n| n[i]).collect::<Vec<_>>();
    std::array::from_fn(|i| kept.each_ref().map(|times| median(&of(times, i))))
}

/// One figure of many, each version by itself.
fn each(figures: &[Timed], one: fn(&[f64]) -> f64) -> Timed {
    std::array::from_fn(|side| one(&figures.iter().map(|timed| timed[side]).collect::<Vec<_>>()))
}

/// The medians of many figures.
pub fn middle(figures: &[Timed]) -> Timed {
    each(figures, median)
}

/// The longest of many figures.
pub fn worst(figures: &[Timed]) -> Timed {
    each(figures, |times| times.iter().copied().fold(0.0, f64::max))
}
