//! A mutating run: cases that give a sort of call not seen before are kept and changed further.

use std::time::{Duration, Instant};

use reference::generate::{generate, generate_family, Family};
use reference::random::Random;
use reference::stream_in_signs;

use crate::boundary::Boundary;
use crate::case::{run, Case};
use crate::mutate::mutate;
use crate::progress::Progress;
use crate::tally::Tally;

/// How many cases the corpus begins with, and the most that it holds.
const FIRST: u64 = 200;
const MOST: usize = 20_000;

/// The longest stream that the corpus begins with.
const LONGEST: usize = 16_000;

/// What a run came to.
pub struct Found {
    pub tally: Tally,
    pub cases: u64,
    pub corpus: usize,
    pub taken: Duration,
    /// The case that differed, and what differed.
    pub differed: Option<(Case, String)>,
}

/// The cases that a run begins with: good and bad streams, mostly small ones, and the bench cases of document 01.
fn corpus(seed: u64) -> Vec<Case> {
    use Family::{BadLive, BadModel, Chain, Damaged, Small, Tiny};
    let mut cases = bench_cases();
    for number in 0..FIRST {
        let family = [Tiny, Small, Chain, BadModel, Damaged, Tiny, BadLive][number as usize % 7];
        let seed = seed.wrapping_mul(1_000_003).wrapping_add(number);
        let stream = match number % 4 {
            0 => generate(seed),
            _ => generate_family(seed, family),
        };
        let mut bytes = stream.bytes;
        bytes.truncate(LONGEST);
        cases.push(Case { bytes, plan: seed });
    }
    cases
}

/// Model G of document 01 with batches A, B and C, the model of case E with its batch, and a live ring of two states with a batch
/// that makes one hang and one that gives it another move, in either style.
fn bench_cases() -> Vec<Case> {
    let g = [1, 2, 0, 1, 0, 1, 1, 3, 1, 1, 4, 6, 0, 0, 6];
    let a = [7, 0, 0, 0, 0, 8, 0, 0, 0, 0, 0, 6];
    let b = [7, 1, 0, 0, 0, 8, 1, 0, 0, 0, 0, 6];
    let c = [7, 3, 0, 1, 0, 9, 0, 0, 0, 0, 0, 6];
    let e = [
        1, 2, 0, 1, 1, 3, 1, 2, 1, 0, 1, 0, 0, 0, 3, 0, 3, 4, 4, 1, 2, 4, 2, 0, 0, 4, 6, 0, 0, 5,
        0, 0, 0, 0, 0, 5, 0, 0, 0, 1, 0, 6,
    ];
    let f = [7, 3, 1, 0, 0, 9, 0, 0, 0, 1, 0, 6];
    let ring = [
        1, 2, 0, 1, 0, 1, 1, 10, 3, 1, 1, 4, 6, 0, 0, 5, 0, 0, 0, 1, 0, 5, 1, 0, 0, 0, 0, 6,
    ];
    let hangs = [7, 4, 1, 1, 0, 9, 0, 0, 0, 1, 0, 6];
    let other = [7, 4, 1, 1, 0, 9, 0, 0, 0, 1, 0, 8, 0, 0, 0, 0, 0, 6];
    let case = |parts: &[&[u8]]| Case {
        bytes: parts.concat(),
        plan: 0,
    };
    let mut cases = vec![
        case(&[&g, &a, &b, &c]),
        case(&[&e, &f]),
        case(&[&ring, &hangs, &other]),
    ];
    for at in 0..cases.len() {
        let signs = stream_in_signs(&cases[at].bytes);
        cases.extend(signs.map(|bytes| Case { bytes, plan: 0 }));
    }
    cases
}

/// A changed copy of one of the cases: another stream, another plan, or both.
fn change(random: &mut Random, cases: &[Case]) -> Case {
    let one = &cases[random.below(cases.len())];
    let other = &cases[random.below(cases.len())];
    let mut changed = one.clone();
    let which = random.below(10);
    if which < 8 {
        changed.bytes = mutate(random, &one.bytes, &other.bytes);
    }
    if which > 3 {
        changed.plan = random.bits();
    }
    changed
}

/// How far a run is.
fn so_far(found: &Found, taken: Duration, time: Duration) -> String {
    format!(
        "fuzz: {:.1} of {:.1} minutes, {} cases, {} calls, {} sorts of calls, no difference",
        taken.as_secs_f64() / 60.0,
        time.as_secs_f64() / 60.0,
        found.cases,
        found.tally.calls(),
        found.tally.signs.len()
    )
}

/// Runs changed cases until the time is over or one differs, and tells how far it is.
pub fn fuzz(boundary: &dyn Boundary, time: Duration, seed: u64) -> Found {
    let start = Instant::now();
    let mut random = Random::new(seed);
    let mut found = Found {
        tally: Tally::default(),
        cases: 0,
        corpus: 0,
        taken: Duration::ZERO,
        differed: None,
    };
    let mut cases = corpus(seed);
    let mut waiting = cases.clone();
    let mut progress = Progress::begin();
    while start.elapsed() < time && found.differed.is_none() {
        progress.tell(|| so_far(&found, start.elapsed(), time));
        let case = waiting.pop().unwrap_or_else(|| change(&mut random, &cases));
        found.tally.fresh = 0;
        found.cases += 1;
        if let Err(what) = run(boundary, &case, &mut found.tally) {
            found.differed = Some((case, what));
        } else if found.tally.fresh > 0 && cases.len() < MOST {
            cases.push(case);
        }
    }
    progress.end();
    found.corpus = cases.len();
    found.taken = start.elapsed();
    found
}
