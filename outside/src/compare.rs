//! The generator's streams, two cases per seed.

use std::sync::atomic::{AtomicU64, Ordering};
use std::sync::Mutex;
use std::thread;

use reference::generate::{generate, generate_family, Family};

use crate::boundary::Boundary;
use crate::case::{run, Case};
use crate::progress::Progress;
use crate::tally::Tally;

/// From how many seeds on every answer must have come at least once.
pub const ENOUGH: u64 = 500;

/// The seed of a case that differed, with the case and what differed.
pub type Differed = (u64, Case, String);

/// The cases of a seed: its stream, and one whose model is refused, so that every refusal of a load comes often; every third time
/// it is refused for kind 10 or a hanging state.
pub fn cases_of(seed: u64) -> [Case; 2] {
    let bad = match seed % 3 {
        0 => Family::BadLive,
        _ => Family::BadModel,
    };
    let streams = [generate(seed), generate_family(seed, bad)];
    streams.map(|stream| Case {
        bytes: stream.bytes,
        plan: seed,
    })
}

/// Runs the cases of so many seeds from a first one on, on all processors, and tells how far it is. Gives the counts, and the
/// lowest seed among those that were found to differ.
pub fn compare(
    boundary: &(dyn Boundary + Sync),
    count: u64,
    first: u64,
) -> (Tally, Option<Differed>) {
    let (next, total) = (AtomicU64::new(0), Mutex::new(Tally::default()));
    let differed = Mutex::new(None::<Differed>);
    let progress = Mutex::new(Progress::begin());
    let workers = thread::available_parallelism().map_or(1, usize::from);
    thread::scope(|scope| {
        for _ in 0..workers {
            scope.spawn(|| {
                let tell = |number| {
                    let text = || format!("outside: {number} of {count} streams, no difference");
                    progress.lock().unwrap().tell(text);
                };
                let tally = work(boundary, count, first, &next, &differed, &tell);
                total.lock().unwrap().join(tally);
            });
        }
    });
    progress.into_inner().unwrap().end();
    (total.into_inner().unwrap(), differed.into_inner().unwrap())
}

/// Takes seed after seed until none is left or one has differed. A seed once taken is run to its end, so that the lowest that
/// differs is always found.
fn work(
    boundary: &(dyn Boundary + Sync),
    count: u64,
    first: u64,
    next: &AtomicU64,
    differed: &Mutex<Option<Differed>>,
    tell: &dyn Fn(u64),
) -> Tally {
    let mut tally = Tally::default();
    while differed.lock().unwrap().is_none() {
        let number = next.fetch_add(1, Ordering::Relaxed);
        if number >= count {
            break;
        }
        tell(number);
        let seed = first.wrapping_add(number);
        for case in cases_of(seed) {
            if let Err(what) = run(boundary, &case, &mut tally) {
                keep_lowest(&mut differed.lock().unwrap(), (seed, case, what));
                break;
            }
        }
    }
    tally
}

/// Keeps the difference of the lower seed.
fn keep_lowest(kept: &mut Option<Differed>, found: Differed) {
    if kept.as_ref().is_none_or(|kept| found.0 < kept.0) {
        *kept = Some(found);
    }
}
