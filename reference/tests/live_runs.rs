//! Live models over whole runs of generated streams.

mod common;

use std::collections::BTreeSet;

use common::{literal, marks, values};
use reference::batch::{read_batch, Batch};
use reference::generate::{generate_family, Family};
use reference::program::{cut, walk, Line};
use reference::session::check;
use reference::{batch, load, stream_in_signs, write_vec, Refusal, Session, Updated};

/// Families whose models are accepted.
const GOOD: [Family; 5] = [
    Family::Tiny,
    Family::Small,
    Family::Medium,
    Family::Chain,
    Family::Full,
];

/// One batch of a stream: the session that it met, its bytes, and the line printed.
struct Met {
    before: Session,
    part: Vec<u8>,
    line: Line,
    after: Session,
}

/// The first batches of the streams of so many seeds, on live models or on all.
fn batches(seeds: u64, only_live: bool) -> Vec<Met> {
    let mut found = Vec::new();
    for seed in 0..seeds {
        for family in GOOD {
            let bytes = generate_family(seed, family).bytes;
            let mut last: Option<Session> = None;
            let mut count = 0;
            walk(&bytes, |part, line, session| {
                let wanted = count < 20 && (session.live == 1 || !only_live);
                if let (true, Some(before)) = (wanted, last.take()) {
                    found.push(Met {
                        before,
                        part: bytes[part].to_vec(),
                        line,
                        after: session.clone(),
                    });
                    count += 1;
                }
                last = wanted.then(|| session.clone());
            });
        }
    }
    found
}

/// How many of the batches were accepted, and how many refused with 16.
fn outcomes(met: &[Met]) -> (usize, usize) {
    let accepted = |m: &&Met| matches!(m.line, Line::Updated(_));
    let hung = |m: &&Met| matches!(m.line, Line::Refused(Refusal { number: 16, .. }));
    (
        met.iter().filter(accepted).count(),
        met.iter().filter(hung).count(),
    )
}

/// Whether a session is what a fresh load of its own writing gives, but for the marks.
fn is_its_own_load(session: &Session) -> bool {
    let mut again = Session::roomy();
    let loaded = load(&mut again, &write_vec(session).unwrap());
    let zero = vec![0; session.sizes.pairs()];
    loaded.is_ok()
        && (again.sizes, again.live) == (session.sizes, session.live)
        && again.labels == session.labels
        && (again.blocks, again.signs) == (session.blocks, session.signs)
        && again.components == session.components
        && again.equations == session.equations
        && again.table() == session.table()
        && again.stamp == session.stamp
        && values(&again) == values(session)
        && marks(&again) == zero
}

/// After every accepted or refused batch on a live model the session is what a fresh load of its
/// own writing gives, the flag included, and no state hangs.
#[test]
fn live_sessions_are_their_own_loads() {
    let met = batches(80, true);
    let (accepted, hung) = outcomes(&met);
    assert!(accepted > 500 && hung > 50, "{accepted} and {hung}");
    for met in met {
        assert_eq!((met.before.live, met.after.live), (1, 1));
        assert!(is_its_own_load(&met.after));
        let moves: BTreeSet<_> = met.after.table().iter().copied().collect();
        assert!(!literal::hangs(met.after.sizes.states, &moves));
        if matches!(met.line, Line::Refused(_)) {
            assert!(met.before == met.after);
        }
    }
}

/// A batch that can be read, against its session.
fn read(met: &Met) -> Option<Batch> {
    read_batch(&met.part, &met.before.sizes).ok()
}

/// Every batch that can be read gets the refusal that the sentences give, or none.
#[test]
fn refusals_follow_the_sentences() {
    let mut judged = 0;
    for met in batches(50, false) {
        let Some(batch) = read(&met) else {
            continue;
        };
        let model = check(&met.before).unwrap();
        let due = literal::refusal(&model, &batch, met.before.moves.len());
        let found = match met.line {
            Line::Refused(refusal) => Some((refusal.number, refusal.place)),
            _ => None,
        };
        assert_eq!(found, due);
        judged += 1;
    }
    assert!(judged > 1_500, "{judged}");
}

/// Makes the same batch on the session without its flag.
fn without_flag(met: &Met) -> (Session, Result<Updated, Refusal>) {
    let mut session = met.before.clone();
    session.live = 0;
    let answer = batch(&mut session, &met.part);
    (session, answer)
}

/// Without the flag everything else is the same: an accepted batch gives the same answer, values
/// and marks, and one refused with 16 is accepted and leaves a state without a move.
#[test]
fn the_flag_adds_nothing_but_16() {
    for met in batches(80, true) {
        let (mut tame, answer) = without_flag(&met);
        match met.line {
            Line::Updated(updated) => assert_eq!(answer, Ok(updated)),
            Line::Refused(refusal) if refusal.number == 16 => {
                assert_eq!(refusal.place, 0);
                assert!(answer.is_ok());
                let moves: BTreeSet<_> = tame.table().iter().copied().collect();
                assert!(literal::hangs(tame.sizes.states, &moves));
                tame = Session {
                    live: 0,
                    ..met.after.clone()
                };
            }
            Line::Refused(refusal) => assert_eq!(answer, Err(refusal)),
            Line::Loaded(_) => unreachable!("a batch"),
        }
        tame.live = 1;
        assert!(tame == met.after);
    }
}

/// The model of a stream with kind 10 put behind its sizes, and without it.
fn both_ways(model: &[u8]) -> (Vec<u8>, Vec<u8>) {
    let behind = if model[7] == 10 { 8 } else { 7 };
    let tame = [&model[..7], &model[behind..]].concat();
    let live = [&model[..7], &[10], &model[behind..]].concat();
    (live, tame)
}

/// Kind 10 makes a model refused with 16 at its end exactly where some state has no move, and else
/// changes nothing but the flag.
#[test]
fn kind_10_asks_for_moves_and_no_more() {
    let mut seen = [0; 2];
    for seed in 0..60 {
        for family in GOOD {
            let bytes = generate_family(seed, family).bytes;
            let (live, tame) = both_ways(&bytes[..cut(&bytes).unwrap()]);
            let (mut with, mut without) = (Session::roomy(), Session::roomy());
            let plain = load(&mut without, &tame).expect("a good model");
            let moves: BTreeSet<_> = without.table().iter().copied().collect();
            let hangs = literal::hangs(without.sizes.states, &moves);
            let answer = load(&mut with, &live);
            if hangs {
                let (number, place) = (16, live.len() - 1);
                assert_eq!(answer, Err(Refusal { number, place }));
                assert!(with == Session::roomy());
            } else {
                assert_eq!(answer, Ok(plain));
                without.live = 1;
                assert!(with == without);
                assert_eq!(write_vec(&with), Ok(live));
            }
            seen[usize::from(hangs)] += 1;
        }
    }
    assert!(seen[0] > 60 && seen[1] > 60, "{seen:?}");
}

/// A live stream rewritten in signs is refused and accepted part by part as it was, with the same
/// values.
#[test]
fn live_streams_in_signs() {
    let (mut streams, mut hung) = (0, 0);
    for seed in 0..200 {
        let bytes = generate_family(seed, Family::Small).bytes;
        let Some(signs) = stream_in_signs(&bytes) else {
            continue;
        };
        let lines = |bytes: &[u8]| {
            let mut lines = Vec::new();
            walk(bytes, |_, line, session| {
                let number = match line {
                    Line::Refused(refusal) => refusal.number,
                    _ => 0,
                };
                lines.push((number, session.live, values(session).to_vec()));
            });
            lines
        };
        let old = lines(&bytes);
        if old[0].1 == 1 && bytes.len() + 100 < reference::program::MOST_BYTES {
            assert!(old == lines(&signs));
            streams += 1;
            hung += old.iter().filter(|line| line.0 == 16).count();
        }
    }
    assert!(streams > 20 && hung > 40, "{streams} and {hung}");
}
