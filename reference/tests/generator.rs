//! The generator does what it means to, and covers every outcome.

use std::collections::BTreeMap;

use reference::census::{census, Census};
use reference::generate::{
    family_named, generate, generate_family, Family, Intent, Stream, FAMILIES,
};
use reference::program::{walk, Line, MOST_BYTES};

/// Whether a line is what was meant to become of a part.
fn fits(intent: Intent, line: Line) -> bool {
    match (intent, line) {
        (Intent::Loaded, Line::Loaded(_)) => true,
        (Intent::Updated, Line::Updated(_)) => true,
        (Intent::Refused(number), Line::Refused(refusal)) => refusal.number == number,
        _ => false,
    }
}

/// The same seed gives the same stream, and other seeds give others.
#[test]
fn the_seed_decides() {
    for seed in 0..20 {
        assert_eq!(generate(seed).bytes, generate(seed).bytes);
    }
    assert_ne!(
        generate_family(1, Family::Small).bytes,
        generate_family(2, Family::Small).bytes
    );
}

/// The shares of the families add up to a hundred, and every family has a name.
#[test]
fn the_families_are_whole() {
    assert_eq!(FAMILIES.iter().map(|(_, share)| share).sum::<usize>(), 100);
    for (family, _) in FAMILIES {
        let name = format!("{family:?}").to_lowercase();
        assert_eq!(family_named(&name), Some(family));
    }
    assert_eq!(family_named("nothing"), None);
}

/// The streams of the first seeds, each also as ones with a refused model.
fn streams() -> impl Iterator<Item = (u64, Stream)> {
    (0..300).flat_map(|seed| {
        let bad = [Family::BadModel, Family::BadLive];
        let [one, other] = bad.map(|family| generate_family(seed, family));
        [generate(seed), one, other].map(|stream| (seed, stream))
    })
}

/// Every part whose outcome the generator knows has that outcome.
#[test]
fn parts_become_what_was_meant() {
    let mut checked = 0;
    for (seed, stream) in streams() {
        let intents: BTreeMap<usize, _> = stream
            .intents
            .iter()
            .map(|(part, intent)| (part.start, (part.end, *intent)))
            .collect();
        walk(&stream.bytes, |part, line, _| {
            if let Some((end, intent)) = intents.get(&part.start) {
                let seen_whole = *end <= MOST_BYTES;
                assert!(
                    !seen_whole || fits(*intent, line),
                    "seed {seed} at {part:?}"
                );
                checked += 1;
            }
        });
    }
    assert!(checked > 5_000);
}

/// A census of not too many seeds meets every outcome that the program can reach, in both styles.
#[test]
fn the_census_meets_everything() {
    let mut census = Census::default();
    for (_, stream) in streams() {
        census.take(&stream);
    }
    for number in [1, 2, 3, 4, 5, 6, 10, 16] {
        let all = census.count(&format!("model refused {number:2}"));
        let signs = census.count(&format!("model refused {number:2}, signs"));
        assert!(0 < signs && signs < all, "{number}");
    }
    for number in [1, 2, 3, 4, 7, 8, 9, 10, 11, 16] {
        let all = census.count(&format!("batch refused {number:2}"));
        let signs = census.count(&format!("batch refused {number:2}, signs"));
        assert!(10 < all && 0 < signs && signs < all, "{number}");
    }
    for mark in 0..4 {
        assert!(census.count(&format!("marks {mark}")) > 1_000);
    }
    let names = [
        "streams over the limit",
        "streams without a byte",
        "batches accepted, no change",
        "batches accepted, 64 changes",
        "batches accepted, net above 0",
        "batches accepted, net below 0",
        "batches accepted, 1,024 moves after",
        "models with 256 states",
        "models with 32 variables",
        "models with 8 blocks",
        "models with signs, 32 components",
        "models with signs, components out of order",
        "models with signs, one component of over 8",
        "models with signs, one variable does not",
        "models with signs, one variable names itself",
        "models with signs, over 8 components",
    ];
    for name in names {
        assert!(census.count(name) > 0, "{name}");
    }
}

/// The streams of a few hundred seeds alone meet every sort of case about live models.
#[test]
fn the_census_meets_live_models() {
    let census = census(400);
    let names = [
        "models accepted, live",
        "models accepted, live with signs",
        "models accepted, live, one move each",
        "model refused  2, kind 10 in front",
        "model refused  2, kind 10 twice",
        "model refused  2, kind 10 later",
        "model refused 16",
        "model refused 16, signs",
        "model refused 16, a move leads into the state",
        "batches accepted, live",
        "batches accepted, live, nothing but deletes",
        "batches accepted, live, all moves of a state replaced",
        "batches accepted, live, all moves of a state replaced by fewer",
        "batch refused  2, kind 10",
        "batch refused  7, hangs too",
        "batch refused  8, hangs too",
        "batch refused  9, hangs too",
        "batch refused 10, hangs too",
        "batch refused 11, hangs too",
        "batch refused 16",
        "batch refused 16, signs",
        "batch refused 16, nothing but deletes",
        "batch refused 16, inserts too",
        "batch refused 16, 1,024 moves after",
    ];
    for name in names {
        assert!(census.count(name) > 0, "{name}");
    }
}
