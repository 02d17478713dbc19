//! The generator: one stream of a model and batches for each seed.
//!
//! The author of a stream carries a session along, so that it knows the right stamp and which
//! moves are present. For most parts it also knows what must become of them; that is kept beside
//! the bytes as an [`Intent`].

mod author;
mod damage;
mod faults;
mod live;
mod models;
mod signed;

use std::ops::Range;

use crate::program::MOST_BYTES;
use crate::random::Random;
use crate::records::spell_all;
use author::Author;

pub use models::Shape;

/// What a stream is for.
#[derive(Clone, Copy, Debug, PartialEq, Eq, PartialOrd, Ord)]
pub enum Family {
    /// At most 3 states and 4 variables.
    Tiny,
    /// At most 8 states and 10 variables.
    Small,
    /// At most 64 states, all other sizes up to the most.
    Medium,
    /// Up to the most of everything.
    Large,
    /// A table of 1,024 moves or just under.
    Full,
    /// Long chains, rings and trees with loops through them.
    Chain,
    /// A model that is refused.
    BadModel,
    /// A model that is refused because a state hangs, or because kind 10 isn't due.
    BadLive,
    /// A stream of another family with bytes or records damaged.
    Damaged,
    /// More bytes than the program reads.
    Long,
    /// No bytes, a few bytes, or records in no order.
    Noise,
}

/// All families with how often, in a hundred, each is chosen.
pub const FAMILIES: [(Family, usize); 11] = [
    (Family::Tiny, 17),
    (Family::Small, 18),
    (Family::Medium, 11),
    (Family::Large, 5),
    (Family::Full, 7),
    (Family::Chain, 11),
    (Family::BadModel, 10),
    (Family::BadLive, 6),
    (Family::Damaged, 9),
    (Family::Long, 3),
    (Family::Noise, 3),
];

/// What must become of a part.
#[derive(Clone, Copy, Debug, PartialEq, Eq)]
pub enum Intent {
    Loaded,
    Updated,
    Refused(u8),
}

/// A generated stream, and for the parts whose outcome is known their bytes and that outcome.
#[derive(Clone, Debug)]
pub struct Stream {
    pub family: Family,
    pub bytes: Vec<u8>,
    pub intents: Vec<(Range<usize>, Intent)>,
}

/// The family of a name as the program's arguments give it, such as `tiny` or `badmodel`.
pub fn family_named(name: &str) -> Option<Family> {
    let matches = |family: Family| format!("{family:?}").eq_ignore_ascii_case(name);
    FAMILIES.iter().map(|(f, _)| *f).find(|f| matches(*f))
}

/// The stream of a seed, which alone decides everything.
pub fn generate(seed: u64) -> Stream {
    let mut random = Random::new(seed);
    let mut drawn = random.below(100);
    for (family, share) in FAMILIES {
        if drawn < share {
            return generate_family(seed, family);
        }
        drawn -= share;
    }
    unreachable!("the shares add up to a hundred")
}

/// The stream of a seed in a given family.
pub fn generate_family(seed: u64, family: Family) -> Stream {
    let mut random = Random::new(seed ^ 0x5555_0000_5555_0000);
    match family {
        Family::BadModel | Family::BadLive => bad_model(&mut random, family),
        Family::Damaged => damaged(&mut random),
        Family::Noise => Stream {
            family,
            bytes: damage::noise(&mut random),
            intents: vec![],
        },
        _ => whole(random, family),
    }
}

/// A stream of a good model and batches, most of them good.
fn whole(mut random: Random, family: Family) -> Stream {
    let drawn_as = match family {
        Family::Long => random.pick(&[Family::Small, Family::Medium, Family::Chain, Family::Full]),
        _ => family,
    };
    let model = models::mixed_model(&mut random, drawn_as);
    let mut author = Author::new(random, drawn_as, &model);
    if family == Family::Long {
        author.write_past(MOST_BYTES);
    } else {
        author.write_batches();
    }
    let (bytes, intents) = author.finish();
    Stream {
        family,
        bytes,
        intents,
    }
}

/// A stream whose model has a fault, with a batch after it that must not be looked at.
fn bad_model(random: &mut Random, family: Family) -> Stream {
    let from = [Family::Tiny, Family::Small, Family::Medium, Family::Full];
    let drawn_as = random.pick(&from);
    let model = models::model(random, drawn_as);
    let (mut bytes, number) = match family {
        Family::BadLive => faults::fault_about_live(random, model),
        _ => faults::fault_in_model(random, model),
    };
    let part = 0..bytes.len();
    if number != 1 && random.chance(50) {
        bytes.extend([7, 0, 0, 0, 0, 6]);
    }
    Stream {
        family,
        bytes,
        intents: vec![(part, Intent::Refused(number))],
    }
}

/// A stream of another family with one to four places damaged, most of them after the model.
fn damaged(random: &mut Random) -> Stream {
    let from = [Family::Tiny, Family::Small, Family::Chain, Family::Full];
    let drawn_as = random.pick(&from);
    let model = models::mixed_model(random, drawn_as);
    let model_length = spell_all(&model).len();
    let mut author = Author::new(Random::new(random.bits()), drawn_as, &model);
    author.write_batches();
    let (mut bytes, _) = author.finish();
    for _ in 0..random.between(1, 4) {
        let spare_model = random.chance(75) && model_length < bytes.len();
        let from = if spare_model { model_length } else { 0 };
        damage::damage(random, &mut bytes, from);
    }
    Stream {
        family: Family::Damaged,
        bytes,
        intents: vec![],
    }
}
