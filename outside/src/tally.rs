//! How often each answer came, and which coarse sorts of calls were seen.

use std::collections::HashSet;

use crate::boundary::{Answer, Call, CALLS, NAMES};
use crate::rooms::{Needs, Rooms, BLOCKS, LIVE, REPORT};

/// The number that only a live model is refused with.
const HANGS: usize = 16;

/// The numbers that each call can answer with.
const DUE: [&[usize]; CALLS] = [
    &[0, 1, 2, 3, 4, 5, 6, 10, 13, HANGS],
    &[0, 1, 2, 3, 4, 7, 8, 9, 10, 11, 12, 13, HANGS],
    &[0, 12, 13],
    &[0, 4, 12, 13],
];

/// How many numbers there are up to the highest refusal, 0 for accepted too.
const NUMBERS: usize = highest() + 1;

/// The highest number that a call can answer with.
const fn highest() -> usize {
    let (mut most, mut call, mut at) = (0, 0, 0);
    while call < CALLS {
        if at == DUE[call].len() {
            (call, at) = (call + 1, 0);
            continue;
        }
        if DUE[call][at] > most {
            most = DUE[call][at];
        }
        at += 1;
    }
    most
}

/// Whether some call can be refused with a number.
fn is_refusal(number: &usize) -> bool {
    *number > 0 && DUE.iter().any(|numbers| numbers.contains(number))
}

/// The models by style and flag, by their numbers here.
const MODELS: [&str; 4] = [
    "with blocks",
    "with signs",
    "live with blocks",
    "live with signs",
];

/// A coarse sort of calls: the call, its number, its model, and the magnitudes of its place, its sizes and its report.
pub type Sign = [u8; 10];

/// Counts of answers, by model, call and number, and the sorts of calls seen.
#[derive(Clone, Debug, Default)]
pub struct Tally {
    pub counts: [[[u64; NUMBERS]; CALLS]; MODELS.len()],
    /// How many questions were answered false and true.
    pub truths: [u64; 2],
    pub signs: HashSet<Sign>,
    /// How many sorts were new since this was last set to 0.
    pub fresh: usize,
}

/// The number of binary digits.
fn magnitude(number: usize) -> u8 {
    (usize::BITS - number.leading_zeros()) as u8
}

/// The model of a call by style and flag: for a load as the bytes begin, else as the session says.
fn model(call: Call, rooms: &Rooms) -> usize {
    let (signs, live) = match call {
        Call::Load(bytes) => (
            matches!(bytes, [1, _, _, _, _, _, 0, ..]),
            matches!(bytes, [1, _, _, _, _, _, _, 10, ..]),
        ),
        _ => (
            rooms.session.get(BLOCKS) == Some(&0),
            rooms.session.get(LIVE) == Some(&1),
        ),
    };
    usize::from(signs) + 2 * usize::from(live)
}

/// The sort of a call, by its answer and the rooms after it.
fn sign(call: Call, answer: Answer, rooms: &Rooms) -> Sign {
    let needs = Needs::of_session(&rooms.session);
    let reported = matches!(call, Call::Batch(_)) && answer.is_accepted();
    let visits = |at: usize| match reported && rooms.report.len() >= REPORT {
        true => magnitude(rooms.report[at] as usize),
        false => 0,
    };
    let net = if reported {
        rooms.report[2].signum()
    } else {
        0
    };
    [
        call.index() as u8,
        answer.number as u8,
        model(call, rooms) as u8,
        magnitude(answer.told as usize),
        magnitude(needs.labels),
        magnitude(needs.equations),
        magnitude(needs.moves),
        visits(0),
        visits(1),
        (net + 1) as u8,
    ]
}

impl Tally {
    /// Counts one answered call.
    pub fn add(&mut self, call: Call, answer: Answer, rooms: &Rooms) {
        let number = (answer.number as usize).min(NUMBERS - 1);
        self.counts[model(call, rooms)][call.index()][number] += 1;
        if matches!(call, Call::Ask(..)) && answer.is_accepted() {
            self.truths[usize::from(answer.told == 1)] += 1;
        }
        self.fresh += usize::from(self.signs.insert(sign(call, answer, rooms)));
    }

    /// Adds another's counts.
    pub fn join(&mut self, other: Tally) {
        let mine = self.counts.iter_mut().flatten().flatten();
        for (mine, theirs) in mine.zip(other.counts.iter().flatten().flatten()) {
            *mine += theirs;
        }
        for (mine, theirs) in self.truths.iter_mut().zip(other.truths) {
            *mine += theirs;
        }
        self.signs.extend(other.signs);
    }

    /// How many calls were made.
    pub fn calls(&self) -> u64 {
        self.counts.iter().flatten().flatten().sum()
    }

    /// How many calls were answered with a number.
    fn answered(&self, number: usize) -> u64 {
        let calls = self.counts.iter().flatten();
        calls.map(|counts| counts[number]).sum()
    }

    /// The calls, how many were accepted, and how many refused by number, in one line.
    pub fn line(&self) -> String {
        let refused: Vec<String> = (0..NUMBERS)
            .filter(is_refusal)
            .map(|number| format!("{number}: {}", self.answered(number)))
            .collect();
        let of_call = |call: usize| self.counts.iter().flat_map(move |model| model[call]);
        let made = |call: usize| format!("{} {}", of_call(call).sum::<u64>(), NAMES[call]);
        let made: Vec<String> = (0..CALLS).map(made).collect();
        format!(
            "{} calls ({}), accepted {}, refused {}",
            self.calls(),
            made.join(", "),
            self.answered(0),
            refused.join(", ")
        )
    }

    /// Whether each call gave every answer that it can give, in both styles, live and not; else which is missing.
    pub fn complete(&self) -> Result<(), String> {
        for ((at, counts), name) in self.counts.iter().enumerate().zip(MODELS) {
            let can = |number: usize| number != HANGS || at >= 2;
            for (call, numbers) in DUE.iter().enumerate() {
                let mut due = numbers.iter().filter(|number| can(**number));
                if let Some(number) = due.find(|number| counts[call][**number] == 0) {
                    return Err(format!("{} {name} never answered {number}", NAMES[call]));
                }
            }
        }
        match self.truths {
            [0, _] => Err("ask never told false".into()),
            [_, 0] => Err("ask never told true".into()),
            _ => Ok(()),
        }
    }
}
