//! The census: how often each outcome occurs over many generated streams.

mod live;

use std::collections::BTreeMap;

use crate::batch::Updated;
use crate::components::components;
use crate::generate::{generate, Stream};
use crate::limits::{MOST_CHANGES, MOST_MOVES};
use crate::program::{cut, walk, Line, MOST_BYTES};
use crate::records::{Reader, Record, Style};
use crate::refusal::Refusal;
use crate::session::Session;

/// Counts by name.
#[derive(Clone, Debug, Default)]
pub struct Census {
    pub counts: BTreeMap<String, u64>,
}

impl Census {
    /// Adds to the count of a name.
    fn add(&mut self, name: impl Into<String>, many: u64) {
        *self.counts.entry(name.into()).or_default() += many;
    }

    /// Adds one to the count of a name where the condition holds.
    fn add_if(&mut self, condition: bool, name: &str) {
        self.add(name, u64::from(condition));
    }

    /// Adds one to the count of each name.
    fn add_each(&mut self, names: Vec<&'static str>) {
        for name in names {
            self.add(name, 1);
        }
    }

    /// Raises the count of a name to at least this many.
    fn raise(&mut self, name: &str, many: u64) {
        let count = self.counts.entry(name.into()).or_default();
        *count = (*count).max(many);
    }

    /// The count of a name, 0 where nothing was counted.
    pub fn count(&self, name: &str) -> u64 {
        self.counts.get(name).copied().unwrap_or(0)
    }

    /// Runs one stream through the program and counts what happens.
    pub fn take(&mut self, stream: &Stream) {
        self.add(format!("stream {:?}", stream.family), 1);
        self.add("streams", 1);
        self.add_if(stream.bytes.is_empty(), "streams without a byte");
        let over = stream.bytes.len() > MOST_BYTES;
        self.add_if(over, "streams over the limit");
        let mut run = 0;
        walk(&stream.bytes, |part, line, session| {
            let accepted = matches!(line, Line::Updated(_));
            run = if accepted { run + 1 } else { 0 };
            self.raise("longest run of accepted batches", run);
            let bytes = &stream.bytes[part.clone()];
            let at_limit = over && part.end == MOST_BYTES && cut(bytes).is_some();
            self.add_if(at_limit, "streams over the limit, a part ends at it");
            self.take_line(bytes, part.start == 0, line, session);
        });
    }

    /// Counts one line of a run, for the part with these bytes.
    fn take_line(&mut self, part: &[u8], is_model: bool, line: Line, session: &Session) {
        match line {
            Line::Loaded(_) => {
                self.take_loaded(session);
                self.add_each(live::of_loaded(session));
            }
            Line::Updated(updated) => {
                self.take_updated(&updated, session);
                let changes = (part.len() - 6) / 6;
                self.add_if(changes == 0, "batches accepted, no change");
                self.add_if(changes == MOST_CHANGES, "batches accepted, 64 changes");
                self.add_each(live::of_updated(part, session));
            }
            Line::Refused(refusal) if is_model => {
                self.take_refused("model", refusal, has_signs(part));
                self.add_each(live::of_refused_model(part, refusal));
            }
            Line::Refused(refusal) => {
                let signs = session.sizes.style() == Style::Signs;
                self.take_refused("batch", refusal, signs);
                self.add_each(live::of_refused_batch(part, refusal, session));
            }
        }
    }

    /// Counts a refusal by its number, and once more where it concerns a model with signs.
    fn take_refused(&mut self, what: &str, refusal: Refusal, signs: bool) {
        let name = format!("{what} refused {:2}", refusal.number);
        if signs {
            self.add(format!("{name}, signs"), 1);
        }
        self.add(name, 1);
    }

    /// Counts an accepted load.
    fn take_loaded(&mut self, session: &Session) {
        let (pairs, trues) = (session.sizes.pairs(), session.true_pairs());
        self.add("models accepted", 1);
        self.add("pairs loaded", pairs as u64);
        self.add("pairs loaded true", trues as u64);
        self.add_if(trues == 0 || trues == pairs, "models with one value only");
        self.add_if(session.move_count == MOST_MOVES, "models with 1,024 moves");
        self.add_if(session.sizes.states == 256, "models with 256 states");
        self.add_if(session.sizes.variables == 32, "models with 32 variables");
        self.add_if(session.sizes.blocks == 8, "models with 8 blocks");
        if session.sizes.style() == Style::Signs {
            self.take_signed(session);
        }
    }

    /// Counts the components of a loaded model with signs.
    fn take_signed(&mut self, session: &Session) {
        let variables = usize::from(session.sizes.variables);
        let equations = &session.equations[..variables];
        let components = components(equations);
        let count = components
            .iter()
            .max()
            .map_or(0, |most| 1 + usize::from(*most));
        self.add("models with signs", 1);
        self.add_if(count == 32, "models with signs, 32 components");
        self.add_if(count > 8, "models with signs, over 8 components");
        let whole = count == 1 && variables > 8;
        self.add_if(whole, "models with signs, one component of over 8");
        let ascends = components.is_sorted();
        self.add_if(!ascends, "models with signs, components out of order");
        let names_itself = |x: usize| equations[x].named().iter().any(|y| usize::from(y.0) == x);
        let alone = |x: usize| components.iter().filter(|c| **c == components[x]).count() == 1;
        let itself = (0..variables).any(|x| alone(x) && names_itself(x));
        self.add_if(itself, "models with signs, one variable names itself");
        let not_itself = (0..variables).any(|x| alone(x) && !names_itself(x));
        self.add_if(not_itself, "models with signs, one variable does not");
    }

    /// Counts an accepted batch.
    fn take_updated(&mut self, updated: &Updated, session: &Session) {
        self.add("batches accepted", 1);
        self.add_if(updated.net > 0, "batches accepted, net above 0");
        self.add_if(updated.net < 0, "batches accepted, net below 0");
        self.add_if(updated.shift_visits > 0, "batches accepted, shift visits");
        self.add_if(updated.settle_visits > 0, "batches accepted, settle visits");
        let full = session.move_count == MOST_MOVES;
        self.add_if(full, "batches accepted, 1,024 moves after");
        let large = updated.pairs >= 1_000;
        self.add_if(large, "batches accepted, 1,000 pairs or more");
        let marks = &session.marks[..session.sizes.pairs()];
        self.add_if(marks.iter().any(|m| *m != 0), "batches accepted, any mark");
        for mark in 0..4 {
            let many = marks.iter().filter(|m| **m == mark).count();
            self.add(format!("marks {mark}"), many as u64);
            self.add_if(many > 0, &format!("batches accepted, mark {mark} occurs"));
        }
    }
}

/// Whether a part begins with the sizes of a model with signs.
fn has_signs(part: &[u8]) -> bool {
    let first = Reader::new(part).record();
    matches!(first, Ok((_, Record::Sizes(sizes))) if sizes.style() == Style::Signs)
}

/// The census over the seeds from 0 up to but without the count.
pub fn census(count: u64) -> Census {
    let mut census = Census::default();
    for seed in 0..count {
        census.take(&generate(seed));
    }
    census
}
