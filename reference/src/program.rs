//! The program of document 01: a model, then batches, one printed line for each part.

use std::fmt;
use std::ops::Range;

use crate::batch::{batch, Updated};
use crate::model::{load, Loaded};
use crate::records::body_length;
use crate::refusal::Refusal;
use crate::session::Session;

/// How many bytes of the input exist for the program.
pub const MOST_BYTES: usize = 65_536;

/// One line that the program prints.
#[derive(Clone, Copy, Debug, PartialEq, Eq)]
pub enum Line {
    Loaded(Loaded),
    Updated(Updated),
    Refused(Refusal),
}

impl fmt::Display for Line {
    /// Writes the line to the letter, without its line feed.
    fn fmt(&self, out: &mut fmt::Formatter<'_>) -> fmt::Result {
        match self {
            Line::Loaded(l) => write!(
                out,
                "loaded true {} of {} stamp {}",
                l.true_pairs, l.pairs, l.stamp
            ),
            Line::Updated(u) => write!(
                out,
                "batch net {} visits {} {} true {} of {} stamp {}",
                u.net, u.shift_visits, u.settle_visits, u.true_pairs, u.pairs, u.stamp
            ),
            Line::Refused(refusal) => write!(out, "{refusal}"),
        }
    }
}

/// The length of the first part: up to and with the first kind 6, cutting by kinds and lengths
/// alone. Nothing where an unknown kind or the end of the bytes comes first.
pub fn cut(bytes: &[u8]) -> Option<usize> {
    let mut place = 0;
    loop {
        let kind = *bytes.get(place)?;
        place += 1 + body_length(kind)?;
        if place > bytes.len() {
            return None;
        }
        if kind == 6 {
            return Some(place);
        }
    }
}

/// Runs the program over an input of any length. After each part the given function sees which
/// bytes the part had, the line printed, and the session.
pub fn walk(input: &[u8], mut see: impl FnMut(Range<usize>, Line, &Session)) {
    let input = &input[..input.len().min(MOST_BYTES)];
    let mut session = Session::roomy();
    let mut start = 0;
    loop {
        let rest = &input[start..];
        let reached = cut(rest);
        let end = start + reached.unwrap_or(rest.len());
        let line = hand_over(&mut session, start == 0, &input[start..end]);
        see(start..end, line, &session);
        let refused = matches!(line, Line::Refused(_));
        let over = reached.is_none() || (start == 0 && refused) || end == input.len();
        if over {
            return;
        }
        start = end;
    }
}

/// Hands one part over, as a model or as a batch, and gives the line for it.
fn hand_over(session: &mut Session, is_model: bool, part: &[u8]) -> Line {
    let answer = if is_model {
        load(session, part).map(Line::Loaded)
    } else {
        batch(session, part).map(Line::Updated)
    };
    answer.unwrap_or_else(Line::Refused)
}

/// All that the program prints for an input, every line ending in a line feed.
pub fn run(input: &[u8]) -> String {
    let mut printed = String::new();
    walk(input, |_, line, _| printed += &format!("{line}\n"));
    printed
}
