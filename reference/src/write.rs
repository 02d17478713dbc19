//! Writing a session back to the bytes of its model.

use crate::records::{spell_all, Record, Style};
use crate::refusal::{demand, Refusal};
use crate::session::{check, Session};
use crate::table::State;

/// The records of a session's rules in the style that was loaded, good or not.
fn rules(session: &Session) -> Vec<Record> {
    let mut equations = session
        .equations
        .iter()
        .take(usize::from(session.sizes.variables));
    let mut records = Vec::new();
    if session.sizes.style() == Style::Signs {
        for (sign, equation) in session.signs.iter().zip(equations) {
            records.push(Record::Signed {
                sign: *sign,
                equation: *equation,
            });
        }
        return records;
    }
    let blocks = session.blocks.iter();
    for block in blocks.take(usize::from(session.sizes.blocks)) {
        records.push(Record::Block(*block));
        for equation in equations.by_ref().take(usize::from(block.variables)) {
            records.push(Record::Equation(*equation));
        }
    }
    records
}

/// The bytes of what a session holds, good or not. Load accepts them exactly where the session
/// holds a model, and a state with the empty set gets no label record.
pub fn spell_session(session: &Session) -> Vec<u8> {
    let sizes = session.sizes;
    let mut records = vec![Record::Sizes(sizes)];
    if session.live != 0 {
        records.push(Record::Live);
    }
    for (state, set) in (0..sizes.states).zip(&session.labels) {
        if *set != 0 {
            records.push(Record::Label {
                state: State(state),
                set: *set,
            });
        }
    }
    records.extend(rules(session));
    records.extend(session.table().iter().map(|m| Record::Move(*m)));
    records.push(Record::End);
    spell_all(&records)
}

/// Writes the model to a fresh vector, after asking 12, 13 and 12.
pub fn write_vec(session: &Session) -> Result<Vec<u8>, Refusal> {
    check(session)?;
    Ok(spell_session(session))
}

/// Writes the model to the front of a lent room and gives its length. Asks 13 for the output
/// last; the room past what was written stays as it was.
pub fn write(session: &Session, output: &mut [u8]) -> Result<usize, Refusal> {
    let bytes = write_vec(session)?;
    demand(bytes.len() <= output.len(), 13, 0)?;
    output[..bytes.len()].copy_from_slice(&bytes);
    Ok(bytes.len())
}
