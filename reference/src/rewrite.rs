//! A model with blocks rewritten with signs.

use crate::program::cut;
use crate::records::{spell_all, Reader, Record, Sizes, Style};
use crate::session::Session;

/// The model in signs: the same flag, labels and moves, blocks 0, and each equation with the kind of
/// the block that it stood in. Nothing where load refuses the model or it has signs already.
pub fn in_signs(model: &[u8]) -> Option<Vec<u8>> {
    crate::load(&mut Session::roomy(), model).ok()?;
    let mut reader = Reader::new(model);
    let mut rewritten = Vec::new();
    let mut sign = 0;
    while let Ok((_, record)) = reader.record() {
        match record {
            Record::Sizes(sizes) if sizes.style() == Style::Signs => return None,
            Record::Sizes(sizes) => rewritten.push(Record::Sizes(Sizes { blocks: 0, ..sizes })),
            Record::Block(block) => sign = block.kind,
            Record::Equation(equation) => rewritten.push(Record::Signed { sign, equation }),
            other => rewritten.push(other),
        }
    }
    Some(spell_all(&rewritten))
}

/// A stream with its model in signs and the rest as it was. Nothing where the model can't be
/// rewritten.
pub fn stream_in_signs(stream: &[u8]) -> Option<Vec<u8>> {
    let length = cut(stream)?;
    let model = in_signs(&stream[..length])?;
    Some([&model, &stream[length..]].concat())
}
