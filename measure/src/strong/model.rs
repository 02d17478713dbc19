//! A model taken from its bytes: a quick test of them, with the ordinary judge behind it for the refusal, then the storing.

use super::moves::Sums;
use crate::answers::Refusal;
use crate::ordinary::components;
use crate::ordinary::equation::Equation;
use crate::ordinary::model as full;
use crate::ordinary::moves::pack;
use crate::ordinary::records;
use crate::ordinary::sizes::{Sizes, MOST_MOVES, MOST_VARIABLES};
use crate::rooms::Rooms;

/// The equations of a model, packed.
type Words = [u32; MOST_VARIABLES as usize];

/// A record of a label, and one of a move.
type Label = [u8; 7];
type Move = [u8; 6];

/// A model that was found good, in the parts of its bytes.
struct Parts<'a> {
    sizes: Sizes,
    live: bool,
    labels: &'a [Label],
    words: Words,
    moves: &'a [Move],
}

/// Stores a good model, or answers what it is refused with.
pub fn take(bytes: &[u8], rooms: &mut Rooms) -> Result<Sizes, Refusal> {
    let Some(parts) = quick(bytes, rooms) else {
        full::read(bytes, rooms)?;
        unreachable!("the quick test takes every good model")
    };
    store(&parts, rooms);
    Ok(parts.sizes)
}

/// The parts, where nothing is wrong with them.
fn quick<'a>(bytes: &'a [u8], rooms: &Rooms) -> Option<Parts<'a>> {
    let (records::Record::Sizes(sizes), at) = records::read(bytes, 0)? else {
        return None;
    };
    if !(sizes.in_limits() && sizes.fit(rooms) && sizes.fit_work(rooms)) {
        return None;
    }
    let live = *bytes.get(at)? == 10;
    let (labels, rest) = quick_labels(&bytes[at + usize::from(live)..], sizes)?;
    let mut words = [0; MOST_VARIABLES as usize];
    let rest = match sizes.blocks {
        0 => quick_signed(rest, sizes, &mut words)?,
        _ => quick_blocks(rest, sizes, &mut words)?,
    };
    let moves = quick_moves(rest, sizes, MOST_MOVES.min(rooms.moves.len()))?;
    let good = !live || leave_all(moves, sizes.states);
    good.then_some(Parts {
        sizes,
        live,
        labels,
        words,
        moves,
    })
}

/// Two bytes, the low one first.
fn two(low: u8, high: u8) -> u32 {
    u32::from(u16::from_le_bytes([low, high]))
}

/// The state and the set of a label record.
fn label(record: &Label) -> (u32, u32) {
    let [_, s, t, set @ ..] = *record;
    (two(s, t), u32::from_le_bytes(set))
}

/// The label records in front, if they are good, and what comes after them.
fn quick_labels(bytes: &[u8], sizes: Sizes) -> Option<(&[Label], &[u8])> {
    let all = bytes.as_chunks::<7>().0;
    let count = all.iter().position(|record| record[0] != 2);
    let count = count.unwrap_or(all.len());
    let (mut good, mut least) = (true, 0);
    for record in &all[..count] {
        let (state, set) = label(record);
        good &= least <= state && state < sizes.states && set != 0 && sizes.hold_set(set);
        least = state + 1;
    }
    good.then(|| (&all[..count], &bytes[7 * count..]))
}

/// Packs the equations of each block, if they are good, and gives what comes after them.
fn quick_blocks<'a>(bytes: &'a [u8], sizes: Sizes, words: &mut Words) -> Option<&'a [u8]> {
    let mut left = bytes;
    let mut end = 0;
    for block in 0..sizes.blocks {
        let ([3, kind, variables], rest) = left.split_first_chunk()? else {
            return None;
        };
        let from = end;
        end += u32::from(*variables);
        let last = block + 1 == sizes.blocks;
        let fits = from < end && end <= sizes.variables && (!last || end == sizes.variables);
        let (records, rest) = rest.split_at_checked(4 * usize::from(*variables))?;
        if !fits || *kind > 1 {
            return None;
        }
        let own = &mut words[from as usize..end as usize];
        for (word, record) in own.iter_mut().zip(records.as_chunks::<4>().0) {
            let [4, operator, first, second] = record.map(u32::from) else {
                return None;
            };
            let greatest = *kind == 1;
            *word = good_word(sizes, end, [operator, first, second, block], greatest)?;
        }
        left = rest;
    }
    Some(left)
}

/// The word of an equation whose operands are good and lie below `end`.
fn good_word(sizes: Sizes, end: u32, parts: [u32; 4], greatest: bool) -> Option<u32> {
    let [operator, first, second, block] = parts;
    let equation = Equation {
        operator,
        first,
        second,
        block,
        greatest,
    };
    let good = sizes.hold_operands(operator, first, second) && equation.names_below(end);
    good.then(|| equation.pack())
}

/// Packs the equations with signs of their own and their components, if they are good, and gives what comes after them.
fn quick_signed<'a>(bytes: &'a [u8], sizes: Sizes, words: &mut Words) -> Option<&'a [u8]> {
    let count = sizes.variables as usize;
    let (records, rest) = bytes.split_at_checked(5 * count)?;
    for (word, record) in words.iter_mut().zip(records.as_chunks::<5>().0) {
        let [11, kind @ (0 | 1), operator, first, second] = record.map(u32::from) else {
            return None;
        };
        *word = good_word(
            sizes,
            sizes.variables,
            [operator, first, second, 0],
            kind == 1,
        )?;
    }
    let words = &mut words[..count];
    let equations: Vec<Equation> = words.iter().map(|word| Equation::unpack(*word)).collect();
    let numbers = components::numbers(&equations);
    for (word, number) in words.iter_mut().zip(&numbers) {
        *word |= number << 25;
    }
    let mixed = components::first_mixed(&equations, &numbers);
    mixed.is_none().then_some(rest)
}

/// The move records, if they are good and ascend and the end record is all that comes after them. A difference has its
/// highest bit where what is taken away is larger.
fn quick_moves(bytes: &[u8], sizes: Sizes, most: usize) -> Option<&[Move]> {
    let (moves, [6]) = bytes.as_chunks::<6>() else {
        return None;
    };
    let (state, last) = (sizes.states - 1, sizes.actions - 1);
    let (mut over, mut ascend, mut before) = (0, u32::MAX, u32::MAX);
    for record in moves {
        let [kind, s, t, action, u, v] = record.map(u32::from);
        let (source, target) = (s | t << 8, u | v << 8);
        let packed = pack(source, action, target);
        let above = state.wrapping_sub(source) | state.wrapping_sub(target);
        over |= above | last.wrapping_sub(action) | 0_u32.wrapping_sub(kind ^ 5);
        ascend &= before.wrapping_sub(packed);
        before = packed;
    }
    let good = moves.len() <= most && over >> 31 == 0 && ascend >> 31 == 1;
    good.then_some(moves)
}

/// Whether each state is the source of one of these ascending moves.
fn leave_all(moves: &[Move], states: u32) -> bool {
    let source = |record: &Move| two(record[1], record[2]);
    let others = moves.windows(2).filter(|m| source(&m[0]) != source(&m[1]));
    !moves.is_empty() && others.count() as u32 + 1 == states
}

/// Stores a model; the places past what it needs keep what they had.
fn store(parts: &Parts, rooms: &mut Rooms) {
    let sizes = parts.sizes;
    let labels = &mut rooms.labels[..sizes.states as usize];
    labels.fill(0);
    for (state, set) in parts.labels.iter().map(label) {
        labels[state as usize] = set;
    }
    let variables = sizes.variables as usize;
    rooms.equations[..variables].copy_from_slice(&parts.words[..variables]);
    let mut sums = Sums::default();
    for (packed, record) in rooms.moves.iter_mut().zip(parts.moves) {
        let [_, s, t, action, u, v] = *record;
        *packed = pack(two(s, t), action.into(), two(u, v));
        sums = sums.with(*packed);
    }
    rooms.session = [
        sizes.states,
        sizes.actions,
        sizes.propositions,
        sizes.variables,
        sizes.blocks,
        parts.moves.len() as u32,
        sums.stamp(parts.moves.len()),
        parts.live.into(),
    ];
}
