//! Streams changed a little: bits, bytes, numbers, records, and two streams joined.

use reference::program::cut;
use reference::random::Random;
use reference::records::body_length;
use reference::table::hanging;
use reference::{batch, load, stream_in_signs, write_vec, Action, Move, Session};

/// The longest stream that is kept; a longer one is cut.
const LONGEST: usize = 16_000;

/// Numbers at and around the limits, for single bytes.
const TELLING: [u8; 18] = [
    0, 1, 2, 3, 4, 7, 8, 9, 10, 11, 15, 16, 17, 31, 32, 33, 64, 255,
];

/// Changes a stream in a few ways, more where it is long, and every other time gives its batches the right stamps again.
pub fn mutate(random: &mut Random, bytes: &[u8], other: &[u8]) -> Vec<u8> {
    let mut changed = bytes.to_vec();
    if random.chance(50) {
        trim(random, &mut changed);
    }
    let most = 3 + changed.len() / 300;
    for _ in 0..random.between(1, most) {
        mutate_once(random, &mut changed, other);
    }
    changed.truncate(LONGEST);
    if random.chance(50) {
        mend_stamps(&mut changed);
    }
    changed
}

/// Leaves the model and a run of at most eight batches.
fn trim(random: &mut Random, bytes: &mut Vec<u8>) {
    let (mut ends, mut end) = (Vec::new(), 0);
    while let Some(length) = cut(&bytes[end..]) {
        end += length;
        ends.push(end);
    }
    if ends.len() > 2 {
        let first = random.below(ends.len() - 1);
        let last = random.between(first + 1, (first + 8).min(ends.len() - 1));
        bytes.truncate(ends[last]);
        bytes.drain(ends[0]..ends[first]);
    }
}

/// Changes a stream in one way.
fn mutate_once(random: &mut Random, bytes: &mut Vec<u8>, other: &[u8]) {
    match random.below(20) {
        0..=2 => mutate_byte(random, bytes),
        3..=7 => tweak(random, bytes),
        8 => double(random, bytes),
        9 => drop_one(random, bytes),
        10 => swap(random, bytes),
        11..=12 => borrow(random, bytes, other),
        13 => splice(random, bytes, other),
        14 => splice_records(random, bytes, other),
        15 => put_signs(bytes),
        16 => turn_live(random, bytes),
        17 => make_live(bytes),
        _ => turn_kind(random, bytes),
    }
}

/// Flips a bit, sets a byte, puts one in, takes one out, or cuts the stream off.
fn mutate_byte(random: &mut Random, bytes: &mut Vec<u8>) {
    let at = random.below(bytes.len() + 1);
    if at == bytes.len() {
        return bytes.push(random.pick(&TELLING));
    }
    match random.below(9) {
        0..=3 => bytes[at] ^= 1 << random.below(8),
        4 => bytes[at] = random.byte(),
        5..=6 => bytes.insert(at, random.pick(&TELLING)),
        7 if random.chance(20) => bytes.truncate(at),
        _ => {
            bytes.remove(at);
        }
    }
}

/// The whole records of a stream, as first and last byte, as far as the kinds are known.
fn records(bytes: &[u8]) -> Vec<(usize, usize)> {
    let (mut found, mut start) = (Vec::new(), 0);
    while let Some(length) = bytes.get(start).and_then(|kind| body_length(*kind)) {
        let end = start + 1 + length;
        if end > bytes.len() {
            break;
        }
        found.push((start, end));
        start = end;
    }
    found
}

/// One of the whole records, if there is one. Early ones, which hold the sizes and the equations, come up more often.
fn any_record(random: &mut Random, bytes: &[u8]) -> Option<(usize, usize)> {
    let found = records(bytes);
    if found.is_empty() {
        return None;
    }
    let reach = if random.chance(40) {
        found.len().min(20)
    } else {
        found.len()
    };
    Some(found[random.below(reach)])
}

/// Changes one byte of a record's body by one, to a telling number, or to a small one.
fn tweak(random: &mut Random, bytes: &mut [u8]) {
    let Some((start, end)) = any_record(random, bytes) else {
        return;
    };
    if end - start < 2 {
        return;
    }
    let at = random.between(start + 1, end - 1);
    bytes[at] = match random.below(4) {
        0 => bytes[at].wrapping_add(1),
        1 => bytes[at].wrapping_sub(1),
        2 => random.pick(&TELLING),
        _ => random.byte() & 7,
    };
}

/// Puts a copy of a record right behind it.
fn double(random: &mut Random, bytes: &mut Vec<u8>) {
    if let Some((start, end)) = any_record(random, bytes) {
        let copy = bytes[start..end].to_vec();
        bytes.splice(end..end, copy);
    }
}

/// Takes a record out.
fn drop_one(random: &mut Random, bytes: &mut Vec<u8>) {
    if let Some((start, end)) = any_record(random, bytes) {
        bytes.drain(start..end);
    }
}

/// Changes a record over with the one behind it.
fn swap(random: &mut Random, bytes: &mut [u8]) {
    let found = records(bytes);
    if found.len() < 2 {
        return;
    }
    let at = random.below(found.len() - 1);
    let ((first, middle), (_, end)) = (found[at], found[at + 1]);
    bytes[first..end].rotate_left(middle - first);
}

/// Puts a record of another stream in front of one of this.
fn borrow(random: &mut Random, bytes: &mut Vec<u8>, other: &[u8]) {
    let (Some((at, _)), Some((start, end))) =
        (any_record(random, bytes), any_record(random, other))
    else {
        return;
    };
    bytes.splice(at..at, other[start..end].iter().copied());
}

/// The front of this stream and the rest of another, cut anywhere.
fn splice(random: &mut Random, bytes: &mut Vec<u8>, other: &[u8]) {
    bytes.truncate(random.below(bytes.len() + 1));
    bytes.extend(&other[random.below(other.len() + 1)..]);
}

/// The same, each cut where a record begins.
fn splice_records(random: &mut Random, bytes: &mut Vec<u8>, other: &[u8]) {
    let (Some((end, _)), Some((start, _))) = (any_record(random, bytes), any_record(random, other))
    else {
        return;
    };
    bytes.truncate(end);
    bytes.extend(&other[start..]);
}

/// Puts the model in signs.
fn put_signs(bytes: &mut Vec<u8>) {
    if let Some(signs) = stream_in_signs(bytes) {
        *bytes = signs;
    }
}

/// Puts kind 10 behind a record, most often behind the sizes of the model, or takes it away there.
fn turn_live(random: &mut Random, bytes: &mut Vec<u8>) {
    let any = any_record(random, bytes).map(|(_, end)| end);
    let at = match random.chance(70) {
        true => any.map(|_| 7),
        false => any,
    };
    match at {
        Some(at) if bytes.get(at) == Some(&10) => {
            bytes.remove(at);
        }
        Some(at) if at <= bytes.len() => bytes.insert(at, 10),
        _ => {}
    }
}

/// Makes the model live, with a move to itself for each state that has none.
fn make_live(bytes: &mut Vec<u8>) {
    if let Some(length) = cut(bytes) {
        if let Some(model) = as_live(&bytes[..length]) {
            bytes.splice(..length, model);
        }
    }
}

/// The model as a live one, where it loads and has room for the moves.
fn as_live(model: &[u8]) -> Option<Vec<u8>> {
    let mut session = Session::roomy();
    load(&mut session, model).ok()?;
    let mut moves = session.table().to_vec();
    while let Some(state) = hanging(session.sizes.states, &moves) {
        moves.push(Move {
            source: state,
            action: Action(0),
            target: state,
        });
    }
    moves.sort();
    let room = session.moves.get_mut(..moves.len())?;
    room.copy_from_slice(&moves);
    session.move_count = moves.len();
    (session.live, session.stamp) = (1, None);
    write_vec(&session).ok()
}

/// Makes an insert a delete, a delete an insert, a block or a sign of one kind one of the other, and gives sizes the other
/// style.
fn turn_kind(random: &mut Random, bytes: &mut [u8]) {
    let Some((start, end)) = any_record(random, bytes) else {
        return;
    };
    match bytes[start] {
        8 => bytes[start] = 9,
        9 => bytes[start] = 8,
        3 | 11 => bytes[start + 1] ^= 1,
        1 if bytes[end - 1] == 0 => bytes[end - 1] = random.between(1, 8) as u8,
        1 => bytes[end - 1] = 0,
        _ => {}
    }
}

/// Follows the stream by the second program and gives each batch the stamp of the table that it meets.
fn mend_stamps(bytes: &mut [u8]) {
    let mut session = Session::roomy();
    let Some(mut start) = cut(bytes) else {
        return;
    };
    if load(&mut session, &bytes[..start]).is_err() {
        return;
    }
    while let Some(length) = cut(&bytes[start..]) {
        let part = &mut bytes[start..start + length];
        if part[0] == 7 {
            part[1..5].copy_from_slice(&session.stamp.unwrap_or(0).to_le_bytes());
        }
        let _ = batch(&mut session, part);
        start += length;
    }
}
