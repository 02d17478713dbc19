//! Blind damage to bytes and records, and streams that are nothing but noise.

use crate::random::Random;
use crate::records::{body_length, spell_all};

use super::faults::any_record;

/// Damages the bytes once, at or after the place `from`, which a record starts at.
pub fn damage(random: &mut Random, bytes: &mut Vec<u8>, from: usize) {
    if from >= bytes.len() {
        return;
    }
    let place = random.between(from, bytes.len() - 1);
    match random.below(10) {
        0 | 1 => bytes[place] ^= 1 << random.below(8),
        2 => bytes[place] = random.byte(),
        3 => bytes.insert(place, random.byte() & 15),
        4 => {
            bytes.remove(place);
        }
        5 if random.chance(30) => bytes.truncate(place),
        5 => bytes[place] ^= 1,
        6 => swap_records(random, bytes, from),
        7 => double_record(random, bytes, from),
        8 => turn_record(random, bytes, from),
        _ => drop_record(random, bytes, from),
    }
}

/// The bytes of each whole record from a place on, as far as the kinds are known.
fn split(bytes: &[u8], from: usize) -> Vec<(usize, usize)> {
    let mut records = Vec::new();
    let mut start = from;
    while let Some(length) = bytes.get(start).and_then(|kind| body_length(*kind)) {
        let end = start + 1 + length;
        if end > bytes.len() {
            break;
        }
        records.push((start, end));
        start = end;
    }
    records
}

/// Swaps a record with one of the few after it.
fn swap_records(random: &mut Random, bytes: &mut Vec<u8>, from: usize) {
    let records = split(bytes, from);
    if records.len() < 2 {
        return;
    }
    let one = random.below(records.len() - 1);
    let other = random.between(one + 1, (one + 3).min(records.len() - 1));
    let (a, b) = (records[one], records[other]);
    let mut swapped = bytes[..a.0].to_vec();
    swapped.extend(&bytes[b.0..b.1]);
    swapped.extend(&bytes[a.1..b.0]);
    swapped.extend(&bytes[a.0..a.1]);
    swapped.extend(&bytes[b.1..]);
    *bytes = swapped;
}

/// Puts a copy of a record right behind it.
fn double_record(random: &mut Random, bytes: &mut Vec<u8>, from: usize) {
    let records = split(bytes, from);
    if records.is_empty() {
        return;
    }
    let (start, end) = random.pick(&records);
    let copy = bytes[start..end].to_vec();
    bytes.splice(end..end, copy);
}

/// Takes a record away.
fn drop_record(random: &mut Random, bytes: &mut Vec<u8>, from: usize) {
    let records = split(bytes, from);
    if records.is_empty() {
        return;
    }
    let (start, end) = random.pick(&records);
    bytes.drain(start..end);
}

/// Gives a block or an equation with a sign the other kind, or the sizes the other style, or puts
/// kind 10 behind them or takes it away.
fn turn_record(random: &mut Random, bytes: &mut Vec<u8>, from: usize) {
    let mut records = split(bytes, from);
    records.retain(|(start, _)| matches!(bytes[*start], 1 | 3 | 11));
    if records.is_empty() {
        return;
    }
    let (start, end) = random.pick(&records);
    match bytes[start] {
        1 if random.chance(50) => turn_live(bytes, end),
        1 if bytes[end - 1] == 0 => bytes[end - 1] = random.between(1, 8) as u8,
        1 => bytes[end - 1] = 0,
        _ => bytes[start + 1] ^= 1,
    }
}

/// Takes kind 10 at a place away, or puts it there.
fn turn_live(bytes: &mut Vec<u8>, at: usize) {
    if bytes.get(at) == Some(&10) {
        bytes.remove(at);
    } else {
        bytes.insert(at, 10);
    }
}

/// A stream without a plan: nothing, a few bytes, or whole records of any kinds.
pub fn noise(random: &mut Random) -> Vec<u8> {
    match random.below(4) {
        0 => vec![],
        1 => vec![random.byte() & 15],
        2 => {
            let length = random.between(2, 60);
            (0..length).map(|_| random.byte() & 15).collect()
        }
        _ => {
            let length = random.between(1, 30);
            let kinds = [1, 2, 3, 4, 5, 6, 7, 8, 9, 10, 11];
            let records: Vec<_> = (0..length).map(|_| any_record(random, &kinds)).collect();
            spell_all(&records)
        }
    }
}
