//! A call made on both sides, and whether they agree.

use std::fmt::Debug;

use crate::boundary::{Answer, Boundary, Call};
use crate::mirror::Mirrored;
use crate::rooms::Rooms;

/// Makes a call on the rooms through the boundary, and the same call by the second program on a copy. Gives the answer, or
/// says where the two differ: in the answer, or at a place of any room. The second program's side touches nothing before it
/// knows that a call is accepted, so a refusal that changes a room is a difference too.
pub fn both(boundary: &dyn Boundary, call: Call, rooms: &mut Rooms) -> Result<Answer, String> {
    let mut wanted = rooms.clone();
    let due = Mirrored.call(call, &mut wanted);
    let found = boundary.call(call, rooms);
    agree(call, due, found)?;
    same(call, &wanted, rooms)?;
    Ok(found)
}

/// Whether two answers are the same.
pub fn agree(call: Call, due: Answer, found: Answer) -> Result<(), String> {
    if due == found {
        return Ok(());
    }
    let name = call.name();
    Err(format!("{name}: the answer is {found:?}, due is {due:?}"))
}

/// Whether every place of every room is the same.
pub fn same(call: Call, wanted: &Rooms, found: &Rooms) -> Result<(), String> {
    let unlike = differs("session", &wanted.session, &found.session)
        .or_else(|| differs("labels", &wanted.labels, &found.labels))
        .or_else(|| differs("equations", &wanted.equations, &found.equations))
        .or_else(|| differs("values", &wanted.values, &found.values))
        .or_else(|| differs("marks", &wanted.marks, &found.marks))
        .or_else(|| differs("moves", &wanted.moves, &found.moves))
        .or_else(|| differs("index", &wanted.index, &found.index))
        .or_else(|| differs("queue", &wanted.queue, &found.queue))
        .or_else(|| differs("report", &wanted.report, &found.report))
        .or_else(|| differs("out", &wanted.out, &found.out));
    match unlike {
        Some(what) => Err(format!("{}: {what}", call.name())),
        None => Ok(()),
    }
}

/// The first place where a room is not as wanted.
fn differs<T: PartialEq + Debug>(name: &str, wanted: &[T], found: &[T]) -> Option<String> {
    if wanted == found {
        return None;
    }
    let at = wanted.iter().zip(found).position(|(w, f)| w != f)?;
    let length = found.len();
    Some(format!(
        "{name}[{at}] of {length} is {:?}, due is {:?}",
        found[at], wanted[at]
    ))
}
