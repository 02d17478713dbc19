//! The same calls by the library's own design, as good as we can write it in safe Rust: a look at a whole row of pairs at a
//! time, one index of the moves in a lent room, the pairs that wait to turn in another, and a quick test before the full judge.
//! A pair waits with a mark and its old value, and turns when it is taken from the front. What is not hot is the ordinary
//! version's own. It answers as that version does. A call that is accepted leaves what its sizes need of the work rooms at 0; one
//! that is refused leaves them as they were.
#![forbid(unsafe_code)]

mod apply;
mod changes;
mod check;
mod components;
mod index;
mod looks;
mod model;
mod moves;
mod names;
mod rows;
mod system;
mod turns;
mod update;
mod write;

use crate::answers::{demand, Refusal, Report};
use crate::ordinary::session;
use crate::ordinary::sizes::Sizes;
use crate::rooms::Rooms;
use system::System;

pub use crate::ordinary::ask;

/// Reads a model, finds the value of every pair and clears the marks. A refusal leaves the rooms as they were.
#[inline(never)]
pub fn load(bytes: &[u8], rooms: &mut Rooms) -> Result<(), Refusal> {
    let sizes = model::take(bytes, rooms)?;
    on_system(sizes, rooms, update::solve);
    Ok(())
}

/// Applies a batch of inserts and deletes. A refusal leaves the rooms as they were.
#[inline(never)]
pub fn batch(bytes: &[u8], rooms: &mut Rooms) -> Result<Report, Refusal> {
    let sizes = session::sizes(rooms)?;
    demand(sizes.fit_work(rooms), 13, 0)?;
    check::contents(sizes, rooms)?;
    let changes = changes::read(bytes, sizes, rooms)?;
    apply::apply(&changes, rooms);
    let report = on_system(sizes, rooms, |system, values, marks, queue| {
        update::update(system, &changes, values, marks, queue)
    });
    Ok(report)
}

/// Writes the model that the rooms hold into the front of `out`, and answers how many bytes it has.
#[inline(never)]
pub fn write(rooms: &Rooms, out: &mut [u8]) -> Result<usize, Refusal> {
    let sizes = session::sizes(rooms)?;
    check::contents(sizes, rooms)?;
    let length = write::length(sizes, rooms);
    demand(length <= out.len(), 13, 0)?;
    write::spell(sizes, rooms, &mut out[..length]);
    Ok(length)
}

/// Makes the indexes of the table in the work rooms, has the values and marks follow by `run`, and clears the work rooms.
#[inline(always)]
fn on_system<T>(
    sizes: Sizes,
    rooms: &mut Rooms,
    run: impl FnOnce(&System, &mut [u8], &mut [u8], &mut [u16]) -> T,
) -> T {
    let room = rooms.moves.len();
    let moves = &rooms.moves[..rooms.session[5] as usize];
    let (index, queue) = rooms.work.cut(sizes, room);
    let system = System::new(sizes, &rooms.labels, &rooms.equations, moves, index);
    let pairs = sizes.pairs();
    let (values, marks) = (&mut rooms.values[..pairs], &mut rooms.marks[..pairs]);
    let answer = run(&system, values, marks, queue);
    index.fill(0);
    queue.fill(0);
    answer
}
