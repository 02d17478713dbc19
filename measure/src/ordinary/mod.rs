//! Document 01, with document 02's signs on equations and its live models, in ordinary Rust: safe, quick, and with no more care
//! than a test asks for. It keeps nothing between calls but the rooms, as the proved library does, so every call checks what it
//! is lent and builds its own indexes. It needs no work rooms, but asks for them and clears them as the others do. Each call
//! stays a call, as the library's are, however small.
#![forbid(unsafe_code)]

pub(crate) mod apply;
pub(crate) mod changes;
pub(crate) mod components;
pub(crate) mod equation;
mod index;
pub(crate) mod model;
pub(crate) mod moves;
pub(crate) mod records;
pub(crate) mod session;
pub(crate) mod sizes;
mod system;
mod update;
pub(crate) mod write;

use crate::answers::{demand, Refusal, Report};
use crate::rooms::Rooms;
use sizes::Sizes;
use system::System;

/// Reads a model, finds the value of every pair and clears the marks. A refusal leaves the rooms as they were.
#[inline(never)]
pub fn load(bytes: &[u8], rooms: &mut Rooms) -> Result<(), Refusal> {
    let model = model::read(bytes, rooms)?;
    model::store(&model, rooms);
    let pairs = model.sizes.pairs();
    let system = System::new(model.sizes, &rooms.labels, &rooms.equations, &model.moves);
    let (values, marks) = (&mut rooms.values[..pairs], &mut rooms.marks[..pairs]);
    update::solve(&system, values, marks);
    rooms.work.clear(model.sizes, rooms.moves.len());
    Ok(())
}

/// Applies a batch of inserts and deletes. A refusal leaves the rooms as they were.
#[inline(never)]
pub fn batch(bytes: &[u8], rooms: &mut Rooms) -> Result<Report, Refusal> {
    let sizes = session::sizes(rooms)?;
    demand(sizes.fit_work(rooms), 13, 0)?;
    session::contents(sizes, rooms)?;
    let (stamp, changes) = changes::read(bytes, sizes)?;
    changes::judge(stamp, &changes, rooms)?;
    apply::apply(&changes, rooms);
    let moves = &rooms.moves[..rooms.session[5] as usize];
    let system = System::new(sizes, &rooms.labels, &rooms.equations, moves);
    let pairs = sizes.pairs();
    let (values, marks) = (&mut rooms.values[..pairs], &mut rooms.marks[..pairs]);
    let report = update::update(&system, &changes, values, marks);
    rooms.work.clear(sizes, rooms.moves.len());
    Ok(report)
}

/// Writes the model that the rooms hold into the front of `out`, and answers how many bytes it has.
#[inline(never)]
pub fn write(rooms: &Rooms, out: &mut [u8]) -> Result<usize, Refusal> {
    let sizes = session::sizes(rooms)?;
    session::contents(sizes, rooms)?;
    let length = write::length(sizes, rooms);
    demand(length <= out.len(), 13, 0)?;
    write::spell(sizes, rooms, &mut out[..length]);
    Ok(length)
}

/// The value of one pair. Only the sizes and the one byte are looked at.
#[inline(never)]
pub fn ask(rooms: &Rooms, state: u16, variable: u8) -> Result<bool, Refusal> {
    let sizes = Sizes::of(&rooms.session);
    demand(sizes.in_limits(), 12, 0)?;
    demand(sizes.pairs() <= rooms.values.len(), 13, 0)?;
    let (state, variable) = (u32::from(state), u32::from(variable));
    demand(state < sizes.states && variable < sizes.variables, 4, 0)?;
    let value = rooms.values[(variable * sizes.states + state) as usize];
    demand(value <= 1, 12, 0)?;
    Ok(value == 1)
}
