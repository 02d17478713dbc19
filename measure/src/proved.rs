//! The four calls of the proved library, over the same rooms. The wrapper of embed/rust hides its rooms, so its one unsafe
//! file is taken in here as it stands.

use crate::answers::{Refusal, Report};
use crate::rooms::Rooms;

#[path = "../../embed/rust/src/ffi.rs"]
mod ffi;

/// What an answer's high half tells where its low half is 0, else the refusal.
fn told(answer: u64) -> Result<usize, Refusal> {
    let (number, told) = (answer as u32, (answer >> 32) as usize);
    match number {
        0 => Ok(told),
        _ => Err(Refusal {
            number,
            place: told,
        }),
    }
}

/// Reads a model into the rooms.
pub fn load(bytes: &[u8], rooms: &mut Rooms) -> Result<(), Refusal> {
    told(ffi::load(
        bytes,
        &mut rooms.session,
        &mut rooms.labels,
        &mut rooms.equations,
        &mut rooms.values,
        &mut rooms.marks,
        &mut rooms.moves,
        &mut rooms.work.index,
        &mut rooms.work.queue,
    ))
    .map(|_| ())
}

/// Applies a batch to the rooms.
pub fn batch(bytes: &[u8], rooms: &mut Rooms) -> Result<Report, Refusal> {
    let mut report = [0; 3];
    told(ffi::batch(
        &mut rooms.session,
        bytes,
        &rooms.labels,
        &rooms.equations,
        &mut rooms.values,
        &mut rooms.marks,
        &mut rooms.moves,
        &mut rooms.work.index,
        &mut rooms.work.queue,
        &mut report,
    ))?;
    let [shift_visits, settle_visits, net] = report;
    Ok(Report {
        shift_visits,
        settle_visits,
        net,
    })
}

/// Writes the model in the rooms into `out`, and answers how many bytes it has.
pub fn write(rooms: &Rooms, out: &mut [u8]) -> Result<usize, Refusal> {
    told(ffi::write(
        &rooms.session,
        &rooms.labels,
        &rooms.equations,
        &rooms.values,
        &rooms.marks,
        &rooms.moves,
        out,
    ))
}

/// The value of one pair.
pub fn ask(rooms: &Rooms, state: u16, variable: u8) -> Result<bool, Refusal> {
    told(ffi::ask(&rooms.session, &rooms.values, state, variable)).map(|v| v == 1)
}
