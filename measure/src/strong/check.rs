//! Whether a session is one that load accepts: the passes that refusal 12 forces, each as vector code.

use super::moves;
use crate::answers::{demand, Refusal};
use crate::ordinary::session::equations_ok;
use crate::ordinary::sizes::Sizes;
use crate::rooms::Rooms;

/// Asks 12 for what the rooms hold.
pub fn contents(sizes: Sizes, rooms: &Rooms) -> Result<(), Refusal> {
    let table = rooms.table();
    let labels = &rooms.labels[..sizes.states as usize];
    let good = sizes.hold_set(labels.iter().fold(0, |all, set| all | set))
        && equations_ok(sizes, &rooms.equations[..sizes.variables as usize])
        && highest(&rooms.values[..sizes.pairs()]) <= 1
        && highest(&rooms.marks[..sizes.pairs()]) <= 3
        && moves::good(sizes, table)
        && moves::stamp(table) == rooms.stamp()
        && (!rooms.is_live() || moves::leave_all(table, sizes.states));
    demand(good, 12, 0)
}

/// All the bits that some byte has.
fn highest(bytes: &[u8]) -> u8 {
    bytes.iter().fold(0, |all, byte| all | byte)
}
