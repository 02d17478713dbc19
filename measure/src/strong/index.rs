//! The moves by action and target, as chains in a lent room: first for each action and target the place of the last such move,
//! or the end, then for each move the place of the one before it in its chain. A source is read from the move itself.

use crate::ordinary::moves::{action, source, target};

/// The end of a chain: a place past any move.
const END: u16 = u16::MAX;

/// The chains of a table.
#[derive(Clone, Copy)]
pub struct Arrivals<'a> {
    pub moves: &'a [u32],
    /// At action × states + target.
    pub heads: &'a [u16],
    pub links: &'a [u16],
}

impl<'a> Arrivals<'a> {
    /// Chains the moves; the room may hold anything.
    pub fn new(moves: &'a [u32], actions: usize, states: usize, room: &'a mut [u16]) -> Self {
        let (heads, links) = room.split_at_mut(actions * states);
        let links = &mut links[..moves.len()];
        heads.fill(END);
        for ((packed, link), place) in moves.iter().zip(&mut *links).zip(0..) {
            let head = action(*packed) as usize * states + target(*packed) as usize;
            *link = std::mem::replace(&mut heads[head], place);
        }
        Arrivals {
            moves,
            heads,
            links,
        }
    }

    /// Calls `see` with the source and the place of each move of the chain that begins at a head.
    #[inline(always)]
    pub fn sources(&self, head: u16, mut see: impl FnMut(usize, usize)) {
        let links = &self.links[..self.moves.len()];
        let mut place = usize::from(head);
        while let Some(packed) = self.moves.get(place) {
            see(source(*packed) as usize, place);
            place = links[place].into();
        }
    }
}

/// The chains of one action: a head for each target.
#[derive(Clone, Copy)]
pub struct Into<'a> {
    pub arrivals: Arrivals<'a>,
    pub heads: &'a [u16],
}
