//! A table of moves checked and summed by loops that become vector code.

use crate::ordinary::moves::{action, source, target};
use crate::ordinary::sizes::Sizes;

/// Whether all the moves are in range and strictly ascend. Where they ascend the last one has the highest source.
pub fn good(sizes: Sizes, table: &[u32]) -> bool {
    let Some((last, after)) = table.last().zip(table.get(1..)) else {
        return true;
    };
    let ascends = table.iter().zip(after);
    let ascend = ascends.fold(true, |all, (m, next)| all & (m < next));
    let highest = |part: fn(u32) -> u32| table.iter().fold(0, |most, m| part(*m).max(most));
    ascend
        && source(*last) < sizes.states
        && highest(target) < sizes.states
        && highest(action) < sizes.actions
}

/// The sums of moves, of their sources with their actions, and of their sources.
#[derive(Clone, Copy, Default)]
pub struct Sums {
    moves: u32,
    parts: u32,
    sources: u32,
}

impl Sums {
    /// The sums with one move more.
    #[inline(always)]
    pub fn with(self, packed: u32) -> Sums {
        Sums {
            moves: self.moves.wrapping_add(packed),
            parts: self.parts.wrapping_add(packed >> 10),
            sources: self.sources.wrapping_add(packed >> 16),
        }
    }

    /// The stamp of a table with these sums and so many moves.
    pub fn stamp(self, count: usize) -> u32 {
        let targets = self.moves.wrapping_sub(self.parts << 10);
        let actions = self.parts.wrapping_sub(self.sources << 6);
        let weighed = self.sources.wrapping_mul(65_537);
        let weighed = weighed.wrapping_add(actions.wrapping_mul(4_099));
        let weighed = weighed.wrapping_add(targets.wrapping_mul(257));
        weighed.wrapping_add(count as u32)
    }
}

/// The stamp of a table.
pub fn stamp(table: &[u32]) -> u32 {
    let sums = table.iter().fold(Sums::default(), |sums, m| sums.with(*m));
    sums.stamp(table.len())
}

/// Whether each state is the source of one of these ascending moves, whose sources lie below the number of states.
pub fn leave_all(table: &[u32], states: u32) -> bool {
    let after = table.get(1..).unwrap_or_default();
    let others = table.iter().zip(after);
    let others = others.fold(0, |n, (m, next)| n + u32::from(source(*m) != source(*next)));
    !table.is_empty() && others + 1 == states
}
