//! The operands by the variable that they name, inside one component.

use super::turns::waiting;
use crate::ordinary::equation::{Equation, DIAMOND, OR};
use crate::ordinary::sizes::MOST_VARIABLES;

const VARIABLES: usize = MOST_VARIABLES as usize;

/// What is said of an operand, as a sum; 0 where there is none.
pub const SOME: u8 = 1;
/// The equation is a diamond or a box.
pub const STEP: u8 = 2;
/// One operand with the component's own value is enough for that value.
pub const EASY: u8 = 4;

/// An operand of an equation that names a variable of the equation's own component.
#[derive(Clone, Copy, Default)]
pub struct Operand {
    /// What is said of it.
    pub is: u8,
    /// Where the next operand that names the same variable stands, or 0.
    pub next: u8,
    /// The first pair of the variable whose equation it stands in, as it waits.
    pub first: u16,
    /// Where the pairs of that variable begin.
    pub row: u16,
    /// Of a step: where the heads of its action begin. Of a join: where the pairs of its other operand begin.
    pub other: u16,
}

/// How many places there are: one for each variable, then one for each operand, made a power of two.
const PLACES: usize = 4 * VARIABLES;

/// For each variable the chain of operands that name it. It begins at the place with the variable's number, so that no look is
/// needed to find it, and goes on past the variables.
pub struct Names {
    operands: [Operand; PLACES],
    /// The first place that is free.
    free: usize,
}

/// Whether one operand with the component's own value is enough for that value.
pub fn is_easy(e: &Equation) -> bool {
    (e.operator % 2 == 1) != e.greatest
}

impl Names {
    /// Chains the operands of the equations.
    pub fn new(states: usize, equations: &[Equation]) -> Names {
        let mut names = Names {
            operands: [Operand::default(); PLACES],
            free: VARIABLES,
        };
        for (y, e) in equations
            .iter()
            .enumerate()
            .filter(|(_, e)| e.operator >= OR)
        {
            let step = e.operator >= DIAMOND;
            let is = SOME + STEP * u8::from(step) + EASY * u8::from(is_easy(e));
            let operand = |other: u32| Operand {
                is,
                next: 0,
                first: waiting(y, 0),
                row: (y * states) as u16,
                other: (other as usize * states) as u16,
            };
            let inside = |x: u32| equations[x as usize].block == e.block;
            if inside(e.second) {
                names.put(e.second, operand(e.first));
            }
            if !step && inside(e.first) {
                names.put(e.first, operand(e.second));
            }
        }
        names
    }

    /// Puts an operand in front of the chain of the variable that it names.
    fn put(&mut self, named: u32, operand: Operand) {
        let first = std::mem::replace(&mut self.operands[named as usize], operand);
        if first.is != 0 {
            self.operands[named as usize].next = self.free as u8;
            self.operands[self.free] = first;
            self.free += 1;
        }
    }

    /// What stands at a place.
    #[inline(always)]
    pub fn operand(&self, place: usize) -> &Operand {
        &self.operands[place % PLACES]
    }
}
