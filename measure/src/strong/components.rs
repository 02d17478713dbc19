//! The components of a system in order: its blocks, or where it has none the sets of variables that lead to each other.

use crate::ordinary::equation::Equation;
use crate::ordinary::sizes::MOST_VARIABLES;

/// The value that a component tends to, 1 where it is a greatest one, and the set of its variables.
#[derive(Clone, Copy, Default)]
pub struct Component {
    pub own: u8,
    set: u32,
}

impl Component {
    /// The variables, ascending.
    pub fn variables(self) -> impl Iterator<Item = usize> {
        let mut left = self.set;
        std::iter::from_fn(move || {
            let variable = left.trailing_zeros() as usize;
            let some = left != 0;
            left &= left.wrapping_sub(1);
            some.then_some(variable)
        })
    }
}

/// The components of a system, each of which has a variable.
pub fn components(equations: &[Equation]) -> impl Iterator<Item = Component> {
    let mut components = [Component::default(); MOST_VARIABLES as usize];
    for (x, e) in equations.iter().enumerate() {
        let component = &mut components[e.block as usize];
        component.own = e.greatest.into();
        component.set |= 1 << x;
    }
    components.into_iter().take_while(|c| c.set != 0)
}
