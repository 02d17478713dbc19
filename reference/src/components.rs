//! The strongly connected components of the variables, by the names in their equations.
//!
//! A closed chain of variables stays inside one component, and inside a component some closed
//! chain, repeats allowed, goes through all of its variables.

use crate::records::Equation;
use crate::table::Variable;

/// Which variables name which: for each variable the numbers of those it names, or of those that
/// name it.
type Names = Vec<Vec<usize>>;

/// For each variable the variables that its equation names.
fn names(equations: &[Equation]) -> Names {
    let index = |named: &Variable| usize::from(named.0);
    let of = |equation: &Equation| equation.named().iter().map(index).collect();
    equations.iter().map(of).collect()
}

/// For each variable the variables whose equations name it.
fn named_by(names: &Names) -> Names {
    let mut by = vec![Vec::new(); names.len()];
    for (variable, named) in names.iter().enumerate() {
        for one in named {
            by[*one].push(variable);
        }
    }
    by
}

/// Walks from a variable along the names to all that has not been seen, and lists each variable
/// once everything behind it is listed.
fn walk(names: &Names, from: usize, seen: &mut [bool], listed: &mut Vec<usize>) {
    if seen[from] {
        return;
    }
    seen[from] = true;
    for named in &names[from] {
        walk(names, *named, seen, listed);
    }
    listed.push(from);
}

/// The components as lists of variables, found by two walks: one along the names, and one back
/// along them that starts from what the first listed last.
fn found(names: &Names) -> Vec<Vec<usize>> {
    let mut seen = vec![false; names.len()];
    let mut listed = Vec::new();
    for variable in 0..names.len() {
        walk(names, variable, &mut seen, &mut listed);
    }
    let by = named_by(names);
    let mut taken = vec![false; names.len()];
    let mut components = Vec::new();
    for variable in listed.into_iter().rev() {
        let mut component = Vec::new();
        walk(&by, variable, &mut taken, &mut component);
        if !component.is_empty() {
            components.push(component);
        }
    }
    components
}

/// A variable's reach as a binary number: bit y is 1 where y is the variable itself or a chain of
/// names leads from it to y.
fn reach(names: &Names, variable: usize) -> u64 {
    let mut seen = vec![false; names.len()];
    walk(names, variable, &mut seen, &mut Vec::new());
    let led_to = (0..seen.len()).filter(|y| seen[*y]);
    led_to.map(|y| 1 << y).sum()
}

/// For each variable the number of its component: how many components have a smaller reach. So a
/// component's number is above those of all others that it names.
pub fn components(equations: &[Equation]) -> Vec<u8> {
    let names = names(equations);
    let mut ordered = found(&names);
    ordered.sort_by_key(|component| reach(&names, component[0]));
    let mut numbers = vec![0; names.len()];
    for (number, component) in ordered.iter().enumerate() {
        for variable in component {
            numbers[*variable] = number as u8;
        }
    }
    numbers
}

/// The lowest variable of a component with both signs, if there is one.
pub fn mixed(equations: &[Equation], signs: &[u8]) -> Option<Variable> {
    let components = components(equations);
    let clash = |x: &usize| {
        let mut others = (0..signs.len()).filter(|y| components[*x] == components[*y]);
        others.any(|y| signs[*x] != signs[y])
    };
    let guilty = (0..signs.len()).find(clash);
    guilty.map(|variable| Variable(variable as u8))
}
