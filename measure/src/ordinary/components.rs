//! Equations with signs of their own: which variables lead to each other, and so take the place of a block.

use super::equation::Equation;
use super::sizes::MOST_VARIABLES;

/// For each variable the set of variables that it leads to through equations, itself included.
fn reaches(equations: &[Equation]) -> Vec<u32> {
    let named = equations.iter().zip(0..).map(|(e, x)| e.names() | 1 << x);
    let mut reaches: Vec<u32> = named.collect();
    for via in 0..reaches.len() {
        let further = reaches[via];
        for reach in &mut reaches {
            if *reach >> via & 1 == 1 {
                *reach |= further;
            }
        }
    }
    reaches
}

/// For each variable the number of its component: how many components reach a smaller set, read as a binary number. A component
/// that another one names reaches fewer, so that it comes before.
pub fn numbers(equations: &[Equation]) -> Vec<u32> {
    let reaches = reaches(equations);
    let mut sorted = reaches.clone();
    sorted.sort_unstable();
    sorted.dedup();
    let number = |reach: &u32| sorted.partition_point(|other| other < reach) as u32;
    reaches.iter().map(number).collect()
}

/// The first variable whose component holds both signs.
pub fn first_mixed(equations: &[Equation], numbers: &[u32]) -> Option<usize> {
    let mut signs = [0; MOST_VARIABLES as usize];
    for (e, number) in equations.iter().zip(numbers) {
        signs[*number as usize] |= 1 << u32::from(e.greatest);
    }
    numbers
        .iter()
        .position(|number| signs[*number as usize] == 3)
}
