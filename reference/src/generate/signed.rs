//! Random rules with signs, and rules with a closed chain that holds both signs.

use crate::components::components;
use crate::random::Random;
use crate::records::{Equation, Record, Sizes};

use super::models::{blocks, equations};

/// The plan of which variables name which.
#[derive(Clone, Copy, Debug, PartialEq, Eq)]
enum Plan {
    /// So many layers, each naming itself and layers before it.
    Layers(u8),
    /// Each names the one before it, and perhaps itself.
    Ladder,
    /// Each names the next one, the last the first.
    Ring,
}

/// A plan: few layers, as many as there are variables, any number between, or one of the others.
fn plan(random: &mut Random, variables: u8) -> Plan {
    let most = usize::from(variables);
    match random.below(7) {
        0 => Plan::Layers(1),
        1 | 2 => Plan::Layers(random.between(1, most.min(8)) as u8),
        3 => Plan::Layers(random.between(1, most) as u8),
        4 => Plan::Layers(variables),
        5 => Plan::Ladder,
        _ => Plan::Ring,
    }
}

/// An equation that names a variable for certain, and another one where its operator has two.
fn naming(random: &mut Random, sizes: &Sizes, one: u8, other: u8) -> Equation {
    let operator = random.pick(&[4, 5, 6, 7]);
    let (first, second) = match operator {
        4 | 5 if random.chance(50) => (one, other),
        4 | 5 => (other, one),
        _ => (random.below(usize::from(sizes.actions)) as u8, one),
    };
    Equation {
        operator,
        first,
        second,
    }
}

/// Equations in which a variable names none behind its own layer.
fn layered(random: &mut Random, sizes: &Sizes, layers: u8) -> Vec<Equation> {
    let mut made = Vec::new();
    let mut first = 0;
    for layer in blocks(random, sizes.variables, layers) {
        let end = first + layer.variables;
        made.extend(equations(random, sizes, first, end));
        first = end;
    }
    made
}

/// Equations that follow a plan, the variables in the plan's own order.
fn planned(random: &mut Random, sizes: &Sizes, plan: Plan) -> Vec<Equation> {
    let count = sizes.variables;
    let mut made = match plan {
        Plan::Layers(layers) => return layered(random, sizes, layers),
        Plan::Ladder => layered(random, sizes, count),
        Plan::Ring => layered(random, sizes, 1),
    };
    for at in 0..count {
        let any = random.below(usize::from(count)) as u8;
        let equation = &mut made[usize::from(at)];
        match plan {
            Plan::Ladder if at == 0 => {}
            Plan::Ladder => {
                let other = random.pick(&[at, at - 1]);
                *equation = naming(random, sizes, at - 1, other);
            }
            _ => *equation = naming(random, sizes, (at + 1) % count, any),
        }
    }
    made
}

/// The numbers from 0 up to but without the count: in order, backwards or shuffled.
fn order(random: &mut Random, count: u8) -> Vec<u8> {
    let mut order: Vec<u8> = (0..count).collect();
    match random.below(4) {
        0 => {}
        1 => order.reverse(),
        _ => random.shuffle(&mut order),
    }
    order
}

/// An equation with every variable that it names renamed.
fn renamed(equation: Equation, order: &[u8]) -> Equation {
    let named = |x: u8| order[usize::from(x)];
    let Equation {
        operator,
        first,
        second,
    } = equation;
    let (first, second) = match operator {
        4 | 5 => (named(first), named(second)),
        6 | 7 => (first, named(second)),
        _ => (first, second),
    };
    Equation {
        operator,
        first,
        second,
    }
}

/// The records of equations with these signs.
fn spelled(equations: &[Equation], signs: &[u8]) -> Vec<Record> {
    let both = signs.iter().zip(equations);
    both.map(|(sign, equation)| Record::Signed {
        sign: *sign,
        equation: *equation,
    })
    .collect()
}

/// Equations that follow a random plan, with a sign for each component.
pub fn signed_rules(random: &mut Random, sizes: &Sizes) -> Vec<Record> {
    let plan = plan(random, sizes.variables);
    let planned = planned(random, sizes, plan);
    let order = order(random, sizes.variables);
    let mut equations = planned.clone();
    for (at, equation) in planned.into_iter().enumerate() {
        equations[usize::from(order[at])] = renamed(equation, &order);
    }
    let bits = random.bits();
    let sign = |component: &u8| (bits >> component & 1) as u8;
    let signs: Vec<u8> = components(&equations).iter().map(sign).collect();
    spelled(&equations, &signs)
}

/// Puts a closed chain with both signs into good rules with signs. False where there is no way to.
pub fn mix_signs(random: &mut Random, sizes: &Sizes, rules: &mut [Record]) -> bool {
    match random.below(3) {
        0 => turn_one(random, rules),
        1 => put_loop(random, sizes, rules),
        _ => put_eight(random, sizes, rules),
    }
}

/// The sign and the equation of a record, which has them.
fn parts(record: &mut Record) -> Option<(&mut u8, &mut Equation)> {
    match record {
        Record::Signed { sign, equation } => Some((sign, equation)),
        _ => None,
    }
}

/// Gives one variable of a component of two or more the other sign.
fn turn_one(random: &mut Random, rules: &mut [Record]) -> bool {
    let equations: Vec<Equation> = rules
        .iter_mut()
        .filter_map(|rule| parts(rule).map(|(_, equation)| *equation))
        .collect();
    let components = components(&equations);
    let others = |x: &usize| components.iter().filter(|c| **c == components[*x]).count();
    let shared: Vec<usize> = (0..rules.len()).filter(|x| others(x) > 1).collect();
    if shared.is_empty() {
        return false;
    }
    let guilty = random.pick(&shared);
    parts(&mut rules[guilty]).is_some_and(|(sign, _)| {
        *sign ^= 1;
        true
    })
}

/// Some of the variables in a random order.
fn some(random: &mut Random, sizes: &Sizes, count: usize) -> Vec<u8> {
    let mut all: Vec<u8> = (0..sizes.variables).collect();
    random.shuffle(&mut all);
    all.truncate(count);
    all
}

/// Puts an equation with a sign in a variable's place.
fn put(rules: &mut [Record], variable: u8, sign: u8, equation: Equation) {
    rules[usize::from(variable)] = Record::Signed { sign, equation };
}

/// Leads a loop through two or more variables, not all of one sign.
fn put_loop(random: &mut Random, sizes: &Sizes, rules: &mut [Record]) -> bool {
    if sizes.variables < 2 {
        return false;
    }
    let length = random.between(2, usize::from(sizes.variables).min(6));
    let chain = some(random, sizes, length);
    let odd = random.below(length);
    let common = random.below(2) as u8;
    for at in 0..length {
        let next = chain[(at + 1) % length];
        let any = random.below(usize::from(sizes.variables)) as u8;
        let sign = common ^ u8::from(at == odd);
        put(rules, chain[at], sign, naming(random, sizes, next, any));
    }
    true
}

/// Leads two loops through one variable, one of them with one sign only. The variables of that
/// one are on a chain with both signs only where a chain may repeat.
fn put_eight(random: &mut Random, sizes: &Sizes, rules: &mut [Record]) -> bool {
    if sizes.variables < 3 {
        return false;
    }
    let [middle, pure, odd] = some(random, sizes, 3)[..] else {
        return false;
    };
    let common = random.below(2) as u8;
    let both = Equation {
        operator: random.pick(&[4, 5]),
        first: pure,
        second: odd,
    };
    put(rules, middle, common, both);
    put(rules, pure, common, naming(random, sizes, middle, pure));
    put(rules, odd, common ^ 1, naming(random, sizes, middle, odd));
    true
}
