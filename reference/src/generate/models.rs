//! Random good models, as lists of records.

use std::collections::BTreeSet;

use crate::model::{load, Loaded};
use crate::random::Random;
use crate::records::{spell_all, Block, Equation, Record, Sizes, Style};
use crate::session::Session;
use crate::table::{Move, State};

use super::live::give_each_a_move;
use super::signed::signed_rules;
use super::Family;

/// How large a model is to be.
#[derive(Clone, Copy, Debug, PartialEq, Eq)]
pub struct Shape {
    pub sizes: Sizes,
    pub live: bool,
    pub moves: usize,
}

/// The plan of a table's first moves.
#[derive(Clone, Copy, Debug, PartialEq, Eq)]
enum Plan {
    Scattered,
    Chain,
    BackChain,
    Ring,
    Tree,
    Star,
}

/// A shape from the most that states, actions, propositions and variables may be, with all of
/// them drawn freely from the least on.
fn draw_sizes(random: &mut Random, states: (usize, usize), most: [usize; 3]) -> Sizes {
    let variables = random.between(1, most[2]);
    Sizes {
        states: random.between(states.0, states.1) as u16,
        actions: random.between(1, most[0]) as u8,
        propositions: random.between(0, most[1]) as u8,
        variables: variables as u8,
        blocks: random.between(1, variables.min(8)) as u8,
    }
}

/// A random shape for a family, with blocks 0 one time in three and then 32 variables more often,
/// and live three times in ten, then with at least as many moves as states.
fn shape(random: &mut Random, family: Family) -> Shape {
    let mut sizes = match family {
        Family::Tiny => draw_sizes(random, (1, 3), [2, 2, 4]),
        Family::Small => draw_sizes(random, (2, 8), [3, 4, 10]),
        Family::Chain => {
            let states = random.pick(&[8, 24, 64, 256]);
            draw_sizes(random, (4, states), [2, 3, 9])
        }
        Family::Full => draw_sizes(random, (40, 256), [4, 8, 12]),
        Family::Large if random.chance(40) => Sizes {
            states: 256,
            actions: random.pick(&[1, 2, 16]),
            propositions: 32,
            variables: 32,
            blocks: random.between(1, 8) as u8,
        },
        Family::Large => draw_sizes(random, (100, 256), [16, 32, 32]),
        _ => draw_sizes(random, (8, 64), [16, 32, 32]),
    };
    if random.chance(33) {
        sizes.blocks = 0;
        let small = matches!(family, Family::Tiny | Family::Small);
        if !small && random.chance(15) {
            sizes.variables = 32;
        }
    }
    let states = usize::from(sizes.states);
    let universe = states * states * usize::from(sizes.actions);
    let moves = match family {
        Family::Full => 1_024 - random.pick(&[0, 0, 1, 3, 40]),
        Family::Large if random.chance(40) => 1_024,
        Family::Chain => random.between(states - 1, states + 6),
        _ => states * random.between(0, 400) / 100,
    };
    let live = random.chance(30);
    let least = if live { states } else { 0 };
    let moves = moves.max(least).min(universe).min(1_024);
    Shape { sizes, live, moves }
}

/// A move drawn from all that the sizes allow.
pub fn any_move(random: &mut Random, sizes: &Sizes) -> Move {
    Move::new(
        random.below(usize::from(sizes.states)) as u16,
        random.below(usize::from(sizes.actions)) as u8,
        random.below(usize::from(sizes.states)) as u16,
    )
}

/// A table that follows a plan as far as the number of moves goes, filled up with scattered moves.
/// Each state of a live model has one, and there may be more moves then.
fn table(random: &mut Random, shape: &Shape, plan: Plan) -> BTreeSet<Move> {
    let states = shape.sizes.states;
    let action = random.below(usize::from(shape.sizes.actions)) as u8;
    let mut planned = Vec::new();
    for s in 0..states {
        let next = (s + 1) % states;
        match plan {
            Plan::Scattered => {}
            Plan::Chain if next == 0 => {}
            Plan::Chain | Plan::Ring => planned.push(Move::new(s, action, next)),
            Plan::BackChain if next == 0 => {}
            Plan::BackChain => planned.push(Move::new(next, action, s)),
            Plan::Tree if s == 0 => {}
            Plan::Tree => planned.push(Move::new((s - 1) / 2, action, s)),
            Plan::Star => planned.push(Move::new(0, action, s)),
        }
    }
    let mut moves: BTreeSet<Move> = planned.into_iter().take(shape.moves).collect();
    if shape.live {
        give_each_a_move(random, &shape.sizes, &mut moves);
    }
    while moves.len() < shape.moves {
        moves.insert(any_move(random, &shape.sizes));
    }
    moves
}

/// Labels with ascending states; one model in four hardly has any, one in four has nearly all.
fn labels(random: &mut Random, sizes: &Sizes) -> Vec<Record> {
    let mut labels = Vec::new();
    if sizes.propositions == 0 {
        return labels;
    }
    let share = random.pick(&[5, 30, 60, 95]);
    for state in 0..sizes.states {
        let within = u32::MAX >> (32 - u32::from(sizes.propositions));
        let set = random.bits() as u32 & within;
        if random.chance(share) && set != 0 {
            labels.push(Record::Label {
                state: State(state),
                set,
            });
        }
    }
    labels
}

/// Splits variables into so many blocks of at least one variable each.
pub fn blocks(random: &mut Random, variables: u8, count: u8) -> Vec<Block> {
    let mut blocks = Vec::new();
    let mut remain = usize::from(variables);
    for due in (1..=usize::from(count)).rev() {
        let most = remain + 1 - due;
        let fair = (2 * remain / due).min(most);
        let variables = if due == 1 {
            remain
        } else {
            random.between(1, fair)
        };
        blocks.push(Block {
            kind: random.below(2) as u8,
            variables: variables as u8,
        });
        remain -= variables;
    }
    blocks
}

/// A variable of the block that starts at `first` and ends before `end`, or of an earlier one.
fn operand(random: &mut Random, first: u8, end: u8) -> u8 {
    let from = if random.chance(65) { first } else { 0 };
    random.between(usize::from(from), usize::from(end) - 1) as u8
}

/// An equation that looks at no variable of its own block, where there is such a one.
fn base(random: &mut Random, sizes: &Sizes, first: u8) -> Equation {
    let earlier = first > 0 && random.chance(50);
    let (operator, one, two) = if earlier {
        let operator = random.pick(&[4, 5, 6, 7]);
        let x = random.below(usize::from(first)) as u8;
        let y = random.below(usize::from(first)) as u8;
        match operator {
            4 | 5 => (operator, x, y),
            _ => (operator, random.below(usize::from(sizes.actions)) as u8, x),
        }
    } else if sizes.propositions > 0 {
        let p = random.below(usize::from(sizes.propositions)) as u8;
        (random.pick(&[2, 3]), p, 0)
    } else {
        (random.pick(&[0, 1]), 0, 0)
    };
    Equation {
        operator,
        first: one,
        second: two,
    }
}

/// An equation drawn freely, with few constants and with X and Y the same now and then.
fn free(random: &mut Random, sizes: &Sizes, first: u8, end: u8) -> Equation {
    let operator = random.pick(&[4, 4, 5, 5, 6, 6, 6, 7, 7, 7, 2, 0]);
    if operator < 4 {
        return base(random, sizes, first);
    }
    let x = operand(random, first, end);
    let y = if random.chance(10) {
        x
    } else {
        operand(random, first, end)
    };
    let action = random.below(usize::from(sizes.actions)) as u8;
    Equation {
        operator,
        first: if operator < 6 { x } else { action },
        second: y,
    }
}

/// The equations of one block: groups of three that loop through a move (X = Y op Z, Y a base,
/// Z = diamond or box of X), and free equations between them.
pub fn equations(random: &mut Random, sizes: &Sizes, first: u8, end: u8) -> Vec<Equation> {
    let mut equations = Vec::new();
    let mut at = first;
    let looping = random.pick(&[0, 50, 100]);
    while at < end {
        if end - at >= 3 && random.chance(looping) {
            let action = random.below(usize::from(sizes.actions)) as u8;
            equations.push(Equation {
                operator: random.pick(&[4, 5]),
                first: at + 1,
                second: at + 2,
            });
            equations.push(base(random, sizes, first));
            equations.push(Equation {
                operator: random.pick(&[6, 7]),
                first: action,
                second: at,
            });
            at += 3;
        } else {
            equations.push(free(random, sizes, first, end));
            at += 1;
        }
    }
    equations
}

/// The records of blocks with their equations.
fn block_rules(random: &mut Random, sizes: &Sizes) -> Vec<Record> {
    let mut records = Vec::new();
    let mut first = 0;
    for block in blocks(random, sizes.variables, sizes.blocks) {
        let end = first + block.variables;
        records.push(Record::Block(block));
        for equation in equations(random, sizes, first, end) {
            records.push(Record::Equation(equation));
        }
        first = end;
    }
    records
}

/// A random good model of a family, in either style, live or not.
pub fn model(random: &mut Random, family: Family) -> Vec<Record> {
    let shape = shape(random, family);
    let mut records = vec![Record::Sizes(shape.sizes)];
    if shape.live {
        records.push(Record::Live);
    }
    records.extend(labels(random, &shape.sizes));
    records.extend(match shape.sizes.style() {
        Style::Blocks => block_rules(random, &shape.sizes),
        Style::Signs => signed_rules(random, &shape.sizes),
    });
    let plan = match family {
        Family::Chain => random.pick(&[Plan::Chain, Plan::BackChain, Plan::Ring, Plan::Tree]),
        _ => random.pick(&[Plan::Scattered, Plan::Scattered, Plan::Ring, Plan::Star]),
    };
    put_moves(&mut records, table(random, &shape, plan));
    records
}

/// The sizes at the front of a model.
pub fn sizes_of(records: &[Record]) -> Sizes {
    match records[0] {
        Record::Sizes(sizes) => sizes,
        _ => Sizes::default(),
    }
}

/// Takes the moves and the end off the records of a model, and gives the moves.
pub fn take_moves(records: &mut Vec<Record>) -> BTreeSet<Move> {
    let mut moves = BTreeSet::new();
    while let Some(Record::Move(_) | Record::End) = records.last() {
        if let Some(Record::Move(m)) = records.pop() {
            moves.insert(m);
        }
    }
    moves
}

/// Adds the moves and the end to the records of a model.
pub fn put_moves(records: &mut Vec<Record>, moves: BTreeSet<Move>) {
    records.extend(moves.into_iter().map(Record::Move));
    records.push(Record::End);
}

/// A random good model, drawn again a few times if hardly any of its pairs are true, or nearly
/// all of them.
pub fn mixed_model(random: &mut Random, family: Family) -> Vec<Record> {
    let mut records = model(random, family);
    for _ in 0..4 {
        let loaded = load(&mut Session::roomy(), &spell_all(&records));
        let is_mixed = |l: Loaded| l.pairs <= 8 * l.true_pairs && 8 * l.true_pairs <= 7 * l.pairs;
        if loaded.is_ok_and(is_mixed) {
            break;
        }
        records = model(random, family);
    }
    records
}
