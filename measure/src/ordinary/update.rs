//! How the values follow a batch: block by block, shift and settle, each with a stack of pairs whose leaners are still to be
//! visited.

use super::changes::Change;
use super::equation::{BOX, DIAMOND};
use super::moves;
use super::sizes::MOST_VARIABLES;
use super::system::System;
use crate::answers::Report;

/// The value that a greatest (1) or least (0) block or component tends to, and the set of its variables.
#[derive(Clone, Copy, Default)]
struct Block {
    own: u8,
    set: u32,
}

impl Block {
    /// The block's variables.
    fn variables(self) -> impl Iterator<Item = usize> {
        (0..MOST_VARIABLES as usize).filter(move |x| self.set >> x & 1 == 1)
    }
}

/// The blocks of a system in order, or the components where it has none.
fn blocks(system: &System) -> Vec<Block> {
    let mut blocks = Vec::new();
    for (x, e) in system.equations.iter().enumerate() {
        let number = e.block as usize;
        if blocks.len() <= number {
            blocks.resize(number + 1, Block::default());
        }
        blocks[number].own = e.greatest.into();
        blocks[number].set |= 1 << x;
    }
    blocks
}

/// An update under way.
struct Run<'a> {
    system: &'a System<'a>,
    values: &'a mut [u8],
    marks: &'a mut [u8],
    /// Pairs that turned and whose leaners are not yet visited, as variable and state.
    stack: Vec<(u8, u8)>,
    /// Pairs of this block that turned.
    turned: Vec<(u8, u8)>,
    /// Pairs of earlier blocks whose value is not the old one.
    gone: Vec<(u8, u8)>,
    report: Report,
}

/// The values before any change: the solution of the equations. The marks become 0.
pub fn solve(system: &System, values: &mut [u8], marks: &mut [u8]) {
    marks.fill(0);
    for (of_variable, e) in values.chunks_mut(system.states).zip(&system.equations) {
        of_variable.fill(e.greatest.into());
    }
    let mut run = Run::new(system, values, marks);
    for block in blocks(system) {
        run.settle(block);
    }
    marks.fill(0);
}

/// The values follow the changes that made the table what it is; the marks say what turned.
pub fn update(system: &System, changes: &[Change], values: &mut [u8], marks: &mut [u8]) -> Report {
    marks.fill(0);
    let mut run = Run::new(system, values, marks);
    for block in blocks(system) {
        run.seed_by_changes(block, changes);
        run.seed_by_earlier_blocks(block);
        run.shift(block);
        run.settle(block);
        run.leave();
    }
    run.report
}

impl<'a> Run<'a> {
    /// A run with nothing turned yet.
    fn new(system: &'a System, values: &'a mut [u8], marks: &'a mut [u8]) -> Run<'a> {
        Run {
            system,
            values,
            marks,
            stack: Vec::with_capacity(256),
            turned: Vec::with_capacity(256),
            gone: Vec::with_capacity(256),
            report: Report::default(),
        }
    }

    /// The value of a pair before the batch: marks 1 and 3 say that it is the other now.
    fn old(&self, pair: usize) -> u8 {
        self.values[pair] ^ (self.marks[pair] & 1)
    }

    /// Shifts the diamonds and boxes of the block that the changes touch in the way that seeds.
    fn seed_by_changes(&mut self, block: Block, changes: &[Change]) {
        for variable in block.variables() {
            let e = self.system.equations[variable];
            if e.operator != DIAMOND && e.operator != BOX {
                continue;
            }
            let gains = (e.operator == DIAMOND) == (block.own == 1);
            for change in changes {
                let (m, x) = (change.packed, e.second as usize);
                let target = self.system.pair(x, moves::target(m) as usize);
                let seeds = change.insert == gains && (gains || self.old(target) != block.own);
                if seeds && moves::action(m) == e.first {
                    self.shift_pair(block, variable, moves::source(m) as usize);
                }
            }
        }
    }

    /// Shifts the pairs of the block that lean on an earlier block's pair which went to the block's own value.
    fn seed_by_earlier_blocks(&mut self, block: Block) {
        let gone = std::mem::take(&mut self.gone);
        let system = self.system;
        for (x, s) in &gone {
            let (x, s) = (usize::from(*x), usize::from(*s));
            if self.values[system.pair(x, s)] == block.own {
                system.leaners(x, s, block.set, |y, r| self.shift_pair(block, y, r));
            }
        }
        self.gone = gone;
    }

    /// Shifts a pair, unless it has the block's own value or was shifted before.
    fn shift_pair(&mut self, block: Block, variable: usize, state: usize) {
        let pair = self.system.pair(variable, state);
        if self.values[pair] != block.own {
            self.marks[pair] = 1;
            self.turned.push((variable as u8, state as u8));
            self.turn(pair, variable, state);
        }
    }

    /// Settles a pair that has the block's own value and whose equation gives the other.
    fn settle_pair(&mut self, block: Block, variable: usize, state: usize) {
        let pair = self.system.pair(variable, state);
        let asks = self.values[pair] == block.own
            && self.system.gives(self.values, variable, state) != block.own;
        if asks {
            if self.marks[pair] == 0 {
                self.turned.push((variable as u8, state as u8));
            }
            self.marks[pair] = if self.marks[pair] == 0 { 3 } else { 2 };
            self.turn(pair, variable, state);
        }
    }

    /// The value becomes the other, and the pair's leaners are to be visited.
    fn turn(&mut self, pair: usize, variable: usize, state: usize) {
        self.values[pair] ^= 1;
        self.report.net += 2 * i64::from(self.values[pair]) - 1;
        self.stack.push((variable as u8, state as u8));
    }

    /// From the seeds on, whatever leans on a shifted pair is shifted.
    fn shift(&mut self, block: Block) {
        let system = self.system;
        while let Some((x, s)) = self.stack.pop() {
            system.leaners(x.into(), s.into(), block.set, |y, r| {
                self.report.shift_visits += 1;
                self.shift_pair(block, y, r);
            });
        }
    }

    /// Every pair of the block is looked at, and after a turn the pairs that lean on it again.
    fn settle(&mut self, block: Block) {
        let system = self.system;
        for variable in block.variables() {
            for state in 0..system.states {
                self.settle_pair(block, variable, state);
            }
        }
        while let Some((x, s)) = self.stack.pop() {
            system.leaners(x.into(), s.into(), block.set, |y, r| {
                self.report.settle_visits += 1;
                self.settle_pair(block, y, r);
            });
        }
    }

    /// The block is done: those of its pairs that did not come back seed later blocks.
    fn leave(&mut self) {
        let mut turned = std::mem::take(&mut self.turned);
        for (x, s) in turned.drain(..) {
            let pair = self.system.pair(x.into(), s.into());
            if self.marks[pair] & 1 == 1 {
                self.gone.push((x, s));
            }
        }
        self.turned = turned;
    }
}
