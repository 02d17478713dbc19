//! A case: a stream, cut as the program cuts it, and a plan that decides everything else.

use std::panic::{catch_unwind, AssertUnwindSafe};

use reference::in_signs;
use reference::program::{cut, MOST_BYTES};
use reference::random::Random;

use crate::both::{agree, both, same};
use crate::boundary::{Answer, Boundary, Call};
use crate::damage::{damage, Damage, DAMAGES};
use crate::mirror::sizes_in;
use crate::rooms::{known_bytes, Needs, Rooms, SESSION};
use crate::tally::Tally;

/// A stream with its plan: a number that decides the rooms' lengths, what they hold at first, and all damage.
#[derive(Clone, Debug, PartialEq, Eq)]
pub struct Case {
    pub bytes: Vec<u8>,
    pub plan: u64,
}

/// What is put behind a part, so that a call meets bytes after the end.
const MORE: [&[u8]; 5] = [&[0], &[6], &[10], &[10, 6], &[7, 0, 0, 0, 0, 6]];

/// Up to which product of pairs and moves a model is small.
const SMALL: usize = 4_096;

/// Runs a case on both sides. Says where they differ first; an error that stops either side is told in the same way.
pub fn run(boundary: &dyn Boundary, case: &Case, tally: &mut Tally) -> Result<(), String> {
    let ran = catch_unwind(AssertUnwindSafe(|| walk(boundary, case, tally)));
    ran.unwrap_or_else(|_| Err("one side stopped with an error".into()))
}

/// Hands the parts of the stream over one by one: the model to load, the rest as batches, until the program would end.
fn walk(boundary: &dyn Boundary, case: &Case, tally: &mut Tally) -> Result<(), String> {
    let input = &case.bytes[..case.bytes.len().min(MOST_BYTES)];
    let mut run = Run::new(boundary, input, case.plan, tally);
    let mut start = 0;
    loop {
        let rest = &input[start..];
        let reached = cut(rest);
        let end = start + reached.unwrap_or(rest.len());
        let accepted = run
            .part(start == 0, &input[start..end])
            .map_err(|what| format!("the part from byte {start} to {end}: {what}"))?;
        if reached.is_none() || (start == 0 && !accepted) || end == input.len() {
            return Ok(());
        }
        start = end;
    }
}

/// The call that hands a part over.
fn handing(is_model: bool, part: &[u8]) -> Call<'_> {
    match is_model {
        true => Call::Load(part),
        false => Call::Batch(part),
    }
}

/// A case in the middle of being run.
struct Run<'a> {
    boundary: &'a dyn Boundary,
    tally: &'a mut Tally,
    random: Random,
    rooms: Rooms,
    /// Whether the values are a load's or follow from one, so that a fresh load must give them again.
    solved: bool,
    /// How many accepted parts in a hundred have their values replaced by others afterwards.
    replaced: usize,
}

impl<'a> Run<'a> {
    /// Lends the rooms.
    fn new(boundary: &'a dyn Boundary, input: &[u8], plan: u64, tally: &'a mut Tally) -> Run<'a> {
        let mut random = Random::new(plan ^ 0x6f75_7473_6964_6500);
        let rooms = Rooms::lend(&mut random, Needs::of_model(input));
        let replaced = random.pick(&[0, 0, 0, 0, 0, 0, 0, 0, 20, 100]);
        Run {
            boundary,
            tally,
            random,
            rooms,
            solved: true,
            replaced,
        }
    }

    /// Makes one call on both sides.
    fn call(&mut self, call: Call) -> Result<Answer, String> {
        let answer = both(self.boundary, call, &mut self.rooms)?;
        self.tally.add(call, answer, &self.rooms);
        Ok(answer)
    }

    /// Lends other rooms to work in, of other lengths and full of other numbers, but for now and then those that the call before
    /// has left.
    fn other_work(&mut self, call: Call) {
        if self.random.chance(90) {
            let needs = self.needs(call);
            self.rooms.lend_work(&mut self.random, needs);
        }
    }

    /// How long the rooms must be for a call.
    fn needs(&self, call: Call) -> Needs {
        match call {
            Call::Load(bytes) => Needs::of_model(bytes),
            _ => Needs::of_session(&self.rooms.session),
        }
    }

    /// Hands one part over and looks at what is there then; after a refusal, which has left everything alone, only now and
    /// then. Before that it may be tried on damaged rooms, and with bytes behind it.
    fn part(&mut self, is_model: bool, part: &[u8]) -> Result<bool, String> {
        let call = handing(is_model, part);
        self.other_work(call);
        let tries = if is_model {
            4
        } else {
            usize::from(self.random.chance(30))
        };
        for _ in 0..tries {
            self.aside(call)?;
        }
        if self.random.chance(if is_model { 50 } else { 5 }) {
            self.with_more(is_model, part)?;
        }
        let accepted = self.call(call)?.is_accepted();
        if accepted && is_model {
            self.rewritten(part)?;
        }
        if accepted && self.random.chance(self.replaced) {
            let needs = Needs::of_session(&self.rooms.session);
            damage(
                Damage::OtherValues,
                &mut self.rooms,
                needs,
                &mut self.random,
            );
            self.solved = false;
        }
        if accepted || self.random.chance(20) {
            self.look()?;
        }
        Ok(accepted)
    }

    /// Damages the rooms in one way or more, makes the call and looks, and puts the rooms back.
    fn aside(&mut self, call: Call) -> Result<(), String> {
        let (rooms, solved) = (self.rooms.clone(), self.solved);
        let needs = self.needs(call);
        let mut ways = vec![self.random.pick(&DAMAGES)];
        while self.random.chance(30) {
            ways.push(self.random.pick(&DAMAGES));
        }
        for way in &ways {
            damage(*way, &mut self.rooms, needs, &mut self.random);
        }
        self.solved = false;
        let looked = self.call(call).and_then(|_| self.look());
        (self.rooms, self.solved) = (rooms, solved);
        looked.map_err(|what| format!("after {ways:?}: {what}"))
    }

    /// Hands a part over with a few bytes behind it, and puts the rooms back.
    fn with_more(&mut self, is_model: bool, part: &[u8]) -> Result<(), String> {
        let rooms = self.rooms.clone();
        let more = self.random.pick(&MORE);
        let made = self.call(handing(is_model, &[part, more].concat()));
        self.rooms = rooms;
        made.map(|_| ())
            .map_err(|what| format!("with {more:?} behind it: {what}"))
    }

    /// Writes the session, loads what was written, and asks about a few pairs.
    fn look(&mut self) -> Result<(), String> {
        let longer = self.random.below(40);
        let length = self.rooms.most_written() + longer;
        self.rooms.out = known_bytes(&mut self.random, length);
        let written = self.call(Call::Write)?;
        if written.is_accepted() {
            if self.reloads() {
                self.reload(written.told as usize)?;
            }
            self.write_short(written.told as usize)?;
        }
        for _ in 0..3 {
            self.ask()?;
        }
        Ok(())
    }

    /// Writes once more into a room that is exactly long enough, one place too short, or shorter still.
    fn write_short(&mut self, length: usize) -> Result<(), String> {
        if !self.random.chance(25) {
            return Ok(());
        }
        let any = self.random.below(length);
        let length = self.random.pick(&[length, length - 1, any]);
        self.rooms.out = known_bytes(&mut self.random, length);
        self.call(Call::Write).map(|_| ())
    }

    /// Whether what was written is to be loaded: always for a small model, now and then for a large one, which takes longer.
    fn reloads(&mut self) -> bool {
        let needs = Needs::of_session(&self.rooms.session);
        needs.pairs * needs.moves <= SMALL || self.random.chance(10)
    }

    /// Loads what was written into fresh rooms. Where the values follow from a load, it must give the session back.
    fn reload(&mut self, written: usize) -> Result<(), String> {
        let bytes = self.rooms.out[..written].to_vec();
        let call = Call::Load(&bytes);
        let needs = Needs::of_model(&bytes);
        let mut fresh = Rooms::lend(&mut self.random, needs);
        if !self.solved || fresh.moves.len() < needs.moves {
            let answer = both(self.boundary, call, &mut fresh)?;
            self.tally.add(call, answer, &fresh);
            return Ok(());
        }
        let mut wanted = fresh.clone();
        give_again(&self.rooms, needs, &mut wanted);
        let answer = self.boundary.call(call, &mut fresh);
        self.tally.add(call, answer, &fresh);
        let told = |what: String| format!("of what was written: {what}");
        agree(call, Answer::accepted(0), answer).map_err(told)?;
        same(call, &wanted, &fresh).map_err(told)?;
        match self.random.chance(15) {
            true => self.rewritten(&bytes),
            false => Ok(()),
        }
    }

    /// Loads a model with blocks once more, rewritten in signs. Each pair's value must be the one that it has.
    fn rewritten(&mut self, model: &[u8]) -> Result<(), String> {
        let Some(signs) = in_signs(model) else {
            return Ok(());
        };
        let call = Call::Load(&signs);
        let needs = Needs::of_model(&signs);
        let mut fresh = Rooms::lend(&mut self.random, needs);
        fresh.make_move_room(fresh.moves.len().max(needs.moves), needs);
        let told = |what: String| format!("of the model in signs: {what}");
        let answer = both(self.boundary, call, &mut fresh).map_err(told)?;
        self.tally.add(call, answer, &fresh);
        agree(call, Answer::accepted(0), answer).map_err(told)?;
        let (wanted, found) = (&self.rooms.values, &fresh.values);
        match (0..needs.pairs).find(|at| wanted[*at] != found[*at]) {
            Some(at) => Err(told(format!(
                "values[{at}] is {}, with blocks it is {}",
                found[at], wanted[at]
            ))),
            None => Ok(()),
        }
    }

    /// Asks about one pair: most often one that is there, else one just past the last or anywhere.
    fn ask(&mut self) -> Result<(), String> {
        let (mut states, mut variables) = (1, 1);
        if self.rooms.session.len() >= SESSION {
            let sizes = sizes_in(&self.rooms.session);
            (states, variables) = (sizes.states.max(1), sizes.variables.max(1));
        }
        let random = &mut self.random;
        let mut state = random.below(usize::from(states)) as u16;
        let mut variable = random.below(usize::from(variables)) as u8;
        match random.below(10) {
            0 => state = states,
            1 => variable = variables,
            2 => (state, variable) = (random.bits() as u16, random.byte()),
            _ => {}
        }
        self.call(Call::Ask(state, variable)).map(|_| ())
    }
}

/// Puts a session and its model from one set of rooms into the front of others, with all marks 0, and clears the rooms to work in.
fn give_again(from: &Rooms, needs: Needs, to: &mut Rooms) {
    to.session[..SESSION].copy_from_slice(&from.session[..SESSION]);
    to.labels[..needs.labels].copy_from_slice(&from.labels[..needs.labels]);
    to.equations[..needs.equations].copy_from_slice(&from.equations[..needs.equations]);
    to.values[..needs.pairs].copy_from_slice(&from.values[..needs.pairs]);
    to.marks[..needs.pairs].fill(0);
    to.moves[..needs.moves].copy_from_slice(&from.moves[..needs.moves]);
    let index = needs.index(to.moves.len());
    to.index[..index].fill(0);
    to.queue[..needs.queue()].fill(0);
}
