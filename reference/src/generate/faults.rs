//! Single faults put into good models and good batches, each for one refusal number.

use std::collections::BTreeSet;

use crate::limits::{MOST_CHANGES, MOST_MOVES};
use crate::random::Random;
use crate::records::{spell_all, Block, Equation, Record, Sizes, Style};
use crate::table::{Move, State};

use super::live::{hang_model, put_stray};
use super::models::{any_move, put_moves, sizes_of, take_moves};
use super::signed::mix_signs;

/// The numbers for which a fault can be put into a batch without ending the run, but for 16, which
/// needs a live model.
pub const BATCH_NUMBERS: [u8; 8] = [2, 3, 4, 7, 8, 9, 10, 11];

/// Puts one fault into a good model and gives its bytes with the number it must be refused with.
pub fn fault_in_model(random: &mut Random, model: Vec<Record>) -> (Vec<u8>, u8) {
    loop {
        let number = match sizes_of(&model).style() {
            Style::Blocks => random.pick(&[1, 2, 2, 3, 3, 4, 4, 4, 5, 5, 6, 6, 10, 16, 16]),
            Style::Signs => random.pick(&[1, 2, 2, 3, 3, 4, 4, 4, 5, 5, 5, 5, 6, 10, 16, 16]),
        };
        let mut records = model.clone();
        if number == 1 {
            return (cut_or_unknown(random, &records), 1);
        }
        let done = match number {
            2 => not_due(random, &mut records),
            3 => bad_size(random, &mut records),
            4 => bad_number(random, &mut records),
            5 => bad_names(random, &mut records),
            6 => not_ascending(random, &mut records),
            16 => {
                hang_model(random, &mut records);
                true
            }
            _ => too_many_moves(random, &mut records),
        };
        if done {
            return (spell_all(&records), number);
        }
    }
}

/// Puts a stray kind 10 into a good model or makes a state hang, now and then with another fault
/// before the end, and gives its bytes with the number it must be refused with.
pub fn fault_about_live(random: &mut Random, mut model: Vec<Record>) -> (Vec<u8>, u8) {
    match random.below(10) {
        0..=3 => {
            put_stray(random, &mut model);
            (spell_all(&model), 2)
        }
        4..=7 => {
            hang_model(random, &mut model);
            (spell_all(&model), 16)
        }
        _ => {
            hang_model(random, &mut model);
            fault_in_model(random, model)
        }
    }
}

/// Cuts the bytes of records short, or gives one record an unknown kind.
pub fn cut_or_unknown(random: &mut Random, records: &[Record]) -> Vec<u8> {
    let mut bytes = spell_all(records);
    if random.chance(50) {
        bytes.truncate(random.below(bytes.len()));
    } else {
        let place = spell_all(&records[..random.below(records.len())]).len();
        bytes[place] = random.pick(&[0, 12, 13, 0x80, 0xff]);
    }
    bytes
}

/// The places in a list of records where a condition holds.
fn places(records: &[Record], wanted: impl Fn(&Record) -> bool) -> Vec<usize> {
    (0..records.len())
        .filter(|at| wanted(&records[*at]))
        .collect()
}

/// A record of a random kind out of those given, with random bytes in its body.
pub fn any_record(random: &mut Random, kinds: &[u8]) -> Record {
    let bits = random.bits();
    let what = Move::new(
        bits as u16 & 7,
        (bits >> 20) as u8 & 3,
        (bits >> 40) as u16 & 7,
    );
    let [a, b, c] = [0, 8, 16].map(|from| (bits >> from) as u8 & 7);
    let equation = Equation {
        operator: a,
        first: b,
        second: c,
    };
    match random.pick(kinds) {
        1 => Record::Sizes(Sizes {
            states: bits as u16 & 0x1ff,
            actions: a,
            propositions: b,
            variables: c,
            blocks: a & 1,
        }),
        2 => Record::Label {
            state: State(bits as u16 & 7),
            set: (bits >> 32) as u32 & 6,
        },
        3 => Record::Block(Block {
            kind: a & 1,
            variables: b,
        }),
        4 => Record::Equation(equation),
        5 => Record::Move(what),
        6 => Record::End,
        7 => Record::Stamp(bits as u32),
        8 => Record::Insert(what),
        9 => Record::Delete(what),
        10 => Record::Live,
        _ => Record::Signed {
            sign: bits.count_ones() as u8 & 1,
            equation,
        },
    }
}

/// Whether a record is an equation of either style.
fn is_equation(record: &Record) -> bool {
    matches!(record, Record::Equation(_) | Record::Signed { .. })
}

/// 2 in a model: a record of a kind that is never due there, of the other style too; the sizes or
/// an equation missing; a rule too many; the other style in the sizes; or a stray kind 10.
fn not_due(random: &mut Random, records: &mut Vec<Record>) -> bool {
    let mut sizes = sizes_of(records);
    let equations = places(records, is_equation);
    let other_style: &[u8] = match sizes.style() {
        Style::Blocks => &[11, 11],
        Style::Signs => &[3, 4],
    };
    match random.below(6) {
        0 => {
            let at = random.between(1, records.len() - 1);
            let kinds = [&[1, 7, 8, 9], other_style].concat();
            records.insert(at, any_record(random, &kinds));
        }
        1 => {
            records.remove(0);
        }
        2 => {
            records.remove(random.pick(&equations));
        }
        3 => {
            let at = equations[equations.len() - 1] + 1;
            records.insert(at, any_record(random, &[2, 3, 4, 10, 11]));
        }
        4 => put_stray(random, records),
        _ => {
            let blocks = random.between(1, 8) as u8;
            sizes.blocks = if sizes.blocks == 0 { blocks } else { 0 };
            records[0] = Record::Sizes(sizes);
        }
    }
    true
}

/// 3 in a model: a size outside its table, or a block with a wrong number of variables.
fn bad_size(random: &mut Random, records: &mut [Record]) -> bool {
    let mut sizes = sizes_of(records);
    let blocks = places(records, |r| matches!(r, Record::Block(_)));
    match random.below(8) {
        0 => sizes.states = random.pick(&[0, 257, 65_535]),
        1 => sizes.actions = random.pick(&[0, 17, 255]),
        2 => sizes.propositions = random.pick(&[33, 255]),
        3 => sizes.variables = random.pick(&[0, 33, 255]),
        4 => sizes.blocks = random.pick(&[9, 10, 255]),
        _ if blocks.is_empty() => return false,
        5 if sizes.variables < 32 => sizes.variables += 1,
        _ => {
            let at = random.pick(&blocks);
            let variables = random.pick(&[0, 255, sizes.variables + 1]);
            let kind = random.pick(&[0, 1, 2]);
            records[at] = Record::Block(Block { kind, variables });
        }
    }
    records[0] = Record::Sizes(sizes);
    true
}

/// 4 in a model: one record other than the sizes and the end gets a number that is too high, an
/// empty or too high set, or an unused byte that isn't 0.
fn bad_number(random: &mut Random, records: &mut [Record]) -> bool {
    let sizes = sizes_of(records);
    let guilty = random.between(1, records.len() - 2);
    match &mut records[guilty] {
        Record::Label { state, set } => match random.below(3) {
            0 => state.0 = random.pick(&[sizes.states, 65_535]),
            1 => *set = 0,
            _ if sizes.propositions < 32 => *set |= 1 << sizes.propositions,
            _ => *set = 0,
        },
        Record::Block(block) => block.kind = random.pick(&[2, 3, 255]),
        Record::Equation(equation) => *equation = bad_equation(random, &sizes),
        Record::Signed { sign, .. } if random.chance(30) => *sign = random.pick(&[2, 3, 255]),
        Record::Signed { equation, .. } => *equation = bad_equation(random, &sizes),
        Record::Move(m) => bad_move(random, &sizes, m),
        _ => return false,
    }
    true
}

/// An equation that must be refused with 4.
fn bad_equation(random: &mut Random, sizes: &Sizes) -> Equation {
    let (operator, first, second) = match random.below(7) {
        0 => (random.pick(&[8, 9, 255]), 0, 0),
        1 => (random.pick(&[0, 1]), random.pick(&[0, 1]), 1),
        2 => (random.pick(&[2, 3]), sizes.propositions, 0),
        3 => (random.pick(&[2, 3]), 0, 1),
        4 => (random.pick(&[4, 5]), 0, sizes.variables),
        5 => (
            random.pick(&[4, 5, 6, 7]),
            sizes.variables.max(sizes.actions),
            0,
        ),
        _ => (random.pick(&[6, 7]), 0, sizes.variables),
    };
    Equation {
        operator,
        first,
        second,
    }
}

/// Gives a move one number that is too high.
fn bad_move(random: &mut Random, sizes: &Sizes, m: &mut Move) {
    match random.below(3) {
        0 => m.source.0 = random.pick(&[sizes.states, 65_535]),
        1 => m.action.0 = random.pick(&[sizes.actions, 255]),
        _ => m.target.0 = random.pick(&[sizes.states, 256, 65_535]),
    }
}

/// 5 in a model of either style.
fn bad_names(random: &mut Random, records: &mut Vec<Record>) -> bool {
    match sizes_of(records).style() {
        Style::Blocks => later_block(random, records),
        Style::Signs => mixed_chain(random, records),
    }
}

/// 5 with signs: a closed chain with both signs. What follows the last equation doesn't count, so
/// it is spoiled now and then.
fn mixed_chain(random: &mut Random, records: &mut Vec<Record>) -> bool {
    let sizes = sizes_of(records);
    let equations = places(records, is_equation);
    let (first, end) = (equations[0], equations[equations.len() - 1] + 1);
    if !mix_signs(random, &sizes, &mut records[first..end]) {
        return false;
    }
    match random.below(6) {
        0 => records.insert(end, any_record(random, &[1, 2, 3, 4, 5, 7, 8, 9, 10, 11])),
        1 => records.truncate(end),
        2 => {
            let mut m = any_move(random, &sizes);
            bad_move(random, &sizes, &mut m);
            records.insert(end, Record::Move(m));
        }
        _ => {}
    }
    true
}

/// 5 with blocks: an equation of a block before the last names the last variable.
fn later_block(random: &mut Random, records: &mut [Record]) -> bool {
    let sizes = sizes_of(records);
    let blocks = places(records, |r| matches!(r, Record::Block(_)));
    let last = blocks[blocks.len() - 1];
    let earlier = places(&records[..last], |r| matches!(r, Record::Equation(_)));
    if earlier.is_empty() {
        return false;
    }
    let later = sizes.variables - 1;
    let (operator, first, second) = match random.below(3) {
        0 => (random.pick(&[4, 5]), 0, later),
        1 => (random.pick(&[4, 5]), later, 0),
        _ => (random.pick(&[6, 7]), 0, later),
    };
    records[random.pick(&earlier)] = Record::Equation(Equation {
        operator,
        first,
        second,
    });
    true
}

/// 6 in a model: a label or a move twice, or two of them the wrong way round.
fn not_ascending(random: &mut Random, records: &mut Vec<Record>) -> bool {
    let movable = places(records, |r| {
        matches!(r, Record::Move(_) | Record::Label { .. })
    });
    if movable.is_empty() {
        return false;
    }
    let at = random.pick(&movable);
    if random.chance(50) && movable.contains(&(at + 1)) {
        records.swap(at, at + 1);
    } else {
        records.insert(at, records[at]);
    }
    true
}

/// 10 in a model: more than 1,024 moves, for a model that already has nearly as many.
fn too_many_moves(random: &mut Random, records: &mut Vec<Record>) -> bool {
    let sizes = sizes_of(records);
    let mut moves = take_moves(records);
    if moves.len() < 900 {
        return false;
    }
    let wanted = MOST_MOVES + random.between(1, 5);
    while moves.len() < wanted {
        moves.insert(any_move(random, &sizes));
    }
    put_moves(records, moves);
    true
}

/// A good batch in the making, and what it is drawn up against: the first record is the stamp and
/// the last the end.
pub struct Draft {
    pub sizes: Sizes,
    pub live: bool,
    pub table: Vec<Move>,
    pub records: Vec<Record>,
}

/// The move that a change names, or nothing for any other record.
fn changed(record: &Record) -> Option<Move> {
    match record {
        Record::Insert(m) | Record::Delete(m) => Some(*m),
        _ => None,
    }
}

impl Draft {
    /// Puts the fault of a number into the batch. False where there is no way to, and then the
    /// batch may have been changed.
    pub fn put_fault(&mut self, random: &mut Random, number: u8) -> bool {
        match number {
            2 => self.put_not_due(random),
            3 => self.put_too_many(random),
            4 => self.put_bad_number(random),
            7 => self.put_present(random),
            8 => self.put_absent(random),
            9 => self.put_repeated(random),
            10 => self.put_no_room(random),
            16 => self.put_hanging(random),
            _ => self.put_wrong_stamp(random),
        }
    }

    /// The moves that the batch names.
    fn named(&self) -> BTreeSet<Move> {
        self.records.iter().filter_map(changed).collect()
    }

    /// How many changes the batch has.
    fn changes(&self) -> usize {
        self.records.iter().filter_map(changed).count()
    }

    /// A place behind the stamp and not behind the end.
    fn inside(&self, random: &mut Random) -> usize {
        random.between(1, self.records.len() - 1)
    }

    /// A move that is neither in the table nor named by the batch, if a few draws find one.
    fn fresh(&self, random: &mut Random) -> Option<Move> {
        let named = self.named();
        (0..40)
            .map(|_| any_move(random, &self.sizes))
            .find(|m| !named.contains(m) && self.table.binary_search(m).is_err())
    }

    /// 2: the stamp missing, or a record inside that is never due there.
    fn put_not_due(&mut self, random: &mut Random) -> bool {
        if random.chance(25) {
            self.records.remove(0);
        } else {
            let at = self.inside(random);
            let kinds = [1, 2, 3, 4, 5, 7, 10, 11];
            self.records.insert(at, any_record(random, &kinds));
        }
        true
    }

    /// 3: more than 64 changes, the ones too many not always good themselves.
    fn put_too_many(&mut self, random: &mut Random) -> bool {
        let wanted = MOST_CHANGES + random.between(1, 3);
        while self.changes() < wanted {
            let mut m = any_move(random, &self.sizes);
            if self.changes() >= MOST_CHANGES && random.chance(30) {
                bad_move(random, &self.sizes, &mut m);
            }
            let at = self.records.len() - 1;
            self.records.insert(at, Record::Insert(m));
        }
        true
    }

    /// 4: one change with a number that is too high.
    fn put_bad_number(&mut self, random: &mut Random) -> bool {
        let mut m = any_move(random, &self.sizes);
        bad_move(random, &self.sizes, &mut m);
        self.put_change(random, m)
    }

    /// Puts an insert or a delete of a move somewhere inside, where there is room for a change.
    fn put_change(&mut self, random: &mut Random, m: Move) -> bool {
        if self.changes() >= MOST_CHANGES {
            return false;
        }
        let at = self.inside(random);
        let record = random.pick(&[Record::Insert(m), Record::Delete(m)]);
        self.records.insert(at, record);
        true
    }

    /// 7: an insert of a move that is present.
    fn put_present(&mut self, random: &mut Random) -> bool {
        let named = self.named();
        let table = self.table.iter().copied();
        let free: Vec<Move> = table.filter(|m| !named.contains(m)).collect();
        if free.is_empty() || self.changes() >= MOST_CHANGES {
            return false;
        }
        let at = self.inside(random);
        self.records.insert(at, Record::Insert(random.pick(&free)));
        true
    }

    /// 8: a delete of a move that is absent.
    fn put_absent(&mut self, random: &mut Random) -> bool {
        let Some(m) = self.fresh(random) else {
            return false;
        };
        if self.changes() >= MOST_CHANGES {
            return false;
        }
        let at = self.inside(random);
        self.records.insert(at, Record::Delete(m));
        true
    }

    /// 9: a move named once more, by an insert or a delete.
    fn put_repeated(&mut self, random: &mut Random) -> bool {
        let named: Vec<Move> = self.named().into_iter().collect();
        if named.is_empty() {
            return false;
        }
        let again = random.pick(&named);
        self.put_change(random, again)
    }

    /// 10: inserts of absent moves until the table would hold more than 1,024.
    fn put_no_room(&mut self, random: &mut Random) -> bool {
        if self.table.len() + MOST_CHANGES <= MOST_MOVES {
            return false;
        }
        self.records.retain(|r| !matches!(r, Record::Delete(_)));
        while self.table.len() + self.changes() <= MOST_MOVES {
            let Some(m) = self.fresh(random) else {
                return false;
            };
            let at = self.inside(random);
            self.records.insert(at, Record::Insert(m));
        }
        self.changes() <= MOST_CHANGES
    }

    /// 16: deletes of all moves of one state, and no insert of any.
    fn put_hanging(&mut self, random: &mut Random) -> bool {
        if !self.live {
            return false;
        }
        let state = random.pick(&self.table).source;
        let other = |m: Move| m.source != state;
        self.records.retain(|r| changed(r).is_none_or(other));
        for m in self.table.clone() {
            if m.source == state {
                let at = self.inside(random);
                self.records.insert(at, Record::Delete(m));
            }
        }
        self.changes() <= MOST_CHANGES
    }

    /// 11: a stamp that is off by a little or by much.
    fn put_wrong_stamp(&mut self, random: &mut Random) -> bool {
        let Record::Stamp(stamp) = self.records[0] else {
            return false;
        };
        let off = random.pick(&[1, u32::MAX, 65_538, 1 << 31, 1 << 16]);
        self.records[0] = Record::Stamp(stamp.wrapping_add(off));
        true
    }
}
