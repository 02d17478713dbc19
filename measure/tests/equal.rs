//! All versions agree on every answer and on every room, so that nobody compares the speed of a wrong program.

mod common;

use common::{parts, Sides, LONG};
use measure::answers::Refusal;
use measure::rooms::Rooms;
use reference::generate::{generate, generate_family, Family};
use reference::random::Random;

/// How often each thing was seen, so that a test knows that it tested something.
#[derive(Default)]
struct Seen {
    loads: usize,
    batches: usize,
    refusals: [usize; 17],
}

impl Seen {
    /// Counts an answer, and tells whether it was accepted.
    fn count<T>(
        &mut self,
        answer: Result<T, Refusal>,
        accepted: fn(&mut Seen) -> &mut usize,
    ) -> bool {
        match &answer {
            Ok(_) => *accepted(self) += 1,
            Err(refusal) => self.refusals[refusal.number as usize] += 1,
        }
        answer.is_ok()
    }

    /// Loads a model, and tells whether it was accepted.
    fn load(&mut self, sides: &mut Sides, bytes: &[u8]) -> bool {
        self.count(sides.load(bytes), |seen| &mut seen.loads)
    }

    /// Applies a batch.
    fn batch(&mut self, sides: &mut Sides, bytes: &[u8]) {
        self.count(sides.batch(bytes), |seen| &mut seen.batches);
    }
}

/// Asks for a pair, in range or just past it.
fn ask_some(sides: &mut Sides, random: &mut Random) {
    let session = sides.rooms().session;
    let state = random.below(session[0] as usize % 300 + 2) as u16;
    let variable = random.below(session[3] as usize % 40 + 2) as u8;
    let _ = sides.ask(state, variable);
}

/// Runs a stream, with rooms full of what no load may depend on.
fn run(bytes: &[u8], random: &mut Random, seen: &mut Seen) {
    let mut rooms = Rooms::most();
    rooms.values.fill(9);
    rooms.marks.fill(9);
    rooms.moves.fill(77);
    rooms.work.index.fill(7_777);
    rooms.work.queue.fill(7_777);
    let mut sides = Sides::of(&rooms);
    let parts = parts(bytes);
    let Some((model, batches)) = parts.split_first() else {
        seen.load(&mut sides, &[]);
        return;
    };
    if !seen.load(&mut sides, model) {
        return;
    }
    for batch in batches {
        seen.batch(&mut sides, batch);
        ask_some(&mut sides, random);
    }
    sides.write(LONG).unwrap();
    let _ = sides.write(random.below(3_000));
}

#[test]
fn streams_of_every_family_agree() {
    let mut seen = Seen::default();
    for seed in 0..1_500 {
        run(&generate(seed).bytes, &mut Random::new(seed), &mut seen);
    }
    assert!(seen.loads > 1_000 && seen.batches > 5_000);
    for number in (1..=11).chain([16]) {
        assert!(seen.refusals[number] > 0, "no refusal {number} was seen");
    }
}

/// Changes one number of a session or of its rooms to another, often a bad one.
fn spoil(rooms: &mut Rooms, random: &mut Random) {
    let states = rooms.session[0] as usize;
    let pairs = states * rooms.session[3] as usize;
    let count = rooms.session[5] as usize;
    let index = states * rooms.session[1] as usize + 1_024;
    match random.below(13) {
        0 => rooms.session[random.below(8)] = random.bits() as u32 >> random.below(32),
        1 => rooms.session[5] = random.below(1_030) as u32,
        9 => rooms.session[7] ^= 1,
        2 => rooms.labels[random.below(states)] ^= 1 << random.below(32),
        3 => {
            let x = random.below(rooms.session[3] as usize);
            rooms.equations[x] ^= 1 << random.below(32);
        }
        4 => rooms.values[random.below(pairs)] = random.below(3) as u8,
        5 => rooms.marks[random.below(pairs)] = random.below(5) as u8,
        6 if count > 0 => rooms.moves[random.below(count)] ^= 1 << random.below(32),
        7 => rooms.values.truncate(random.between(pairs / 2, pairs)),
        10 => rooms.work.index.truncate(random.between(index / 2, index)),
        11 => rooms
            .work
            .queue
            .truncate(random.between(pairs / 2, pairs + 1)),
        8 => rooms.marks.truncate(random.between(pairs / 2, pairs)),
        _ => rooms.labels.truncate(random.between(states / 2, states)),
    }
}

/// Values that solve nothing, each pair drawn by itself.
fn scatter(rooms: &mut Rooms, random: &mut Random) {
    let share = random.between(0, 100);
    let pairs = (rooms.session[0] * rooms.session[3]) as usize;
    for pair in 0..pairs {
        rooms.values[pair] = random.chance(share).into();
        rooms.marks[pair] = random.below(4) as u8;
    }
}

/// Runs a stream whose rooms are changed by `meddle` before each batch.
fn run_meddled(seed: u64, family: Family, meddle: fn(&mut Rooms, &mut Random), seen: &mut Seen) {
    let bytes = generate_family(seed, family).bytes;
    let mut random = Random::new(seed);
    let parts = parts(&bytes);
    let mut good = Sides::new();
    if !seen.load(&mut good, parts[0]) {
        return;
    }
    for batch in &parts[1..] {
        let mut rooms = good.rooms().clone();
        meddle(&mut rooms, &mut random);
        let mut meddled = Sides::of(&rooms);
        ask_some(&mut meddled, &mut random);
        let _ = meddled.write(LONG);
        seen.batch(&mut meddled, batch);
        seen.batch(&mut good, batch);
    }
}

#[test]
fn values_that_solve_nothing_agree() {
    let mut seen = Seen::default();
    for seed in 0..250 {
        for family in [Family::Tiny, Family::Small, Family::Medium, Family::Chain] {
            run_meddled(seed, family, scatter, &mut seen);
        }
    }
    assert!(seen.batches > 2_000);
}

#[test]
fn spoiled_sessions_agree() {
    let mut seen = Seen::default();
    for seed in 0..250 {
        for family in [Family::Tiny, Family::Small, Family::Medium, Family::Full] {
            run_meddled(seed, family, spoil, &mut seen);
        }
    }
    assert!(seen.batches > 2_000 && seen.refusals[12] > 500 && seen.refusals[13] > 200);
}

#[test]
fn short_rooms_agree() {
    let mut seen = Seen::default();
    for seed in 0..600 {
        let mut random = Random::new(seed);
        let family = random.pick(&[Family::Tiny, Family::Small, Family::Medium, Family::Full]);
        let bytes = generate_family(seed, family).bytes;
        let most = [256, 32, 8_192, 8_192, 1_024];
        let least = random.pick(&[0, 50, 95]);
        let lengths = most.map(|n: usize| n * random.between(least, 100) / 100);
        let mut rooms = Rooms::of(lengths);
        rooms
            .work
            .index
            .truncate(5_120 * random.between(least, 100) / 100);
        rooms
            .work
            .queue
            .truncate(8_193 * random.between(least, 100) / 100);
        let mut sides = Sides::of(&rooms);
        let parts = parts(&bytes);
        if seen.load(&mut sides, parts[0]) {
            parts[1..].iter().for_each(|b| seen.batch(&mut sides, b));
        }
    }
    assert!(seen.loads > 100 && seen.refusals[13] > 100 && seen.refusals[10] > 10);
}
