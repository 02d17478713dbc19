//! The work rooms, on all sides: whatever they hold, the answers are the same; what the sizes need of them is 0 after an accepted
//! call, and they are as they were after a refused one or where a place is past that. Too short, they are refused with 13.

mod common;

use common::{at_start, parts, Sides, LONG};
use measure::answers::Refusal;
use measure::cases::{crowded, grid, maximal, signs, Case, STRICT_RULE};
use measure::rooms::Rooms;
use reference::generate::generate;

/// What unused places of the work rooms hold.
const FILL: u16 = 0xa5a5;

/// Has the work rooms hold something.
fn refill(rooms: &mut Rooms) {
    rooms.work.index.fill(FILL);
    rooms.work.queue.fill(FILL);
}

/// How many places of the index and of the queue the model in the rooms needs.
fn needs(rooms: &Rooms) -> [usize; 2] {
    let [states, actions, _, variables, ..] = rooms.session.map(|n| n as usize);
    let links = rooms.moves.len().min(1_024);
    [states * actions + links, states * variables + 1]
}

/// Whether so many places in front are 0 and the others hold what they held.
fn cleared(room: &[u16], needed: usize) -> bool {
    let (front, rest) = room.split_at(needed);
    front.iter().all(|place| *place == 0) && rest.iter().all(|place| *place == FILL)
}

/// Makes a call of every side in work rooms that hold something, looks at them, and tells whether it was accepted.
fn worked<T>(sides: &mut Sides, call: impl Fn(&mut Sides) -> Result<T, Refusal>) -> bool {
    sides.change(refill);
    let accepted = call(sides).is_ok();
    let rooms = sides.rooms();
    let [index, queue] = if accepted { needs(rooms) } else { [0; 2] };
    assert!(cleared(&rooms.work.index, index) && cleared(&rooms.work.queue, queue));
    accepted
}

#[test]
fn work_rooms_may_hold_anything_and_end_at_0() {
    for seed in 0..500 {
        let bytes = generate(seed).bytes;
        let parts = parts(&bytes);
        let mut sides = Sides::new();
        let Some((model, batches)) = parts.split_first() else {
            continue;
        };
        if worked(&mut sides, |sides| sides.load(model)) {
            for batch in batches {
                worked(&mut sides, |sides| sides.batch(batch));
            }
        }
    }
}

/// Cuts the work rooms.
fn cut(sides: &mut Sides, [index, queue]: [usize; 2]) {
    sides.change(|rooms| {
        rooms.work.index.truncate(index);
        rooms.work.queue.truncate(queue);
    });
}

/// The model, with its room for moves and the work rooms just as long as it needs, or with so many places for moves.
fn just_enough(case: &Case, moves: usize) -> Sides {
    let mut sides = Sides::loaded(&case.bytes);
    sides.change(|rooms| rooms.moves.resize(moves, 0));
    let enough = needs(sides.rooms());
    cut(&mut sides, enough);
    sides
}

#[test]
fn work_rooms_that_are_too_short_are_13() {
    for case in [
        grid(16, &STRICT_RULE),
        maximal(),
        crowded(),
        signs(&maximal()),
    ] {
        let single = case.changes(&case.spread(1), &[]);
        for moves in [case.moves.len(), 1_023.max(case.moves.len()), 1_024, 1_100] {
            let mut sides = just_enough(&case, moves);
            sides.load(&case.bytes).unwrap();
            let [index, queue] = needs(sides.rooms());
            for less in [[index - 1, queue], [index, queue - 1], [0, 0]] {
                let mut short = sides.clone();
                cut(&mut short, less);
                let before = short.rooms().clone();
                assert_eq!(short.batch(&single.there), at_start(13));
                assert_eq!(short.batch(&[]), at_start(13));
                assert_eq!(short.load(&case.bytes), at_start(13));
                assert_eq!(short.load(&case.bytes[..7]), at_start(13));
                assert_eq!(short.load(&[2; 7]), at_start(2));
                assert_eq!(*short.rooms(), before);
                short.write(LONG).unwrap();
                short.ask(0, 0).unwrap();
                short.change(|rooms| rooms.session[6] ^= 1);
                assert_eq!(short.batch(&single.there), at_start(13));
                short.change(|rooms| rooms.session[7] = 2);
                assert_eq!(short.batch(&single.there), at_start(12));
            }
            sides.batch(&single.there).unwrap();
            sides.batch(&single.back).unwrap();
        }
    }
}
