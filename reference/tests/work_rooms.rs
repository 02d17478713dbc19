//! The two rooms to work in, index and queue: how long they must be, where 13 is asked for them,
//! and what they hold afterwards.

mod common;

use common::*;
use reference::{ask_mark, ask_value, batch, load, write_vec, Rooms, Session, State, Variable};

/// What unused places hold.
const LITTER: u16 = 0xbeef;

/// A model of 3 states, 2 actions, 1 proposition and 2 variables, in blocks or with signs, with the
/// moves (0,1,2) and (2,0,0).
fn model(blocks: u8) -> Vec<u8> {
    let rules = match blocks {
        0 => vec![signed(0, 2, 0, 0), signed(1, 6, 1, 1)],
        _ => vec![
            block(0, 1),
            equation(2, 0, 0),
            block(1, 1),
            equation(6, 1, 1),
        ],
    };
    let moves = [step(0, 1, 2), step(2, 0, 0), end()];
    join(&[
        sizes(3, 2, 1, 2, blocks),
        label(1, 1),
        join(&rules),
        join(&moves),
    ])
}

/// The styles of that model, by its number of blocks.
const STYLES: [u8; 2] = [2, 0];

/// The stamp of its moves.
fn right() -> u32 {
    loaded(&model(2)).stamp.unwrap()
}

/// A batch that this model accepts.
fn good() -> Vec<u8> {
    join(&[stamp(right()), insert(1, 0, 1), delete(2, 0, 0), end()])
}

/// Rooms for moves of several lengths, with the places of the index that they ask for: a place for
/// each state and action, and one for each move, of which there are at most 1,024.
const INDEXES: [(usize, usize); 6] = [
    (2, 8),
    (3, 9),
    (64, 70),
    (1_023, 1_029),
    (1_024, 1_030),
    (2_000, 1_030),
];

/// The places of the queue: one for each of 6 pairs, and one more.
const QUEUE: usize = 7;

/// A session whose rooms to work in have these lengths and are littered, in good rooms else.
fn lent(moves: usize, index: usize, queue: usize) -> Session {
    let mut session = Session::new(Rooms {
        moves,
        index,
        queue,
        ..Rooms::most()
    });
    litter(&mut session);
    session
}

/// Litters the rooms to work in.
fn litter(session: &mut Session) {
    session.index.fill(LITTER);
    session.queue.fill(LITTER);
}

/// The same with the model loaded.
fn with_model(blocks: u8, moves: usize, index: usize, queue: usize) -> Session {
    let mut session = lent(moves, 1_030, QUEUE);
    load(&mut session, &model(blocks)).unwrap();
    session.index = vec![LITTER; index];
    session.queue = vec![LITTER; queue];
    session
}

/// Whether so many places of a room are 0 and all others littered.
fn cleared(room: &[u16], places: usize) -> bool {
    let (used, rest) = room.split_at(places);
    used.iter().all(|place| *place == 0) && rest.iter().all(|place| *place == LITTER)
}

/// The needs are states times actions and the moves that there is room for, and the pairs and one.
#[test]
fn the_most_is_enough_for_every_model() {
    let most = Rooms::most();
    assert_eq!((most.index, most.queue), (256 * 16 + 1_024, 256 * 32 + 1));
    let sizes = loaded(&model(2)).sizes;
    for (moves, index) in INDEXES {
        assert_eq!((sizes.index(moves), sizes.queue()), (index, QUEUE));
    }
}

/// Exactly enough places are enough for a load and a batch, and are all 0 afterwards.
#[test]
fn just_enough_is_enough() {
    for (moves, index) in INDEXES {
        for blocks in STYLES {
            let mut session = lent(moves, index, QUEUE);
            load(&mut session, &model(blocks)).unwrap();
            assert!(cleared(&session.index, index) && cleared(&session.queue, QUEUE));
            litter(&mut session);
            batch(&mut session, &good()).unwrap();
            assert!(cleared(&session.index, index) && cleared(&session.queue, QUEUE));
        }
    }
}

/// Places past what is needed stay as they were.
#[test]
fn places_past_the_needs_stay() {
    for (moves, index) in INDEXES {
        for (more, further) in [(1, 0), (0, 1), (40, 3_000)] {
            let mut session = lent(moves, index + more, QUEUE + further);
            load(&mut session, &model(2)).unwrap();
            assert!(cleared(&session.index, index) && cleared(&session.queue, QUEUE));
            litter(&mut session);
            batch(&mut session, &good()).unwrap();
            assert!(cleared(&session.index, index) && cleared(&session.queue, QUEUE));
        }
    }
}

/// Lengths of which one is too short, by one place or more.
fn short(index: usize) -> [(usize, usize); 6] {
    [
        (index - 1, QUEUE),
        (index, QUEUE - 1),
        (index - 1, QUEUE - 1),
        (0, QUEUE),
        (index, 0),
        (2_000, QUEUE - 1),
    ]
}

/// A room to work in that is one place too short is 13 at 0, on load and in a batch.
#[test]
fn one_short_is_13() {
    for (moves, index) in INDEXES {
        for (index, queue) in short(index) {
            let session = lent(moves, index, queue);
            assert_eq!(load_refusal_in(&session, &model(0)), (13, 0));
            let session = with_model(2, moves, index, queue);
            assert_eq!(batch_refusal(&session, &good()), (13, 0));
        }
    }
}

/// On load 13 comes after 1, 2 and 3 of the sizes record, and before the next record.
#[test]
fn on_load_13_comes_with_the_other_rooms() {
    let (moves, index) = INDEXES[0];
    for (index, queue) in short(index) {
        let session = lent(moves, index, queue);
        assert_eq!(load_refusal_in(&session, &[]), (1, 0));
        assert_eq!(load_refusal_in(&session, &model(2)[..6]), (1, 0));
        assert_eq!(load_refusal_in(&session, &end()), (2, 0));
        assert_eq!(load_refusal_in(&session, &sizes(3, 17, 1, 2, 2)), (3, 0));
        assert_eq!(load_refusal_in(&session, &sizes(257, 2, 1, 2, 2)), (3, 0));
        for next in [vec![], vec![0], end(), label(9, 0), live()] {
            let bytes = join(&[sizes(3, 2, 1, 2, 2), next]);
            assert_eq!(load_refusal_in(&session, &bytes), (13, 0));
        }
    }
}

/// In a batch 13 comes after 12 for the flag, the sizes and the move count, and before 12 for the rest.
#[test]
fn in_a_batch_13_comes_between_the_two_12s() {
    let before: [fn(&mut Session); 4] = [
        |s| s.live = 2,
        |s| s.sizes.states = 0,
        |s| s.sizes.actions = 17,
        |s| s.move_count = 3,
    ];
    let after: [fn(&mut Session); 6] = [
        |s| s.live = 1,
        |s| s.labels[0] = 2,
        |s| s.values[0] = 2,
        |s| s.marks[5] = 4,
        |s| s.moves.swap(0, 1),
        |s| s.stamp = Some(0),
    ];
    let (moves, index) = INDEXES[0];
    for (index, queue) in short(index) {
        let session = with_model(2, moves, index, queue);
        for (changes, number) in [(&before[..], 12), (&after[..], 13)] {
            for change in changes {
                let mut session = session.clone();
                change(&mut session);
                assert_eq!(batch_refusal(&session, &good()), (number, 0));
            }
        }
        for bytes in [vec![], vec![0], join(&[stamp(0), end()])] {
            assert_eq!(batch_refusal(&session, &bytes), (13, 0));
        }
    }
}

/// A refusal of any other kind leaves the rooms to work in as they were.
#[test]
fn a_refusal_leaves_them() {
    let session = with_model(2, 2, 8, QUEUE);
    let repeated = join(&[insert(1, 0, 1), insert(1, 0, 1)]);
    let over = join(&[insert(1, 0, 1), insert(1, 0, 2)]);
    let batches = [
        (vec![], (1, 0)),
        (join(&[stamp(right()), insert(3, 0, 0), end()]), (4, 5)),
        (join(&[stamp(0), end()]), (11, 0)),
        (join(&[stamp(right()), repeated, end()]), (9, 11)),
        (join(&[stamp(right()), insert(0, 1, 2), end()]), (7, 5)),
        (join(&[stamp(right()), delete(0, 0, 2), end()]), (8, 5)),
        (join(&[stamp(right()), over, end()]), (10, 0)),
    ];
    for (bytes, refusal) in batches {
        assert_eq!(batch_refusal(&session, &bytes), refusal);
    }
    let bytes = model(2);
    let more = join(&[bytes.clone(), vec![0]]);
    for (bytes, refusal) in [(&bytes[..21], (1, 21)), (&more, (2, more.len() - 1))] {
        assert_eq!(load_refusal_in(&session, bytes), refusal);
    }
}

/// Neither a writing nor a question looks at them.
#[test]
fn write_and_ask_have_none() {
    for blocks in STYLES {
        for (moves, index, queue) in [(2, 8, QUEUE), (2, 7, QUEUE), (2_000, 0, 0)] {
            let session = with_model(blocks, moves, index, queue);
            assert_eq!(write_vec(&session), Ok(model(blocks)));
            assert_eq!(ask_value(&session, State(1), Variable(0)), Ok(true));
            assert_eq!(ask_mark(&session, State(1), Variable(0)), Ok(0));
        }
    }
}

/// What they hold at entry plays no part: answers and all other rooms are the same.
#[test]
fn what_they_hold_plays_no_part() {
    for blocks in STYLES {
        let mut clean = lent(64, 70, QUEUE);
        clean.index.fill(0);
        clean.queue.fill(0);
        let mut littered = lent(64, 70, QUEUE);
        let loads = [&mut clean, &mut littered].map(|s| load(s, &model(blocks)));
        assert_eq!(loads[0], loads[1]);
        litter(&mut littered);
        let batches = [&mut clean, &mut littered].map(|s| batch(s, &good()));
        assert_eq!(batches[0], batches[1]);
        assert_eq!(clean, littered);
    }
}

/// A room for moves that grows asks for a longer index, up to 1,024 moves.
#[test]
fn a_longer_room_for_moves_needs_a_longer_index() {
    for [(moves, index), (more, _)] in [[INDEXES[0], INDEXES[1]], [INDEXES[3], INDEXES[4]]] {
        let mut session = with_model(2, moves, index, QUEUE);
        session.moves.resize(more, Default::default());
        assert_eq!(batch_refusal(&session, &good()), (13, 0));
        session.moves.truncate(moves);
        assert!(batch(&mut session, &good()).is_ok());
    }
    let mut session = with_model(2, 1_024, 1_030, QUEUE);
    session.moves.resize(5_000, Default::default());
    assert!(batch(&mut session, &good()).is_ok());
}
