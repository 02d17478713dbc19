//! The two sides agree on document 01's bench cases, in signs too, and on live models; each damage is met with its number, and a
//! boundary that is wrong in one place is found out.

use reference::in_signs;
use reference::random::Random;

use crate::both::both;
use crate::boundary::{Answer, Boundary, Call};
use crate::case::{run, Case};
use crate::compare::{cases_of, compare};
use crate::damage::{damage, Damage};
use crate::mirror::Mirrored;
use crate::proved::Proved;
use crate::rooms::{Needs, Rooms, BLOCKS, LIVE, MOVES, SESSION, STAMP};
use crate::tally::Tally;

/// Model G of document 01, and its batches A and C.
const G: [u8; 15] = [1, 2, 0, 1, 0, 1, 1, 3, 1, 1, 4, 6, 0, 0, 6];
const A: [u8; 12] = [7, 0, 0, 0, 0, 8, 0, 0, 0, 0, 0, 6];
const AGAIN: [u8; 12] = [7, 1, 0, 0, 0, 8, 0, 0, 0, 0, 0, 6];
const BACK: [u8; 12] = [7, 1, 0, 0, 0, 9, 0, 0, 0, 0, 0, 6];

/// Rooms for G, longer than needed, with G loaded and A applied by a boundary.
fn after_a(boundary: &dyn Boundary) -> Rooms {
    let mut rooms = Rooms::lend(&mut Random::new(1), Needs::of_model(&G));
    rooms.make_move_room(1_030, Needs::of_model(&G));
    assert_eq!(boundary.call(Call::Load(&G), &mut rooms).number, 0);
    assert_eq!(boundary.call(Call::Batch(&A), &mut rooms).number, 0);
    rooms
}

/// Both sides leave what document 01 says of A, and the same refusals follow.
#[test]
fn both_sides_do_a() {
    for side in [&Proved as &dyn Boundary, &Mirrored] {
        let mut rooms = after_a(side);
        assert_eq!(rooms.session[..8], [2, 1, 0, 1, 1, 1, 1, 0]);
        assert_eq!(
            (&rooms.values[..2], &rooms.marks[..2]),
            (&[1, 0][..], &[1, 0][..])
        );
        assert_eq!(rooms.report[..3], [1, 0, 1]);
        assert_eq!(rooms.moves[0], 0);
        let seven = side.call(Call::Batch(&AGAIN), &mut rooms);
        assert_eq!(seven, Answer::refused(7, 5));
        assert_eq!(side.call(Call::Ask(0, 0), &mut rooms), Answer::accepted(1));
        assert_eq!(
            side.call(Call::Ask(2, 0), &mut rooms),
            Answer::refused(4, 0)
        );
    }
}

/// The model of case E, and its batch.
const E: [u8; 42] = [
    1, 2, 0, 1, 1, 3, 1, 2, 1, 0, 1, 0, 0, 0, 3, 0, 3, 4, 4, 1, 2, 4, 2, 0, 0, 4, 6, 0, 0, 5, 0, 0,
    0, 0, 0, 5, 0, 0, 0, 1, 0, 6,
];
const E_BATCH: [u8; 12] = [7, 3, 1, 0, 0, 9, 0, 0, 0, 1, 0, 6];

/// Rooms with a model loaded by a boundary.
fn with_model(boundary: &dyn Boundary, model: &[u8]) -> Rooms {
    let mut rooms = Rooms::lend(&mut Random::new(1), Needs::of_model(model));
    rooms.make_move_room(1_030, Needs::of_model(model));
    rooms.out = vec![0; 99];
    assert_eq!(boundary.call(Call::Load(model), &mut rooms).number, 0);
    rooms
}

/// Rooms with the model of case E loaded in signs by a boundary.
fn signed_e(boundary: &dyn Boundary) -> Rooms {
    with_model(boundary, &in_signs(&E).unwrap())
}

/// Both sides keep case E in signs in the same words and give what it must: X1 is component 0, X0 and X2 are component 1.
#[test]
fn both_sides_do_e_in_signs() {
    for side in [&Proved as &dyn Boundary, &Mirrored] {
        let mut rooms = signed_e(side);
        assert_eq!(rooms.session[..8], [2, 1, 1, 3, 0, 2, 259, 0]);
        let words = [4 + 256 + 2 * 65_536 + 2 * 16_777_216, 2, 6 + 2 * 16_777_216];
        assert_eq!(rooms.equations[..3], words);
        assert_eq!(rooms.values[..6], [1, 1, 0, 1, 1, 0]);
        let signs = in_signs(&E).unwrap();
        let written = side.call(Call::Write, &mut rooms);
        assert_eq!(written, Answer::accepted(signs.len() as u32));
        assert_eq!(rooms.out[..signs.len()], signs);
        assert_eq!(side.call(Call::Batch(&E_BATCH), &mut rooms).number, 0);
        assert_eq!(rooms.report[..3], [2, 0, -2]);
        assert_eq!(rooms.marks[..6], [1, 0, 0, 0, 1, 0]);
    }
}

/// Wrong stored components, a closed chain of both signs and another style are 12; the other sign on a variable alone is no
/// damage.
#[test]
fn damaged_signs_are_12() {
    let damages: [fn(&mut Rooms); 8] = [
        |rooms| rooms.equations[0] -= 1 << 25,
        |rooms| rooms.equations[1] += 1 << 25,
        |rooms| rooms.equations[2] += 1 << 25,
        |rooms| rooms.equations[1] |= 127 << 25,
        |rooms| rooms.equations[0] ^= 1 << 24,
        |rooms| rooms.equations[2] ^= 1 << 24,
        |rooms| rooms.session[BLOCKS] = 2,
        |rooms| rooms.session[BLOCKS] = 256,
    ];
    for damaged in damages {
        let mut rooms = signed_e(&Proved);
        damaged(&mut rooms);
        for call in [Call::Write, Call::Batch(&E_BATCH)] {
            assert_eq!(both(&Proved, call, &mut rooms), Ok(Answer::refused(12, 0)));
        }
    }
    let mut rooms = signed_e(&Proved);
    rooms.equations[1] ^= 1 << 24;
    for call in [Call::Write, Call::Batch(&E_BATCH)] {
        assert!(both(&Proved, call, &mut rooms).unwrap().is_accepted());
    }
}

/// A live ring of two states, its batch that takes the move of state 0 away, and one that gives it another.
const RING: [u8; 28] = [
    1, 2, 0, 1, 0, 1, 1, 10, 3, 1, 1, 4, 6, 0, 0, 5, 0, 0, 0, 1, 0, 5, 1, 0, 0, 0, 0, 6,
];
const HANGS: [u8; 12] = [7, 4, 1, 1, 0, 9, 0, 0, 0, 1, 0, 6];
const OTHER: [u8; 18] = [7, 4, 1, 1, 0, 9, 0, 0, 0, 1, 0, 8, 0, 0, 0, 0, 0, 6];

/// Both sides keep the flag of a live model, in either style, and refuse what makes a state hang.
#[test]
fn both_sides_do_a_live_model() {
    let signs = in_signs(&RING).unwrap();
    for side in [&Proved as &dyn Boundary, &Mirrored] {
        for (model, blocks) in [(&RING[..], 1), (&signs, 0)] {
            let mut rooms = with_model(side, model);
            assert_eq!(rooms.session[..8], [2, 1, 0, 1, blocks, 2, 65_796, 1]);
            let written = side.call(Call::Write, &mut rooms);
            assert_eq!(written, Answer::accepted(model.len() as u32));
            assert_eq!(rooms.out[..model.len()], *model);
            let hangs = side.call(Call::Batch(&HANGS), &mut rooms);
            assert_eq!(hangs, Answer::refused(16, 0));
            let other = side.call(Call::Batch(&OTHER), &mut rooms);
            assert_eq!(other, Answer::accepted(0));
            assert_eq!(rooms.session[MOVES..SESSION], [2, 65_539, 1]);
            let bare = side.call(Call::Load(&without_moves(model)), &mut rooms);
            assert_eq!(bare, Answer::refused(16, model.len() as u32 - 13));
            assert_eq!(rooms.session[LIVE], 1);
            assert_eq!(side.call(Call::Load(&G), &mut rooms).number, 0);
            assert_eq!(rooms.session[LIVE], 0);
        }
    }
}

/// A model without its last two records of moves.
fn without_moves(model: &[u8]) -> Vec<u8> {
    [&model[..model.len() - 13], &[6]].concat()
}

/// 16 comes before a byte after the end, on both sides, and kind 10 is due nowhere but after the sizes.
#[test]
fn both_sides_refuse_kind_10_and_16() {
    let bare = without_moves(&RING);
    let cases = [
        ([&bare[..], &[0]].concat(), (16, 15)),
        ([&bare[..], &[10]].concat(), (16, 15)),
        ([&RING[..], &[10]].concat(), (2, 28)),
        ([&[10], &RING[..]].concat(), (2, 0)),
        ([&RING[..8], &RING[7..]].concat(), (2, 8)),
        ([&RING[..11], &RING[7..]].concat(), (2, 11)),
        ([&G[..14], &[10, 6]].concat(), (2, 14)),
        (vec![1, 0, 0, 1, 0, 1, 1, 10], (3, 0)),
        (RING[..8].to_vec(), (1, 8)),
    ];
    for (bytes, (number, place)) in cases {
        let mut rooms = with_model(&Proved, &RING);
        let due = Answer::refused(number, place);
        assert_eq!(both(&Proved, Call::Load(&bytes), &mut rooms), Ok(due));
    }
    for (batch, place) in [
        ([&HANGS[..5], &[10, 6]].concat(), 5),
        ([&[10], &HANGS[..]].concat(), 0),
    ] {
        let mut rooms = with_model(&Proved, &RING);
        let due = Answer::refused(2, place);
        assert_eq!(both(&Proved, Call::Batch(&batch), &mut rooms), Ok(due));
    }
}

/// A batch that has no room for its moves and hangs a state is 10; where it just fits it is 16.
#[test]
fn number_10_comes_before_16() {
    let over = [
        7, 4, 1, 1, 0, 9, 0, 0, 0, 1, 0, 8, 1, 0, 0, 1, 0, 8, 1, 0, 0, 0, 0, 6,
    ];
    let fits = [&over[..17], &[6]].concat();
    for (batch, number) in [(&fits[..], 16), (&over, 7)] {
        let mut rooms = with_model(&Proved, &RING);
        rooms.moves.truncate(2);
        let answer = both(&Proved, Call::Batch(batch), &mut rooms).unwrap();
        assert_eq!(answer.number, number);
    }
    let wide = [&[1, 2, 0, 2], &RING[4..]].concat();
    let over = [
        7, 4, 1, 1, 0, 9, 0, 0, 0, 1, 0, 8, 1, 0, 0, 1, 0, 8, 1, 0, 1, 0, 0, 6,
    ];
    for (room, number) in [(2, 10), (3, 16)] {
        let mut rooms = with_model(&Proved, &wide);
        rooms.moves.truncate(room);
        let answer = both(&Proved, Call::Batch(&over), &mut rooms);
        assert_eq!(answer, Ok(Answer::refused(number, 0)));
    }
}

/// A flag over 1 and a flag on a session with a hanging state are 12 for a batch and a writing, and nothing to a question; the
/// flag on a session where each state has a move is no damage.
#[test]
fn damaged_flags_are_12() {
    for flag in [1, 2, 255, 256, 257, 1 << 16, u32::MAX] {
        let mut rooms = after_a(&Proved);
        rooms.session[LIVE] = flag;
        for call in [Call::Batch(&BACK), Call::Write] {
            assert_eq!(both(&Proved, call, &mut rooms), Ok(Answer::refused(12, 0)));
        }
        let asked = both(&Proved, Call::Ask(0, 0), &mut rooms);
        assert_eq!(asked, Ok(Answer::accepted(1)));
    }
    for (flag, number) in [(0, 0), (1, 16), (256, 12), (257, 12)] {
        let mut rooms = with_model(&Proved, &RING);
        rooms.session[LIVE] = flag;
        let answer = both(&Proved, Call::Batch(&HANGS), &mut rooms);
        assert_eq!(answer.unwrap().number, number);
    }
}

/// 12 for the flag comes before 13 for the rooms, 13 before 12 for a hanging state, and a session room of 7 places is 13 before
/// all else.
#[test]
fn flags_and_short_rooms() {
    for (flag, number) in [(2, 12), (1, 13), (0, 13)] {
        let mut rooms = after_a(&Proved);
        rooms.session[LIVE] = flag;
        rooms.marks.truncate(1);
        for call in [Call::Batch(&BACK), Call::Write] {
            let due = Answer::refused(number, 0);
            assert_eq!(both(&Proved, call, &mut rooms), Ok(due));
        }
    }
    let mut rooms = with_model(&Proved, &RING);
    rooms.session.truncate(7);
    for call in [
        Call::Load(&[0]),
        Call::Batch(&[0]),
        Call::Write,
        Call::Ask(9, 9),
    ] {
        assert_eq!(both(&Proved, call, &mut rooms), Ok(Answer::refused(13, 0)));
    }
}

/// Each way to damage a session or to cut a room short is met with its number by both sides.
#[test]
fn each_damage_has_its_number() {
    use Damage::*;
    let ways = [
        (ShortSession, 13),
        (ShortReport, 13),
        (ShortLabels, 13),
        (ShortEquations, 13),
        (ShortValues, 13),
        (ShortMarks, 13),
        (ShortIndex, 13),
        (ShortQueue, 13),
        (ShortMoves, 12),
        (Stamp, 12),
        (Flag, 12),
        (Live, 12),
        (Hanging, 12),
        (Label, 12),
        (OtherValues, 0),
    ];
    for (way, number) in ways {
        let mut rooms = after_a(&Proved);
        let needs = Needs::of_session(&rooms.session);
        damage(way, &mut rooms, needs, &mut Random::new(5));
        let answer = both(&Proved, Call::Batch(&BACK), &mut rooms).unwrap();
        assert_eq!((answer.number, answer.told), (number, 0), "{way:?}");
    }
}

/// Cuts the rooms to work in, or makes them longer.
fn cut_work(rooms: &mut Rooms, index: usize, queue: usize) {
    rooms.index.resize(index, 0xfafa);
    rooms.queue.resize(queue, 0xfafa);
}

/// Both sides ask for states × actions places of the index and one for each of at most 1,024 moves that there is room for, and
/// for states × variables places of the queue and one more; they leave these at 0 and no other place changed. E has 2 states, 1
/// action and 3 variables.
#[test]
fn rooms_to_work_in() {
    let signs = in_signs(&E).unwrap();
    for (moves, index) in [
        (2, 4),
        (3, 5),
        (1_023, 1_025),
        (1_024, 1_026),
        (1_025, 1_026),
    ] {
        for model in [&E[..], &signs] {
            for call in [Call::Load(model), Call::Batch(&E_BATCH)] {
                let mut lent = with_model(&Proved, model);
                lent.moves.resize(moves, 0xfafa_fafa);
                for (less, fewer) in [(1, 0), (0, 1), (1, 1), (index, 7)] {
                    let mut rooms = lent.clone();
                    cut_work(&mut rooms, index - less, 7 - fewer);
                    let answer = both(&Proved, call, &mut rooms);
                    assert_eq!(answer, Ok(Answer::refused(13, 0)));
                }
                for (more, further) in [(0, 0), (1, 0), (0, 1), (90, 9)] {
                    let mut rooms = lent.clone();
                    cut_work(&mut rooms, 0, 0);
                    cut_work(&mut rooms, index + more, 7 + further);
                    let answer = both(&Proved, call, &mut rooms);
                    assert_eq!(answer, Ok(Answer::accepted(0)));
                    let (used, past) = rooms.index.split_at(index);
                    assert!(used == vec![0; index] && past == vec![0xfafa; more]);
                    let (used, past) = rooms.queue.split_at(7);
                    assert!(used == [0; 7] && past == vec![0xfafa; further]);
                }
            }
        }
    }
}

/// A change to lent rooms.
type Change = fn(&mut Rooms);

/// 13 for the rooms to work in comes after 1 to 3 of the sizes record and before the next record; in a batch after 12 for the
/// sizes, the move count and the flag, before 12 for the rest and before the bytes. A writing and a question have none.
#[test]
fn where_rooms_to_work_in_are_asked() {
    for (index, queue) in [(0, 999), (1_025, 999), (9_999, 0), (9_999, 6)] {
        let mut rooms = with_model(&Proved, &E);
        cut_work(&mut rooms, index, queue);
        let mut bad = E;
        bad[3] = 17;
        for (bytes, number) in [
            (&E[..6], 1),
            (&E[7..], 2),
            (&bad, 3),
            (&E[..7], 13),
            (&[&E[..7], &[0]].concat(), 13),
        ] {
            let due = Answer::refused(number, 0);
            assert_eq!(both(&Proved, Call::Load(bytes), &mut rooms), Ok(due));
        }
        assert!(both(&Proved, Call::Write, &mut rooms)
            .unwrap()
            .is_accepted());
        let asked = both(&Proved, Call::Ask(0, 0), &mut rooms);
        assert_eq!(asked, Ok(Answer::accepted(1)));
        let damages: [(Change, u32); 7] = [
            (|rooms| rooms.session[0] = 257, 12),
            (|rooms| rooms.session[MOVES] = 1_025, 12),
            (|rooms| rooms.session[LIVE] = 2, 12),
            (|rooms| rooms.session[LIVE] = 1, 13),
            (|rooms| rooms.session[STAMP] += 1, 13),
            (|rooms| rooms.values[0] = 2, 13),
            (|rooms| rooms.labels[0] = 2, 13),
        ];
        for (damaged, number) in damages {
            let mut rooms = rooms.clone();
            damaged(&mut rooms);
            for bytes in [&E_BATCH[..], &[], &[0]] {
                let due = Answer::refused(number, 0);
                assert_eq!(both(&Proved, Call::Batch(bytes), &mut rooms), Ok(due));
            }
        }
    }
}

/// A value 2, a mark 4, a move count over the room and sizes out of range are 12.
#[test]
fn numbers_out_of_range_are_12() {
    let damages: [fn(&mut Rooms); 7] = [
        |rooms| rooms.values[1] = 2,
        |rooms| rooms.marks[0] = 4,
        |rooms| rooms.session[MOVES] = 1_025,
        |rooms| rooms.session[STAMP] += 1,
        |rooms| rooms.session[0] = 257,
        |rooms| rooms.session[0] += 65_536,
        |rooms| rooms.session[3] += 256,
    ];
    for damaged in damages {
        let mut rooms = after_a(&Proved);
        damaged(&mut rooms);
        for call in [Call::Batch(&BACK), Call::Write] {
            assert_eq!(both(&Proved, call, &mut rooms), Ok(Answer::refused(12, 0)));
        }
    }
}

/// One wrong thing, done to an answer and the rooms after a call; the rooms before it are at hand.
type Fault = fn(Call, &mut Answer, &Rooms, &mut Rooms);

/// A boundary that makes the proved call and then does one thing wrong.
struct Wrong(Fault);

impl Boundary for Wrong {
    fn call(&self, call: Call, rooms: &mut Rooms) -> Answer {
        let before = rooms.clone();
        let mut answer = Proved.call(call, rooms);
        self.0(call, &mut answer, &before, rooms);
        answer
    }
}

/// Changes a place of a room, if it has that place.
fn touch<T: std::ops::BitXorAssign + From<u8>>(room: &mut [T], at: usize) {
    if let Some(place) = room.get_mut(at) {
        *place ^= T::from(1);
    }
}

/// Puts the places of the move list that a batch freed back to what they were.
fn keep_freed(_: Call, _: &mut Answer, before: &Rooms, rooms: &mut Rooms) {
    let count = |rooms: &Rooms| rooms.session.get(MOVES).map_or(0, |count| *count as usize);
    for place in count(rooms)..count(before).min(rooms.moves.len()) {
        rooms.moves[place] = before.moves[place];
    }
}

/// How many places of the rooms to work in the session asks for.
fn work(rooms: &Rooms) -> (usize, usize) {
    let needs = Needs::of_session(&rooms.session);
    (needs.index(rooms.moves.len()), needs.queue())
}

/// Wrong things, each with its name.
const WRONGS: [(&str, Fault); 24] = [
    (
        "an index not cleared by a load",
        |call, answer, before, rooms| {
            if call.index() == 0 && answer.number == 0 {
                rooms.index.clone_from(&before.index);
            }
        },
    ),
    (
        "the queue's last place not cleared by a batch",
        |call, answer, before, rooms| {
            if call.index() == 1 && answer.number == 0 {
                let (_, queue) = work(rooms);
                rooms.queue[queue - 1] = before.queue[queue - 1];
            }
        },
    ),
    ("a place past the index", |call, answer, _, rooms| {
        if call.index() == 1 && answer.number == 0 {
            let (index, _) = work(rooms);
            touch(&mut rooms.index, index);
        }
    }),
    ("a queue cleared by a refusal", |call, answer, _, rooms| {
        if call.index() == 1 && answer.number == 11 {
            rooms.queue.fill(0);
        }
    }),
    ("a short queue accepted", |call, answer, before, _| {
        let (_, queue) = work(before);
        if call.index() == 1 && answer.number == 13 && before.queue.len() + 1 == queue {
            *answer = Answer::accepted(0);
        }
    }),
    (
        "a writing that asks for the index",
        |call, answer, before, _| {
            let (index, _) = work(before);
            if call.index() == 2 && answer.number == 0 && before.index.len() < index {
                *answer = Answer::refused(13, 0);
            }
        },
    ),
    ("a stamp off by one", |_, answer, _, rooms| {
        touch(
            &mut rooms.session,
            if answer.number == 0 { STAMP } else { 99 },
        )
    }),
    (
        "a place past the last move of a load",
        |call, _, _, rooms| {
            let at = rooms.session.get(MOVES).map_or(0, |count| *count as usize);
            touch(
                &mut rooms.moves,
                if call.index() == 0 { at } else { usize::MAX },
            )
        },
    ),
    ("a value past the pairs", |_, _, _, rooms| {
        let at = Needs::of_session(&rooms.session).pairs;
        touch(&mut rooms.values, at)
    }),
    ("a refusal's place", |_, answer, _, _| {
        answer.told += u32::from(answer.number == 4)
    }),
    ("the report of a refusal", |_, answer, _, rooms| {
        touch(&mut rooms.report, if answer.number == 11 { 0 } else { 99 })
    }),
    ("a visit too many", |call, answer, _, rooms| {
        let batched = call.index() == 1 && answer.number == 0;
        touch(&mut rooms.report, if batched { 1 } else { 99 })
    }),
    ("marks left as they were", |call, _, before, rooms| {
        if call.index() == 1 {
            rooms.marks.clone_from(&before.marks);
        }
    }),
    ("freed places left as they were", keep_freed),
    (
        "a component's number off by one",
        |call, answer, _, rooms| {
            let signed = call.index() == 0 && answer.number == 0 && rooms.session[BLOCKS] == 0;
            if signed {
                rooms.equations[0] ^= 1 << 25;
            }
        },
    ),
    ("a value of a model with signs", |call, answer, _, rooms| {
        let signed = call.index() == 0 && answer.number == 0 && rooms.session[BLOCKS] == 0;
        touch(&mut rooms.values, if signed { 0 } else { usize::MAX })
    }),
    (
        "wrong components accepted",
        |call, answer, before, rooms| {
            let signed = before.session.get(BLOCKS) == Some(&0);
            if call.index() == 2 && answer.number == 12 && signed {
                *answer = Answer::accepted(rooms.out.len() as u32)
            }
        },
    ),
    ("no flag after a load", |call, answer, _, rooms| {
        if call.index() == 0 && answer.number == 0 {
            rooms.session[LIVE] = 0;
        }
    }),
    ("a flag that a batch drops", |call, answer, _, rooms| {
        if call.index() == 1 && answer.number == 0 {
            rooms.session[LIVE] = 0;
        }
    }),
    ("the place of a hanging model", |call, answer, _, _| {
        answer.told += u32::from(call.index() == 0 && answer.number == 16)
    }),
    ("16 before 10", |call, answer, before, _| {
        let live = before.session.get(LIVE) == Some(&1);
        if call.index() == 1 && answer.number == 10 && live {
            answer.number = 16;
        }
    }),
    (
        "a hanging session accepted",
        |call, answer, before, rooms| {
            let live = before.session.get(LIVE) == Some(&1);
            if call.index() == 2 && answer.number == 12 && live {
                *answer = Answer::accepted(rooms.out.len() as u32)
            }
        },
    ),
    ("2 before 16", |call, answer, _, _| {
        let Call::Load(bytes) = call else {
            return;
        };
        if answer.number == 16 && answer.told as usize + 1 < bytes.len() {
            *answer = Answer::refused(2, answer.told + 1)
        }
    }),
    ("a byte past what was written", |call, answer, _, rooms| {
        let wrote = call.index() == 2 && answer.number == 0;
        touch(
            &mut rooms.out,
            if wrote {
                answer.told as usize
            } else {
                usize::MAX
            },
        )
    }),
];

/// Each wrong thing is found within a few streams.
#[test]
fn what_is_wrong_is_found() {
    for (name, wrong) in WRONGS {
        let (_, differed) = compare(&Wrong(wrong), 60, 0);
        let (_, _, what) = differed.unwrap_or_else(|| panic!("{name} passed"));
        assert!(!what.contains("stopped"), "{name}: {what}");
    }
}

/// A case is the same each time it is run.
#[test]
fn a_case_is_the_same_each_time() {
    let (mut first, mut again) = (Tally::default(), Tally::default());
    let [case, _] = cases_of(12);
    run(&Proved, &case, &mut first).unwrap();
    run(&Proved, &case, &mut again).unwrap();
    assert_eq!((first.counts, first.signs), (again.counts, again.signs));
}

/// No stream at all, and one that is nothing but an end, are run too.
#[test]
fn streams_of_nothing() {
    for bytes in [vec![], vec![6], vec![0]] {
        for plan in 0..20 {
            let case = Case {
                bytes: bytes.clone(),
                plan,
            };
            run(&Proved, &case, &mut Tally::default()).unwrap();
        }
    }
}

/// Damage that may leave a model does so now and then, and is refused with 12 now and then.
#[test]
fn some_damage_leaves_a_model() {
    use Damage::*;
    for way in [EquationByte, Restamped, Size] {
        let mut numbers = std::collections::BTreeSet::new();
        for seed in 0..400 {
            let mut rooms = after_a(&Proved);
            rooms.out = vec![0; 99];
            let needs = Needs::of_session(&rooms.session);
            damage(way, &mut rooms, needs, &mut Random::new(seed));
            numbers.insert(both(&Proved, Call::Write, &mut rooms).unwrap().number);
        }
        assert!(
            numbers.contains(&0) && numbers.contains(&12),
            "{way:?}: {numbers:?}"
        );
    }
}

/// The other flag leaves a model where it is taken away or each state has a move; one over 1 never does.
#[test]
fn some_flags_leave_a_model() {
    use Damage::*;
    let signs = in_signs(&RING).unwrap();
    for (way, model, number) in [
        (Live, &RING[..], 0),
        (Live, &signs, 0),
        (Live, &E, 12),
        (Flag, &RING, 12),
        (Flag, &E, 12),
        (Hanging, &RING, 12),
        (Hanging, &signs, 12),
    ] {
        for seed in 0..20 {
            let mut rooms = with_model(&Proved, model);
            let needs = Needs::of_session(&rooms.session);
            damage(way, &mut rooms, needs, &mut Random::new(seed));
            let answer = both(&Proved, Call::Write, &mut rooms).unwrap();
            assert_eq!(answer.number, number, "{way:?}");
        }
    }
}

/// The same with signs: other components, signs and styles.
#[test]
fn some_damage_leaves_a_model_with_signs() {
    use Damage::*;
    let signs = in_signs(&E).unwrap();
    let ways = [
        (Component, &signs[..]),
        (Sign, &signs),
        (EquationByte, &signs),
        (Size, &signs),
        (Style, &E),
    ];
    for (way, model) in ways {
        let mut numbers = std::collections::BTreeSet::new();
        for seed in 0..400 {
            let mut rooms = with_model(&Proved, model);
            let needs = Needs::of_session(&rooms.session);
            damage(way, &mut rooms, needs, &mut Random::new(seed));
            numbers.insert(both(&Proved, Call::Write, &mut rooms).unwrap().number);
        }
        let both = numbers.contains(&0) && numbers.contains(&12);
        assert!(both, "{way:?}: {numbers:?}");
    }
}
