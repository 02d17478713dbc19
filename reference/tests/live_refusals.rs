//! Kind 10 and 16: each refusal with its place, the order of two, and 12 for the flag of a session.

mod common;

use common::*;
use reference::program::{cut, run};
use reference::{ask_mark, ask_value, batch, in_signs, load, write, write_vec};
use reference::{Move, Rooms, Session, State, Variable};

/// The number of blocks in both styles.
const STYLES: [u8; 2] = [1, 0];

/// A model of 3 states, 2 actions, 1 proposition and 2 variables up to where a move is due, without
/// kind 10: 1 block or signs.
fn plain(blocks: u8) -> Vec<Vec<u8>> {
    let mut records = vec![sizes(3, 2, 1, 2, blocks), label(1, 1)];
    records.extend(match blocks {
        0 => vec![signed(1, 6, 0, 0), signed(1, 2, 0, 0)],
        _ => vec![block(1, 2), equation(6, 0, 0), equation(2, 0, 0)],
    });
    records
}

/// The same with kind 10.
fn front(blocks: u8) -> Vec<Vec<u8>> {
    let mut records = plain(blocks);
    records.insert(1, live());
    records
}

/// Moves that leave no state without one: states 0 and 1 have one, state 2 has two.
fn moves() -> Vec<Vec<u8>> {
    vec![step(0, 0, 1), step(1, 1, 2), step(2, 0, 0), step(2, 1, 2)]
}

/// The stamp of these moves.
const RIGHT: u32 = (257 + 1) + (65_537 + 4_099 + 514 + 1) + (131_074 + 1) + (131_074 + 4_614);

/// The records of the live model but for its end.
fn records(blocks: u8) -> Vec<Vec<u8>> {
    [front(blocks), moves()].concat()
}

/// The live model.
fn model(blocks: u8) -> Vec<u8> {
    join(&[join(&records(blocks)), end()])
}

/// The live model in rooms that it just fits but for two more moves.
fn session(blocks: u8) -> Session {
    let mut session = Session::new(Rooms {
        labels: 3,
        equations: 2,
        values: 6,
        marks: 6,
        moves: 6,
        index: 12,
        queue: 7,
    });
    load(&mut session, &model(blocks)).unwrap();
    session
}

/// Live sessions in both styles.
fn sessions() -> [Session; 2] {
    STYLES.map(session)
}

/// The same model in the same rooms, not live.
fn tame(blocks: u8) -> Session {
    let mut session = session(blocks);
    let bytes = join(&[join(&plain(blocks)), join(&moves()), end()]);
    load(&mut session, &bytes).unwrap();
    session
}

/// The refusal of a batch of these changes with the right stamp.
fn refused(session: &Session, changes: &[Vec<u8>]) -> (u8, usize) {
    batch_refusal(session, &join(&[stamp(RIGHT), join(changes), end()]))
}

/// The session after a batch of these changes with the right stamp, which must be accepted.
fn accepted(session: &Session, changes: &[Vec<u8>]) -> Session {
    let mut after = session.clone();
    accept(&mut after, &[stamp(RIGHT), join(changes), end()]);
    after
}

/// The live model loads in both styles, keeps the flag, and is written to the letter.
#[test]
fn a_live_model_loads() {
    for blocks in STYLES {
        let session = session(blocks);
        assert_eq!((session.live, session.stamp), (1, Some(RIGHT)));
        assert_eq!(write_vec(&session), Ok(model(blocks)));
        assert_eq!(model(blocks)[7], 10);
    }
}

/// A load sets the flag whatever it was, and a refused load leaves it.
#[test]
fn a_load_sets_the_flag() {
    for flag in [0, 1, 2, 255] {
        for (model, due) in [(model(1), 1), (G.to_vec(), 0), (model(0), 1)] {
            let mut session = Session::roomy();
            session.live = flag;
            load(&mut session, &model).unwrap();
            assert_eq!(session.live, due);
        }
    }
    for session in sessions() {
        assert_eq!(load_refusal_in(&session, &G[..14]), (1, 14));
    }
}

/// Kind 10 anywhere but directly after the sizes is 2 at it, whether or not it stands there too.
#[test]
fn kind_10_elsewhere_is_2() {
    for blocks in STYLES {
        let without = [plain(blocks), moves()].concat();
        for at in (0..=without.len()).filter(|at| *at != 1) {
            let (good, rest) = without.split_at(at);
            assert_eq!(load_number(good, &[live(), join(rest), end()]), 2);
        }
        let with = records(blocks);
        for at in 0..=with.len() {
            let (good, rest) = with.split_at(at);
            // In front of the one that is due the second of the two is guilty.
            let good = if at == 1 { &with[..2] } else { good };
            let number = load_number(good, &[live(), join(rest), end()]);
            assert_eq!(number, 2);
        }
    }
}

/// Kind 10 in front of everything is 2 at 0, alone or not.
#[test]
fn kind_10_in_front_is_2() {
    for rest in [vec![], vec![0], model(1), model(0), live(), end()] {
        assert_eq!(load_refusal(&join(&[live(), rest])), (2, 0));
    }
}

/// A second kind 10 is 2 at it, before the byte behind it is looked at.
#[test]
fn a_second_kind_10_is_2() {
    for blocks in STYLES {
        let good = [sizes(3, 2, 1, 2, blocks), live()];
        for rest in [vec![], vec![0], live(), label(0, 0)] {
            assert_eq!(load_number(&good, &[live(), rest]), 2);
        }
    }
}

/// After kind 10 the records of the model's own style are due, and no other.
#[test]
fn what_is_due_after_kind_10() {
    for (blocks, due) in [(1, [2, 3]), (0, [2, 11])] {
        let good = [sizes(3, 2, 1, 2, blocks), live()];
        for kind in KINDS.into_iter().filter(|kind| !due.contains(kind)) {
            assert_eq!(load_number(&good, &[blank(kind), end()]), 2);
        }
        assert_eq!(load_number(&good, &[]), 1);
        assert_eq!(load_number(&good, &[vec![0]]), 1);
        assert_eq!(load_number(&good, &[label(0, 0)]), 4);
    }
}

/// The sizes' own 1 and 3 and the rooms' 13 come before kind 10 is read, good or not.
#[test]
fn the_sizes_and_rooms_come_first() {
    assert_eq!(load_refusal(&join(&[sizes(0, 1, 0, 1, 1), live()])), (3, 0));
    assert_eq!(load_refusal(&[1, 3, 0, 2, 1, 10]), (1, 0));
    for blocks in STYLES {
        for short in short_rooms(&session(blocks)) {
            let session = Session::new(short.rooms());
            for next in [live(), vec![10, 10], vec![10, 0], model(blocks)] {
                let bytes = join(&[sizes(3, 2, 1, 2, blocks), next]);
                assert_eq!(load_refusal_in(&session, &bytes), (13, 0));
            }
        }
    }
}

/// A state without a move is 16 at the end record, whichever it is, also where moves lead into it.
#[test]
fn a_hanging_state_is_16() {
    for blocks in STYLES {
        for state in 0..3 {
            let mut good = front(blocks);
            good.extend(moves().into_iter().filter(|m| m[1] != state));
            assert!(good.iter().any(|m| m[0] == 5 && m[4] == state));
            assert_eq!(load_number(&good, &[end()]), 16);
        }
        assert_eq!(load_number(&front(blocks), &[end()]), 16);
        let one = [front(blocks), vec![step(1, 0, 0)]].concat();
        assert_eq!(load_number(&one, &[end()]), 16);
    }
}

/// The records of a live model of 256 states, 16 actions and X = diamond 0 X up to its moves.
fn wide() -> Vec<Vec<u8>> {
    let rule = [block(1, 1), equation(6, 0, 0)];
    vec![sizes(256, 16, 0, 1, 1), live(), join(&rule)]
}

/// With 256 states each one counts, the last too, and a move by any action is one.
#[test]
fn each_state_counts() {
    let ring: Vec<Vec<u8>> = (0..256)
        .map(|s| step(s, (s % 16) as u8, (s + 1) % 256))
        .collect();
    let whole = loaded(&join(&[join(&wide()), join(&ring), end()]));
    assert_eq!((whole.live, whole.move_count), (1, 256));
    for missing in [0, 1, 100, 254, 255] {
        let mut good = [wide(), ring.clone()].concat();
        good.remove(3 + missing);
        assert_eq!(load_number(&good, &[end()]), 16);
    }
}

/// A single state needs one move, of whatever action.
#[test]
fn a_single_state_needs_a_move() {
    let good = [
        sizes(1, 16, 0, 1, 0),
        live(),
        signed(0, 1, 0, 0),
        step(0, 15, 0),
    ];
    assert_eq!(load_number(&good[..3], &[end()]), 16);
    assert_eq!(loaded(&join(&[join(&good), end()])).live, 1);
}

/// 16 comes before any byte after the end is looked at; with no state hanging such a byte is 2.
#[test]
fn number_16_before_a_byte_after_the_end() {
    for blocks in STYLES {
        for rest in [vec![0], vec![6], vec![10], vec![7, 0], vec![255, 6, 6]] {
            let hanging = [end(), rest.clone()];
            assert_eq!(load_number(&front(blocks), &hanging), 16);
            let whole = [records(blocks), vec![end()]].concat();
            assert_eq!(load_number(&whole, std::slice::from_ref(&rest)), 2);
            let tame = [plain(blocks), vec![end()]].concat();
            assert_eq!(load_number(&tame, &[rest]), 2);
        }
    }
}

/// Refusals of earlier records, and the end's own 1 and 2, come before 16.
#[test]
fn earlier_refusals_before_16() {
    for blocks in STYLES {
        let good = [front(blocks), vec![step(1, 0, 0)]].concat();
        assert_eq!(load_number(&good, &[]), 1);
        assert_eq!(load_number(&good, &[vec![12], end()]), 1);
        assert_eq!(load_number(&good, &[stamp(0), end()]), 2);
        assert_eq!(load_number(&good, &[live(), end()]), 2);
        assert_eq!(load_number(&good, &[step(3, 0, 0), end()]), 4);
        assert_eq!(load_number(&good, &[step(1, 0, 0), end()]), 6);
        let short = &front(blocks)[..front(blocks).len() - 1];
        assert_eq!(load_number(short, &[end()]), 2);
    }
}

/// 5 comes before 16 in both styles, and 10 at its move before 16 at the end.
#[test]
fn numbers_5_and_10_before_16() {
    let later = [
        sizes(2, 1, 0, 2, 2),
        live(),
        block(0, 1),
        equation(4, 0, 1),
        end(),
    ];
    assert_eq!(load_number(&later[..3], &later[3..]), 5);
    let mixed = [
        sizes(2, 1, 0, 2, 0),
        live(),
        signed(0, 6, 0, 1),
        signed(1, 6, 0, 0),
        end(),
    ];
    assert_eq!(load_number(&mixed[..2], &mixed[2..]), 5);
    let session = Session::new(Rooms {
        moves: 1,
        ..Rooms::most()
    });
    let good = join(&[join(&front(1)), step(0, 0, 0)]);
    let over = join(&[good.clone(), step(0, 0, 1), end()]);
    assert_eq!(load_refusal_in(&session, &over), (10, good.len()));
    let hangs = join(&[good.clone(), end()]);
    assert_eq!(load_refusal_in(&session, &hangs), (16, good.len()));
}

/// A model that isn't live loads with states that have no move.
#[test]
fn without_kind_10_states_may_hang() {
    for blocks in STYLES {
        let bytes = join(&[join(&plain(blocks)), end()]);
        assert_eq!(loaded(&bytes).live, 0);
        assert_eq!(write_vec(&loaded(&bytes)), Ok(bytes));
    }
}

/// Kind 10 in a batch is 2 at it, wherever it stands, whether or not the model is live.
#[test]
fn kind_10_in_a_batch_is_2() {
    for session in [sessions(), STYLES.map(tame)].concat() {
        let good = [stamp(RIGHT), insert(0, 0, 0), delete(2, 0, 0)];
        for at in 0..=good.len() {
            let rest = [live(), join(&good[at..]), end()];
            assert_eq!(batch_number(&session, &good[..at], &rest), 2);
        }
        assert_eq!(batch_number(&session, &[stamp(0)], &[live(), vec![0]]), 2);
        assert_eq!(batch_refusal(&session, &live()), (2, 0));
        let whole = [join(&good), end()];
        assert_eq!(batch_number(&session, &whole, &[live()]), 2);
    }
}

/// A batch after which a state has no move is 16 at 0; the same batch is good where the model isn't
/// live.
#[test]
fn a_batch_that_hangs_a_state_is_16() {
    let batches = [
        vec![delete(0, 0, 1)],
        vec![delete(1, 1, 2)],
        vec![delete(2, 0, 0), delete(2, 1, 2)],
        vec![delete(2, 1, 2), insert(0, 0, 2), delete(2, 0, 0)],
        vec![delete(0, 0, 1), insert(1, 0, 0), insert(2, 0, 1)],
        vec![delete(0, 0, 1), delete(1, 1, 2), insert(0, 1, 1)],
        vec![
            delete(0, 0, 1),
            delete(1, 1, 2),
            delete(2, 0, 0),
            delete(2, 1, 2),
        ],
    ];
    for changes in batches {
        for blocks in STYLES {
            assert_eq!(refused(&session(blocks), &changes), (16, 0));
            assert_eq!(accepted(&tame(blocks), &changes).live, 0);
        }
    }
}

/// Deletes and inserts of one batch count together, in any order, and the flag stays.
#[test]
fn batches_that_leave_each_state_a_move() {
    let batches = [
        vec![],
        vec![delete(2, 0, 0)],
        vec![delete(2, 1, 2)],
        vec![delete(0, 0, 1), insert(0, 0, 2)],
        vec![insert(0, 1, 1), delete(0, 0, 1)],
        vec![delete(2, 0, 0), delete(2, 1, 2), insert(2, 1, 0)],
        vec![insert(2, 0, 2), delete(2, 0, 0), delete(2, 1, 2)],
        vec![
            delete(0, 0, 1),
            insert(1, 0, 1),
            delete(1, 1, 2),
            insert(0, 0, 0),
        ],
    ];
    for changes in batches {
        for session in sessions() {
            let after = accepted(&session, &changes);
            assert_eq!(after.live, 1);
            let again = loaded(&write_vec(&after).unwrap());
            assert_eq!((again.live, values(&again)), (1, values(&after)));
        }
    }
}

/// 1 to 4, a byte after the end too, come before 16.
#[test]
fn numbers_1_to_4_before_16() {
    for session in sessions() {
        let good = [stamp(RIGHT), delete(0, 0, 1)];
        assert_eq!(batch_number(&session, &good, &[]), 1);
        assert_eq!(batch_number(&session, &good, &[vec![12]]), 1);
        assert_eq!(batch_number(&session, &good, &[live(), end()]), 2);
        assert_eq!(batch_number(&session, &good, &[step(0, 0, 0), end()]), 2);
        assert_eq!(batch_number(&session, &good, &[insert(3, 0, 0), end()]), 4);
        let whole = [join(&good), end()];
        for byte in [0, 6, 10] {
            assert_eq!(batch_number(&session, &whole, &[vec![byte]]), 2);
        }
        let most = [stamp(RIGHT), vec![delete(0, 0, 1); 64].concat()];
        assert_eq!(batch_number(&session, &most, &[insert(0, 0, 2), end()]), 3);
    }
}

/// 11, 9, 7 and 8 come before 16, each at its place.
#[test]
fn numbers_11_9_7_and_8_before_16() {
    for session in sessions() {
        let hangs = delete(0, 0, 1);
        let wrong = join(&[stamp(RIGHT + 1), hangs.clone(), end()]);
        assert_eq!(batch_refusal(&session, &wrong), (11, 0));
        let good = [stamp(RIGHT), hangs];
        for (guilty, number) in [
            (delete(0, 0, 1), 9),
            (insert(0, 0, 1), 9),
            (insert(1, 1, 2), 7),
            (delete(1, 1, 1), 8),
        ] {
            assert_eq!(batch_number(&session, &good, &[guilty, end()]), number);
        }
    }
}

/// A batch that both overflows the room and hangs a state is 10; one that just fits is 16.
#[test]
fn number_10_before_16() {
    for session in sessions() {
        let inserts = [
            insert(1, 0, 0),
            insert(1, 0, 1),
            insert(1, 0, 2),
            insert(2, 1, 1),
        ];
        let over = [vec![delete(0, 0, 1)], inserts.to_vec()].concat();
        assert_eq!(refused(&session, &over), (10, 0));
        assert_eq!(refused(&session, &over[..4]), (16, 0));
        assert_eq!(refused(&session, &over[1..]), (10, 0));
        assert_eq!(accepted(&session, &over[1..3]).move_count, 6);
    }
}

/// The same at the most of 1,024 moves.
#[test]
fn number_10_before_16_at_the_most() {
    let mut table: Vec<Vec<u8>> = (0..255).map(|s| step(s, 0, s)).collect();
    table.push(step(255, 3, 7));
    for action in 1..4 {
        table.extend((0..256).map(|t| step(t, action + 5, t)));
    }
    table.sort_by_key(|m| [m[1], m[3], m[4]]);
    let full = loaded(&join(&[join(&wide()), join(&table), end()]));
    assert_eq!(full.move_count, 1_024);
    let right = stamp(full.stamp.unwrap());
    let of_255: Vec<Vec<u8>> = [(3, 7), (6, 255), (7, 255), (8, 255)]
        .map(|(a, t)| delete(255, a, t))
        .to_vec();
    let inserts: Vec<Vec<u8>> = (0..5).map(|t| insert(0, 15, t)).collect();
    for (count, number) in [(0, 16), (4, 16), (5, 10)] {
        let changes = [&of_255[..], &inserts[..count]].concat();
        let bytes = join(&[right.clone(), join(&changes), end()]);
        assert_eq!(batch_refusal(&full, &bytes), (number, 0));
    }
    let mut kept = full.clone();
    accept(&mut kept, &[right, join(&of_255[1..]), end()]);
    assert_eq!((kept.move_count, kept.live), (1_021, 1));
}

/// A flag over 1 is 12 for a batch and for writing, before 13 for the rooms and for the output.
#[test]
fn a_flag_over_1_is_12() {
    for mut session in [sessions(), STYLES.map(tame)].concat() {
        for flag in [2, 3, 128, 255] {
            session.live = flag;
            assert_eq!(refused(&session, &[]), (12, 0));
            assert_eq!(batch_refusal(&session, &[]), (12, 0));
            assert_eq!(written(&session, 200), (12, 0));
            assert_eq!(written(&session, 0), (12, 0));
            for short in short_rooms(&session) {
                assert_eq!(batch_refusal(&short, &[]), (12, 0));
                assert_eq!(written(&short, 200), (12, 0));
            }
        }
    }
}

/// The refusal of writing to a room of this length.
fn written(session: &Session, room: usize) -> (u8, usize) {
    let refusal = write(session, &mut vec![0; room]).expect_err("a refusal");
    (refusal.number, refusal.place)
}

/// The session with each of its rooms one place too short.
fn short_rooms(session: &Session) -> [Session; 4] {
    let mut short = [0; 4].map(|_| session.clone());
    short[0].labels.pop();
    short[1].equations.pop();
    short[2].values.pop();
    short[3].marks.pop();
    short
}

/// A question looks at no flag and at no move: it asks 13, 4 and 12 for the one byte as ever.
#[test]
fn a_question_does_not_look_at_the_flag() {
    for mut session in sessions() {
        let due = ask_value(&session, State(1), Variable(1));
        assert_eq!(due, Ok(true));
        for (flag, count) in [(2, 4), (255, 4), (1, 0), (1, 1)] {
            session.live = flag;
            session.move_count = count;
            assert_eq!(ask_value(&session, State(1), Variable(1)), due);
            assert_eq!(ask_mark(&session, State(1), Variable(1)), Ok(0));
            let four = ask_value(&session, State(3), Variable(0)).unwrap_err();
            assert_eq!((four.number, four.place), (4, 0));
            for short in &short_rooms(&session)[2..] {
                let refusal = ask_value(short, State(0), Variable(0)).unwrap_err();
                assert_eq!((refusal.number, refusal.place), (13, 0));
            }
        }
    }
}

/// Live sessions in which a state has no move: moves taken away with the stamp that belongs to what
/// is left, or the flag put on a session that was never live.
fn hanging_sessions() -> Vec<Session> {
    let mut found = Vec::new();
    for mut session in sessions() {
        session.move_count = 2;
        session.stamp = Some(reference::stamp(session.table()));
        found.push(session.clone());
        session.move_count = 0;
        session.stamp = Some(0);
        found.push(session);
    }
    for blocks in STYLES {
        let mut session = accepted(&tame(blocks), &[delete(0, 0, 1)]);
        session.live = 1;
        found.push(session);
    }
    found
}

/// A lent live session with a hanging state is 12, also for a batch that would give it a move, and
/// 13 for the rooms comes before.
#[test]
fn a_hanging_session_is_12() {
    for session in hanging_sessions() {
        let right = stamp(session.stamp.unwrap());
        let mends = [insert(0, 1, 0), insert(1, 0, 0), insert(2, 1, 1)];
        let bytes = join(&[right, join(&mends), end()]);
        assert_eq!(batch_refusal(&session, &bytes), (12, 0));
        assert_eq!(batch_refusal(&session, &[]), (12, 0));
        assert_eq!(written(&session, 200), (12, 0));
        assert_eq!(written(&session, 0), (12, 0));
        for short in short_rooms(&session) {
            assert_eq!(batch_refusal(&short, &[]), (13, 0));
            assert_eq!(written(&short, 200), (13, 0));
        }
        let mut tame = session.clone();
        tame.live = 0;
        assert!(batch(&mut tame, &bytes).is_ok());
    }
}

/// A move room shorter than the moves is 12 with the sizes, for a live session too.
#[test]
fn a_short_move_room_is_12() {
    for mut session in sessions() {
        session.moves.truncate(3);
        session.labels.clear();
        assert_eq!(batch_refusal(&session, &[]), (12, 0));
        assert_eq!(written(&session, 200), (12, 0));
    }
}

/// The flag may be put by hand where each state has a move, and taken away anywhere.
#[test]
fn the_flag_by_hand() {
    for blocks in STYLES {
        let mut session = tame(blocks);
        session.live = 1;
        assert_eq!(write_vec(&session), Ok(model(blocks)));
        assert_eq!(refused(&session, &[delete(1, 1, 2)]), (16, 0));
        session.live = 0;
        assert_eq!(session, tame(blocks));
        assert_eq!(accepted(&session, &[delete(1, 1, 2)]).live, 0);
    }
}

/// Writing needs one byte more for the flag and asks 13 for the output last.
#[test]
fn the_output_of_a_live_model() {
    for blocks in STYLES {
        let (session, tame) = (session(blocks), tame(blocks));
        let length = model(blocks).len();
        assert_eq!(written(&session, length - 1), (13, 0));
        assert_eq!(write(&session, &mut vec![0; length]), Ok(length));
        assert_eq!(write(&tame, &mut vec![0; length - 1]), Ok(length - 1));
    }
}

/// The largest model has 8,105 bytes.
#[test]
fn the_largest_model() {
    let mut records = vec![sizes(256, 16, 32, 32, 0), live()];
    records.extend((0..256).map(|s| label(s, 1)));
    records.extend((0..32).map(|_| signed(0, 0, 0, 0)));
    records.extend((0..1_024).map(|i| step(i / 4, (i % 4) as u8, 0)));
    records.push(end());
    let bytes = join(&records);
    assert_eq!(bytes.len(), 8_105);
    assert_eq!(write_vec(&loaded(&bytes)), Ok(bytes));
}

/// Rewriting a model in signs keeps the flag, and one that hangs can't be rewritten.
#[test]
fn rewriting_keeps_the_flag() {
    assert_eq!(in_signs(&model(1)), Some(model(0)));
    assert_eq!(in_signs(&model(0)), None);
    assert_eq!(in_signs(&join(&[join(&front(1)), end()])), None);
}

/// The program prints 16 at the end of a model and ends; a batch with 16 or with kind 10 is passed
/// over, and the cut knows kind 10.
#[test]
fn the_program_knows_kind_10() {
    let hangs = join(&[join(&front(1)), end()]);
    let printed = format!("refused 16 at {}\n", hangs.len() - 1);
    assert_eq!(run(&[hangs, model(1)].concat()), printed);
    assert_eq!(cut(&[10, 6]), Some(2));
    assert_eq!(cut(&[10]), None);
    let parts = [
        model(0),
        join(&[stamp(RIGHT), delete(0, 0, 1), end()]),
        join(&[stamp(RIGHT), live(), delete(2, 0, 0), end()]),
        vec![10, 6],
        join(&[stamp(RIGHT), insert(0, 0, 0), delete(0, 0, 1), end()]),
        join(&[stamp(RIGHT), live()]),
    ];
    let lines = [
        "loaded true 1 of 6 stamp 337172",
        "refused 16 at 0",
        "refused 2 at 5",
        "refused 2 at 0",
        "batch net 2 visits 2 0 true 3 of 6 stamp 336915",
        "refused 2 at 5",
    ];
    assert_eq!(run(&parts.concat()), lines.join("\n") + "\n");
}

/// The moves that the others count on lie where they should.
#[test]
fn the_table_is_as_said() {
    let table = [(0, 0, 1), (1, 1, 2), (2, 0, 0), (2, 1, 2)];
    let table = table.map(|(s, a, t)| Move::new(s, a, t));
    assert_eq!(session(1).table(), table);
    assert_eq!(reference::stamp(&table), RIGHT);
}
