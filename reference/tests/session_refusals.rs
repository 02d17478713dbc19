//! Refusals 12 and 13 on a session, and their order in a batch, a write and a question.

mod common;

use common::*;
use reference::{ask_mark, ask_value, batch, write, Equation, Move, Refusal};
use reference::{Session, State, Variable};

/// A session of 2 states, 2 actions, 1 proposition, 3 variables and 2 blocks with two moves, in
/// rooms that it just fits but for two more moves.
fn session() -> Session {
    let model = join(&[
        sizes(2, 2, 1, 3, 2),
        label(1, 1),
        block(0, 2),
        equation(2, 0, 0),
        equation(4, 0, 0),
        block(1, 1),
        equation(6, 1, 2),
        step(0, 1, 0),
        step(1, 0, 0),
        end(),
    ]);
    let mut session = Session::new(reference::Rooms {
        labels: 2,
        equations: 3,
        values: 6,
        marks: 6,
        moves: 4,
        index: 8,
        queue: 7,
    });
    reference::load(&mut session, &model).unwrap();
    session
}

/// The session after a change by hand.
fn broken(how: impl Fn(&mut Session)) -> Session {
    let mut session = session();
    how(&mut session);
    session
}

/// Sessions whose sizes or move count are bad.
fn bad_sizes() -> Vec<Session> {
    vec![
        broken(|s| s.sizes.states = 0),
        broken(|s| s.sizes.states = 257),
        broken(|s| s.sizes.actions = 0),
        broken(|s| s.sizes.actions = 17),
        broken(|s| s.sizes.propositions = 33),
        broken(|s| s.sizes.variables = 0),
        broken(|s| s.sizes.variables = 33),
        broken(|s| s.sizes.blocks = 9),
        broken(|s| s.move_count = 5),
        broken(|s| {
            s.moves = vec![Move::default(); 2_000];
            s.move_count = 1_025;
        }),
    ]
}

/// Sessions with one room too short.
fn short_rooms() -> Vec<Session> {
    vec![
        broken(|s| s.labels.truncate(1)),
        broken(|s| s.equations.truncate(2)),
        broken(|s| s.values.truncate(5)),
        broken(|s| s.marks.truncate(5)),
        broken(|s| s.marks.clear()),
    ]
}

/// Sessions with good sizes and rooms that are bad in something else.
fn bad_rest() -> Vec<Session> {
    let equation = |operator, first, second| Equation {
        operator,
        first,
        second,
    };
    vec![
        broken(|s| s.labels[0] = 2),
        broken(|s| s.labels[1] = 1 << 31),
        broken(|s| s.blocks[0].kind = 2),
        broken(|s| s.blocks[0].variables = 0),
        broken(|s| s.blocks[0].variables = 1),
        broken(|s| s.blocks[1].variables = 2),
        broken(|s| s.blocks[1].variables = 255),
        broken(|s| s.sizes.blocks = 0),
        broken(|s| s.sizes.blocks = 3),
        broken(|s| s.sizes.blocks = 1),
        broken(|s| s.equations[0] = equation(8, 0, 0)),
        broken(|s| s.equations[0] = equation(0, 0, 1)),
        broken(|s| s.equations[0] = equation(2, 1, 0)),
        broken(|s| s.equations[1] = equation(4, 0, 2)),
        broken(|s| s.equations[2] = equation(7, 2, 0)),
        broken(|s| s.moves[0].target = State(2)),
        broken(|s| s.moves.swap(0, 1)),
        broken(|s| s.moves[1] = s.moves[0]),
        broken(|s| s.move_count = 3),
        broken(|s| s.move_count = 1),
        broken(|s| s.values[0] = 2),
        broken(|s| s.values[5] = 255),
        broken(|s| s.marks[0] = 4),
        broken(|s| s.marks[5] = 255),
        broken(|s| s.stamp = Some(0)),
    ]
}

/// The refusal number of a batch with the right stamp on this session.
fn batch_says(session: &Session) -> u8 {
    let right = reference::stamp(session.table());
    let (number, place) = batch_refusal(session, &join(&[stamp(right), end()]));
    assert_eq!(place, 0);
    number
}

/// The refusal number of writing this session to a large enough room.
fn write_says(session: &Session) -> u8 {
    write_into(session, 9_000)
}

/// The refusal number of writing this session to a room of this length, which must stay as it was.
fn write_into(session: &Session, room: usize) -> u8 {
    let mut output = vec![0xaa; room];
    let Refusal { number, place } = write(session, &mut output).expect_err("a refusal");
    assert_eq!(place, 0);
    assert!(output.iter().all(|byte| *byte == 0xaa));
    number
}

/// The refusal numbers of both questions about a pair.
fn asks_say(session: &Session, state: u16, variable: u8) -> [u8; 2] {
    let (state, variable) = (State(state), Variable(variable));
    let value = ask_value(session, state, variable).expect_err("a refusal");
    let mark = ask_mark(session, state, variable).expect_err("a refusal");
    assert_eq!((value.place, mark.place), (0, 0));
    [value.number, mark.number]
}

/// The session that the other tests break is good.
#[test]
fn the_unbroken_session_is_good() {
    let right = session().stamp.unwrap();
    assert!(batch(&mut session(), &join(&[stamp(right), end()])).is_ok());
    assert!(write(&session(), &mut [0; 100]).is_ok());
    assert_eq!(values(&session()), [0, 0, 1, 1, 1, 0]);
}

/// Bad sizes and a bad move count are 12 for every call.
#[test]
fn bad_sizes_are_12() {
    for session in bad_sizes() {
        assert_eq!(batch_says(&session), 12);
        assert_eq!(write_says(&session), 12);
        assert_eq!(asks_say(&session, 0, 0), [12, 12]);
    }
}

/// A session with nothing loaded is 12.
#[test]
fn an_empty_session_is_12() {
    assert_eq!(batch_says(&Session::roomy()), 12);
    assert_eq!(write_says(&Session::roomy()), 12);
    assert_eq!(asks_say(&Session::roomy(), 0, 0), [12, 12]);
}

/// Short rooms are 13 for every call.
#[test]
fn short_rooms_are_13() {
    for session in short_rooms() {
        assert_eq!(batch_says(&session), 13);
        assert_eq!(write_says(&session), 13);
        assert_eq!(asks_say(&session, 0, 0), [13, 13]);
    }
}

/// Anything else that load wouldn't accept, a bad value, mark or kept stamp is 12.
#[test]
fn a_bad_rest_is_12() {
    for session in bad_rest() {
        assert_eq!(batch_says(&session), 12);
        assert_eq!(write_says(&session), 12);
    }
}

/// 12 for the sizes comes before 13, and 13 before 12 for the rest.
#[test]
fn order_12_13_12() {
    for mut session in bad_sizes() {
        session.labels.clear();
        assert_eq!(batch_says(&session), 12);
        assert_eq!(write_says(&session), 12);
        assert_eq!(asks_say(&session, 0, 0), [12, 12]);
    }
    for mut session in bad_rest() {
        session.marks.truncate(5);
        session.sizes.blocks = 2;
        assert_eq!(batch_says(&session), 13);
        assert_eq!(write_says(&session), 13);
    }
}

/// More blocks than variables is good sizes (as on load), so 13 comes before its 12.
#[test]
fn more_blocks_than_variables_is_12_for_the_rest() {
    let mut session = broken(|s| s.sizes.blocks = 8);
    assert_eq!(batch_says(&session), 12);
    session.values.clear();
    assert_eq!(batch_says(&session), 13);
}

/// A move count over the most or the room comes with the sizes, before 13.
#[test]
fn a_bad_move_count_is_12_before_13() {
    let session = broken(|s| {
        s.move_count = 5;
        s.values.clear();
    });
    assert_eq!(batch_says(&session), 12);
    assert_eq!(write_says(&session), 12);
}

/// A batch asks 12 and 13 before it looks at its first byte.
#[test]
fn numbers_12_and_13_before_1() {
    for session in [bad_sizes(), bad_rest()].concat() {
        assert_eq!(batch_refusal(&session, &[]), (12, 0));
        assert_eq!(batch_refusal(&session, &[0]), (12, 0));
    }
    for session in short_rooms() {
        assert_eq!(batch_refusal(&session, &[]), (13, 0));
        assert_eq!(batch_refusal(&session, &[0]), (13, 0));
    }
}

/// Writing asks 13 for the output last of all.
#[test]
fn write_asks_for_the_output_last() {
    for session in [bad_sizes(), bad_rest()].concat() {
        assert_eq!(write_into(&session, 0), 12);
    }
    assert_eq!(write_into(&session(), 0), 13);
    let length = write(&session(), &mut [0; 100]).unwrap();
    assert_eq!(write_into(&session(), length - 1), 13);
    assert_eq!(write(&session(), &mut vec![0; length]), Ok(length));
}

/// A stamp is only judged where one is kept, and a batch then keeps none.
#[test]
fn no_stamp_kept() {
    let mut session = broken(|s| s.stamp = None);
    let right = reference::stamp(session.table());
    assert!(write(&session, &mut [0; 100]).is_ok());
    assert!(batch(&mut session, &join(&[stamp(right), end()])).is_ok());
    assert_eq!(session.stamp, None);
}

/// What lies past what the sizes need is never judged.
#[test]
fn places_past_the_sizes_are_not_judged() {
    let session = broken(|s| {
        s.labels.push(u32::MAX);
        s.equations.push(Equation {
            operator: 99,
            first: 99,
            second: 99,
        });
        s.values.push(99);
        s.marks.push(99);
        s.moves[3] = Move::new(99, 99, 99);
        s.blocks[2].kind = 99;
        s.signs = [99; 32];
        s.components = [99; 32];
    });
    assert!(write(&session, &mut [0; 100]).is_ok());
    let right = session.stamp.unwrap();
    assert!(batch(&mut session.clone(), &join(&[stamp(right), end()])).is_ok());
}

/// A question gives the value and the mark of its pair.
#[test]
fn questions_are_answered() {
    let mut session = session();
    session.marks = vec![0, 1, 2, 3, 0, 1];
    for state in 0..2 {
        for variable in 0..3 {
            let index = usize::from(state) * 3 + usize::from(variable);
            let (state, variable) = (State(state), Variable(variable));
            let value = ask_value(&session, state, variable).unwrap();
            assert_eq!(u8::from(value), session.values[index]);
            let mark = ask_mark(&session, state, variable).unwrap();
            assert_eq!(mark, session.marks[index]);
        }
    }
}

/// A question about a state or a variable that isn't there is 4, after 12 and 13.
#[test]
fn questions_ask_4_after_12_and_13() {
    for (state, variable) in [(2, 0), (0, 3), (65_535, 255)] {
        assert_eq!(asks_say(&session(), state, variable), [4, 4]);
        for session in bad_sizes() {
            assert_eq!(asks_say(&session, state, variable), [12, 12]);
        }
        for session in short_rooms() {
            assert_eq!(asks_say(&session, state, variable), [13, 13]);
        }
    }
}

/// A question is 12 for the one byte read, after 4, and asks no more.
#[test]
fn questions_read_one_byte() {
    let session = broken(|s| {
        s.values = vec![2, 0, 0, 1, 1, 1];
        s.marks = vec![4, 0, 0, 0, 0, 0];
    });
    assert_eq!(asks_say(&session, 0, 0), [12, 12]);
    assert_eq!(asks_say(&session, 2, 0), [4, 4]);
    assert_eq!(ask_value(&session, State(0), Variable(1)), Ok(false));
    assert_eq!(ask_mark(&session, State(0), Variable(1)), Ok(0));
    for session in bad_rest() {
        let other = ask_value(&session, State(1), Variable(0));
        assert_eq!(other, Ok(true));
        let other = ask_mark(&session, State(1), Variable(0));
        assert_eq!(other, Ok(0));
    }
}
