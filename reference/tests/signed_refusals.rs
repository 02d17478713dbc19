//! Refusals of a model with signs: each number with its place, the order of two, and 12.

mod common;

use common::*;
use reference::{ask_value, batch, load, write, write_vec, Equation, Rooms, Session};
use reference::{State, Variable};

/// Good sizes: 3 states, 2 actions, 3 propositions, 4 variables, signs.
fn front() -> Vec<u8> {
    sizes(3, 2, 3, 4, 0)
}

/// Everything up to where a move or the end is due: X0 and X2 are one greatest component, X3 is a
/// least one, X1 stands alone.
fn up_to_moves() -> Vec<Vec<u8>> {
    vec![
        front(),
        label(0, 1),
        label(2, 6),
        signed(1, 5, 2, 3),
        signed(0, 2, 2, 0),
        signed(1, 6, 1, 0),
        signed(0, 4, 3, 1),
    ]
}

/// The first records of `up_to_moves`.
fn first(count: usize) -> Vec<Vec<u8>> {
    up_to_moves()[..count].to_vec()
}

/// A session with the model of `up_to_moves` and two moves, in rooms that it just fits but for two
/// more moves.
fn session() -> Session {
    let mut session = Session::new(Rooms {
        labels: 3,
        equations: 4,
        values: 12,
        marks: 12,
        moves: 4,
        index: 10,
        queue: 13,
    });
    load(&mut session, &model()).unwrap();
    session
}

/// The whole model.
fn model() -> Vec<u8> {
    join(&[up_to_moves(), vec![step(0, 1, 2), step(2, 0, 0), end()]].concat())
}

/// The refusal of a model of 2 states, 1 action and no propositions with these signed equations
/// and whatever follows them.
fn refused(equations: &[[u8; 4]], rest: &[u8]) -> (u8, usize) {
    load_refusal(&[spelled(equations), rest.to_vec()].concat())
}

/// The bytes of such a model without its end.
fn spelled(equations: &[[u8; 4]]) -> Vec<u8> {
    let mut records = vec![sizes(2, 1, 0, equations.len() as u8, 0)];
    records.extend(equations.iter().map(|[s, o, x, y]| signed(*s, *o, *x, *y)));
    join(&records)
}

/// Where the record of a variable begins in such a model.
fn at(variable: usize) -> usize {
    7 + 5 * variable
}

/// The model that the other tests break loads, with its components and its signs.
#[test]
fn the_unbroken_model_loads() {
    let session = session();
    assert_eq!(session.signs[..4], [1, 0, 1, 0]);
    assert_eq!(session.components[..4], [2, 0, 2, 1]);
    assert_eq!(write_vec(&session), Ok(model()));
}

/// A missing record is 1 at the length, a cut one 1 at its first byte.
#[test]
fn missing_and_cut_records_are_1() {
    let records = [up_to_moves(), vec![step(0, 0, 1)]].concat();
    for (index, record) in records.iter().enumerate() {
        assert_eq!(load_number(&records[..index], &[]), 1);
        for length in 1..record.len() {
            let cut = record[..length].to_vec();
            assert_eq!(load_number(&records[..index], &[cut]), 1);
        }
    }
    assert_eq!(load_number(&records, &[]), 1);
}

/// An unknown kind is 1 at it.
#[test]
fn an_unknown_kind_is_1() {
    for kind in [0, 12, 13, 128, 255] {
        for count in 0..=up_to_moves().len() {
            assert_eq!(load_number(&first(count), &[vec![kind; 9]]), 1);
        }
    }
}

/// A whole record of a known kind that isn't due is 2, for every kind at every place: labels are
/// due up to the first kind 11, moves and the end only once all equations have been read.
#[test]
fn a_known_kind_not_due_is_2() {
    let with_move = [up_to_moves(), vec![step(0, 0, 0)]].concat();
    let due: [(&[Vec<u8>], &[u8]); 8] = [
        (&[], &[1]),
        (&first(1), &[2, 10, 11]),
        (&first(3), &[2, 11]),
        (&first(4), &[11]),
        (&first(5), &[11]),
        (&first(6), &[11]),
        (&up_to_moves(), &[5, 6]),
        (&with_move, &[5, 6]),
    ];
    for (good, due) in due {
        for kind in KINDS.into_iter().filter(|kind| !due.contains(kind)) {
            assert_eq!(load_number(good, &[blank(kind), end()]), 2);
        }
    }
}

/// The record of the other style is known but not due, whatever it holds.
#[test]
fn the_other_style_is_2() {
    let others = [
        [block(0, 4)],
        [block(9, 0)],
        [equation(0, 0, 0)],
        [equation(9, 9, 9)],
    ];
    for bad in others {
        assert_eq!(load_number(&first(1), &bad), 2);
        assert_eq!(load_number(&first(5), &bad), 2);
        assert_eq!(load_number(&up_to_moves(), &bad), 2);
    }
    for blocks in 1..=8 {
        let good = [sizes(3, 2, 3, 4, blocks), label(0, 1)];
        assert_eq!(load_number(&good, &[signed(0, 0, 0, 0)]), 2);
        assert_eq!(load_number(&good, &[signed(9, 9, 9, 9)]), 2);
        assert_eq!(load_number(&good, &[vec![11, 0, 0]]), 1);
    }
    let begun = [sizes(3, 2, 3, 4, 1), block(0, 4)];
    assert_eq!(load_number(&begun, &[signed(0, 0, 0, 0)]), 2);
}

/// Kind 11 is known in a batch and not due there, and the cut knows its length.
#[test]
fn kind_11_in_a_batch_is_2() {
    let right = stamp(session().stamp.unwrap());
    let six = signed(6, 6, 6, 6);
    assert_eq!(batch_number(&session(), &[], &[six.clone(), end()]), 2);
    let good = [right];
    assert_eq!(batch_number(&session(), &good, &[six, end()]), 2);
    assert_eq!(batch_number(&session(), &good, &[vec![11, 0, 0, 0]]), 1);
    assert_eq!(batch_number(&session(), &good, &[vec![12, 0, 0, 0]]), 1);
}

/// Each other size out of its limits is 3 with blocks 0 too; blocks 0 to 8 are within them.
#[test]
fn sizes_outside_the_table_are_3() {
    let bad = [
        sizes(0, 1, 0, 1, 0),
        sizes(257, 1, 0, 1, 0),
        sizes(1, 0, 0, 1, 0),
        sizes(1, 17, 0, 1, 0),
        sizes(1, 1, 33, 1, 0),
        sizes(1, 1, 0, 0, 0),
        sizes(1, 1, 0, 33, 0),
        sizes(1, 1, 0, 1, 9),
    ];
    for sizes in bad {
        assert_eq!(load_number(&[], &[sizes, vec![0]]), 3);
    }
    for blocks in 0..=8 {
        assert_eq!(load_number(&[sizes(1, 1, 0, 1, blocks)], &[vec![0]]), 1);
    }
}

/// The most of every size loads, each variable a component by itself.
#[test]
fn the_most_loads() {
    let mut most = vec![sizes(256, 16, 32, 32, 0), label(255, 1 << 31)];
    most.extend((0..32).map(|x| signed(x % 2, 2 + x % 2, 31, 0)));
    most.extend([step(255, 15, 255), end()]);
    let session = loaded(&join(&most));
    assert_eq!(session.true_pairs(), 16 + 16 * 255);
    let numbers: Vec<u8> = (0..32).collect();
    assert_eq!(session.components[..], numbers);
}

/// Every fault of a body is 4, at the first and at the last equation: the sign, the operator, the
/// numbers, the unused bytes, and several of them.
#[test]
fn bodies_are_4() {
    let equations = [
        [8, 0, 0],
        [255, 0, 0],
        [0, 1, 0],
        [0, 0, 1],
        [1, 1, 0],
        [1, 0, 1],
        [2, 3, 0],
        [2, 0, 1],
        [3, 3, 0],
        [3, 0, 1],
        [4, 4, 0],
        [4, 0, 4],
        [5, 4, 0],
        [5, 0, 4],
        [6, 2, 0],
        [6, 0, 4],
        [7, 2, 0],
        [7, 0, 4],
    ];
    for good in [first(3), first(5), first(6)] {
        for [operator, x, y] in equations {
            for sign in [0, 1, 2] {
                let bad = signed(sign, operator, x, y);
                assert_eq!(load_number(&good, &[bad, end()]), 4);
            }
        }
        for sign in [2, 3, 128, 255] {
            assert_eq!(load_number(&good, &[signed(sign, 1, 0, 0), end()]), 4);
        }
    }
}

/// A variable that names itself is a closed chain of one sign.
#[test]
fn a_variable_that_names_itself_is_fine() {
    for sign in [0, 1] {
        for [o, x, y] in [[4, 0, 0], [5, 0, 0], [6, 0, 0], [7, 0, 0]] {
            let bytes = [spelled(&[[sign, o, x, y]]), end()].concat();
            assert_eq!(write_vec(&loaded(&bytes)), Ok(bytes));
        }
    }
}

/// Two variables of different signs may name each other only one way.
#[test]
fn a_loop_of_two_signs_is_5() {
    let namings: [fn(u8) -> [u8; 3]; 6] = [
        |x| [4, x, x],
        |x| [4, x, 1 - x],
        |x| [5, 1 - x, x],
        |x| [5, x, x],
        |x| [6, 0, x],
        |x| [7, 0, x],
    ];
    for one in namings {
        for other in namings {
            let with = |sign: u8, [o, x, y]: [u8; 3]| [sign, o, x, y];
            for sign in [0, 1] {
                let mixed = [with(sign, one(1)), with(1 - sign, other(0))];
                assert_eq!(refused(&mixed, &end()), (5, at(0)));
                let pure = [with(sign, one(1)), with(sign, other(0))];
                loaded(&[spelled(&pure), end()].concat());
                let open = [with(sign, one(1)), with(1 - sign, [4, 1, 1])];
                loaded(&[spelled(&open), end()].concat());
            }
        }
    }
}

/// A chain goes by names, though no move is there for its diamonds and boxes.
#[test]
fn chains_go_by_names_and_not_by_moves() {
    let mixed = [[0, 6, 0, 1], [1, 7, 0, 0]];
    assert_eq!(refused(&mixed, &end()), (5, at(0)));
    let moves = [step(0, 0, 1), step(1, 0, 1), end()].concat();
    assert_eq!(refused(&mixed, &moves), (5, at(0)));
}

/// The lowest equation on such a chain is guilty, not the first of all, nor the one whose sign is
/// the odd one, nor the last.
#[test]
fn the_lowest_on_a_chain_is_guilty() {
    let free = [1, 1, 0, 0];
    let long = [free, free, [1, 6, 0, 4], free, [1, 6, 0, 5], [0, 6, 0, 2]];
    assert_eq!(refused(&long, &end()), (5, at(2)));
    let two = [
        [0, 4, 0, 5],
        [1, 6, 0, 3],
        free,
        [0, 6, 0, 1],
        [1, 6, 0, 5],
        [0, 6, 0, 4],
    ];
    assert_eq!(refused(&two, &end()), (5, at(1)));
}

/// Repeats allowed: an equation on no simple loop of both signs is guilty too, if it is on a closed
/// chain that passes some variable twice.
#[test]
fn chains_may_repeat() {
    // X0 and X1 form a loop of one sign; X1 and X2 one of both.
    let eight = [[0, 6, 0, 1], [0, 4, 0, 2], [1, 6, 0, 1]];
    assert_eq!(refused(&eight, &end()), (5, at(0)));
    // A row of loops, each sharing a variable with the next; only the last has both signs.
    let row = [
        [1, 1, 0, 0],
        [1, 6, 0, 2],
        [1, 4, 1, 3],
        [1, 5, 2, 4],
        [1, 4, 3, 5],
        [0, 7, 0, 4],
    ];
    assert_eq!(refused(&row, &end()), (5, at(1)));
    let mut whole = row;
    whole[5][0] = 1;
    loaded(&[spelled(&whole), end()].concat());
}

/// What only leads to such a chain, or is only led to by it, is not on it.
#[test]
fn what_leads_to_a_chain_is_not_on_it() {
    let mixed = [
        [0, 4, 3, 2],
        [1, 4, 0, 1],
        [0, 6, 0, 3],
        [1, 4, 2, 4],
        [0, 1, 0, 0],
    ];
    assert_eq!(refused(&mixed, &end()), (5, at(2)));
}

/// The place is the record's first byte, with labels in front.
#[test]
fn the_place_counts_labels() {
    let good = [front(), label(0, 1), label(1, 1), signed(0, 1, 0, 0)];
    let mixed = [signed(0, 6, 1, 3), signed(0, 0, 0, 0), signed(1, 6, 1, 1)];
    let (number, place) = load_refusal(&join(&[join(&good), join(&mixed), end()]));
    assert_eq!((number, place), (5, join(&good).len()));
}

/// 1, 2 and 4 of the last equation's record come before 5.
#[test]
fn the_last_record_s_own_faults_come_before_5() {
    let mixed = [[0, 6, 0, 1], [1, 6, 0, 0]];
    let mut begun = spelled(&[mixed[0], mixed[1], [0, 0, 0, 0]]);
    begun.truncate(at(2));
    let last = |rest: &[u8]| load_refusal(&[&begun[..], rest].concat());
    assert_eq!(last(&[]), (1, at(2)));
    assert_eq!(last(&[12, 0, 0, 0, 0]), (1, at(2)));
    assert_eq!(last(&live()), (2, at(2)));
    assert_eq!(last(&[11, 0, 0, 0]), (1, at(2)));
    assert_eq!(last(&[4, 0, 0, 0]), (2, at(2)));
    assert_eq!(last(&end()), (2, at(2)));
    assert_eq!(last(&step(0, 0, 0)), (2, at(2)));
    for bad in [signed(2, 0, 0, 0), signed(0, 8, 0, 0), signed(0, 6, 0, 3)] {
        assert_eq!(last(&bad), (4, at(2)));
    }
    assert_eq!(last(&signed(0, 0, 0, 0)), (5, at(0)));
}

/// An earlier equation's 4 comes before 5, though the chain is closed by then or never.
#[test]
fn an_earlier_4_comes_before_5() {
    let mixed = [[0, 6, 0, 1], [1, 6, 0, 0], [0, 9, 0, 0], [0, 0, 0, 0]];
    assert_eq!(refused(&mixed, &end()), (4, at(2)));
}

/// 5 comes before the next record is looked at, whatever it is.
#[test]
fn number_5_before_the_next_record() {
    let mixed = [[0, 6, 0, 1], [1, 6, 0, 0]];
    let nexts = [
        vec![],
        vec![0],
        vec![5, 0],
        block(0, 1),
        equation(0, 0, 0),
        signed(0, 0, 0, 0),
        live(),
        label(0, 1),
        step(9, 9, 9),
        vec![6, 6],
    ];
    for next in nexts {
        assert_eq!(refused(&mixed, &next), (5, at(0)));
    }
}

/// Labels and moves out of order are 6, and a move too many is 10, as with blocks.
#[test]
fn numbers_6_and_10() {
    assert_eq!(load_number(&first(3), &[label(2, 1)]), 6);
    let good = [up_to_moves(), vec![step(1, 1, 1)]].concat();
    assert_eq!(load_number(&good, &[step(1, 1, 1)]), 6);
    let mut many = many_moves(1_024);
    many.splice(..3, [sizes(64, 1, 0, 1, 0), signed(1, 6, 0, 0)]);
    assert_eq!(load_number(&many, &[step(16, 0, 0)]), 10);
    loaded(&join(&[join(&many), end()]));
}

/// A short room is 13 at 0 right after good sizes.
#[test]
fn short_rooms_are_13() {
    let enough = session().rooms();
    let [mut labels, mut equations, mut values, mut marks] = [enough; 4];
    labels.labels -= 1;
    equations.equations -= 1;
    values.values -= 1;
    marks.marks -= 1;
    for rooms in [labels, equations, values, marks] {
        let session = Session::new(rooms);
        for next in [vec![], vec![0], block(0, 1), signed(9, 9, 9, 9)] {
            let bytes = join(&[front(), next]);
            assert_eq!(load_refusal_in(&session, &bytes), (13, 0));
        }
    }
}

/// The session after a change by hand.
fn broken(how: impl Fn(&mut Session)) -> Session {
    let mut session = session();
    how(&mut session);
    session
}

/// An equation by its three numbers.
fn rule(operator: u8, first: u8, second: u8) -> Equation {
    Equation {
        operator,
        first,
        second,
    }
}

/// Sessions that hold no model with signs.
fn bad() -> Vec<Session> {
    vec![
        broken(|s| s.components[0] = 1),
        broken(|s| s.components[3] = 2),
        broken(|s| s.components[1] = 1),
        broken(|s| s.components[1] = 255),
        broken(|s| s.components[..4].copy_from_slice(&[0, 1, 0, 2])),
        broken(|s| s.components[..4].copy_from_slice(&[1, 0, 1, 2])),
        broken(|s| s.components[..4].copy_from_slice(&[3, 1, 3, 2])),
        broken(|s| s.signs[0] = 0),
        broken(|s| s.signs[2] = 0),
        broken(|s| s.signs[3] = 2),
        broken(|s| s.signs[1] = 255),
        broken(|s| s.equations[1] = rule(8, 0, 0)),
        broken(|s| s.equations[1] = rule(0, 0, 1)),
        broken(|s| s.equations[2] = rule(6, 2, 0)),
        broken(|s| s.equations[2] = rule(6, 0, 4)),
        broken(|s| s.equations[1] = rule(4, 0, 0)),
        broken(|s| s.equations[0] = rule(0, 0, 0)),
        broken(|s| s.equations[3] = rule(4, 0, 3)),
        broken(|s| s.sizes.blocks = 1),
        broken(|s| s.sizes.blocks = 3),
        broken(|s| s.sizes.blocks = 8),
        broken(|s| s.labels[0] = 8),
        broken(|s| s.moves.swap(0, 1)),
        broken(|s| s.values[3] = 2),
        broken(|s| s.marks[3] = 4),
        broken(|s| s.stamp = Some(0)),
    ]
}

/// Each of them is 12 for a batch and for writing, and a question still reads its one byte.
#[test]
fn no_model_with_signs_is_12() {
    for session in bad() {
        let right = reference::stamp(session.table());
        let empty = join(&[stamp(right), end()]);
        assert_eq!(batch_refusal(&session, &empty), (12, 0));
        assert_eq!(batch_refusal(&session, &[]), (12, 0));
        let refusal = write(&session, &mut [0; 200]).unwrap_err();
        assert_eq!((refusal.number, refusal.place), (12, 0));
        assert!(ask_value(&session, State(0), Variable(0)).is_ok());
    }
}

/// 13 comes before the 12 for components and signs, and 12 for the sizes before 13.
#[test]
fn order_12_13_12() {
    for mut session in bad() {
        session.marks.truncate(11);
        assert_eq!(batch_refusal(&session, &[]), (13, 0));
    }
    let session = broken(|s| {
        s.sizes.blocks = 9;
        s.labels.clear();
    });
    assert_eq!(batch_refusal(&session, &[]), (12, 0));
}

/// The other numbering in which each component comes after those it names is not the right one.
#[test]
fn one_numbering_is_right() {
    // Neither X0 nor X1 names the other, and X2 names both.
    let bytes = [spelled(&[[0, 1, 0, 0], [1, 0, 0, 0], [0, 4, 0, 1]]), end()].concat();
    let good = loaded(&bytes);
    assert_eq!(good.components[..3], [0, 1, 2]);
    let mut other = good.clone();
    other.components[..3].copy_from_slice(&[1, 0, 2]);
    assert_eq!(batch_refusal(&other, &[]), (12, 0));
}

/// The sign of a variable that stands alone may be either; what lies past the variables and the
/// blocks of the other style aren't judged.
#[test]
fn what_is_not_judged() {
    let session = broken(|s| {
        s.signs[1] = 1;
        s.signs[3] = 1;
        s.signs[4..].fill(99);
        s.components[4..].fill(99);
        s.blocks[0].kind = 99;
    });
    assert!(write(&session, &mut [0; 200]).is_ok());
    let right = session.stamp.unwrap();
    assert!(batch(&mut session.clone(), &join(&[stamp(right), end()])).is_ok());
}

/// A load of either style leaves what the other style keeps as it was.
#[test]
fn the_other_style_is_left_alone() {
    let mut session = session();
    load(&mut session, &G).unwrap();
    assert_eq!(session.signs[..4], [1, 0, 1, 0]);
    assert_eq!(session.components[..4], [2, 0, 2, 1]);
    let blocks = session.blocks;
    load(&mut session, &model()).unwrap();
    assert_eq!(session.blocks, blocks);
    assert_eq!(session.sizes.blocks, 0);
}
