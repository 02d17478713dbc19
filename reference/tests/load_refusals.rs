//! Refusals of a load: each number with its place, and each order of two numbers.

mod common;

use common::*;
use reference::{load, Rooms, Session};

/// Good sizes with room for every case below: 3 states, 2 actions, 3 propositions, 4 variables,
/// 2 blocks.
fn front() -> Vec<u8> {
    sizes(3, 2, 3, 4, 2)
}

/// Everything up to where a move or the end is due.
fn up_to_moves() -> Vec<Vec<u8>> {
    vec![
        front(),
        label(0, 1),
        label(2, 6),
        block(0, 2),
        equation(4, 0, 1),
        equation(2, 2, 0),
        block(1, 2),
        equation(6, 1, 3),
        equation(7, 0, 0),
    ]
}

/// The first records of `up_to_moves`.
fn first(count: usize) -> Vec<Vec<u8>> {
    up_to_moves()[..count].to_vec()
}

/// The model that the other tests break does load.
#[test]
fn the_unbroken_model_loads() {
    let model = [up_to_moves(), vec![step(0, 0, 1), step(2, 1, 2), end()]].concat();
    let session = loaded(&join(&model));
    assert_eq!(session.move_count, 2);
    assert_eq!(session.labels[..3], [1, 0, 6]);
}

/// Reading 1 and 14: nothing at all is 1 at the length, and the bytes ending before kind 6 too.
#[test]
fn reading_01_a_missing_record_is_1_at_the_length() {
    assert_eq!(load_refusal(&[]), (1, 0));
    for count in 1..=up_to_moves().len() {
        assert_eq!(load_number(&first(count), &[]), 1);
    }
    let moves = [up_to_moves(), vec![step(0, 0, 1)]].concat();
    assert_eq!(load_number(&moves, &[]), 1);
}

/// Reading 1: bytes that end inside a record are 1 at that record's first byte.
#[test]
fn reading_01_a_cut_record_is_1_at_its_first_byte() {
    let records = [up_to_moves(), vec![step(0, 0, 1)]].concat();
    for (index, record) in records.iter().enumerate() {
        for length in 1..record.len() {
            let cut = record[..length].to_vec();
            assert_eq!(load_number(&records[..index], &[cut]), 1);
        }
    }
}

/// An unknown kind is 1 at it, wherever it stands before kind 6.
#[test]
fn an_unknown_kind_is_1() {
    for kind in [0, 12, 13, 128, 255] {
        for count in 0..=up_to_moves().len() {
            assert_eq!(load_number(&first(count), &[vec![kind; 9]]), 1);
        }
    }
}

/// Reading 2: a record that is both cut off and not due is 1.
#[test]
fn reading_02_cut_off_and_not_due_is_1() {
    assert_eq!(load_number(&[], &[vec![7, 0, 0]]), 1);
    assert_eq!(load_number(&first(1), &[vec![5, 0, 0]]), 1);
    assert_eq!(load_number(&first(4), &[vec![3, 0]]), 1);
    assert_eq!(load_number(&first(6), &[vec![8]]), 1);
    assert_eq!(load_number(&up_to_moves(), &[vec![4, 9, 9]]), 1);
}

/// Reading 2: a 1,025th move that is cut off is 1.
#[test]
fn reading_02_a_cut_1025th_move_is_1() {
    let cut = step(16, 0, 0)[..5].to_vec();
    assert_eq!(load_number(&many_moves(1_024), &[cut]), 1);
}

/// A whole record of a known kind that isn't due is 2, for every kind at every place.
#[test]
fn a_known_kind_not_due_is_2() {
    let with_move = [up_to_moves(), vec![step(0, 0, 0)]].concat();
    let due: [(&[Vec<u8>], &[u8]); 9] = [
        (&[], &[1]),
        (&first(1), &[2, 3, 10]),
        (&first(3), &[2, 3]),
        (&first(4), &[4]),
        (&first(5), &[4]),
        (&first(6), &[3]),
        (&first(8), &[4]),
        (&up_to_moves(), &[5, 6]),
        (&with_move, &[5, 6]),
    ];
    for (good, due) in due {
        for kind in KINDS.into_iter().filter(|kind| !due.contains(kind)) {
            assert_eq!(load_number(good, &[blank(kind), end()]), 2);
        }
    }
}

/// A record that isn't due is 2 whatever numbers it holds.
#[test]
fn not_due_is_2_before_3_and_4() {
    assert_eq!(load_number(&first(1), &[sizes(0, 0, 99, 0, 0)]), 2);
    assert_eq!(load_number(&first(5), &[block(9, 0)]), 2);
    assert_eq!(load_number(&first(6), &[equation(9, 9, 9)]), 2);
    assert_eq!(load_number(&first(4), &[label(99, 0)]), 2);
}

/// Reading 3: a byte after kind 6 is 2 at that byte, whatever it is.
#[test]
fn reading_03_a_byte_after_the_end_is_2() {
    let whole = [up_to_moves(), vec![end()]].concat();
    for byte in [0, 1, 5, 6, 7, 10, 255] {
        assert_eq!(load_number(&whole, &[vec![byte]]), 2);
        assert_eq!(load_number(&whole, &[vec![byte, 6, 6]]), 2);
    }
}

/// Reading 4: a label with 0 propositions is due and gets 4.
#[test]
fn reading_04_a_label_without_propositions_is_4() {
    let none = [sizes(2, 1, 0, 1, 1)];
    assert_eq!(load_number(&none, &[label(0, 1), end()]), 4);
    assert_eq!(load_number(&none, &[label(0, 0), end()]), 4);
}

/// Reading 4: a block record after the last block is 2, even one that would be 3.
#[test]
fn reading_04_a_block_too_many_is_2() {
    for variables in [0, 1, 255] {
        assert_eq!(load_number(&up_to_moves(), &[block(0, variables)]), 2);
    }
}

/// Each size below its least or over its most is 3.
#[test]
fn sizes_outside_the_table_are_3() {
    let bad = [
        sizes(0, 1, 0, 1, 1),
        sizes(257, 1, 0, 1, 1),
        sizes(65_535, 1, 0, 1, 1),
        sizes(1, 0, 0, 1, 1),
        sizes(1, 17, 0, 1, 1),
        sizes(1, 1, 33, 1, 1),
        sizes(1, 1, 0, 0, 1),
        sizes(1, 1, 0, 33, 1),
        sizes(1, 1, 0, 1, 255),
        sizes(1, 1, 0, 9, 9),
    ];
    for sizes in bad {
        assert_eq!(load_number(&[], &[sizes, vec![0]]), 3);
    }
}

/// The least and the most of every size load.
#[test]
fn sizes_at_the_edges_load() {
    let least = join(&[sizes(1, 1, 0, 1, 1), block(0, 1), equation(0, 0, 0), end()]);
    assert_eq!(values(&loaded(&least)), [0]);
    let mut most = vec![sizes(256, 16, 32, 32, 8), label(255, 1 << 31)];
    for _ in 0..8 {
        most.push(block(1, 4));
        most.extend(vec![equation(2, 31, 0); 4]);
    }
    most.extend([step(255, 15, 255), end()]);
    assert_eq!(loaded(&join(&most)).true_pairs(), 32);
}

/// A block with no variable, or with more than remain, is 3 at its record.
#[test]
fn a_block_with_a_wrong_number_of_variables_is_3() {
    assert_eq!(load_number(&first(3), &[block(0, 0), end()]), 3);
    assert_eq!(load_number(&first(3), &[block(0, 5), end()]), 3);
    assert_eq!(load_number(&first(6), &[block(0, 0), end()]), 3);
    assert_eq!(load_number(&first(6), &[block(0, 3), end()]), 3);
    assert_eq!(load_number(&first(6), &[block(0, 255), end()]), 3);
}

/// Reading 5: within a block record 3 comes before 4.
#[test]
fn reading_05_3_before_4_in_a_block() {
    assert_eq!(load_number(&first(3), &[block(2, 0)]), 3);
    assert_eq!(load_number(&first(3), &[block(255, 5)]), 3);
    assert_eq!(load_number(&first(6), &[block(2, 1)]), 3);
    assert_eq!(load_number(&first(6), &[block(2, 2)]), 4);
}

/// Reading 6: more blocks than variables pass the sizes; the first block that can't be good is 3.
#[test]
fn reading_06_more_blocks_than_variables() {
    let good = [sizes(1, 1, 0, 1, 2), block(0, 1), equation(0, 0, 0)];
    assert_eq!(load_number(&good[..1], &[vec![0]]), 1);
    assert_eq!(load_number(&good[..1], &[block(0, 2)]), 3);
    for variables in [0, 1, 2] {
        assert_eq!(load_number(&good, &[block(0, variables)]), 3);
    }
}

/// Reading 7: a block may take all variables though more blocks are due; the next one is 3.
#[test]
fn reading_07_a_block_may_take_all() {
    let mut good = vec![sizes(1, 1, 0, 2, 2), block(1, 2)];
    good.extend(vec![equation(1, 0, 0); 2]);
    assert_eq!(load_number(&good, &[block(1, 1)]), 3);
    assert_eq!(load_number(&good, &[block(1, 0)]), 3);
    assert_eq!(load_number(&good, &[end()]), 2);
}

/// Reading 8: a last block that leaves some over is 3 at its record, before its equations.
#[test]
fn reading_08_a_last_block_that_leaves_some_over() {
    assert_eq!(load_number(&first(6), &[block(1, 1)]), 3);
    assert_eq!(load_number(&first(6), &[block(1, 1), vec![0]]), 3);
    let one = [sizes(1, 1, 0, 3, 1)];
    assert_eq!(load_number(&one, &[block(0, 2), equation(9, 9, 9)]), 3);
}

/// A label's state and set: each way to be 4, and the highest that is not.
#[test]
fn labels_are_4() {
    for bad in [label(3, 1), label(65_535, 1), label(0, 0), label(0, 8)] {
        assert_eq!(load_number(&first(1), &[bad, end()]), 4);
    }
    assert_eq!(load_number(&first(1), &[label(0, 1 << 31), end()]), 4);
    let good = [front(), label(2, 7)];
    assert_eq!(load_number(&good, &[end()]), 2);
}

/// A block kind over 1 is 4.
#[test]
fn block_kinds_are_4() {
    assert_eq!(load_number(&first(3), &[block(2, 2), end()]), 4);
    assert_eq!(load_number(&first(3), &[block(255, 2), end()]), 4);
}

/// Operators, numbers and unused bytes of equations: each way to be 4.
#[test]
fn equations_are_4() {
    let bad = [
        equation(8, 0, 0),
        equation(255, 0, 0),
        equation(0, 1, 0),
        equation(0, 0, 1),
        equation(1, 1, 0),
        equation(1, 0, 1),
        equation(2, 3, 0),
        equation(2, 0, 1),
        equation(3, 3, 0),
        equation(3, 0, 1),
        equation(4, 4, 0),
        equation(4, 0, 4),
        equation(5, 4, 0),
        equation(5, 0, 4),
        equation(6, 2, 0),
        equation(6, 0, 4),
        equation(7, 2, 0),
        equation(7, 0, 4),
    ];
    for equation in bad {
        assert_eq!(load_number(&first(4), &[equation.clone(), end()]), 4);
        assert_eq!(load_number(&first(8), &[equation, end()]), 4);
    }
}

/// With no propositions every equation on a proposition is 4.
#[test]
fn equations_without_propositions_are_4() {
    let good = [sizes(1, 1, 0, 1, 1), block(0, 1)];
    assert_eq!(load_number(&good, &[equation(2, 0, 0)]), 4);
    assert_eq!(load_number(&good, &[equation(3, 0, 0)]), 4);
}

/// A move's source, action and target: each way to be 4.
#[test]
fn moves_are_4() {
    for bad in [step(3, 0, 0), step(0, 2, 0), step(0, 0, 3), step(256, 0, 0)] {
        assert_eq!(load_number(&up_to_moves(), &[bad, end()]), 4);
    }
}

/// An equation that names a variable of a later block is 5, whichever byte names it.
#[test]
fn later_blocks_are_5() {
    let bad = [
        equation(4, 2, 0),
        equation(4, 0, 3),
        equation(5, 3, 1),
        equation(5, 1, 2),
        equation(6, 0, 2),
        equation(7, 1, 3),
    ];
    for equation in bad {
        assert_eq!(load_number(&first(4), &[equation.clone(), end()]), 5);
        assert_eq!(load_number(&first(5), &[equation, end()]), 5);
    }
    let fine = [first(4), vec![equation(4, 1, 1)]].concat();
    assert_eq!(load_number(&fine, &[end()]), 2);
}

/// Within an equation 4 comes before 5.
#[test]
fn equations_4_before_5() {
    assert_eq!(load_number(&first(4), &[equation(4, 2, 4)]), 4);
    assert_eq!(load_number(&first(4), &[equation(5, 4, 3)]), 4);
    assert_eq!(load_number(&first(4), &[equation(6, 2, 3)]), 4);
}

/// A label not strictly after the one before is 6.
#[test]
fn labels_out_of_order_are_6() {
    assert_eq!(load_number(&first(3), &[label(2, 1), end()]), 6);
    assert_eq!(load_number(&first(3), &[label(1, 1), end()]), 6);
}

/// A move not strictly after the one before is 6, by source, then action, then target.
#[test]
fn moves_out_of_order_are_6() {
    let good = [up_to_moves(), vec![step(1, 1, 1)]].concat();
    for bad in [step(1, 1, 1), step(1, 1, 0), step(1, 0, 2), step(0, 1, 2)] {
        assert_eq!(load_number(&good, &[bad, end()]), 6);
    }
    for fine in [step(1, 1, 2), step(2, 0, 0)] {
        assert_eq!(load_number(&[good.clone(), vec![fine]].concat(), &[]), 1);
    }
}

/// Within a label and within a move 4 comes before 6.
#[test]
fn labels_and_moves_4_before_6() {
    assert_eq!(load_number(&first(3), &[label(1, 0)]), 4);
    assert_eq!(load_number(&first(3), &[label(1, 8)]), 4);
    let good = [up_to_moves(), vec![step(1, 1, 1)]].concat();
    assert_eq!(load_number(&good, &[step(1, 0, 3)]), 4);
    assert_eq!(load_number(&good, &[step(0, 2, 0)]), 4);
}

/// Reading 9: a move past 1,024 is 10, after 1, 2, 4 and 6 of the same record.
#[test]
fn reading_09_10_comes_last_at_the_most() {
    let most = many_moves(1_024);
    assert_eq!(load_number(&most, &[step(16, 0, 0)]), 10);
    assert_eq!(load_number(&most, &[vec![0]]), 1);
    assert_eq!(load_number(&most, &[vec![5, 16]]), 1);
    assert_eq!(load_number(&most, &[insert(16, 0, 0)]), 2);
    assert_eq!(load_number(&most, &[step(16, 1, 0)]), 4);
    assert_eq!(load_number(&most, &[step(15, 0, 63)]), 6);
    assert_eq!(load_number(&most, &[step(0, 0, 0)]), 6);
}

/// Reading 9: a move past a smaller room is 10 at its record.
#[test]
fn reading_09_10_at_the_room() {
    for room in [0, 1, 5, 1_023] {
        let session = Session::new(Rooms {
            moves: room,
            ..Rooms::most()
        });
        let good = many_moves(room as u16);
        let last = step(63, 0, 63);
        let over = join(&[join(&good), last, end()]);
        assert_eq!(load_refusal_in(&session, &over), (10, join(&good).len()));
        let fits = join(&[join(&good), end()]);
        assert!(load(&mut session.clone(), &fits).is_ok());
    }
}

/// A move room over 1,024 doesn't raise the most.
#[test]
fn a_larger_move_room_changes_nothing() {
    let session = Session::new(Rooms {
        moves: 2_000,
        ..Rooms::most()
    });
    let most = join(&many_moves(1_024));
    let over = join(&[most.clone(), step(16, 0, 0), end()]);
    assert_eq!(load_refusal_in(&session, &over), (10, most.len()));
}

/// The rooms that a model with `front` as sizes just fits.
fn just_enough() -> Rooms {
    Rooms {
        labels: 3,
        equations: 4,
        values: 12,
        marks: 12,
        moves: 0,
        index: 6,
        queue: 13,
    }
}

/// Rooms that are each one place too short for `front`.
fn short_rooms() -> [Rooms; 6] {
    let enough = just_enough();
    let [mut labels, mut equations, mut values, mut marks, mut index, mut queue] = [enough; 6];
    labels.labels -= 1;
    equations.equations -= 1;
    values.values -= 1;
    marks.marks -= 1;
    index.index -= 1;
    queue.queue -= 1;
    [labels, equations, values, marks, index, queue]
}

/// A room that is one place too short is 13 at 0, and just enough is enough.
#[test]
fn short_rooms_are_13() {
    let model = join(&[up_to_moves(), vec![end()]].concat());
    assert!(load(&mut Session::new(just_enough()), &model).is_ok());
    for rooms in short_rooms() {
        assert_eq!(load_refusal_in(&Session::new(rooms), &model), (13, 0));
    }
}

/// Reading 13: 13 comes right after good sizes, before the next record is looked at.
#[test]
fn reading_13_13_before_the_next_record() {
    for rooms in short_rooms() {
        let session = Session::new(rooms);
        for next in [vec![], vec![0], vec![2], end(), label(9, 0)] {
            let bytes = join(&[front(), next]);
            assert_eq!(load_refusal_in(&session, &bytes), (13, 0));
        }
    }
}

/// Bad sizes are 3, and cut or missing sizes 1, before any room is looked at.
#[test]
fn reading_13_1_and_3_before_13() {
    for rooms in short_rooms() {
        let session = Session::new(rooms);
        assert_eq!(load_refusal_in(&session, &sizes(257, 1, 0, 1, 1)), (3, 0));
        assert_eq!(load_refusal_in(&session, &front()[..6]), (1, 0));
        assert_eq!(load_refusal_in(&session, &end()), (2, 0));
        assert_eq!(load_refusal_in(&session, &[]), (1, 0));
    }
}

/// The earlier record wins over a lower number at a later one.
#[test]
fn the_earlier_record_wins() {
    assert_eq!(load_number(&first(1), &[label(0, 0), vec![0]]), 4);
    assert_eq!(load_number(&first(4), &[equation(6, 0, 3), block(0, 0)]), 5);
    let good = [up_to_moves(), vec![step(1, 0, 0)]].concat();
    assert_eq!(load_number(&good, &[step(1, 0, 0), step(9, 9, 9)]), 6);
}
