//! Refusals of a batch: each number with its place, and each order of two numbers.

mod common;

use common::*;
use reference::{batch, load, Rooms, Session};

/// A session of 8 states and 2 actions, X = diamond 0 X, with the moves (0,0,1) and (1,0,0).
fn session() -> Session {
    loaded(&join(&[
        sizes(8, 2, 0, 1, 1),
        block(1, 1),
        equation(6, 0, 0),
        step(0, 0, 1),
        step(1, 0, 0),
        end(),
    ]))
}

/// The stamp of that session's table.
const RIGHT: u32 = 258 + 65_538;

/// The right stamp record and a good insert.
fn good() -> Vec<Vec<u8>> {
    vec![stamp(RIGHT), insert(2, 1, 2)]
}

/// The right stamp record and this many good inserts.
fn inserts(count: u16) -> Vec<Vec<u8>> {
    let mut records = vec![stamp(RIGHT)];
    records.extend((0..count).map(|i| insert(i / 8, 1, i % 8)));
    records
}

/// The stamp that the others use is right.
#[test]
fn the_unbroken_batch_is_accepted() {
    assert_eq!(session().stamp, Some(RIGHT));
    accept(&mut session(), &[good(), vec![end()]].concat());
}

/// Reading 1: a missing record is 1 at the length, a cut one 1 at its first byte.
#[test]
fn reading_01_missing_and_cut_records_are_1() {
    assert_eq!(batch_refusal(&session(), &[]), (1, 0));
    assert_eq!(batch_number(&session(), &[stamp(RIGHT)], &[]), 1);
    assert_eq!(batch_number(&session(), &good(), &[]), 1);
    for length in 1..5 {
        let cut = stamp(RIGHT)[..length].to_vec();
        assert_eq!(batch_number(&session(), &[], &[cut]), 1);
    }
    for length in 1..6 {
        let cut = delete(0, 0, 1)[..length].to_vec();
        assert_eq!(batch_number(&session(), &good(), &[cut]), 1);
    }
}

/// An unknown kind is 1 at it.
#[test]
fn an_unknown_kind_is_1() {
    for kind in [0, 12, 13, 255] {
        assert_eq!(batch_number(&session(), &[], &[vec![kind; 7]]), 1);
        assert_eq!(batch_number(&session(), &good(), &[vec![kind; 7]]), 1);
    }
}

/// Reading 2: a record that is both cut off and not due is 1.
#[test]
fn reading_02_cut_off_and_not_due_is_1() {
    assert_eq!(batch_number(&session(), &[], &[vec![8, 0]]), 1);
    assert_eq!(batch_number(&session(), &good(), &[vec![7, 0, 0]]), 1);
    assert_eq!(batch_number(&session(), &good(), &[vec![1, 0]]), 1);
}

/// Reading 2: a 65th change that is cut off is 1.
#[test]
fn reading_02_a_cut_65th_change_is_1() {
    let cut = delete(0, 0, 1)[..4].to_vec();
    assert_eq!(batch_number(&session(), &inserts(64), &[cut]), 1);
}

/// A whole record of a known kind that isn't due is 2, for every kind.
#[test]
fn a_known_kind_not_due_is_2() {
    for kind in [1, 2, 3, 4, 5, 6, 8, 9, 10, 11] {
        assert_eq!(batch_number(&session(), &[], &[blank(kind), end()]), 2);
    }
    for kind in [1, 2, 3, 4, 5, 7, 10, 11] {
        let rest = [blank(kind), end()];
        assert_eq!(batch_number(&session(), &[stamp(RIGHT)], &rest), 2);
        assert_eq!(batch_number(&session(), &good(), &rest), 2);
    }
}

/// Reading 3: a byte after kind 6 is 2 at that byte, before 11, 9, 7, 8 and 10.
#[test]
fn reading_03_a_byte_after_the_end_is_2() {
    let brim = brimming();
    let brim_stamp = stamp(brim.stamp.unwrap());
    for byte in [0, 6, 7, 8, 255] {
        let rest = [vec![byte]];
        let cases = [
            vec![stamp(RIGHT), end()],
            vec![stamp(RIGHT + 1), end()],
            vec![stamp(RIGHT), delete(0, 0, 1), delete(0, 0, 1), end()],
            vec![stamp(RIGHT), insert(0, 0, 1), end()],
            vec![stamp(RIGHT), delete(0, 0, 0), end()],
        ];
        for case in cases {
            assert_eq!(batch_number(&session(), &case, &rest), 2);
        }
        let full = [brim_stamp.clone(), insert(63, 0, 63), end()];
        assert_eq!(batch_number(&brim, &full, &rest), 2);
    }
}

/// Reading 10: a 65th change is 3 at its record, and 64 are accepted.
#[test]
fn reading_10_a_65th_change_is_3() {
    let most = inserts(64);
    assert_eq!(
        batch_number(&session(), &most, &[delete(0, 0, 1), end()]),
        3
    );
    assert_eq!(
        batch_number(&session(), &most, &[insert(0, 0, 0), end()]),
        3
    );
    let updated = accept(&mut session(), &[most, vec![end()]].concat());
    assert_eq!(updated.pairs, 8);
}

/// Reading 10: in a 65th change 3 comes before 4; a 65th record of another kind is no change.
#[test]
fn reading_10_3_before_4_and_only_changes_count() {
    let most = inserts(64);
    assert_eq!(batch_number(&session(), &most, &[insert(9, 9, 9)]), 3);
    assert_eq!(batch_number(&session(), &most, &[delete(8, 0, 0)]), 3);
    assert_eq!(batch_number(&session(), &most, &[stamp(RIGHT)]), 2);
    assert_eq!(batch_number(&session(), &most, &[step(9, 9, 9)]), 2);
    assert_eq!(batch_number(&session(), &most, &[vec![0]]), 1);
}

/// A change's source, action and target: each way to be 4, for inserts and deletes.
#[test]
fn changes_are_4() {
    for (s, a, t) in [(8, 0, 0), (0, 2, 0), (0, 0, 8), (256, 0, 0), (0, 255, 0)] {
        for bad in [insert(s, a, t), delete(s, a, t)] {
            assert_eq!(batch_number(&session(), &good(), &[bad, end()]), 4);
        }
    }
}

/// 1 to 4 go record by record: the earlier record wins over a lower number at a later one.
#[test]
fn the_earlier_record_wins_among_1_to_4() {
    let bad = insert(8, 0, 0);
    assert_eq!(
        batch_number(&session(), &good(), &[bad.clone(), vec![0]]),
        4
    );
    assert_eq!(
        batch_number(&session(), &good(), &[bad.clone(), step(0, 0, 0)]),
        4
    );
    assert_eq!(batch_number(&session(), &good(), &[step(0, 0, 0), bad]), 2);
}

/// A wrong stamp is 11 at 0.
#[test]
fn a_wrong_stamp_is_11() {
    for wrong in [0, RIGHT - 1, RIGHT + 1, u32::MAX] {
        let bytes = join(&[stamp(wrong), insert(2, 1, 2), end()]);
        assert_eq!(batch_refusal(&session(), &bytes), (11, 0));
    }
}

/// With a wrong stamp 1 to 4 still come first.
#[test]
fn numbers_1_to_4_before_11() {
    let good = [stamp(0), insert(2, 1, 2)];
    assert_eq!(batch_number(&session(), &good, &[]), 1);
    assert_eq!(batch_number(&session(), &good, &[vec![0]]), 1);
    assert_eq!(batch_number(&session(), &good, &[stamp(RIGHT), end()]), 2);
    assert_eq!(
        batch_number(&session(), &good, &[insert(9, 0, 0), end()]),
        4
    );
    let mut most = inserts(64);
    most[0] = stamp(0);
    assert_eq!(
        batch_number(&session(), &most, &[insert(0, 0, 0), end()]),
        3
    );
}

/// With a wrong stamp 11 comes before 9, 7, 8 and 10.
#[test]
fn number_11_before_9_7_8_and_10() {
    let cases = [
        [insert(2, 1, 2), insert(2, 1, 2)],
        [insert(0, 0, 1), insert(2, 1, 2)],
        [delete(0, 0, 0), insert(2, 1, 2)],
    ];
    for [one, two] in cases {
        let bytes = join(&[stamp(RIGHT + 1), one, two, end()]);
        assert_eq!(batch_refusal(&session(), &bytes), (11, 0));
    }
    let bytes = join(&[stamp(0), insert(63, 0, 63), end()]);
    assert_eq!(batch_refusal(&brimming(), &bytes), (11, 0));
}

/// Reading 11: a move named twice is 9 at the record that repeats, inserts and deletes alike.
#[test]
fn reading_11_9_counts_inserts_and_deletes_alike() {
    let mixes = [
        [insert(3, 0, 3), insert(3, 0, 3)],
        [insert(3, 0, 3), delete(3, 0, 3)],
        [delete(0, 0, 1), insert(0, 0, 1)],
        [delete(0, 0, 1), delete(0, 0, 1)],
    ];
    for [one, two] in mixes {
        let good = [stamp(RIGHT), insert(4, 0, 4), one, insert(5, 0, 5)];
        assert_eq!(batch_number(&session(), &good, &[two, end()]), 9);
    }
}

/// Reading 11: of two repeats the earliest record that repeats is guilty.
#[test]
fn reading_11_9_at_the_earliest_repeat() {
    let good = [stamp(RIGHT), insert(4, 0, 4), insert(3, 0, 3)];
    let rest = [insert(3, 0, 3), insert(4, 0, 4), end()];
    assert_eq!(batch_number(&session(), &good, &rest), 9);
}

/// Reading 11: 9 beats a 7 or 8 at an earlier record.
#[test]
fn reading_11_9_beats_an_earlier_7_or_8() {
    for earlier in [insert(0, 0, 1), delete(0, 0, 0)] {
        let good = [stamp(RIGHT), earlier, insert(3, 0, 3)];
        assert_eq!(
            batch_number(&session(), &good, &[insert(3, 0, 3), end()]),
            9
        );
    }
    let good = [stamp(RIGHT), insert(0, 0, 1)];
    assert_eq!(
        batch_number(&session(), &good, &[delete(0, 0, 1), end()]),
        9
    );
}

/// An insert of a move present is 7, a delete of one absent 8, each at its record.
#[test]
fn present_is_7_and_absent_is_8() {
    let rest = [insert(1, 0, 0), end()];
    assert_eq!(batch_number(&session(), &good(), &rest), 7);
    let rest = [delete(1, 0, 1), end()];
    assert_eq!(batch_number(&session(), &good(), &rest), 8);
}

/// Reading 12: of a 7 and an 8 the earlier record wins, whichever number.
#[test]
fn reading_12_7_and_8_in_batch_order() {
    let (seven, eight) = (insert(1, 0, 0), delete(1, 0, 1));
    let rest = [seven.clone(), eight.clone(), end()];
    assert_eq!(batch_number(&session(), &good(), &rest), 7);
    let rest = [eight, seven, end()];
    assert_eq!(batch_number(&session(), &good(), &rest), 8);
}

/// A session with 1,024 moves.
fn brimming() -> Session {
    loaded(&join(&[join(&many_moves(1_024)), end()]))
}

/// An insert into a full table is 10 at 0.
#[test]
fn an_insert_into_a_full_table_is_10() {
    let session = brimming();
    let right = stamp(session.stamp.unwrap());
    let bytes = join(&[right.clone(), insert(63, 0, 63), end()]);
    assert_eq!(batch_refusal(&session, &bytes), (10, 0));
    let two = [insert(63, 0, 63), insert(63, 0, 62)];
    let bytes = join(&[right.clone(), delete(0, 0, 0), join(&two), end()]);
    assert_eq!(batch_refusal(&session, &bytes), (10, 0));
    accept(&mut session.clone(), &[right, end()]);
}

/// Deletes make room for inserts of the same batch, also for those before them.
#[test]
fn deletes_make_room() {
    let session = brimming();
    let mut records = vec![stamp(session.stamp.unwrap())];
    records.extend((0..32).map(|i| insert(63, 0, i)));
    records.extend((0..32).map(|i| delete(0, 0, i)));
    records.push(end());
    let mut after = session.clone();
    accept(&mut after, &records);
    assert_eq!(after.move_count, 1_024);
    records.remove(33);
    assert_eq!(batch_refusal(&session, &join(&records)), (10, 0));
}

/// 9, 7 and 8 come before 10.
#[test]
fn numbers_9_7_and_8_before_10() {
    let session = brimming();
    let right = stamp(session.stamp.unwrap());
    let good = [right, insert(63, 0, 63), insert(63, 0, 62)];
    let rest = [insert(63, 0, 63), end()];
    assert_eq!(batch_number(&session, &good, &rest), 9);
    let rest = [insert(0, 0, 0), end()];
    assert_eq!(batch_number(&session, &good, &rest), 7);
    let rest = [delete(63, 0, 0), end()];
    assert_eq!(batch_number(&session, &good, &rest), 8);
}

/// A room smaller than 1,024 is what 10 goes by.
#[test]
fn a_smaller_room_is_10() {
    let mut session = Session::new(Rooms {
        moves: 2,
        ..Rooms::most()
    });
    load(&mut session, &G).unwrap();
    let three = [insert(0, 0, 0), insert(0, 0, 1), insert(1, 0, 0)];
    let bytes = join(&[stamp(0), join(&three), end()]);
    assert_eq!(batch_refusal(&session, &bytes), (10, 0));
    let bytes = join(&[stamp(0), join(&three[..2]), end()]);
    assert!(batch(&mut session, &bytes).is_ok());
    let swap = join(&[stamp(259), insert(1, 0, 0), delete(0, 0, 0), end()]);
    assert!(batch(&mut session, &swap).is_ok());
}
