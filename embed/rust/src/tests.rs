//! The bench cases through the static library, and what the calls leave alone, in rooms longer than needed and filled with
//! known bytes.
use super::*;

const G: [u8; 15] = [1, 2, 0, 1, 0, 1, 1, 3, 1, 1, 4, 6, 0, 0, 6];

/// G with a sign on its equation in place of the block.
const SIGNED_G: [u8; 13] = [1, 2, 0, 1, 0, 1, 0, 11, 1, 6, 0, 0, 6];

/// A batch of changes: 8 to insert, 9 to delete, with source, action, target.
fn changes(stamp: u32, of: &[(u8, u16, u8, u16)]) -> Vec<u8> {
    let mut bytes = vec![7];
    bytes.extend(stamp.to_le_bytes());
    for &(kind, source, action, target) in of {
        bytes.push(kind);
        bytes.extend(source.to_le_bytes());
        bytes.push(action);
        bytes.extend(target.to_le_bytes());
    }
    bytes.push(6);
    bytes
}

fn loaded() -> Checker {
    let mut checker = Checker::new();
    checker.load(&G).unwrap();
    checker
}

fn report(shift_visits: i64, settle_visits: i64, net: i64) -> Result<Report, Refusal> {
    Ok(Report {
        shift_visits,
        settle_visits,
        net,
    })
}

/// Rooms longer than G needs, each place filled with a number that no call writes.
fn filled() -> Checker {
    Checker {
        session: vec![0xa5a5_a5a5; SESSION + 3],
        labels: vec![0xb6b6_b6b6; 5],
        equations: vec![0xc7c7_c7c7; 4],
        values: vec![0xd8; 6],
        marks: vec![0xe9; 7],
        moves: vec![0xfafa_fafa; 4],
        index: vec![0x8b8b; G_INDEX + 3],
        queue: vec![0x9c9c; G_QUEUE + 2],
    }
}

/// How many places of the rooms to work in G needs with a room for 4 moves.
const G_INDEX: usize = 2 + 4;
const G_QUEUE: usize = 2 + 1;

/// Whether the rooms to work in are 0 where G needs them, and hold their fillings past that.
fn worked(checker: &Checker) -> bool {
    let (index, past_index) = checker.index.split_at(G_INDEX);
    let (queue, past_queue) = checker.queue.split_at(G_QUEUE);
    index == [0; G_INDEX]
        && queue == [0; G_QUEUE]
        && past_index == [0x8b8b; 3]
        && past_queue == [0x9c9c; 2]
}

#[test]
fn a_b_c() {
    let mut checker = loaded();
    assert_eq!(checker.batch(&changes(0, &[(8, 0, 0, 0)])), report(1, 0, 1));
    assert_eq!((checker.marks(), checker.stamp()), (&[1, 0][..], 1));
    assert_eq!(checker.batch(&changes(1, &[(8, 1, 0, 0)])), report(0, 0, 1));
    assert_eq!((checker.marks(), checker.stamp()), (&[0, 1][..], 65_539));
    assert_eq!(
        checker.batch(&changes(65_539, &[(9, 0, 0, 0)])),
        report(0, 1, -2)
    );
    assert_eq!((checker.marks(), checker.stamp()), (&[3, 3][..], 65_538));
    assert_eq!(checker.ask(State(0), Variable(0)), Ok(false));
    assert_eq!(checker.ask(State(1), Variable(0)), Ok(false));
}

#[test]
fn d() {
    let mut checker = loaded();
    assert_eq!(checker.batch(&changes(0, &[(8, 0, 0, 1)])), report(0, 0, 0));
    assert_eq!((checker.marks(), checker.stamp()), (&[2, 0][..], 258));
}

#[test]
fn what_was_written_loads() {
    let mut checker = loaded();
    assert_eq!(checker.write().unwrap(), G);
    checker
        .batch(&changes(0, &[(8, 0, 0, 0), (8, 1, 0, 0)]))
        .unwrap();
    let bytes = checker.write().unwrap();
    let mut again = Checker::new();
    again.load(&bytes).unwrap();
    assert_eq!(again.write().unwrap(), bytes);
    assert_eq!(again.stamp(), checker.stamp());
    assert_eq!(again.ask(State(1), Variable(0)), Ok(true));
}

#[test]
fn a_refused_load_changes_nothing() {
    let mut checker = filled();
    let before = checker.clone();
    let mut cut = G.to_vec();
    cut.pop();
    assert_eq!(
        checker.load(&cut),
        Err(Refusal {
            number: 1,
            place: 14
        })
    );
    assert_eq!(
        checker.load(&[]),
        Err(Refusal {
            number: 1,
            place: 0
        })
    );
    let mut more = G.to_vec();
    more.push(0);
    assert_eq!(
        checker.load(&more),
        Err(Refusal {
            number: 2,
            place: 15
        })
    );
    let mut late = G;
    late[13] = 1;
    assert_eq!(
        checker.load(&late),
        Err(Refusal {
            number: 4,
            place: 10
        })
    );
    assert_eq!(checker, before);
}

#[test]
fn an_accepted_load_leaves_the_places_past_it() {
    let mut checker = filled();
    let before = checker.clone();
    checker.load(&G).unwrap();
    assert_eq!(checker.session[..8], [2, 1, 0, 1, 1, 0, 0, 0]);
    assert_eq!(checker.session[8..], before.session[8..]);
    assert_eq!(checker.labels[..2], [0, 0]);
    assert_eq!(checker.labels[2..], before.labels[2..]);
    assert_eq!(checker.equations[1..], before.equations[1..]);
    assert_eq!(checker.values[..2], [0, 0]);
    assert_eq!(checker.values[2..], before.values[2..]);
    assert_eq!(checker.marks[..2], [0, 0]);
    assert_eq!(checker.marks[2..], before.marks[2..]);
    assert_eq!(checker.moves, before.moves);
    assert!(worked(&checker));
}

#[test]
fn a_refused_batch_changes_nothing() {
    let mut checker = filled();
    checker.load(&G).unwrap();
    checker.batch(&changes(0, &[(8, 0, 0, 0)])).unwrap();
    let before = checker.clone();
    let mut out = [-7i64; 5];
    for (bytes, number, place) in [
        (changes(0, &[(8, 1, 0, 0)]), 11, 0),
        (changes(1, &[(8, 0, 0, 0)]), 7, 5),
        (changes(1, &[(9, 1, 0, 0)]), 8, 5),
        (changes(1, &[(8, 1, 0, 0), (9, 1, 0, 0)]), 9, 11),
        (changes(1, &[(8, 2, 0, 0)]), 4, 5),
        (vec![7, 1], 1, 0),
        (
            changes(1, &[(8, 0, 0, 1), (8, 1, 0, 0), (8, 1, 0, 1)]),
            0,
            0,
        ),
    ] {
        let mut tried = checker.clone();
        if number == 0 {
            tried.moves.truncate(3);
        }
        let rooms = tried.clone();
        let answer = ffi::batch(
            &mut tried.session,
            &bytes,
            &tried.labels,
            &tried.equations,
            &mut tried.values,
            &mut tried.marks,
            &mut tried.moves,
            &mut tried.index,
            &mut tried.queue,
            &mut out,
        );
        let number = if number == 0 { 10 } else { number };
        assert_eq!(told(answer), Err(Refusal { number, place }));
        assert_eq!(tried, rooms);
        assert_eq!(out, [-7; 5]);
    }
    assert_eq!(checker, before);
}

#[test]
fn an_accepted_batch_leaves_the_places_past_it() {
    let mut checker = filled();
    checker.load(&G).unwrap();
    checker.index[..G_INDEX].fill(0x8b8b);
    checker.queue[..G_QUEUE].fill(0x9c9c);
    let before = checker.clone();
    let mut out = [-7i64; 5];
    let bytes = changes(0, &[(8, 0, 0, 0), (8, 1, 0, 0)]);
    let answer = ffi::batch(
        &mut checker.session,
        &bytes,
        &checker.labels,
        &checker.equations,
        &mut checker.values,
        &mut checker.marks,
        &mut checker.moves,
        &mut checker.index,
        &mut checker.queue,
        &mut out,
    );
    assert_eq!(answer, 0);
    assert!(worked(&checker));
    assert_eq!(out[..3], [2, 0, 2]);
    assert_eq!(out[3..], [-7, -7]);
    assert_eq!(checker.session[..8], [2, 1, 0, 1, 1, 2, 65_539, 0]);
    assert_eq!(checker.session[8..], before.session[8..]);
    assert_eq!(
        (&checker.labels, &checker.equations),
        (&before.labels, &before.equations)
    );
    assert_eq!(checker.values[..2], [1, 1]);
    assert_eq!(checker.values[2..], before.values[2..]);
    assert_eq!(checker.marks[..2], [1, 1]);
    assert_eq!(checker.marks[2..], before.marks[2..]);
    assert_eq!(checker.moves[..2], [0, 65_536]);
    assert_eq!(checker.moves[2..], before.moves[2..]);
    checker.batch(&changes(65_539, &[(9, 0, 0, 0)])).unwrap();
    assert_eq!(checker.moves[..2], [65_536, 0]);
    assert_eq!(checker.moves[2..], before.moves[2..]);
}

#[test]
fn a_short_room_is_13_before_all_else() {
    let mut checker = loaded();
    let short = 13;
    let mut out = [-7i64; 3];
    for n in 0..SESSION {
        let mut session = checker.session[..n].to_vec();
        let mut rooms = filled();
        assert_eq!(
            ffi::load(
                &[],
                &mut session,
                &mut rooms.labels,
                &mut rooms.equations,
                &mut rooms.values,
                &mut rooms.marks,
                &mut rooms.moves,
                &mut rooms.index,
                &mut rooms.queue
            ),
            short
        );
        assert_eq!(
            ffi::batch(
                &mut session,
                &[],
                &rooms.labels,
                &rooms.equations,
                &mut rooms.values,
                &mut rooms.marks,
                &mut rooms.moves,
                &mut rooms.index,
                &mut rooms.queue,
                &mut out
            ),
            short
        );
        assert_eq!(
            ffi::write(
                &session,
                &rooms.labels,
                &rooms.equations,
                &rooms.values,
                &rooms.marks,
                &rooms.moves,
                &mut []
            ),
            short
        );
        assert_eq!(ffi::ask(&session, &[], 9, 9), short);
        assert_eq!(session, checker.session[..n]);
        assert_eq!(rooms, filled());
        assert_eq!(out, [-7; 3]);
    }
    let before = checker.clone();
    let bytes = changes(0, &[(8, 0, 0, 0)]);
    for n in 0..REPORT {
        let answer = ffi::batch(
            &mut checker.session,
            &bytes,
            &checker.labels,
            &checker.equations,
            &mut checker.values,
            &mut checker.marks,
            &mut checker.moves,
            &mut checker.index,
            &mut checker.queue,
            &mut out[..n],
        );
        assert_eq!(answer, short);
    }
    assert_eq!(checker, before);
    assert_eq!(out, [-7; 3]);
    let mut narrow = Checker::with_rooms(Lengths {
        values: 1,
        ..Lengths::MOST
    });
    assert_eq!(
        narrow.load(&G),
        Err(Refusal {
            number: 13,
            place: 0
        })
    );
    assert_eq!(
        before.write_into(&mut [0; 14]),
        Err(Refusal {
            number: 13,
            place: 0
        })
    );
}

#[test]
fn a_short_room_to_work_in_is_13() {
    let short = Refusal {
        number: 13,
        place: 0,
    };
    for (index, queue) in [(G_INDEX - 1, G_QUEUE), (G_INDEX, G_QUEUE - 1), (0, 0)] {
        let mut checker = filled();
        checker.index.truncate(index);
        checker.queue.truncate(queue);
        let before = checker.clone();
        assert_eq!(checker.load(&G), Err(short));
        assert_eq!(checker, before);
        let mut checker = filled();
        checker.load(&G).unwrap();
        checker.index.truncate(index);
        checker.queue.truncate(queue);
        let before = checker.clone();
        assert_eq!(checker.batch(&changes(0, &[(8, 0, 0, 0)])), Err(short));
        assert_eq!(checker, before);
        assert_eq!(checker.write().unwrap(), G);
        assert_eq!(checker.ask(State(0), Variable(0)), Ok(false));
    }
    let mut checker = filled();
    checker.index.truncate(G_INDEX);
    checker.queue.truncate(G_QUEUE);
    checker.load(&G).unwrap();
    assert_eq!(checker.batch(&changes(0, &[(8, 0, 0, 0)])), report(1, 0, 1));
}

/// Rooms that G just fits, and those of two models with more actions and more variables than G has.
#[test]
fn rooms_to_work_in_follow_from_the_others() {
    let lengths = |labels, equations, moves| Lengths {
        labels,
        equations,
        values: labels * equations,
        marks: labels * equations,
        moves,
    };
    let mut wide = G;
    wide[3] = 16;
    for (rooms, model) in [
        (lengths(2, 1, 0), &G[..]),
        (lengths(2, 1, 2_000), &G),
        (lengths(2, 1, 0), &wide),
        (lengths(300, 40, 0), &wide),
        (lengths(2, 5, 3), &with_signs(&RULES)),
    ] {
        let mut checker = Checker::with_rooms(rooms);
        checker.load(model).unwrap();
        checker.batch(&changes(0, &[])).unwrap();
        assert_eq!(checker.write().unwrap(), model);
    }
}

#[test]
fn a_number_too_large_for_its_kind_is_12() {
    let checker = loaded();
    let not_a_model = Err(Refusal {
        number: 12,
        place: 0,
    });
    for at in 0..5 {
        for add in [1 << 8, 1 << 16, 1 << 24, u32::MAX - 255] {
            let mut tried = checker.clone();
            tried.session[at] += add;
            if at == 0 && add == 256 {
                tried.session[at] = 257;
            }
            assert_eq!(tried.ask(State(0), Variable(0)), not_a_model);
            assert_eq!(
                tried.write(),
                Err(Refusal {
                    number: 12,
                    place: 0
                })
            );
            assert_eq!(
                tried.batch(&changes(0, &[])),
                Err(Refusal {
                    number: 12,
                    place: 0
                })
            );
        }
    }
}

#[test]
fn a_question_is_refused_by_its_numbers_and_its_byte() {
    let mut checker = loaded();
    assert_eq!(
        checker.ask(State(2), Variable(0)),
        Err(Refusal {
            number: 4,
            place: 0
        })
    );
    assert_eq!(
        checker.ask(State(0), Variable(1)),
        Err(Refusal {
            number: 4,
            place: 0
        })
    );
    checker.values[1] = 2;
    assert_eq!(
        checker.ask(State(1), Variable(0)),
        Err(Refusal {
            number: 12,
            place: 0
        })
    );
    assert_eq!(checker.ask(State(0), Variable(0)), Ok(false));
}

/// A model of two states, one action, one proposition, which holds at state 1, and no move: each equation is sign, operator,
/// first, second.
fn with_signs(equations: &[[u8; 4]]) -> Vec<u8> {
    let mut bytes = vec![1, 2, 0, 1, 1, equations.len() as u8, 0];
    bytes.extend([2, 1, 0, 1, 0, 0, 0]);
    for parts in equations {
        bytes.push(11);
        bytes.extend(parts);
    }
    bytes.push(6);
    bytes
}

/// X0 = X1 and X3, greatest; X1 = X2 or X4 and X2 = diamond 0 X1, least; X3 = box 0 X0, greatest; X4 = proposition 0, least.
const RULES: [[u8; 4]; 5] = [
    [1, 5, 1, 3],
    [0, 4, 2, 4],
    [0, 6, 0, 1],
    [1, 7, 0, 0],
    [0, 2, 0, 0],
];

#[test]
fn a_with_a_sign() {
    let mut checker = Checker::new();
    checker.load(&SIGNED_G).unwrap();
    assert_eq!(checker.session, [2, 1, 0, 1, 0, 0, 0, 0]);
    assert_eq!(checker.equations[0], 6 + (1 << 24));
    assert_eq!(checker.batch(&changes(0, &[(8, 0, 0, 0)])), report(1, 0, 1));
    assert_eq!((checker.marks(), checker.stamp()), (&[1, 0][..], 1));
    assert_eq!(checker.ask(State(0), Variable(0)), Ok(true));
    let mut written = SIGNED_G.to_vec();
    written.splice(12..12, [5, 0, 0, 0, 0, 0]);
    assert_eq!(checker.write().unwrap(), written);
}

#[test]
fn components_stand_for_blocks() {
    let mut checker = Checker::new();
    checker.load(&with_signs(&RULES)).unwrap();
    assert_eq!(checker.write().unwrap(), with_signs(&RULES));
    let tops: Vec<u32> = checker.equations[..5].iter().map(|w| w >> 24).collect();
    assert_eq!(tops, [5, 2, 2, 5, 0]);
    let holds = |checker: &Checker, x| [0, 1].map(|s| checker.ask(State(s), Variable(x)).unwrap());
    assert_eq!(holds(&checker, 0), [false, true]);
    checker.batch(&changes(0, &[(8, 0, 0, 1)])).unwrap();
    assert_eq!(holds(&checker, 0), [true, true]);
    assert_eq!(holds(&checker, 2), [true, false]);
    let mut again = Checker::new();
    again.load(&checker.write().unwrap()).unwrap();
    assert_eq!(again.values, checker.values);
}

#[test]
fn signs_that_load_refuses() {
    let mut checker = filled();
    let before = checker.clone();
    let mut mixed = RULES;
    mixed[3][0] = 0;
    let mut unknown = RULES;
    unknown[4][0] = 2;
    let mut block = SIGNED_G.to_vec();
    block.splice(7..12, G[7..14].iter().copied());
    let mut sign = G.to_vec();
    sign.splice(7..14, SIGNED_G[7..12].iter().copied());
    for (bytes, number, place) in [
        (with_signs(&mixed), 5, 14),
        (with_signs(&unknown), 4, 34),
        (block, 2, 7),
        (sign, 2, 7),
    ] {
        let mut tried = Checker::new();
        assert_eq!(tried.load(&bytes), Err(Refusal { number, place }));
        assert_eq!(tried, Checker::new());
    }
    assert!(checker.load(&SIGNED_G).is_ok());
    assert_eq!(checker.labels[2..], before.labels[2..]);
    checker.equations[0] += 2 << 24;
    assert_eq!(
        checker.write(),
        Err(Refusal {
            number: 12,
            place: 0
        })
    );
}

/// G, or G with a sign, live and with these moves.
fn live(model: &[u8], moves: &[(u16, u8, u16)]) -> Vec<u8> {
    let (end, rest) = model.split_last().unwrap();
    let mut bytes = [&rest[..7], &[10], &rest[7..]].concat();
    for &(source, action, target) in moves {
        bytes.push(5);
        bytes.extend(source.to_le_bytes());
        bytes.push(action);
        bytes.extend(target.to_le_bytes());
    }
    bytes.push(*end);
    bytes
}

const LOOPS: [(u16, u8, u16); 2] = [(0, 0, 0), (1, 0, 0)];

#[test]
fn a_live_model_loads_and_is_written_again() {
    for model in [&G[..], &SIGNED_G] {
        let bytes = live(model, &LOOPS);
        let mut checker = Checker::new();
        assert!(!checker.is_live());
        checker.load(&bytes).unwrap();
        assert!(checker.is_live());
        assert_eq!(checker.session[5..], [2, 65_539, 1]);
        assert_eq!(checker.ask(State(1), Variable(0)), Ok(true));
        assert_eq!(checker.write().unwrap(), bytes);
        checker.load(model).unwrap();
        assert!(!checker.is_live());
    }
}

#[test]
fn a_live_model_that_hangs_is_16_at_its_end_record() {
    for model in [&G[..], &SIGNED_G] {
        let before = filled();
        for moves in [&LOOPS[..0], &LOOPS[..1], &LOOPS[1..]] {
            let bytes = live(model, moves);
            let place = bytes.len() as u32 - 1;
            let more = [&bytes[..], &[0]].concat();
            for bytes in [bytes, more] {
                let mut checker = before.clone();
                let hangs = Err(Refusal { number: 16, place });
                assert_eq!(checker.load(&bytes), hangs);
                assert_eq!(checker, before);
            }
        }
    }
}

#[test]
fn a_batch_may_move_a_last_move_and_not_take_it() {
    for model in [&G[..], &SIGNED_G] {
        let mut checker = Checker::new();
        checker.load(&live(model, &LOOPS)).unwrap();
        let before = checker.clone();
        let hangs = Err(Refusal {
            number: 16,
            place: 0,
        });
        let taken = [(9, 0, 0, 0)];
        let taken_elsewhere = [(9, 0, 0, 0), (8, 1, 0, 1)];
        for changed in [&taken[..], &taken_elsewhere] {
            assert_eq!(checker.batch(&changes(65_539, changed)), hangs);
            assert_eq!(checker, before);
        }
        let moved = changes(65_539, &[(9, 0, 0, 0), (8, 0, 0, 1)]);
        assert_eq!(checker.batch(&moved), report(0, 0, 0));
        assert_eq!(checker.session[5..], [2, 65_796, 1]);
        assert!(checker.is_live());
        let after = [(0, 0, 1), (1, 0, 0)];
        assert_eq!(checker.write().unwrap(), live(model, &after));
    }
}

#[test]
fn the_live_record_is_due_directly_after_the_sizes_only() {
    let not_due = |place| Refusal { number: 2, place };
    let good = live(&G, &LOOPS);
    for at in [0, 8, 11, 15, 27, 28] {
        let mut bytes = good.clone();
        bytes.insert(at, 10);
        assert_eq!(Checker::new().load(&bytes), Err(not_due(at as u32)));
    }
    let mut checker = Checker::new();
    checker.load(&good).unwrap();
    let mut batch = changes(65_539, &[]);
    batch.insert(5, 10);
    assert_eq!(checker.batch(&batch), Err(not_due(5)));
}

#[test]
fn a_lent_flag_is_0_or_1_and_true_of_the_moves() {
    let mut checker = loaded();
    let not_a_model = Refusal {
        number: 12,
        place: 0,
    };
    for flag in [1, 2, 256, 65_536, u32::MAX] {
        checker.session[7] = flag;
        assert_eq!(checker.write(), Err(not_a_model));
        assert_eq!(checker.batch(&changes(0, &[])), Err(not_a_model));
        assert_eq!(checker.ask(State(0), Variable(0)), Ok(false));
    }
    let mut checker = Checker::new();
    checker.load(&live(&G, &LOOPS)).unwrap();
    checker.session[7] = 2;
    checker.labels.truncate(1);
    assert_eq!(checker.write(), Err(not_a_model));
    checker.session[7] = 1;
    let short = Refusal {
        number: 13,
        place: 0,
    };
    assert_eq!(checker.write(), Err(short));
}
