//! Live models: each state has a move. All versions refuse what document 02 refuses and else give what they give the same model
//! without the flag.

mod common;

use common::{at_start, loaded_parts, refused, Sides, LONG};
use measure::answers::Refusal;
use measure::cases::{grid, live, made_live, maximal, rewritten, STRICT_RULE};

/// Two states, one action, X = diamond 0 X in a greatest block, live, with the moves (0,0,0) and (1,0,0).
const LOOPS: [u8; 28] = [
    1, 2, 0, 1, 0, 1, 1, 10, 3, 1, 1, 4, 6, 0, 0, 5, 0, 0, 0, 0, 0, 5, 1, 0, 0, 0, 0, 6,
];

/// A batch on the moves of LOOPS: 8 to insert and 9 to delete, with source and target.
fn batch(changes: &[[u8; 3]]) -> Vec<u8> {
    let mut bytes = vec![7, 3, 0, 1, 0];
    for [kind, source, target] in changes {
        bytes.extend([*kind, *source, 0, 0, *target, 0]);
    }
    bytes.push(6);
    bytes
}

#[test]
fn live_models_are_refused_as_document_02_says() {
    let mut sides = Sides::loaded(&LOOPS);
    assert_eq!(sides.rooms().session, [2, 1, 0, 1, 1, 2, 65_539, 1]);
    assert_eq!(sides.write(LONG).unwrap(), LOOPS);
    for lost in [15..21, 21..27, 15..27] {
        let mut hangs = LOOPS.to_vec();
        hangs.drain(lost);
        assert_eq!(refused(&hangs), Some((16, hangs.len() - 1)));
        hangs.push(0);
        assert_eq!(refused(&hangs), Some((16, hangs.len() - 2)));
        hangs.remove(7);
        assert_eq!(refused(&hangs), Some((2, hangs.len() - 1)));
    }
    for at in [0, 8, 11, 15, 27, 28] {
        let mut stray = LOOPS.to_vec();
        stray.insert(at, 10);
        assert_eq!(refused(&stray), Some((2, at)));
    }
    assert_eq!(refused(&LOOPS[..8]), Some((1, 8)));
}

#[test]
fn a_batch_may_move_a_last_move_and_not_take_it() {
    let mut sides = Sides::loaded(&LOOPS);
    let before = sides.rooms().clone();
    for taken in [
        &[[9, 0, 0]][..],
        &[[9, 1, 0], [8, 0, 1]],
        &[[9, 0, 0], [9, 1, 0]],
    ] {
        assert_eq!(sides.batch(&batch(taken)), at_start(16));
        assert_eq!(sides.rooms(), &before);
    }
    let mut stray = batch(&[[9, 0, 0]]);
    stray.insert(5, 10);
    let not_due = Refusal {
        number: 2,
        place: 5,
    };
    assert_eq!(sides.batch(&stray), Err(not_due));
    let moved = batch(&[[9, 0, 0], [8, 0, 1]]);
    sides.batch(&moved).unwrap();
    assert_eq!(sides.rooms().session[5..], [2, 65_796, 1]);
}

#[test]
fn a_lent_flag_is_0_or_1_and_true_of_the_moves() {
    let mut sides = Sides::loaded(&LOOPS);
    sides.change(|rooms| rooms.session[5..7].fill(1));
    for flag in [1, 2, 256, u32::MAX] {
        sides.change(|rooms| rooms.session[7] = flag);
        assert_eq!(sides.write(LONG), at_start(12));
        assert_eq!(sides.batch(&batch(&[])), at_start(12));
        assert_eq!(sides.ask(0, 0), Ok(true));
    }
    sides.change(|rooms| rooms.session[7] = 0);
    assert_eq!(sides.write(LONG).unwrap().len(), 21);
}

/// A stream of the generator whose model loads and is not live, cut into its parts.
fn not_live(seed: u64) -> Option<Vec<Vec<u8>>> {
    loaded_parts(seed, |rooms| !rooms.is_live())
}

#[test]
fn the_flag_changes_nothing_but_refusals() {
    let (mut hung, mut batches) = (0, 0);
    for parts in (0..600).filter_map(not_live) {
        let (mut plain, mut flagged) = (Sides::loaded(&parts[0]), Sides::new());
        if flagged.load(&made_live(&parts[0])).is_err() {
            hung += 1;
            continue;
        }
        for batch in &parts[1..] {
            let before = flagged.rooms().clone();
            let answer = flagged.batch(batch);
            if answer == at_start(16) {
                assert_eq!(flagged.rooms(), &before);
                break;
            }
            assert_eq!(answer, plain.batch(batch));
            let (flagged, plain) = (flagged.rooms(), plain.rooms());
            assert_eq!(flagged.session[..7], plain.session[..7]);
            assert_eq!((flagged.session[7], plain.session[7]), (1, 0));
            assert_eq!(flagged.values, plain.values);
            assert_eq!(flagged.marks, plain.marks);
            assert_eq!(flagged.moves, plain.moves);
            batches += 1;
        }
    }
    assert!(hung > 50 && batches > 50, "{hung} hung, {batches} batches");
}

#[test]
fn live_models_in_either_style_are_written_again() {
    let streams = (0..600).filter_map(not_live);
    let flagged = streams.map(|mut parts| {
        parts[0] = made_live(&parts[0]);
        parts
    });
    let timed = [live(&grid(16, &STRICT_RULE)), live(&maximal())].map(|case| {
        let single = case.changes(&case.spread(1), &[]);
        vec![case.bytes, single.there, single.back]
    });
    for parts in flagged.chain(timed) {
        for model in [parts[0].clone(), rewritten(&parts[0])] {
            let mut sides = Sides::new();
            if sides.load(&model).is_err() {
                continue;
            }
            for batch in &parts[1..] {
                let _ = sides.batch(batch);
            }
            assert_eq!(sides.write(LONG).unwrap()[7], 10);
        }
    }
}
