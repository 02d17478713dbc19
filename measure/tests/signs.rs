//! Models with a sign on each equation in place of blocks: all versions give them the values of the same drawing with blocks,
//! and refuse what document 02 refuses.

mod common;

use common::{at_start, loaded_parts, refused, Sides, LONG};
use measure::answers::Report;
use measure::cases::{crowded, eight, maximal, rewritten};

/// Two states, one action, one greatest variable: model G of document 01 without its block.
const G: [u8; 13] = [1, 2, 0, 1, 0, 1, 0, 11, 1, 6, 0, 0, 6];

/// A model of one state, one action, no proposition and no move with these equations: sign, operator, first, second.
fn model(equations: &[[u8; 4]]) -> Vec<u8> {
    let mut bytes = vec![1, 1, 0, 1, 0, equations.len() as u8, 0];
    for parts in equations {
        bytes.push(11);
        bytes.extend(parts);
    }
    bytes.push(6);
    bytes
}

/// A stream of the generator whose model has blocks and loads, cut into its parts.
fn with_blocks(seed: u64) -> Option<Vec<Vec<u8>>> {
    loaded_parts(seed, |rooms| rooms.session[4] != 0)
}

/// The largest models that are timed, with a batch and the way back.
fn timed() -> [Vec<Vec<u8>>; 3] {
    [maximal(), eight(), crowded()].map(|case| {
        let many = case.changes(&case.spread(32), &case.absent(32));
        vec![case.bytes, many.there, many.back]
    })
}

#[test]
fn the_same_drawing_has_the_same_values() {
    let mut batches = 0;
    for parts in (0..600).filter_map(with_blocks).chain(timed()) {
        let bytes = rewritten(&parts[0]);
        let mut blocks = Sides::loaded(&parts[0]);
        let mut signs = Sides::loaded(&bytes);
        assert_eq!(signs.write(LONG).unwrap(), bytes);
        assert_eq!(signs.rooms().values, blocks.rooms().values);
        for batch in &parts[1..] {
            let one = blocks.batch(batch).map(|r| r.net);
            assert_eq!(one, signs.batch(batch).map(|r| r.net));
            let (blocks, signs) = (blocks.rooms(), signs.rooms());
            assert_eq!(signs.values, blocks.values);
            assert_eq!(signs.moves, blocks.moves);
            assert_eq!(signs.session[5..], blocks.session[5..]);
            batches += 1;
        }
        signs.write(LONG).unwrap();
    }
    assert!(batches > 1_000);
}

#[test]
fn case_a_goes_as_with_a_block() {
    let mut sides = Sides::loaded(&G);
    assert_eq!(sides.rooms().session, [2, 1, 0, 1, 0, 0, 0, 0]);
    assert_eq!(sides.rooms().equations[0], 6 + (1 << 24));
    let batch = [7, 0, 0, 0, 0, 8, 0, 0, 0, 0, 0, 6];
    let report = Report {
        shift_visits: 1,
        settle_visits: 0,
        net: 1,
    };
    assert_eq!(sides.batch(&batch), Ok(report));
    assert_eq!(sides.rooms().values[..2], [1, 0]);
    assert_eq!(sides.rooms().marks[..2], [1, 0]);
    assert_eq!(sides.write(LONG).unwrap().len(), 19);
}

#[test]
fn components_are_numbered_by_what_they_lead_to() {
    // X0 names X1 and X3, X1 and X2 name each other, X3 names nothing: they reach 1111, 0110, 0110 and 1000.
    let equations = [[1, 4, 1, 3], [0, 6, 0, 2], [0, 7, 0, 1], [1, 0, 0, 0]];
    let sides = Sides::loaded(&model(&equations));
    let words = &sides.rooms().equations[..4];
    let tops: Vec<u32> = words.iter().map(|word| word >> 24).collect();
    assert_eq!(tops, [2 * 2 + 1, 0, 0, 2 + 1]);
    for x in 0..4 {
        let mut spoiled = sides.clone();
        spoiled.change(|rooms| rooms.equations[x] ^= 2 << 24);
        assert_eq!(spoiled.write(LONG), at_start(12));
    }
}

#[test]
fn signs_are_refused_as_document_02_says() {
    let (least, greatest) = ([0, 6, 0, 2], [1, 6, 0, 1]);
    let constant = [0, 1, 0, 0];
    assert_eq!(refused(&model(&[constant, least, greatest])), Some((5, 12)));
    // X0 lies on no simple closed chain with both signs: it goes through X1 twice.
    let beside = [[0, 4, 1, 1], [0, 4, 0, 2], [1, 4, 1, 1]];
    assert_eq!(refused(&model(&beside)), Some((5, 7)));
    assert_eq!(refused(&model(&[[0, 4, 1, 1], [1, 1, 0, 0]])), None);
    assert_eq!(refused(&model(&[[2, 1, 0, 0]])), Some((4, 7)));
    assert_eq!(refused(&model(&[constant, [0, 8, 0, 0]])), Some((4, 12)));
    assert_eq!(refused(&model(&[[0, 6, 0, 1]])), Some((4, 7)));
    let mut tangled = model(&[constant, least, greatest]);
    tangled.truncate(22);
    assert_eq!(refused(&tangled), Some((5, 12)));
    tangled.truncate(21);
    assert_eq!(refused(&tangled), Some((1, 17)));
    let mut block = G.to_vec();
    block.splice(7..12, [3, 1, 1]);
    assert_eq!(refused(&block), Some((2, 7)));
    let mut sign = G.to_vec();
    sign[6] = 1;
    assert_eq!(refused(&sign), Some((2, 7)));
}
