//! Makes one call of one version so many times: for a profiler, which takes the difference of two runs, so that whatever is
//! done once falls out.
//!
//! `repeat ours|ordinary|strong strict|mixed|maximal|crowded|halves|signs|live load|delete|insert|many|write TIMES`
//!
//! With `spell` in place of the version it makes no call, and writes each one out, with the rooms that it starts from, as
//! embed/small/calls.c reads them: so the same calls can be made on another machine.

use measure::cases::{
    crowded, grid, halves, live, maximal, signs, Case, ThereAndBack, MIXED_RULE, STRICT_RULE,
};
use measure::rooms::Rooms;
use measure::sides::Side;
use std::io::Write;

/// The model of a name.
fn case_named(name: &str) -> Case {
    match name {
        "strict" => grid(16, &STRICT_RULE),
        "mixed" => grid(16, &MIXED_RULE),
        "maximal" => maximal(),
        "crowded" => crowded(),
        "halves" => halves(),
        "signs" => signs(&maximal()),
        "live" => live(&grid(16, &STRICT_RULE)),
        _ => panic!("strict, mixed, maximal, crowded, halves, signs or live"),
    }
}

/// A call that can be made again and again: the rooms that it starts from, and its bytes.
struct Call {
    rooms: Rooms,
    bytes: Vec<u8>,
}

/// The calls of a name, one for each of 32 moves. What comes before them is done by the ordinary version, so that only the
/// calls themselves are calls of another.
fn calls(case: &Case, name: &str) -> Vec<Call> {
    let mut rooms = Rooms::most();
    Side::Ordinary.load(&case.bytes, &mut rooms).unwrap();
    let moves = case.spread(32);
    let many = case.changes(&moves, &case.absent(32));
    let singles = moves.iter().map(|m| case.changes(&[*m], &[]));
    let call = |one: ThereAndBack| {
        let mut rooms = rooms.clone();
        let bytes = match name {
            "load" | "write" => case.bytes.clone(),
            "delete" => one.there,
            "insert" => {
                Side::Ordinary.batch(&one.there, &mut rooms).unwrap();
                one.back
            }
            "many" => many.there.clone(),
            _ => panic!("load, delete, insert, many or write"),
        };
        Call { rooms, bytes }
    };
    singles.map(call).collect()
}

/// A call and its rooms, as embed/small/calls.c reads them.
fn spell(call: &Call, name: &str) -> Vec<u8> {
    let Call { rooms, bytes } = call;
    let wide = |room: &[u32]| -> Vec<u8> { room.iter().flat_map(|n| n.to_le_bytes()).collect() };
    let half = |room: &[u16]| -> Vec<u8> { room.iter().flat_map(|n| n.to_le_bytes()).collect() };
    let kind = match name {
        "load" => 0,
        "delete" | "insert" | "many" => 1,
        _ => panic!("only loads and batches can be spelled"),
    };
    [
        wide(&rooms.session),
        wide(&rooms.labels),
        wide(&rooms.equations),
        rooms.values.clone(),
        rooms.marks.clone(),
        wide(&rooms.moves),
        half(&rooms.work.index),
        half(&rooms.work.queue),
        wide(&[kind, bytes.len() as u32]),
        bytes.clone(),
    ]
    .concat()
}

/// The version of a name, or none for `spell`.
fn side_named(name: &str) -> Option<Side> {
    match name {
        "ours" => Some(Side::Ours),
        "ordinary" => Some(Side::Ordinary),
        "strong" => Some(Side::Strong),
        "spell" => None,
        _ => panic!("ours, ordinary, strong or spell"),
    }
}

/// Takes its words from the command line.
fn main() {
    let words: Vec<String> = std::env::args().collect();
    let [_, side, model, name, times] = &words[..] else {
        panic!("repeat SIDE MODEL CALL TIMES");
    };
    let side = side_named(side);
    let calls = calls(&case_named(model), name);
    for i in 0..times.parse().expect("a number") {
        let call = &calls[i % calls.len()];
        let Some(side) = side else {
            std::io::stdout().write_all(&spell(call, name)).unwrap();
            continue;
        };
        let mut rooms = call.rooms.clone();
        match name.as_str() {
            "load" => side.load(&call.bytes, &mut rooms).unwrap(),
            "write" => drop(side.write(&rooms, &mut [0; 9_000]).unwrap()),
            _ => drop(side.batch(&call.bytes, &mut rooms).unwrap()),
        }
    }
}
