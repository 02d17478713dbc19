//! Rooms cut short and sessions damaged, each in one way.

use reference::components::components;
use reference::random::Random;
use reference::stamp;

use crate::mirror::{equation_in, move_in, sizes_in};
use crate::rooms::{Needs, Rooms, BLOCKS, LIVE, MOVES, REPORT, SESSION, STAMP};

/// One way to cut a room short or to damage a session.
#[derive(Clone, Copy, Debug, PartialEq, Eq)]
pub enum Damage {
    /// A room is one place shorter than needed, or now and then shorter still.
    ShortSession,
    ShortReport,
    ShortLabels,
    ShortEquations,
    ShortValues,
    ShortMarks,
    ShortIndex,
    ShortQueue,
    /// The move room is shorter than the moves.
    ShortMoves,
    /// The move room has no place, or few, past the moves.
    TightMoves,
    /// A value 2 or more, a mark 4 or more.
    Value,
    Mark,
    /// A stamp off by a little.
    Stamp,
    /// A move count off by one, over the room, or over the most.
    MoveCount,
    /// A size just outside its limits, off by one, or a number of the session too large for its kind by a power of 256.
    Size,
    WideSize,
    /// A flag over 1.
    Flag,
    /// The other flag, so that a session with states that have no move may get it.
    Live,
    /// A live session without the moves of one state, with the stamp that belongs to what is there then.
    Hanging,
    /// A bit of a label, of an equation or of a move.
    Label,
    Equation,
    Move,
    /// Two moves changed over, or one twice.
    MoveOrder,
    /// A byte of an equation that may well leave a model, and a block or a component of the other kind.
    EquationByte,
    BlockKind,
    /// The stored number of a component off, or two of them changed over.
    Component,
    /// The other sign on one equation.
    Sign,
    /// The other style in the sizes: 0 blocks or some; now and then with the components that belong to it.
    Style,
    /// A move one off, a move more or less, with the stamp that belongs to what is there then.
    Restamped,
    /// Values and marks that are no solution, but in range: not a damage for document 01.
    OtherValues,
    /// Any number at any place of the session.
    AnyNumber,
}

use Damage::*;

/// All ways.
pub const DAMAGES: [Damage; 31] = [
    ShortSession,
    ShortReport,
    ShortLabels,
    ShortEquations,
    ShortValues,
    ShortMarks,
    ShortIndex,
    ShortQueue,
    ShortMoves,
    TightMoves,
    Value,
    Mark,
    Stamp,
    MoveCount,
    Size,
    WideSize,
    Flag,
    Live,
    Hanging,
    Label,
    Equation,
    Move,
    MoveOrder,
    EquationByte,
    BlockKind,
    Component,
    Sign,
    Style,
    Restamped,
    OtherValues,
    AnyNumber,
];

/// Does one damage to rooms that need to be so long.
pub fn damage(way: Damage, rooms: &mut Rooms, needs: Needs, random: &mut Random) {
    match way {
        ShortSession => shorten(&mut rooms.session, SESSION, random),
        ShortReport => shorten(&mut rooms.report, REPORT, random),
        ShortLabels => shorten(&mut rooms.labels, needs.labels, random),
        ShortEquations => shorten(&mut rooms.equations, needs.equations, random),
        ShortValues => shorten(&mut rooms.values, needs.pairs, random),
        ShortMarks => shorten(&mut rooms.marks, needs.pairs, random),
        ShortIndex => shorten(&mut rooms.index, needs.index(rooms.moves.len()), random),
        ShortQueue => shorten(&mut rooms.queue, needs.queue(), random),
        ShortMoves => shorten(&mut rooms.moves, needs.moves, random),
        TightMoves => rooms.moves.truncate(needs.moves + random.below(3)),
        Value => put_byte(&mut rooms.values, needs.pairs, &[2, 2, 3, 128, 255], random),
        Mark => put_byte(&mut rooms.marks, needs.pairs, &[4, 4, 5, 128, 255], random),
        Stamp => add(
            &mut rooms.session,
            STAMP,
            &[1, u32::MAX, 256, 1 << 31],
            random,
        ),
        MoveCount => put_move_count(rooms, random),
        Size => put_size(&mut rooms.session, random),
        WideSize => add(
            &mut rooms.session,
            random.pick(&[0, 1, 2, 3, 4, MOVES, LIVE]),
            &[1 << 8, 1 << 16, 1 << 24],
            random,
        ),
        Flag => put_flag(
            &mut rooms.session,
            &[2, 3, 255, 256, 1 << 16, u32::MAX],
            random,
        ),
        Live => turn_flag(&mut rooms.session),
        Hanging => hang(rooms, needs.moves, random),
        Label => flip(&mut rooms.labels, needs.labels, random),
        Equation => flip(&mut rooms.equations, needs.equations, random),
        Move => flip(&mut rooms.moves, needs.moves, random),
        MoveOrder => disorder(&mut rooms.moves, needs.moves, random),
        EquationByte => put_equation_byte(&mut rooms.equations, needs.equations, random),
        BlockKind => turn_block(&mut rooms.equations, needs.equations, random),
        Component => spoil_component(&mut rooms.equations, needs.equations, random),
        Sign => turn_sign(&mut rooms.equations, needs.equations, random),
        Style => turn_style(rooms, needs.equations, random),
        Restamped => restamp(rooms, needs.moves, random),
        OtherValues => other_values(rooms, needs.pairs, random),
        AnyNumber => put_any(&mut rooms.session, random),
    }
}

/// Cuts a room to one place less than needed, now and then to any length below that.
fn shorten<T>(room: &mut Vec<T>, needed: usize, random: &mut Random) {
    let most = needed.saturating_sub(1);
    let length = if random.chance(75) {
        most
    } else {
        random.below(most + 1)
    };
    room.truncate(length);
}

/// A place of a room among the first `used`, if there is one.
fn place<T>(room: &[T], used: usize, random: &mut Random) -> Option<usize> {
    let used = used.min(room.len());
    (used > 0).then(|| random.below(used))
}

/// Puts one of the choices at a place in use, now and then at the last one or right behind it.
fn put_byte(room: &mut [u8], used: usize, choices: &[u8], random: &mut Random) {
    let at = match random.below(4) {
        0 => Some(used.saturating_sub(1)),
        1 => Some(used),
        _ => place(room, used, random),
    };
    if let Some(byte) = at.and_then(|at| room.get_mut(at)) {
        *byte = random.pick(choices);
    }
}

/// Adds one of the choices to a number, wrapping.
fn add(session: &mut [u32], at: usize, choices: &[u32], random: &mut Random) {
    if let Some(number) = session.get_mut(at) {
        *number = number.wrapping_add(random.pick(choices));
    }
}

/// Puts another move count.
fn put_move_count(rooms: &mut Rooms, random: &mut Random) {
    let room = rooms.moves.len() as u32;
    let count = rooms.session.get(MOVES).copied().unwrap_or(0);
    let choices = [
        room,
        room + 1,
        1_024,
        1_025,
        count.wrapping_add(1),
        count.wrapping_sub(1),
        u32::MAX,
        65_536,
        65_536 + count.min(1_024),
    ];
    if let Some(number) = rooms.session.get_mut(MOVES) {
        *number = random.pick(&choices);
    }
}

/// Puts a size at, just past or just before one of its limits, or off by one.
fn put_size(session: &mut [u32], random: &mut Random) {
    const MOST: [u32; 5] = [256, 16, 32, 32, 8];
    let at = random.below(MOST.len());
    if let Some(number) = session.get_mut(at) {
        let off = [number.wrapping_add(1), number.wrapping_sub(1)];
        *number = random.pick(&[0, 1, MOST[at], MOST[at] + 1, off[0], off[1]]);
    }
}

/// Puts one of the choices as the flag.
fn put_flag(session: &mut [u32], choices: &[u32], random: &mut Random) {
    if let Some(flag) = session.get_mut(LIVE) {
        *flag = random.pick(choices);
    }
}

/// Makes a live session one that is not, and one that is not a live one.
fn turn_flag(session: &mut [u32]) {
    if let Some(flag) = session.get_mut(LIVE) {
        *flag = u32::from(*flag != 1);
    }
}

/// Takes all moves of one move's state away, puts the count and the stamp of the others, and the flag.
fn hang(rooms: &mut Rooms, used: usize, random: &mut Random) {
    let used = used.min(rooms.moves.len());
    let Some(at) = place(&rooms.moves, used, random) else {
        return;
    };
    let state = move_in(rooms.moves[at]).source;
    let own = |word: &u32| move_in(*word).source == state;
    let others: Vec<u32> = rooms.moves[..used]
        .iter()
        .filter(|word| !own(word))
        .copied()
        .collect();
    rooms.moves[..others.len()].copy_from_slice(&others);
    if let Some(count) = rooms.session.get_mut(MOVES) {
        *count = others.len() as u32;
    }
    put_stamp(rooms);
    put_flag(&mut rooms.session, &[1], random);
}

/// Changes one bit of a word in use.
fn flip(room: &mut [u32], used: usize, random: &mut Random) {
    if let Some(at) = place(room, used, random) {
        room[at] ^= 1 << random.below(32);
    }
}

/// Changes two moves over, or puts one twice.
fn disorder(moves: &mut [u32], used: usize, random: &mut Random) {
    let Some(at) = place(moves, used, random) else {
        return;
    };
    let other = (at + 1) % used.min(moves.len());
    if random.chance(50) {
        moves.swap(at, other);
    } else {
        moves[at] = moves[other];
    }
}

/// Puts a small number, or the next equation's byte, at one byte of an equation.
fn put_equation_byte(equations: &mut [u32], used: usize, random: &mut Random) {
    let Some(at) = place(equations, used, random) else {
        return;
    };
    let next = equations[(at + 1) % used.min(equations.len())].to_le_bytes();
    let mut bytes = equations[at].to_le_bytes();
    let which = random.below(4);
    let small = random.byte() & 7;
    bytes[which] = random.pick(&[next[which], small, bytes[which] ^ 1]);
    equations[at] = u32::from_le_bytes(bytes);
}

/// Gives one block or component the other kind.
fn turn_block(equations: &mut [u32], used: usize, random: &mut Random) {
    let Some(at) = place(equations, used, random) else {
        return;
    };
    let block = equations[at] >> 25;
    for word in equations.iter_mut().take(used) {
        if *word >> 25 == block {
            *word ^= 1 << 24;
        }
    }
}

/// Puts the number of a block or component into an equation's word.
fn put_group(word: &mut u32, number: u32) {
    *word = *word & 0x01ff_ffff | number << 25;
}

/// Spoils the stored number of one variable's component, or changes the numbers of two components over.
fn spoil_component(equations: &mut [u32], used: usize, random: &mut Random) {
    let used = used.min(equations.len());
    let (Some(at), Some(other)) = (
        place(equations, used, random),
        place(equations, used, random),
    ) else {
        return;
    };
    let (one, two) = (equations[at] >> 25, equations[other] >> 25);
    let off = [one + 1, one.wrapping_sub(1), two, random.below(128) as u32];
    if random.chance(60) {
        return put_group(&mut equations[at], random.pick(&off));
    }
    for word in equations.iter_mut().take(used) {
        match *word >> 25 {
            number if number == one => put_group(word, two),
            number if number == two => put_group(word, one),
            _ => {}
        }
    }
}

/// Gives one equation the other sign.
fn turn_sign(equations: &mut [u32], used: usize, random: &mut Random) {
    if let Some(at) = place(equations, used, random) {
        equations[at] ^= 1 << 24;
    }
}

/// Puts the other style into the sizes, every other time with the components that the equations have then.
fn turn_style(rooms: &mut Rooms, used: usize, random: &mut Random) {
    let used = used.min(rooms.equations.len());
    let words = &mut rooms.equations[..used];
    let groups = words.iter().map(|word| (word >> 25) + 1).max().unwrap_or(1);
    let any = random.between(1, 8) as u32;
    let Some(blocks) = rooms.session.get_mut(BLOCKS) else {
        return;
    };
    if *blocks == 0 {
        *blocks = random.pick(&[groups, 1, any]);
        return;
    }
    *blocks = 0;
    if random.chance(50) && rooms.session.len() >= SESSION {
        put_components(&rooms.session, words);
    }
}

/// Puts the right number of each variable's component, where all names are in range.
fn put_components(session: &[u32], words: &mut [u32]) {
    let sizes = sizes_in(session);
    let equations: Vec<_> = words.iter().map(|word| equation_in(*word)).collect();
    let whole = equations.len() == usize::from(sizes.variables);
    if whole
        && equations
            .iter()
            .all(|equation| sizes.holds_equation(*equation))
    {
        for (word, number) in words.iter_mut().zip(components(&equations)) {
            put_group(word, u32::from(number));
        }
    }
}

/// Changes a move or the move count by one, or the order of two moves, and puts the stamp of what is there then.
fn restamp(rooms: &mut Rooms, used: usize, random: &mut Random) {
    let step = random.pick(&[1, 1 << 10, 1 << 16]);
    match (random.below(4), place(&rooms.moves, used, random)) {
        (0, Some(at)) => rooms.moves[at] = rooms.moves[at].wrapping_add(step),
        (1, Some(at)) => rooms.moves[at] = rooms.moves[at].wrapping_sub(step),
        (2, _) => disorder(&mut rooms.moves, used, random),
        _ => add(&mut rooms.session, MOVES, &[1, u32::MAX], random),
    }
    put_stamp(rooms);
}

/// Puts the stamp of the moves that the session counts.
fn put_stamp(rooms: &mut Rooms) {
    let Some(&count) = rooms.session.get(MOVES) else {
        return;
    };
    let table = rooms.moves.iter().take(count as usize);
    let table: Vec<_> = table.map(|word| move_in(*word)).collect();
    if let Some(kept) = rooms.session.get_mut(STAMP) {
        *kept = stamp(&table);
    }
}

/// Puts other values and marks within their limits: a few, or all of them.
fn other_values(rooms: &mut Rooms, pairs: usize, random: &mut Random) {
    let share = random.pick(&[3, 30, 100]);
    for value in rooms.values.iter_mut().take(pairs) {
        if random.chance(share) {
            *value = random.byte() & 1;
        }
    }
    for mark in rooms.marks.iter_mut().take(pairs) {
        if random.chance(share) {
            *mark = random.byte() & 3;
        }
    }
}

/// Puts any number at any place of the session.
fn put_any(session: &mut [u32], random: &mut Random) {
    let any = random.bits() as u32 >> random.below(32);
    if let Some(at) = place(session, SESSION, random) {
        session[at] = any;
    }
}
