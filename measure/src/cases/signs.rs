//! A model with a sign on each equation in place of its blocks.

use super::Case;
use reference::records::body_length;
use reference::Sizes;

/// The same drawing and the same rules without blocks.
pub fn signs(case: &Case) -> Case {
    Case {
        name: format!("{}, signs", case.name),
        bytes: rewritten(&case.bytes),
        moves: case.moves.clone(),
        sizes: Sizes {
            blocks: 0,
            ..case.sizes
        },
    }
}

/// The bytes of a good model with blocks, each equation with its block's sign in front and the blocks left out.
pub fn rewritten(bytes: &[u8]) -> Vec<u8> {
    let mut out = Vec::new();
    let (mut at, mut sign) = (0, 0);
    while let Some(kind) = bytes.get(at) {
        let body = &bytes[at + 1..][..body_length(*kind).unwrap()];
        at += 1 + body.len();
        match kind {
            1 => out.extend([&[1], &body[..5], &[0]].concat()),
            3 => sign = body[0],
            4 => out.extend([&[11, sign], body].concat()),
            _ => out.extend([&[*kind], body].concat()),
        }
    }
    out
}
