//! The four calls as the static library exports them, each behind a safe function over slices. Nothing else in this crate is
//! unsafe.
//!
//! What the calls ask of a caller is what a Rust slice is: a pointer that is not null and is aligned, also where the slice is
//! empty, so many elements behind it, all written, and nobody else at a `&mut` slice. For any such slices each call ends and
//! its answer and what it leaves are proved, so the functions here have no conditions of their own.
//!
//! A length has 64 bits on every machine, also where `usize` has 32, because the compiled code has one width of length for all
//! machines. `as u64` loses nothing: no `usize` is wider.

mod raw {
    extern "C" {
        pub fn huepaxochi_load(
            bytes: *const u8,
            bytes_len: u64,
            session: *mut u32,
            session_len: u64,
            labels: *mut u32,
            labels_len: u64,
            equations: *mut u32,
            equations_len: u64,
            values: *mut u8,
            values_len: u64,
            marks: *mut u8,
            marks_len: u64,
            moves: *mut u32,
            moves_len: u64,
            index: *mut u16,
            index_len: u64,
            queue: *mut u16,
            queue_len: u64,
        ) -> u64;
        pub fn huepaxochi_batch(
            session: *mut u32,
            session_len: u64,
            bytes: *const u8,
            bytes_len: u64,
            labels: *const u32,
            labels_len: u64,
            equations: *const u32,
            equations_len: u64,
            values: *mut u8,
            values_len: u64,
            marks: *mut u8,
            marks_len: u64,
            moves: *mut u32,
            moves_len: u64,
            index: *mut u16,
            index_len: u64,
            queue: *mut u16,
            queue_len: u64,
            report: *mut i64,
            report_len: u64,
        ) -> u64;
        pub fn huepaxochi_write(
            session: *const u32,
            session_len: u64,
            labels: *const u32,
            labels_len: u64,
            equations: *const u32,
            equations_len: u64,
            values: *const u8,
            values_len: u64,
            marks: *const u8,
            marks_len: u64,
            moves: *const u32,
            moves_len: u64,
            out: *mut u8,
            out_len: u64,
        ) -> u64;
        pub fn huepaxochi_ask(
            session: *const u32,
            session_len: u64,
            values: *const u8,
            values_len: u64,
            state: u16,
            variable: u8,
        ) -> u64;
    }
}

/// Reads a model into the rooms. The last two are rooms to work in.
#[allow(clippy::too_many_arguments)]
pub fn load(
    bytes: &[u8],
    session: &mut [u32],
    labels: &mut [u32],
    equations: &mut [u32],
    values: &mut [u8],
    marks: &mut [u8],
    moves: &mut [u32],
    index: &mut [u16],
    queue: &mut [u16],
) -> u64 {
    // SAFETY: each pointer and length come from one slice, and the borrows keep the slices apart until the call is over.
    unsafe {
        raw::huepaxochi_load(
            bytes.as_ptr(),
            bytes.len() as u64,
            session.as_mut_ptr(),
            session.len() as u64,
            labels.as_mut_ptr(),
            labels.len() as u64,
            equations.as_mut_ptr(),
            equations.len() as u64,
            values.as_mut_ptr(),
            values.len() as u64,
            marks.as_mut_ptr(),
            marks.len() as u64,
            moves.as_mut_ptr(),
            moves.len() as u64,
            index.as_mut_ptr(),
            index.len() as u64,
            queue.as_mut_ptr(),
            queue.len() as u64,
        )
    }
}

/// Applies a batch to the rooms. The last two before the report are rooms to work in.
#[allow(clippy::too_many_arguments)]
pub fn batch(
    session: &mut [u32],
    bytes: &[u8],
    labels: &[u32],
    equations: &[u32],
    values: &mut [u8],
    marks: &mut [u8],
    moves: &mut [u32],
    index: &mut [u16],
    queue: &mut [u16],
    report: &mut [i64],
) -> u64 {
    // SAFETY: each pointer and length come from one slice, and the borrows keep those that are written apart from all others
    // until the call is over.
    unsafe {
        raw::huepaxochi_batch(
            session.as_mut_ptr(),
            session.len() as u64,
            bytes.as_ptr(),
            bytes.len() as u64,
            labels.as_ptr(),
            labels.len() as u64,
            equations.as_ptr(),
            equations.len() as u64,
            values.as_mut_ptr(),
            values.len() as u64,
            marks.as_mut_ptr(),
            marks.len() as u64,
            moves.as_mut_ptr(),
            moves.len() as u64,
            index.as_mut_ptr(),
            index.len() as u64,
            queue.as_mut_ptr(),
            queue.len() as u64,
            report.as_mut_ptr(),
            report.len() as u64,
        )
    }
}

/// Writes the model in the rooms into `out`.
pub fn write(
    session: &[u32],
    labels: &[u32],
    equations: &[u32],
    values: &[u8],
    marks: &[u8],
    moves: &[u32],
    out: &mut [u8],
) -> u64 {
    // SAFETY: each pointer and length come from one slice, and the borrows keep the output apart from all others until the
    // call is over.
    unsafe {
        raw::huepaxochi_write(
            session.as_ptr(),
            session.len() as u64,
            labels.as_ptr(),
            labels.len() as u64,
            equations.as_ptr(),
            equations.len() as u64,
            values.as_ptr(),
            values.len() as u64,
            marks.as_ptr(),
            marks.len() as u64,
            moves.as_ptr(),
            moves.len() as u64,
            out.as_mut_ptr(),
            out.len() as u64,
        )
    }
}

/// The value of one pair.
pub fn ask(session: &[u32], values: &[u8], state: u16, variable: u8) -> u64 {
    // SAFETY: each pointer and length come from one slice, which the borrow keeps until the call is over.
    unsafe {
        raw::huepaxochi_ask(
            session.as_ptr(),
            session.len() as u64,
            values.as_ptr(),
            values.len() as u64,
            state,
            variable,
        )
    }
}
