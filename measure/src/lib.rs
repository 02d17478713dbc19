//! The proved library measured beside two Rust versions of document 01.
//!
//! `ordinary` is written from the document in plain safe Rust, `strong` is the library's own design as good as we can write
//! it in safe Rust. `proved` calls the static library. All work in the same `rooms` and answer in the same words, so a test
//! can ask whether they agree on everything and a clock can ask which is quickest.

pub mod answers;
pub mod cases;
pub mod clock;
pub mod ordinary;
pub mod proved;
pub mod rooms;
pub mod sides;
pub mod strong;
