//! The proved library as other languages call it, held to the independent second program of `reference`.
//!
//! A call is made twice from the same rooms: once through the boundary ([`proved`]), once by the second program
//! ([`mirror`]). The answer and every place of every room must then be the same ([`both`]). A [`case`] is a stream of a model
//! and batches with a plan, which alone decides how long the rooms are, what lies in them and how they are damaged.
//! [`compare`] runs the generator's streams, [`fuzz`] runs mutated ones.

pub mod both;
pub mod boundary;
pub mod case;
pub mod compare;
pub mod damage;
pub mod fuzz;
pub mod left;
pub mod mirror;
pub mod mutate;
pub mod progress;
pub mod proved;
pub mod rooms;
pub mod tally;

#[cfg(test)]
mod tests;
