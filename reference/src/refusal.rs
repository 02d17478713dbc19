//! How the checker says no.

use std::fmt;

/// A refusal: its number from document 01's table, or 16 from document 02, and the place of the
/// guilty byte.
#[derive(Clone, Copy, Debug, PartialEq, Eq)]
pub struct Refusal {
    pub number: u8,
    pub place: usize,
}

/// Answers with a refusal of this number at this place.
pub fn refuse<T>(number: u8, place: usize) -> Result<T, Refusal> {
    Err(Refusal { number, place })
}

/// Answers with a refusal of this number at this place unless the condition holds.
pub fn demand(condition: bool, number: u8, place: usize) -> Result<(), Refusal> {
    if condition {
        Ok(())
    } else {
        refuse(number, place)
    }
}

impl fmt::Display for Refusal {
    /// Writes the refusal as the program prints it.
    fn fmt(&self, out: &mut fmt::Formatter<'_>) -> fmt::Result {
        write!(out, "refused {} at {}", self.number, self.place)
    }
}
