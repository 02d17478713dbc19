//! What the calls answer.

/// Why a call was refused: document 01's number, and the place in the bytes.
#[derive(Clone, Copy, Debug, PartialEq, Eq)]
pub struct Refusal {
    pub number: u32,
    pub place: usize,
}

/// A refusal of this number at this place.
pub fn refuse<T>(number: u32, place: usize) -> Result<T, Refusal> {
    Err(Refusal { number, place })
}

/// A refusal of this number at this place unless the condition holds.
pub fn demand(condition: bool, number: u32, place: usize) -> Result<(), Refusal> {
    if condition {
        Ok(())
    } else {
        refuse(number, place)
    }
}

/// What an accepted batch came to.
#[derive(Clone, Copy, Debug, Default, PartialEq, Eq)]
pub struct Report {
    pub shift_visits: i64,
    pub settle_visits: i64,
    pub net: i64,
}
