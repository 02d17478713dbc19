//! An equation in one word.

pub const OR: u32 = 4;
pub const AND: u32 = 5;
pub const DIAMOND: u32 = 6;
pub const BOX: u32 = 7;

/// An equation taken out of its word. Where the model has no blocks, the block is the variable's component.
#[derive(Clone, Copy, Debug, Default)]
pub struct Equation {
    pub operator: u32,
    pub first: u32,
    pub second: u32,
    pub block: u32,
    pub greatest: bool,
}

impl Equation {
    /// Takes a word apart.
    pub fn unpack(word: u32) -> Equation {
        Equation {
            operator: word & 255,
            first: word >> 8 & 255,
            second: word >> 16 & 255,
            block: word >> 25,
            greatest: word >> 24 & 1 == 1,
        }
    }

    /// Puts the parts into a word.
    pub fn pack(self) -> u32 {
        let top = self.block << 1 | u32::from(self.greatest);
        self.operator | self.first << 8 | self.second << 16 | top << 24
    }

    /// The set of the variables that the equation names.
    pub fn names(&self) -> u32 {
        match self.operator {
            OR | AND => 1 << self.first | 1 << self.second,
            DIAMOND | BOX => 1 << self.second,
            _ => 0,
        }
    }

    /// Whether every variable that the equation names lies below `end`.
    pub fn names_below(&self, end: u32) -> bool {
        match self.operator {
            OR | AND => self.first < end && self.second < end,
            DIAMOND | BOX => self.second < end,
            _ => true,
        }
    }
}
