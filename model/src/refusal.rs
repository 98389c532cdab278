//! Document 01, "When the core declines": the twelve numbers by name; the byte index that T-07 adds; and T-01's number.

use std::fmt;

/// A number, and the byte index that comes with it: "the first byte, from 0, whose parity is wrong among those checked". "Other refusals carry 0
/// there."
#[derive(Clone, Copy, Debug, PartialEq)]
pub struct Refusal {
    pub number: u8,
    pub byte: u8,
}

const fn numbered(number: u8) -> Refusal {
    Refusal { number, byte: 0 }
}

/// 3: this byte is the first whose parity is wrong.
pub fn parity(byte: usize) -> Refusal {
    Refusal { number: 3, byte: u8::try_from(byte).expect("a frame has 256 bytes at most") }
}

pub const ROOM: Refusal = numbered(1);
pub const LENGTH: Refusal = numbered(2);
pub const CRC: Refusal = numbered(4);
pub const B: Refusal = numbered(5);
pub const ARGUMENT: Refusal = numbered(6);
pub const SILENCE: Refusal = numbered(7);
pub const COLLISION: Refusal = numbered(8);
pub const FORBIDDEN: Refusal = numbered(9);
pub const MESSAGE: Refusal = numbered(10);
pub const NOT_DUE: Refusal = numbered(11);
pub const REPEATS: Refusal = numbered(12);
pub const ENERGY: Refusal = numbered(13);

/// As the programs print it behind `refused `: `3 B`, and every other number alone.
impl fmt::Display for Refusal {
    fn fmt(&self, to: &mut fmt::Formatter) -> fmt::Result {
        match self.number {
            3 => write!(to, "3 {}", self.byte),
            number => write!(to, "{number}"),
        }
    }
}

#[cfg(test)]
mod tests {
    use super::*;

    #[test]
    fn printed() {
        assert_eq!(parity(0).to_string(), "3 0");
        assert_eq!(parity(255).to_string(), "3 255");
        assert_eq!(CRC.to_string(), "4");
        assert_eq!(REPEATS.to_string(), "12");
    }
}
