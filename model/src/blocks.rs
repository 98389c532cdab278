//! Document 01, "RATS, ATS and blocks": what a block is, at either end.

use crate::frames::{read_standard_with_crc, standard_with_crc, Row};
use crate::refusal::{self, Refusal};

/// The longest message, in bytes.
pub const LONGEST_MESSAGE: usize = 4096;

#[derive(Clone, Debug, PartialEq)]
pub enum Block {
    I {
        chained: bool,
        number: u8,
        payload: Vec<u8>,
    },
    Ack(u8),
    Nak(u8),
    Deselect,
    Wtx(u8),
    /// A first byte named in document 01, with a length that its kind cannot have.
    WrongLength,
    /// A first byte that document 01 does not name.
    Unknown,
}

/// What a frame without its CRC_A (one byte at least) is. The last bit of I and R is the block number.
pub fn read_block(bytes: &[u8]) -> Block {
    let first = bytes[0];
    let number = first & 1;
    match first {
        0x02 | 0x03 => Block::I { chained: false, number, payload: bytes[1..].to_vec() },
        0x12 | 0x13 => Block::I { chained: true, number, payload: bytes[1..].to_vec() },
        0xA2 | 0xA3 if bytes.len() == 1 => Block::Ack(number),
        0xB2 | 0xB3 if bytes.len() == 1 => Block::Nak(number),
        0xC2 if bytes.len() == 1 => Block::Deselect,
        0xF2 if bytes.len() == 2 => Block::Wtx(bytes[1]),
        0xA2 | 0xA3 | 0xB2 | 0xB3 | 0xC2 | 0xF2 => Block::WrongLength,
        _ => Block::Unknown,
    }
}

/// An ATS or block frame at an end whose own size is `size`: 7 empty; 2 not whole bytes, under 3 bytes or over the size;
/// then 8, 3, 4.
pub fn read_frame(row: &[u8], size: usize) -> Result<Vec<u8>, Refusal> {
    if row.is_empty() {
        return Err(refusal::SILENCE);
    }
    read_standard_with_crc(row, size)
}

pub fn ack(number: u8) -> Row {
    standard_with_crc(&[0xA2 | number])
}

pub fn nak(number: u8) -> Row {
    standard_with_crc(&[0xB2 | number])
}

pub fn deselect() -> Row {
    standard_with_crc(&[0xC2])
}

pub fn wtx(value: u8) -> Row {
    standard_with_crc(&[0xF2, value])
}

/// The payload of a full block: the other end's size without the first byte and CRC_A.
pub fn full_payload(size: usize) -> usize {
    size - 3
}

/// Whether more of the message is left behind the block that begins at this place.
pub fn more_behind(message: &[u8], place: usize, size: usize) -> bool {
    message.len() > place + full_payload(size)
}

/// Why no I can be cut from a lent message at this place: 1 if it ends before the place, then 10 if it is too long. A block that is no I looks
/// at no message.
pub fn unfit(message: &[u8], place: usize) -> Option<Refusal> {
    if message.len() < place {
        return Some(refusal::ROOM);
    }
    (message.len() > LONGEST_MESSAGE).then_some(refusal::MESSAGE)
}

/// The I block that begins at this place of the message, as full as the other end's size allows, chained if more is left.
pub fn i_block(message: &[u8], place: usize, size: usize, number: u8) -> Row {
    i_again(message, place, size, number, more_behind(message, place, size))
}

/// An I block sent again: chained or not as it was, its payload anew from the message that is lent now.
pub fn i_again(message: &[u8], place: usize, size: usize, number: u8, chained: bool) -> Row {
    let from = place.min(message.len());
    let to = (place + full_payload(size)).min(message.len());
    let first = if chained { 0x12 } else { 0x02 };
    let mut bytes = vec![first | number];
    bytes.extend_from_slice(&message[from..to]);
    standard_with_crc(&bytes)
}

#[cfg(test)]
mod tests {
    use super::*;
    use crate::frames::standard;
    use crate::language::hex;

    #[test]
    fn written_blocks() {
        assert_eq!(ack(0), standard(&hex("A2E6D7")));
        assert_eq!(ack(1), standard(&hex("A36FC6")));
        assert_eq!(nak(0), standard(&hex("B267C7")));
        assert_eq!(nak(1), standard(&hex("B3EED6")));
        assert_eq!(deselect(), standard(&hex("C2E0B4")));
        assert_eq!(wtx(1), standard(&hex("F2019140")));
        assert_eq!(wtx(59), standard(&hex("F23B48DE")));
        assert_eq!(i_block(&[], 0, 16, 0), standard(&hex("02EC72")));
        assert_eq!(i_block(&[], 0, 16, 1), standard(&hex("036563")));
    }

    #[test]
    fn payload_is_size_less_three() {
        assert_eq!(i_block(&[7; 13], 0, 16, 0).len(), 16 * 9);
        assert!(!more_behind(&[7; 13], 0, 16));
        assert!(more_behind(&[7; 14], 0, 16));
        assert_eq!(i_block(&[7; 14], 0, 16, 0).len(), 16 * 9);
        assert_eq!(i_block(&[7; 14], 13, 16, 1).len(), 4 * 9);
    }

    #[test]
    fn read_blocks() {
        assert_eq!(read_block(&hex("13AA")), Block::I { chained: true, number: 1, payload: vec![0xAA] });
        assert_eq!(read_block(&hex("A3")), Block::Ack(1));
        assert_eq!(read_block(&hex("A300")), Block::WrongLength);
        assert_eq!(read_block(&hex("F2")), Block::WrongLength);
        assert_eq!(read_block(&hex("F23B")), Block::Wtx(59));
        assert_eq!(read_block(&hex("0A00")), Block::Unknown);
    }
}
