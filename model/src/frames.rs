//! Document 01, "Frames on the air": rows of air bits, and the frames of selection and RATS.
//!
//! A row holds one element for each bit in air order: 0, 1, or 2 for collided. The empty row is silence.

use crate::crc::{crc_a, with_crc};
use crate::refusal::{self, Refusal};

pub type Row = Vec<u8>;

pub const COLLIDED: u8 = 2;

pub const REQA: u8 = 0x26;
pub const WUPA: u8 = 0x52;

/// The most bytes that a standard frame has.
pub const MOST_BYTES: usize = 256;

/// SEL of levels 1, 2, 3.
pub fn sel(level: usize) -> u8 {
    match level {
        1 => 0x93,
        2 => 0x95,
        3 => 0x97,
        _ => panic!("there are three levels"),
    }
}

/// The eight bits of a byte, least significant first.
pub fn bits_of_byte(byte: u8) -> [u8; 8] {
    let mut bits = [0; 8];
    for (i, bit) in bits.iter_mut().enumerate() {
        *bit = (byte >> i) & 1;
    }
    bits
}

/// The data bits of bytes in air order, without parity.
pub fn bits_of(bytes: &[u8]) -> Row {
    bytes.iter().flat_map(|&b| bits_of_byte(b)).collect()
}

/// Eight clean bits in air order as a byte.
pub fn byte_of(bits: &[u8]) -> u8 {
    assert_eq!(bits.len(), 8);
    bits.iter().enumerate().map(|(i, &b)| b << i).sum()
}

/// Odd parity: the ones of the byte and its parity bit together are odd.
pub fn parity(byte: u8) -> u8 {
    if byte.count_ones() % 2 == 0 {
        1
    } else {
        0
    }
}

pub fn has_collision(row: &[u8]) -> bool {
    row.iter().any(|&b| b > 1)
}

/// A short frame: seven bits, no parity.
pub fn short(value: u8) -> Row {
    bits_of_byte(value)[..7].to_vec()
}

/// Reads a short frame: 2, then 8.
pub fn read_short(row: &[u8]) -> Result<u8, Refusal> {
    if row.len() != 7 {
        return Err(refusal::LENGTH);
    }
    if has_collision(row) {
        return Err(refusal::COLLISION);
    }
    Ok(row.iter().enumerate().map(|(i, &b)| b << i).sum())
}

/// Each byte followed by its odd parity.
pub fn standard(bytes: &[u8]) -> Row {
    let mut row = Row::new();
    for &byte in bytes {
        row.extend_from_slice(&bits_of_byte(byte));
        row.push(parity(byte));
    }
    row
}

pub fn standard_with_crc(bytes: &[u8]) -> Row {
    standard(&with_crc(bytes))
}

/// Reads a standard frame of `least` to `most` bytes. Tests 2, 8, 3 in the order of document 01's last table; 3 with the first wrong byte.
pub fn read_standard(row: &[u8], least: usize, most: usize) -> Result<Vec<u8>, Refusal> {
    if row.len() % 9 != 0 || row.len() / 9 < least || row.len() / 9 > most {
        return Err(refusal::LENGTH);
    }
    if has_collision(row) {
        return Err(refusal::COLLISION);
    }
    let mut bytes = Vec::new();
    for (index, nine) in row.chunks(9).enumerate() {
        let byte = byte_of(&nine[..8]);
        if nine[8] != parity(byte) {
            return Err(refusal::parity(index));
        }
        bytes.push(byte);
    }
    Ok(bytes)
}

/// Reads a standard frame that ends in CRC_A, `most` bytes at most and 3 at least; gives the bytes before CRC_A.
/// Tests 2, 8, 3, 4.
pub fn read_standard_with_crc(row: &[u8], most: usize) -> Result<Vec<u8>, Refusal> {
    let mut bytes = read_standard(row, 3, most)?;
    let split = bytes.len() - 2;
    if bytes[split..] != crc_a(&bytes[..split]) {
        return Err(refusal::CRC);
    }
    bytes.truncate(split);
    Ok(bytes)
}

/// NVB for k bits of the level: whole bytes sent, SEL and NVB included, in the high half; bits left over in the low.
pub fn nvb(k: usize) -> u8 {
    (((2 + k / 8) << 4) | (k % 8)) as u8
}

/// ANTICOLLISION with these bits of the level known, 0 to 39 of them: whole bytes have parity, a broken byte has none.
pub fn anticollision(level: usize, known: &[u8]) -> Row {
    let mut row = standard(&[sel(level), nvb(known.len())]);
    for part in known.chunks(8) {
        row.extend_from_slice(part);
        if part.len() == 8 {
            row.push(parity(byte_of(part)));
        }
    }
    row
}

/// The answer to ANTICOLLISION with k bits: the other 40 - k bits. The remainder of a broken byte is followed by odd
/// parity over the whole byte (house rule).
pub fn rest_of_level(bytes: &[u8; 5], k: usize) -> Row {
    let mut row = Row::new();
    for (i, &byte) in bytes.iter().enumerate() {
        let sent_here = k.saturating_sub(8 * i).min(8);
        if sent_here < 8 {
            row.extend_from_slice(&bits_of_byte(byte)[sent_here..]);
            row.push(parity(byte));
        }
    }
    row
}

/// The bits in a row of the answer that follows k sent bits.
pub fn rest_length(k: usize) -> usize {
    let broken = k % 8;
    let whole_bytes_left = (40 - k) / 8;
    let remainder = if broken > 0 { 8 - broken + 1 } else { 0 };
    9 * whole_bytes_left + remainder
}

/// SELECT: SEL, 70, the five bytes, CRC_A.
pub fn select(level: usize, bytes: &[u8; 5]) -> Row {
    let mut all = vec![sel(level), 0x70];
    all.extend_from_slice(bytes);
    standard_with_crc(&all)
}

/// HLTA: 50 00 and CRC_A.
pub fn hlta() -> Row {
    standard_with_crc(&[0x50, 0x00])
}

/// RATS: E0, then FSDI in the high half and CID 0, CRC_A.
pub fn rats(fsdi: u8) -> Row {
    standard_with_crc(&[0xE0, fsdi << 4])
}

/// Sizes for index 0 to 8; 9 to 15 read as 8 (house rule).
pub fn size_of_index(index: u8) -> usize {
    [16, 24, 32, 40, 48, 64, 96, 128, 256][index.min(8) as usize]
}

/// Cards that send together: equal bits where they agree, collided where not. Rows of different length give a row as
/// long as the longest; where only some send, the bit on which those agree.
pub fn merge(rows: &[Row]) -> Row {
    let length = rows.iter().map(|r| r.len()).max().unwrap_or(0);
    let mut merged = Row::new();
    for i in 0..length {
        let mut bit = None;
        for row in rows {
            if let Some(&own) = row.get(i) {
                bit = match bit {
                    None => Some(own),
                    Some(other) if other == own => Some(own),
                    Some(_) => Some(COLLIDED),
                };
            }
        }
        merged.push(bit.unwrap());
    }
    merged
}

/// Air bits packed to bytes, first in the top bit, zero-filled; a collided bit is packed as 0.
pub fn pack(row: &[u8]) -> Vec<u8> {
    row.chunks(8).map(|part| part.iter().enumerate().map(|(i, &b)| if b == 1 { 0x80 >> i } else { 0 }).sum()).collect()
}

#[cfg(test)]
mod tests {
    use super::*;
    use crate::known::packed;
    use crate::language::hex;

    #[test]
    fn short_frames() {
        assert_eq!(short(REQA), packed("7:64"));
        assert_eq!(short(WUPA), packed("7:4A"));
        assert_eq!(read_short(&short(0x26)), Ok(0x26));
        assert_eq!(read_short(&standard(&[0x26])), Err(refusal::LENGTH));
    }

    #[test]
    fn standard_frames() {
        assert_eq!(standard(&[0x04, 0x00]), packed("18:20 00 40"));
        assert_eq!(standard(&[0x44, 0x00]), packed("18:22 80 40"));
        assert_eq!(standard(&[0x84, 0x00]), packed("18:21 80 40"));
        assert_eq!(hlta(), packed("36:0A 80 7A 96 60"));
        assert_eq!(standard_with_crc(&[0x00]), packed("27:00 BF A2 80"));
        assert_eq!(standard_with_crc(&[0x04]), packed("27:20 2D BA 20"));
        assert_eq!(standard_with_crc(&[0x20]), packed("27:04 1F C3 80"));
    }

    #[test]
    fn nvb_values() {
        let known: Vec<u8> = [0, 5, 10, 16, 20, 31, 32, 39].iter().map(|&k| nvb(k)).collect();
        assert_eq!(known, [0x20, 0x25, 0x32, 0x40, 0x44, 0x57, 0x60, 0x67]);
    }

    #[test]
    fn anticollision_by_hand() {
        let level = bits_of(&hex("801228219B"));
        assert_eq!(anticollision(1, &level[..10]), packed("29:C9 A6 00 48"));
        assert_eq!(anticollision(1, &level[..32]), packed("54:C9 83 40 49 11 4C 24"));
        assert_eq!(anticollision(1, &level[..39]), packed("61:C9 F3 00 49 11 4C 27 60"));
        let bytes = [0x80, 0x12, 0x28, 0x21, 0x9B];
        assert_eq!(rest_of_level(&bytes, 0), packed("45:01 24 45 30 9D 90"));
        assert_eq!(rest_of_level(&bytes, 10), packed("34:22 29 84 EC 80"));
        assert_eq!(rest_of_level(&bytes, 31), packed("11:76 40"));
        assert_eq!(rest_of_level(&bytes, 32), packed("9:D9 00"));
        assert_eq!(rest_of_level(&bytes, 39), packed("2:80"));
        for k in 0..40 {
            assert_eq!(rest_of_level(&bytes, k).len(), rest_length(k));
            assert_eq!(rest_length(k), 45 - 9 * (k / 8) - k % 8);
        }
        assert_eq!(select(1, &bytes), packed("81:C9 87 00 49 11 4C 27 64 D5 3E 00"));
    }

    #[test]
    fn merged_rows() {
        assert_eq!(merge(&[]), Row::new());
        assert_eq!(merge(&[vec![0, 1, 1], vec![0, 0]]), vec![0, 2, 1]);
        assert_eq!(merge(&[vec![1], vec![1], vec![0]]), vec![2]);
    }

    #[test]
    fn order_of_tests() {
        let mut row = standard_with_crc(&[1, 2, 3]);
        assert_eq!(read_standard_with_crc(&row, 256), Ok(vec![1, 2, 3]));
        row[0] ^= 1;
        row[8] ^= 1;
        assert_eq!(read_standard_with_crc(&row, 256), Err(refusal::CRC));
        row[8] ^= 1;
        assert_eq!(read_standard_with_crc(&row, 256), Err(refusal::parity(0)));
        row[30] = 2;
        assert_eq!(read_standard_with_crc(&row, 256), Err(refusal::COLLISION));
        assert_eq!(read_standard_with_crc(&row, 4), Err(refusal::LENGTH));
    }
}
