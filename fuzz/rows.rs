//! Rows of air bits that an end may hear, and other bytes.
use crate::blocks;
use crate::frames::{self, Row};
use crate::random::Random;

/// Drawn bytes, of one of these lengths.
pub fn bytes_of(random: &mut Random, lengths: &[usize]) -> Vec<u8> {
    let length = random.pick(lengths);
    random.bytes(length)
}

/// A row to hear: what a block or a frame may be, whole or damaged, noise, or silence.
pub fn any_row(random: &mut Random, likely: &[Row]) -> Row {
    let mut row = match random.below(10) {
        0 => Row::new(),
        1 => {
            let n = random.pick(&[1, 6, 7, 9, 18, 27, 36, 45, 54, 135]);
            (0..n).map(|_| random.below(2) as u8).collect()
        }
        2 | 3 => {
            let n = random.pick(&[1, 1, 2, 3, 5, 14, 30]);
            let mut bytes = random.bytes(n);
            bytes[0] = random.pick(&[0x02, 0x03, 0x12, 0x13, 0xA2, 0xA3, 0xB2, 0xB3, 0xC2, 0xF2, 0x08, 0x50, 0xE0, 0x20, 0x04]);
            if random.chance(80) {
                frames::standard_with_crc(&bytes)
            } else {
                frames::standard(&[bytes, random.bytes(2)].concat())
            }
        }
        _ => random.pick(likely),
    };
    if random.chance(15) && !row.is_empty() {
        let at = random.below(row.len());
        row[at] = random.pick(&[0, 1, 2, 255]);
    }
    if random.chance(4) && row.len() >= 9 {
        // A bit and the parity of its byte: what is left to notice it is CRC_A.
        let byte = random.below(row.len() / 9);
        for at in [9 * byte + random.below(8), 9 * byte + 8] {
            row[at] = if row[at] == 0 { 1 } else { 0 };
        }
    }
    if random.chance(4) && !row.is_empty() {
        row.pop();
    }
    row
}

/// What the other end may send to a reader or a card, by the model.
pub fn likely_rows(random: &mut Random) -> Vec<Row> {
    let (n, value) = (random.below(2) as u8, 1 + random.below(59) as u8);
    let payload_length = random.pick(&[0, 1, 5, 13, 40]);
    let payload = random.bytes(payload_length);
    let mut rows = vec![blocks::ack(n), blocks::nak(n), blocks::deselect(), blocks::wtx(value), frames::short(0x26), frames::short(0x52), frames::hlta()];
    for first in [0x02 | n, 0x12 | n] {
        rows.push(frames::standard_with_crc(&[&[first][..], &payload].concat()));
    }
    rows.push(frames::rats(random.below(9) as u8));
    rows.push(frames::standard_with_crc(&[random.pick(&[0x20, 0x04, 0x00, 0x24])]));
    rows.push(frames::standard(&[random.pick(&[0x04, 0x44, 0x84, 0x03]), 0]));
    rows.push(frames::standard_with_crc(&[0x02, random.below(16) as u8]));
    rows
}
