//! The scripts that are stored as vectors, and random ones for larger comparisons.

pub mod calls;
pub mod card;
pub mod card_blocks;
pub mod exchange;
pub mod field;
pub mod frame;
pub mod front;
pub mod lossy;
pub mod reader;
pub mod reader_blocks;
pub mod trace;
pub mod type_b;
pub mod vicinity;
pub mod vicinity_reader;

use crate::frames::{self, Row, COLLIDED};
use crate::language::{show_hex, show_row};
use crate::random::Random;

/// The line that hands over a row, in its shortest form.
pub fn row_line(row: &[u8]) -> String {
    if let Ok(value) = frames::read_short(row) {
        return format!("short {value:02X}");
    }
    if let Ok(bytes) = frames::read_standard_with_crc(row, frames::MOST_BYTES) {
        return format!("crc {}", show_hex(&bytes));
    }
    if let Ok(bytes) = frames::read_standard(row, 1, frames::MOST_BYTES) {
        return format!("bytes {}", show_hex(&bytes));
    }
    plain_row(row)
}

/// The line that hands over a row, bit by bit.
pub fn plain_row(row: &[u8]) -> String {
    format!("row {}", show_row(row))
}

pub fn crc_line(bytes: &[u8]) -> String {
    format!("crc {}", show_hex(bytes))
}

/// The row with one place changed: 0 and 1 exchanged.
pub fn flipped(row: &[u8], place: usize) -> Row {
    let mut row = row.to_vec();
    row[place] ^= 1;
    row
}

/// The row with wrong parity of this byte, and of the last one.
pub fn wrong_from(row: &[u8], byte: usize) -> Row {
    let row = flipped(row, 9 * byte);
    let last = row.len() - 9;
    if 9 * byte == last {
        row
    } else {
        flipped(&row, last)
    }
}

/// The row with one place collided.
pub fn collided(row: &[u8], place: usize) -> Row {
    let mut row = row.to_vec();
    row[place] = COLLIDED;
    row
}

/// One kind of damage, drawn at random.
pub fn damaged(random: &mut Random, row: &[u8]) -> Row {
    let mut row = row.to_vec();
    let kind = random.below(10);
    if row.is_empty() || kind == 0 {
        let count = random.pick(&[0, 1, 6, 7, 8, 9, 18, 27, 36, 45]);
        return (0..count).map(|_| random.below(3) as u8).collect();
    }
    let place = random.below(row.len());
    match kind {
        1 | 2 | 3 => {
            if row[place] < 2 {
                row[place] ^= 1;
            }
        }
        4 | 5 => row[place] = COLLIDED,
        6 => row.truncate(place),
        7 => {
            let more = random.pick(&[1, 2, 8, 9, 18]);
            row.extend((0..more).map(|_| random.below(2) as u8));
        }
        8 => {
            for _ in 0..3 {
                let place = random.below(row.len());
                row[place] = random.below(3) as u8;
            }
        }
        _ => row.clear(),
    }
    row
}
