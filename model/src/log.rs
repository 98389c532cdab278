//! Document 01, "The log": records, the found list, and the same records written for people.

use crate::frames::{self, byte_of, has_collision, pack, Row};
use crate::language::show_bits;

#[derive(Clone, Debug, PartialEq)]
pub enum Record {
    Reader(Row),
    /// What was heard after it; an empty row is silence.
    Heard(Row),
}

/// 2 bits kind, 1 zero bit, 13 bits giving the number of air bits, most significant first; then the air bits, first in the
/// top bit, zero-filled to a byte. Kind 2 holds 0 at collided bits and adds an equally long row with 1 at them. T-09: after the two bytes of the
/// header stands the record's tick.
pub fn record_bytes(tick: u32, record: &Record) -> Vec<u8> {
    let (kind, row) = match record {
        Record::Reader(row) => (0u16, row),
        Record::Heard(row) if row.is_empty() => (3, row),
        Record::Heard(row) if has_collision(row) => (2, row),
        Record::Heard(row) => (1, row),
    };
    assert!(row.len() < 1 << 13);
    let head = kind << 14 | row.len() as u16;
    let mut bytes = head.to_be_bytes().to_vec();
    bytes.extend(tick.to_be_bytes());
    bytes.extend(pack(row));
    if kind == 2 {
        let collided: Row = row.iter().map(|&bit| (bit > 1) as u8).collect();
        bytes.extend(pack(&collided));
    }
    bytes
}

/// The found list has 11 bytes a UID: length, bytes, zero fill.
pub fn list_entry(uid: &[u8]) -> [u8; 11] {
    let mut entry = [0; 11];
    entry[0] = uid.len() as u8;
    entry[1..=uid.len()].copy_from_slice(uid);
    entry
}

/// What a reader's frame is, as the trace names it.
#[derive(Clone, Copy, PartialEq)]
enum Name {
    Request,
    Anticollision { level: usize, left_over: usize },
    Select,
    Other,
}

/// A whole byte: two capitals, or its eight data bits if one of them is collided.
fn byte_group(bits: &[u8]) -> String {
    if has_collision(bits) {
        show_bits(bits)
    } else {
        format!("{:02X}", byte_of(bits))
    }
}

/// Whole bytes with parity, then left-over bits. Parity bits are not shown.
fn groups(row: &[u8]) -> Vec<String> {
    row.chunks(9).map(|part| if part.len() < 9 { show_bits(part) } else { byte_group(&part[..8]) }).collect()
}

fn line(sign: char, name: &str, groups: &[String]) -> String {
    format!("{sign} {name:<19}{}", groups.join(" ")).trim_end().to_string()
}

/// The reader's frame: its line, and what it is.
fn reader_line(row: &[u8]) -> (String, Name) {
    if row.len() == 7 {
        let value: u8 = row.iter().enumerate().map(|(i, &b)| b << i).sum();
        let (text, name) = match value {
            frames::REQA => ("REQA", Name::Request),
            frames::WUPA => ("WUPA", Name::Request),
            _ => ("frame", Name::Other),
        };
        return (line('>', text, &[format!("{value:02X}")]), name);
    }
    let (text, name) = if row == frames::hlta() {
        ("HLTA".to_string(), Name::Other)
    } else if row.len() >= 18 {
        let (sel, nvb) = (byte_of(&row[..8]), byte_of(&row[9..17]));
        match (1..=3).find(|&level| frames::sel(level) == sel) {
            Some(level) if nvb == 0x70 => (format!("SELECT CL{level}"), Name::Select),
            Some(level) => (format!("ANTICOLLISION CL{level}"), Name::Anticollision { level, left_over: (nvb & 0x0F) as usize }),
            None => ("frame".to_string(), Name::Other),
        }
    } else {
        ("frame".to_string(), Name::Other)
    };
    (line('>', &text, &groups(row)), name)
}

/// What was heard after a reader's frame.
fn heard_line(row: &[u8], after: Name) -> String {
    if row.is_empty() {
        return "< silence".to_string();
    }
    match after {
        Name::Request => line('<', "ATQA", &groups(row)),
        Name::Anticollision { level, left_over } => {
            let mut shown = Vec::new();
            let mut rest = row;
            if left_over > 0 {
                // The rest of the broken byte, and behind it the parity bit.
                let (remainder, behind) = row.split_at(row.len().min(8 - left_over));
                shown.push(show_bits(remainder));
                rest = behind.get(1..).unwrap_or(&[]);
            }
            shown.extend(groups(rest));
            line('<', &format!("UID CL{level}"), &shown)
        }
        Name::Select => line('<', "SAK", &groups(row)),
        Name::Other => line('<', "answer", &groups(row)),
    }
}

/// The records for people, a line for each.
pub fn trace(records: &[Record]) -> Vec<String> {
    let mut lines = Vec::new();
    let mut after = Name::Other;
    for record in records {
        match record {
            Record::Reader(row) => {
                let (text, name) = reader_line(row);
                lines.push(text);
                after = name;
            }
            Record::Heard(row) => lines.push(heard_line(row, after)),
        }
    }
    lines
}

#[cfg(test)]
mod tests {
    use super::*;
    use crate::frames::{merge, short, standard};
    use crate::language::hex;

    #[test]
    fn records() {
        assert_eq!(record_bytes(0, &Record::Reader(short(0x26))), hex("00070000000064"));
        assert_eq!(record_bytes(0x1234_5678, &Record::Heard(vec![])), hex("C00012345678"));
        assert_eq!(record_bytes(1, &Record::Heard(standard(&[4, 0]))), hex("401200000001200040"));
        let both = merge(&[standard(&[4, 0]), standard(&[0x44, 0])]);
        assert_eq!(record_bytes(u32::MAX, &Record::Heard(both)), hex("8012FFFFFFFF200040028000"));
    }

    #[test]
    fn entries() {
        assert_eq!(list_entry(&hex("01020304")).to_vec(), hex("0401020304000000000000"));
        assert_eq!(list_entry(&hex("01020304050607080910")).to_vec(), hex("0A01020304050607080910"));
    }
}
