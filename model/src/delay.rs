//! T-09, the judge of delay, told from the request: which frames have one due delay, the last data bit of a row, and how far a card was from due.

use crate::frames::{self, byte_of, has_collision, Row};

/// A delay of 2^31 carrier periods or more, taken modulo 2^32.
pub const TOO_LONG: u8 = 14;

/// Every other frame.
const OTHER: &str = "other";

/// Whole bytes with right parity, as many as the row begins with; `None` where one is wrong. And the bits left over.
fn whole_bytes(row: &[u8]) -> Option<(Vec<u8>, &[u8])> {
    let whole = row.len() / 9 * 9;
    let mut bytes = Vec::new();
    for nine in row[..whole].chunks(9) {
        let byte = byte_of(&nine[..8]);
        if nine[8] != frames::parity(byte) {
            return None;
        }
        bytes.push(byte);
    }
    Some((bytes, &row[whole..]))
}

/// REQA, WUPA, an ANTICOLLISION or a SELECT of level 1, 2 or 3 without damage, by name. B is not looked at.
fn name(row: &[u8]) -> &'static str {
    if has_collision(row) {
        return OTHER;
    }
    if row == frames::short(frames::REQA) {
        return "REQA";
    }
    if row == frames::short(frames::WUPA) {
        return "WUPA";
    }
    let Some((bytes, left)) = whole_bytes(row) else { return OTHER };
    if bytes.len() < 2 || ![0x93, 0x95, 0x97].contains(&bytes[0]) {
        return OTHER;
    }
    let counted = (bytes.len() << 4 | left.len()) as u8;
    let anticollision = bytes.len() < 7 && left.len() < 8 && bytes[1] == counted;
    let select = left.is_empty() && bytes.len() == 9 && bytes[1] == 0x70 && frames::read_standard_with_crc(row, 9).is_ok();
    match (anticollision, select) {
        (true, _) => "ANTICOLLISION",
        (_, true) => "SELECT",
        _ => OTHER,
    }
}

/// Each of the four has one due delay.
fn has_one_delay(row: &[u8]) -> bool {
    name(row) != OTHER
}

/// The frame and its last data bit, for the counts.
pub fn frame_said(row: &[u8]) -> String {
    format!("{}, {}", name(row), after_one(row) as u8)
}

/// The last bit that is no ninth one; where there is none, or it collided, as after a 0.
fn after_one(row: &[u8]) -> bool {
    let data: Row = row.iter().enumerate().filter(|(i, _)| i % 9 != 8).map(|(_, &bit)| bit).collect();
    data.last() == Some(&1)
}

/// Measured less due; or the refusal's number.
pub fn judge_row(row: &[u8], sent: u32, heard: u32) -> Result<i64, u8> {
    let delay = i64::from(heard.wrapping_sub(sent));
    if delay >= 1 << 31 {
        return Err(TOO_LONG);
    }
    let place = if after_one(row) { 84 } else { 20 };
    if has_one_delay(row) {
        return Ok(delay - (9 * 128 + place));
    }
    // The points on either side, and the nearer of them: the lower one where both are as near.
    let below = ((delay - place).div_euclid(128)).max(9);
    let off = delay - (below * 128 + place);
    Ok(if off > 64 { off - 128 } else { off })
}

#[cfg(test)]
mod tests {
    use super::*;
    use crate::frames::{anticollision, bits_of, hlta, select, short, standard, standard_with_crc};
    use crate::language::hex;

    fn five(text: &str) -> [u8; 5] {
        hex(text).try_into().unwrap()
    }

    #[test]
    fn due_frames() {
        for level in 1..=3 {
            let bytes = five("0102030404");
            for k in 0..40 {
                assert!(has_one_delay(&anticollision(level, &bits_of(&bytes)[..k])), "level {level}, {k} bits");
            }
            assert!(has_one_delay(&select(level, &bytes)));
            // B is not looked at.
            assert!(has_one_delay(&select(level, &five("0102030405"))));
        }
        assert!(!has_one_delay(&[]));
        assert!(!has_one_delay(&hlta()));
        assert!(!has_one_delay(&short(0x27)));
        assert!(!has_one_delay(&standard(&[0x93, 0x70, 1, 2, 3, 4, 4])));
        assert!(!has_one_delay(&standard(&[0x93, 0x21])));
        assert!(!has_one_delay(&standard(&[0x94, 0x20])));
        assert!(!has_one_delay(&standard_with_crc(&[0x93, 0x71, 1, 2, 3, 4, 4])));
    }

    #[test]
    fn damage() {
        let good = select(1, &five("0102030404"));
        for i in 0..good.len() {
            for bit in [1 - good[i], 2] {
                let mut row = good.clone();
                row[i] = bit;
                assert!(!has_one_delay(&row), "bit {i} is {bit}");
            }
        }
        let mut row = anticollision(1, &[]);
        row[8] ^= 1;
        assert!(!has_one_delay(&row));
    }

    #[test]
    fn ties() {
        let other = hlta();
        for (row, place) in [(other.clone(), 84), (vec![], 20), (vec![1, 0], 20), (vec![2], 20), (vec![1], 84)] {
            for n in [9i64, 10, 16_000_000] {
                let point = (n * 128 + place) as u32;
                for (add, off) in [(-63, -63), (-1, -1), (0, 0), (1, 1), (63, 63), (64, 64), (65, -63)] {
                    let first = n == 9 && add == -63;
                    assert_eq!(judge_row(&row, 7, 7 + point.wrapping_add(add as u32)), Ok(off), "{n} {add} {first}");
                }
            }
            assert_eq!(judge_row(&row, 9, 9), Ok(-(9 * 128 + place)));
        }
    }

    #[test]
    fn wrapping_and_limit() {
        assert_eq!(judge_row(&short(0x26), 0, 1172), Ok(0));
        assert_eq!(judge_row(&short(0x26), u32::MAX, 1299), Ok(128));
        assert_eq!(judge_row(&short(0x52), u32::MAX, 1235), Ok(0));
        assert_eq!(judge_row(&short(0x26), 0, (1 << 31) - 1), Ok(2_147_482_475));
        assert_eq!(judge_row(&short(0x26), 0, 1 << 31), Err(TOO_LONG));
        assert_eq!(judge_row(&short(0x26), 5, 4), Err(TOO_LONG));
        assert_eq!(judge_row(&anticollision(1, &[]), 1000, 2100), Ok(-72));
        assert_eq!(judge_row(&hlta(), 0, 1301), Ok(-63));
    }
}
