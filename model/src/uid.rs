//! Document 01, "UIDs and their levels", and the frame sum of "The reader and the sweep".

use crate::frames::{bits_of, Row};
use std::cmp::Ordering;

/// The tag that stands first in a level while more levels follow.
pub const TAG: u8 = 0x88;

/// B: the exclusive-or of its four bytes (here of any bytes).
pub fn check_byte(bytes: &[u8]) -> u8 {
    bytes.iter().fold(0, |sum, &b| sum ^ b)
}

/// One of the three lengths; u0 of a 4-byte UID is not 88; u3 of a 7-byte UID is not 88.
pub fn valid(uid: &[u8]) -> bool {
    match uid.len() {
        4 => uid[0] != TAG,
        7 => uid[3] != TAG,
        10 => true,
        _ => false,
    }
}

/// How many levels a valid UID has.
pub fn level_count(uid: &[u8]) -> usize {
    match uid.len() {
        4 => 1,
        7 => 2,
        10 => 3,
        _ => panic!("no valid length"),
    }
}

/// The three rows of five bytes of a valid UID; rows that it does not have are zeros.
pub fn levels(uid: &[u8]) -> [[u8; 5]; 3] {
    let mut rows = [[0; 5]; 3];
    let mut fill = |row: usize, four: [u8; 4]| {
        rows[row][..4].copy_from_slice(&four);
        rows[row][4] = check_byte(&four);
    };
    match *uid {
        [u0, u1, u2, u3] => fill(0, [u0, u1, u2, u3]),
        [u0, u1, u2, u3, u4, u5, u6] => {
            fill(0, [TAG, u0, u1, u2]);
            fill(1, [u3, u4, u5, u6]);
        }
        [u0, u1, u2, u3, u4, u5, u6, u7, u8, u9] => {
            fill(0, [TAG, u0, u1, u2]);
            fill(1, [TAG, u3, u4, u5]);
            fill(2, [u6, u7, u8, u9]);
        }
        _ => panic!("no valid length"),
    }
    rows
}

/// The on-air row of a valid UID: its levels in air order, parity left out.
pub fn on_air(uid: &[u8]) -> Row {
    levels(uid)[..level_count(uid)].iter().flat_map(|row| bits_of(row)).collect()
}

/// The first position at which two on-air rows differ. Rows of different valid UIDs always differ before either ends.
pub fn first_difference(a: &[u8], b: &[u8]) -> usize {
    a.iter().zip(b).position(|(x, y)| x != y).expect("different valid UIDs differ on the air")
}

/// "Falling": at the first difference the 1 comes first.
pub fn falling(uids: &[Vec<u8>]) -> Vec<Vec<u8>> {
    let mut sorted = uids.to_vec();
    sorted.sort_by(|a, b| {
        if a == b {
            return Ordering::Equal;
        }
        let (a, b) = (on_air(a), on_air(b));
        let p = first_difference(&a, &b);
        b[p].cmp(&a[p])
    });
    sorted
}

/// Frames of a sweep, from the UIDs of the idle cards alone: 1 plus the sum over the cards in falling order of
/// (2 + 2L + d), d the number of distinct positions at which a card's row first differs from that of a later card.
pub fn frame_sum(idle: &[Vec<u8>]) -> usize {
    let order = falling(idle);
    let rows: Vec<Row> = order.iter().map(|u| on_air(u)).collect();
    let mut sum = 1;
    for (i, uid) in order.iter().enumerate() {
        let mut places: Vec<usize> = rows[i + 1..].iter().map(|later| first_difference(&rows[i], later)).collect();
        places.sort();
        places.dedup();
        sum += 2 + 2 * level_count(uid) + places.len();
    }
    sum
}

/// T-14: the frames of a sweep that remembers. From each card's term go the whole levels, from the first on, that it shares with the card before it,
/// and of the positions only those count that lie past where these two first differ.
pub fn recall_sum(idle: &[Vec<u8>]) -> usize {
    let order = falling(idle);
    let rows: Vec<Row> = order.iter().map(|u| on_air(u)).collect();
    let mut sum = 1;
    for (i, uid) in order.iter().enumerate() {
        let mut places: Vec<usize> = rows[i + 1..].iter().map(|later| first_difference(&rows[i], later)).collect();
        let mut shared = 0;
        if i > 0 {
            let parted = first_difference(&rows[i - 1], &rows[i]);
            shared = parted / 40;
            places.retain(|&place| place > parted);
        }
        places.sort();
        places.dedup();
        sum += 2 + 2 * level_count(uid) - shared + places.len();
    }
    sum
}

/// The most cards of a field, by T-06.
pub const MOST_CARDS: usize = 32;

/// Valid, all different, and no more than the limit.
pub fn sweepable(uids: &[Vec<u8>]) -> bool {
    uids.len() <= MOST_CARDS && uids.iter().all(|u| valid(u)) && uids.iter().enumerate().all(|(i, u)| !uids[..i].contains(u))
}

#[cfg(test)]
mod tests {
    use super::*;
    use crate::known::CHECKS;
    use crate::language::hex;

    #[test]
    fn check_bytes() {
        for &(bytes, b) in CHECKS {
            assert_eq!(check_byte(&hex(bytes)), b);
        }
    }

    #[test]
    fn level_rows() {
        let rows = |uid: &str| -> Vec<Vec<u8>> { levels(&hex(uid)).iter().map(|r| r.to_vec()).collect() };
        let want = |rows: [&str; 3]| -> Vec<Vec<u8>> { rows.iter().map(|r| hex(r)).collect() };
        assert_eq!(rows("80122821"), want(["801228219B", "0000000000", "0000000000"]));
        assert_eq!(rows("80122821441020"), want(["8880122832", "2144102055", "0000000000"]));
        assert_eq!(rows("56341280122821440010"), want(["88563412F8", "8880122832", "2144001075"]));
        assert_eq!(rows("04112233445566"), want(["88041122BF", "3344556644", "0000000000"]));
    }

    #[test]
    fn validity() {
        assert!(valid(&hex("01020304")));
        assert!(!valid(&hex("88020304")));
        assert!(valid(&hex("88020304050607")));
        assert!(!valid(&hex("01020388050607")));
        assert!(valid(&hex("88020388050688080910")));
        assert!(!valid(&hex("0102030405")));
        assert!(!valid(&[]));
    }

    /// Document 01, "Numbers to check by", P Frames.
    #[test]
    fn frame_sums() {
        let uids = |list: &[&str]| -> Vec<Vec<u8>> { list.iter().map(|u| hex(u)).collect() };
        assert_eq!(frame_sum(&[]), 1);
        let two = uids(&["80122821", "01020304"]);
        assert_eq!(frame_sum(&two), 10);
        assert_eq!(falling(&two), uids(&["01020304", "80122821"]));
        let three = uids(&["80122821", "04112233445566", "01020304"]);
        assert_eq!(frame_sum(&three), 17);
        assert_eq!(falling(&three), uids(&["01020304", "04112233445566", "80122821"]));
        assert_eq!(frame_sum(&uids(&["04112233445566", "01020304"])), 12);
        let four = uids(&["01020304", "80122821", "04112233445566", "04112233445567"]);
        assert_eq!((frame_sum(&four), recall_sum(&four)), (25, 23));
        assert_eq!((recall_sum(&[]), recall_sum(&two), recall_sum(&three)), (1, 10, 17));
    }
}
