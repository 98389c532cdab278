//! T-10: the sweep over a field of tags, which checks the claim from the UIDs alone.

use crate::coverage::note;
use crate::frames::{merge, Row};
use crate::refusal::{self, Refusal};
use crate::type_b::{admits, plain};
pub use crate::uid::MOST_CARDS as MOST_TAGS;
use crate::vicinity_reader::{Held, Reader, Said};
use crate::vicinity_tag::{Frame, State, Tag, Uid};

/// As document 01's list: 11 bytes for each of 32.
pub const LIST_ROOM: usize = 352;

/// Every tag takes the frame; what they say together.
pub fn air(field: &mut [Tag], frame: &Frame) -> Row {
    let rows: Vec<Row> = field.iter_mut().map(|tag| tag.hears(frame)).filter(|row| !row.is_empty()).collect();
    if rows.len() > 1 {
        let kind = match frame {
            Frame::Bytes(bytes) if bytes[0] & 4 == 0 => "request",
            _ => "slot",
        };
        let same = match rows.iter().all(|row| *row == rows[0]) {
            true => "equal",
            false if rows.iter().all(|row| row.len() == rows[0].len()) => "different",
            false => "of different lengths",
        };
        note("Vicinity together", kind, same);
    }
    merge(&rows)
}

/// The whole sweep. 11, 1, 6, then the UIDs in the order heard, in the list too.
pub fn sweep(reader: &mut Reader, field: &mut [Tag], list: &mut [u8], afi: Option<u8>) -> Result<Vec<Uid>, Refusal> {
    let refused = |number: Refusal, why: &str| {
        note("Vicinity field", &number.to_string(), why);
        Err(number)
    };
    if *reader != Reader::Ready {
        return refused(refusal::NOT_DUE, reader.name());
    }
    if list.len() < LIST_ROOM {
        return refused(refusal::ROOM, "list");
    }
    if let Some(why) = unfit(field) {
        return refused(refusal::ARGUMENT, why);
    }
    let before = field.to_vec();
    let mut said = reader.sweep(afi)?;
    let mut found = Vec::new();
    let mut rounds = 0;
    while let Said::Sends(frame) | Said::Slot { next: Some(frame), .. } = &said {
        rounds += (*frame != Frame::Eof) as usize;
        let row = air(field, frame);
        said = reader.hear(&row)?;
        if let Said::Slot { held: Held::One { uid, .. }, .. } = &said {
            let entry = &mut list[11 * found.len()..11 * (found.len() + 1)];
            entry[0] = 8;
            entry[1..9].copy_from_slice(uid);
            entry[9..].fill(0);
            found.push(*uid);
        }
    }
    check(&before, field, afi, &found, rounds);
    note("Vicinity field", "taken", if afi.is_some() { "AFI" } else { "no AFI" });
    Ok(found)
}

/// Why a field is not taken, if it is not.
fn unfit(field: &[Tag]) -> Option<&'static str> {
    if field.len() > MOST_TAGS {
        return Some("too many");
    }
    for (place, tag) in field.iter().enumerate() {
        if tag.state == State::Selected {
            return Some("selected");
        }
        if field[..place].iter().any(|other| other.uid == tag.uid) {
            return Some("UID twice");
        }
    }
    None
}

/// The claim, from the UIDs alone, and the number of rounds; each tag is as it was, but for a round that was under way.
fn check(before: &[Tag], after: &[Tag], afi: Option<u8>, found: &[Uid], rounds: usize) {
    let admitted =
        |tag: &&Tag| tag.state == State::Ready && afi.map_or(true, |asked| tag.afi.is_some_and(|own| admits(asked, own)));
    let ready: Vec<Row> = before.iter().filter(admitted).map(|tag| plain(&tag.uid)).collect();
    let mut heard = Vec::new();
    assert_eq!(order(&ready, 0, &mut heard), rounds, "the rounds");
    assert!(rounds <= 1 + 15 * (ready.len() / 2), "the rounds");
    let found: Vec<Row> = found.iter().map(|uid| plain(uid)).collect();
    assert_eq!(found, heard, "the claim");
    assert_eq!(heard.len(), ready.len(), "the claim");
    for (old, new) in before.iter().zip(after) {
        let is_same = old.uid == new.uid && old.state == new.state && old.blocks == new.blocks && old.locked == new.locked;
        assert!(is_same && !new.is_in_round(), "the field behind a sweep");
    }
    for (state, column) in [(State::Ready, "ready"), (State::Quiet, "quiet"), (State::Off, "off")] {
        if before.iter().any(|tag| tag.state == state) {
            note("Vicinity field", "taken", column);
        }
    }
    if ready.len() == MOST_TAGS {
        note("Vicinity field", "taken", "as many as the limit");
    }
    if ready.len() < before.iter().filter(|tag| tag.state == State::Ready).count() {
        note("Vicinity field", "taken", "not admitted");
    }
}

/// Tags that share so many bits: first those that are alone by the next four, in rising order, then the others four by four. Gives the rounds.
fn order(uids: &[Row], shared: usize, heard: &mut Vec<Row>) -> usize {
    let slot = |number: usize| -> Vec<Row> {
        let is_its = |uid: &&Row| (0..4).all(|bit| uid[shared + bit] as usize == number >> bit & 1);
        uids.iter().filter(is_its).cloned().collect()
    };
    let slots: Vec<Vec<Row>> = (0..16).map(slot).collect();
    heard.extend(slots.iter().filter(|tags| tags.len() == 1).map(|tags| tags[0].clone()));
    1 + slots.iter().filter(|tags| tags.len() > 1).map(|tags| order(tags, shared + 4, heard)).sum::<usize>()
}

#[cfg(test)]
mod tests {
    use super::*;
    use crate::language::{hex, show_hex};

    fn tags(uids: &[&str]) -> Vec<Tag> {
        uids.iter().map(|uid| Tag::new(hex(uid).try_into().unwrap(), 1, 1, State::Ready, None, 0).unwrap()).collect()
    }

    /// Five UIDs that end in 011, 021, 012, 111, 003: heard as 012, 003, 021, 011, 111.
    #[test]
    fn the_order_heard() {
        let mut field =
            tags(&["11000000000104E0", "21000000000104E0", "12000000000104E0", "11010000000104E0", "03000000000104E0"]);
        let mut list = vec![0xFF; 360];
        let found = sweep(&mut Reader::Ready, &mut field, &mut list, None).unwrap();
        let heard: Vec<String> = found.iter().map(|uid| show_hex(&uid[..2])).collect();
        assert_eq!(heard, ["1200", "0300", "2100", "1100", "1101"]);
        assert_eq!(show_hex(&list[..22]), "0812000000000104E000000803000000000104E00000");
        assert!(list[55..].iter().all(|&byte| byte == 0xFF));
    }

    /// Two tags that differ in the top four bits alone: 16 rounds.
    #[test]
    fn the_longest_mask() {
        let mut field = tags(&["11000000000104E0", "11000000000104F0"]);
        let found = sweep(&mut Reader::Ready, &mut field, &mut [0; 352], None).unwrap();
        assert_eq!(found.len(), 2);
        let uids: Vec<Row> = field.iter().map(|tag| plain(&tag.uid)).collect();
        assert_eq!(order(&uids, 0, &mut Vec::new()), 16);
    }
}
