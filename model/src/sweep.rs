//! Document 01, "The reader and the sweep": the field, and the sweep over it.

use crate::card::{Card, Outcome, State};
use crate::frames::{merge, Row};
use crate::log::{list_entry, record_bytes, Record};
use crate::reader::{Answer, Phase, Reader};
use crate::refusal::{self, Refusal};
use crate::uid;

/// What the sweep asks for, by T-09 and T-06.
pub const LOG_ROOM: usize = 40_960;
pub const LIST_ROOM: usize = 352;

#[derive(Clone, Debug, PartialEq)]
pub struct Swept {
    pub found: Vec<Vec<u8>>,
    pub list: Vec<u8>,
    pub records: Vec<Record>,
    pub log: Vec<u8>,
}

impl Swept {
    /// The number of reader records.
    pub fn frames(&self) -> usize {
        self.records.iter().filter(|r| matches!(r, Record::Reader(_))).count()
    }
}

/// Every card of the field takes the frame; the reader hears their merged bits.
pub fn field_takes(cards: &mut [Card], frame: &Row) -> Row {
    let mut answers = Vec::new();
    for card in cards.iter_mut() {
        if let Outcome::Answer(row) = card.take(frame, &[], &mut []) {
            answers.push(row);
        }
    }
    merge(&answers)
}

/// Over 32 cards, an invalid or repeated UID, an index over 8, a card neither Idle nor Halt.
fn field_is_taken(cards: &[Card]) -> bool {
    let uids: Vec<Vec<u8>> = cards.iter().map(|c| c.uid.clone()).collect();
    uid::sweepable(&uids)
        && cards.iter().all(|c| c.index <= 8)
        && cards.iter().all(|c| matches!(c.state, State::Idle | State::Halt))
}

/// The sweep on this reader with this much room. Tests 11, 1, 6. T-09: the log's first record has the tick given, each after it the next.
pub fn sweep(reader: &mut Reader, tick: u32, cards: &mut [Card], log_room: usize, list_room: usize) -> Result<Swept, Refusal> {
    sweep_by(false, reader, tick, cards, log_room, list_room)
}

/// T-14: the sweep that remembers. The same list and the same cards as the plain one, in as many frames as its own sum says, and never more.
pub fn remember(reader: &mut Reader, tick: u32, cards: &mut [Card], log_room: usize, list_room: usize) -> Result<Swept, Refusal> {
    let mut others = cards.to_vec();
    let swept = sweep_by(true, reader, tick, cards, log_room, list_room)?;
    let plain = sweep(&mut Reader::new(), tick, &mut others, log_room, list_room)?;
    assert_eq!(swept.list, plain.list);
    assert_eq!(cards, others);
    assert!(swept.frames() <= plain.frames());
    let n = swept.found.len();
    assert!(n == 0 || swept.frames() <= 9 * n);
    Ok(swept)
}

fn sweep_by(remembers: bool, reader: &mut Reader, tick: u32, cards: &mut [Card], log_room: usize, list_room: usize) -> Result<Swept, Refusal> {
    if reader.phase != Phase::New {
        return Err(refusal::NOT_DUE);
    }
    if log_room < LOG_ROOM || list_room < LIST_ROOM {
        return Err(refusal::ROOM);
    }
    if !field_is_taken(cards) {
        return Err(refusal::ARGUMENT);
    }
    let idle: Vec<Vec<u8>> = cards.iter().filter(|c| c.state == State::Idle).map(|c| c.uid.clone()).collect();
    let mut swept = Swept { found: Vec::new(), list: Vec::new(), records: Vec::new(), log: Vec::new() };
    let mut next = if remembers { reader.remember() } else { reader.sweep() };
    loop {
        let frame = match next {
            Answer::Send(frame) => frame,
            Answer::Found { uid, frame, .. } => {
                swept.list.extend_from_slice(&list_entry(&uid));
                swept.found.push(uid);
                frame
            }
            Answer::Finished => break,
            other => panic!("a sweep over such a field declines nothing: {other:?}"),
        };
        let heard = field_takes(cards, &frame);
        for record in [Record::Reader(frame), Record::Heard(heard.clone())] {
            let tick = tick.wrapping_add(swept.records.len() as u32);
            swept.log.extend(record_bytes(tick, &record));
            swept.records.push(record);
        }
        next = reader.hear(&heard, &[], &mut []);
    }
    self_check(&swept, if remembers { uid::recall_sum(&idle) } else { uid::frame_sum(&idle) }, &idle, cards);
    Ok(swept)
}

/// T-03: WUPA to the field, then SELECT of this UID level by level. Tests 11, 6. The UID and its last SAK with the number of frames, or 7.
pub fn wake(reader: &mut Reader, uid: &[u8], cards: &mut [Card]) -> Result<(u8, usize), Refusal> {
    if reader.phase != Phase::New {
        return Err(refusal::NOT_DUE);
    }
    if !uid::valid(uid) || !field_is_taken(cards) {
        return Err(refusal::ARGUMENT);
    }
    let before = cards.to_vec();
    let mut next = reader.wake(uid);
    let mut frames = 0;
    loop {
        match next {
            Answer::Send(frame) => {
                frames += 1;
                next = reader.hear(&field_takes(cards, &frame), &[], &mut []);
            }
            Answer::Selected { uid: got, sak } => {
                assert_eq!(got, uid);
                assert_eq!(frames, 1 + uid::level_count(uid));
                claim(&before, cards, uid, Some(sak));
                return Ok((sak, frames));
            }
            Answer::Refused(refusal::SILENCE) => {
                claim(&before, cards, uid, None);
                return Err(refusal::SILENCE);
            }
            other => panic!("such a field gives nothing else: {other:?}"),
        }
    }
}

/// What T-03 says of it, tested each time: that card Active or Active*, every other as it was; a UID not there, all as they were.
fn claim(before: &[Card], after: &[Card], uid: &[u8], sak: Option<u8>) {
    assert_eq!(sak, before.iter().find(|c| c.uid == uid).map(|c| c.last_sak()));
    for (was, is) in before.iter().zip(after) {
        let mut due = was.clone();
        if was.uid == uid {
            due.state = if was.state == State::Halt { State::ActiveStar } else { State::Active };
        }
        assert_eq!(*is, due);
    }
}

/// What document 01 says of a whole sweep, tested each time: the list is the idle cards in falling order, the number of frames
/// is the sum from the UIDs alone, all cards are halted, and the room holds the log.
fn self_check(swept: &Swept, frames: usize, idle: &[Vec<u8>], cards: &[Card]) {
    assert_eq!(swept.found, uid::falling(idle));
    assert_eq!(swept.frames(), frames);
    assert!(cards.iter().all(|c| c.state == State::Halt));
    assert!(swept.log.len() <= LOG_ROOM && swept.list.len() <= LIST_ROOM);
    assert_eq!(swept.records.len(), 2 * swept.frames());
}

#[cfg(test)]
mod tests {
    use super::*;
    use crate::language::hex;

    fn field(uids: &[(&str, bool)]) -> Vec<Card> {
        uids.iter()
            .map(|(uid, blocks)| {
                let mut card = Card::new(&hex(uid), *blocks, 8).unwrap();
                card.power_on();
                card
            })
            .collect()
    }

    fn run(cards: &mut [Card]) -> Swept {
        sweep(&mut Reader::new(), 0, cards, LOG_ROOM, LIST_ROOM).unwrap()
    }

    #[test]
    fn no_cards() {
        let swept = run(&mut []);
        assert_eq!(swept.log, hex("00070000000064C00000000001"));
        assert_eq!(swept.frames(), 1);
        let last = sweep(&mut Reader::new(), u32::MAX, &mut [], LOG_ROOM, LIST_ROOM).unwrap();
        assert_eq!(last.log, hex("0007FFFFFFFF64C00000000000"));
    }

    #[test]
    fn two_cards_log() {
        let swept = run(&mut field(&[("01020304", false), ("80122821", true)]));
        // The records without their ticks, which count up from 0.
        let log = "000764 4012200040 0012C98200 802D002000200000810475149F90 0013C9C260 402C004060480400 \
                   0051C98720080C090080E3A400 401B00BFA280 00240A807A9660 C000 000764 4012200040 0012C98200 \
                   402D012445309D90 0051C9870049114C2764D53E00 401B041FC380 00240A807A9660 C000 000764 C000";
        let mut due = Vec::new();
        for (tick, record) in log.split_whitespace().enumerate() {
            let bytes = hex(record);
            due.extend([&bytes[..2], &(tick as u32).to_be_bytes()[..], &bytes[2..]].concat());
        }
        assert_eq!(swept.log, due);
        assert_eq!(swept.frames(), 10);
        assert_eq!(swept.found, [hex("01020304"), hex("80122821")]);
    }

    #[test]
    fn numbers_to_check_by() {
        let swept = run(&mut field(&[("80122821", true), ("04112233445566", true), ("01020304", true)]));
        assert_eq!(swept.frames(), 17);
        assert_eq!(swept.found[1], hex("04112233445566"));
        assert_eq!(run(&mut field(&[("04112233445566", true), ("01020304", true)])).frames(), 12);
    }

    #[test]
    fn declined() {
        let mut cards = field(&[("01020304", true)]);
        let mut used = Reader::new();
        used.select();
        assert_eq!(sweep(&mut used, 0, &mut cards, 0, 0), Err(refusal::NOT_DUE));
        assert_eq!(sweep(&mut Reader::new(), 0, &mut cards, LOG_ROOM - 1, LIST_ROOM), Err(refusal::ROOM));
        assert_eq!(sweep(&mut Reader::new(), 0, &mut cards, LOG_ROOM, LIST_ROOM - 1), Err(refusal::ROOM));
        cards[0].power_off();
        assert_eq!(sweep(&mut Reader::new(), 0, &mut cards, LOG_ROOM, LIST_ROOM), Err(refusal::ARGUMENT));
    }
}
