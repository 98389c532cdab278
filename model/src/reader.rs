//! Document 01, "The reader and the sweep": one reader's selection, alone and in a sweep, and RATS.

use crate::coverage::note;
use crate::frames::{self, Row, REQA, WUPA};
use crate::reader_link::{read_ats, Link};
use crate::refusal::{self, Refusal};
use crate::uid::{self, check_byte};

#[derive(Clone, Debug, PartialEq)]
pub enum Phase {
    New,
    ReqaSent,
    /// ANTICOLLISION is out at this level with these bits known.
    AnticollisionSent {
        level: usize,
        known: Row,
    },
    /// SELECT of these five bytes is out.
    SelectSent {
        level: usize,
        bytes: [u8; 5],
    },
    /// WUPA is out, for the one card with this UID (T-03).
    WupaSent {
        uid: Vec<u8>,
    },
    /// SELECT of a level of this UID is out, without ANTICOLLISION before it.
    UidSelectSent {
        uid: Vec<u8>,
        level: usize,
    },
    /// In a sweep only.
    HltaSent,
    /// Outside a sweep: the UID is complete.
    Selected {
        sak: u8,
    },
    /// RATS is out, with the reader's own size.
    RatsSent {
        own_size: usize,
    },
    /// After ATS: between messages, a block or DESELECT is out.
    Linked(Link),
    Finished,
    Stopped,
}

/// T-14: what a sweep that remembers keeps.
#[derive(Clone, Debug, Default, PartialEq)]
struct Memory {
    /// The levels of the card under way, or of the one found last.
    card: Vec<[u8; 5]>,
    /// The branches not yet taken, the newest last: the level and the position at which a 1 was sent against a collision.
    branches: Vec<(usize, usize)>,
    /// The branch that is being taken, until its level is asked for.
    target: Option<(usize, usize)>,
}

#[derive(Clone, Debug, PartialEq)]
pub struct Reader {
    pub phase: Phase,
    pub sweeping: bool,
    /// The UID so far, of the levels that were selected.
    pub uid: Vec<u8>,
    /// In a sweep that remembers only.
    memory: Option<Memory>,
}

/// What a call to the reader gives.
#[derive(Clone, Debug, PartialEq)]
pub enum Answer {
    Send(Row),
    Selected {
        uid: Vec<u8>,
        sak: u8,
    },
    /// In a sweep: the UID is complete, and HLTA goes out.
    Found {
        uid: Vec<u8>,
        sak: u8,
        frame: Row,
    },
    Finished,
    /// A good ATS: the card's frame size.
    Open(usize),
    Answered(Vec<u8>),
    Refused(Refusal),
}

/// "In ATQA and ANTICOLLISION answers parity is checked only on whole bytes with no collided data bit; there a collided
/// parity bit is wrong." The row given holds whole bytes with parity; the first that is wrong, counted from 0.
fn first_wrong(whole: &[u8]) -> Option<usize> {
    whole.chunks(9).position(|nine| !frames::has_collision(&nine[..8]) && nine[8] != frames::parity(frames::byte_of(&nine[..8])))
}

/// ATQA outside a sweep: 7; 2; 3; collided bits count as 1, and at least one of b1 to b5 of the first byte must be 1, else 9.
fn read_atqa(row: &[u8]) -> Result<(), Refusal> {
    if row.is_empty() {
        return Err(refusal::SILENCE);
    }
    if row.len() != 18 {
        return Err(refusal::LENGTH);
    }
    if let Some(byte) = first_wrong(row) {
        return Err(refusal::parity(byte));
    }
    if row[..5].iter().all(|&bit| bit == 0) {
        return Err(refusal::FORBIDDEN);
    }
    Ok(())
}

/// SAK: 7, 2, 8, 3, 4.
fn read_sak(row: &[u8]) -> Result<u8, Refusal> {
    if row.is_empty() {
        return Err(refusal::SILENCE);
    }
    if row.len() != 27 {
        return Err(refusal::LENGTH);
    }
    Ok(frames::read_standard_with_crc(row, 3)?[0])
}

impl Reader {
    pub fn new() -> Reader {
        Reader { phase: Phase::New, sweeping: false, uid: Vec::new(), memory: None }
    }

    pub fn phase_name(&self) -> &'static str {
        match &self.phase {
            Phase::New => "new",
            Phase::ReqaSent if self.sweeping => "REQA sent (sweep)",
            Phase::ReqaSent => "REQA sent",
            Phase::AnticollisionSent { .. } => "ANTICOLLISION sent",
            Phase::SelectSent { .. } => "SELECT sent",
            Phase::WupaSent { .. } => "WUPA sent",
            Phase::UidSelectSent { .. } => "SELECT of a UID sent",
            Phase::HltaSent => "HLTA sent",
            Phase::Selected { sak } if sak & 0x20 == 0 => "selected, b6 clear",
            Phase::Selected { .. } => "selected",
            Phase::RatsSent { .. } => "RATS sent",
            Phase::Linked(link) => link.stage_name(),
            Phase::Finished => "finished",
            Phase::Stopped => "stopped",
        }
    }

    /// The reader's own block number, while it is linked.
    pub fn block_number(&self) -> Option<u8> {
        match &self.phase {
            Phase::Linked(link) => Some(link.number),
            _ => None,
        }
    }

    /// A refusal with everything unchanged.
    fn decline(&self, refusal: Refusal) -> Answer {
        note("reader refusal", self.phase_name(), &refusal.number.to_string());
        if refusal.number == 3 {
            let byte = if refusal.byte < 4 { refusal.byte.to_string() } else { "4 or more".to_string() };
            note("reader parity", self.phase_name(), &format!("byte {byte}"));
        }
        Answer::Refused(refusal)
    }

    /// A refusal that stops the reader. A stopped reader has one value, whatever it held.
    fn stop(&mut self, number: Refusal) -> Answer {
        let answer = self.decline(number);
        *self = Reader { phase: Phase::Stopped, ..Reader::new() };
        answer
    }

    fn finish(&mut self) -> Answer {
        *self = Reader { phase: Phase::Finished, ..Reader::new() };
        Answer::Finished
    }

    /// Host call: select one card.
    pub fn select(&mut self) -> Answer {
        self.start(false)
    }

    /// Host call: the reader's part of a sweep.
    pub fn sweep(&mut self) -> Answer {
        self.start(true)
    }

    fn start(&mut self, sweeping: bool) -> Answer {
        note("reader call", self.phase_name(), if sweeping { "sweep" } else { "select" });
        if self.phase != Phase::New {
            return self.decline(refusal::NOT_DUE);
        }
        self.sweeping = sweeping;
        self.send_reqa()
    }

    /// Host call, T-14: the reader's part of a sweep that remembers.
    pub fn remember(&mut self) -> Answer {
        note("reader call", self.phase_name(), "remember");
        if self.phase != Phase::New {
            return self.decline(refusal::NOT_DUE);
        }
        self.sweeping = true;
        self.memory = Some(Memory::default());
        self.send_reqa()
    }

    /// Host call, T-03: the one card with this UID. Tests 11, 6.
    pub fn wake(&mut self, uid: &[u8]) -> Answer {
        note("reader call", self.phase_name(), "wake");
        if self.phase != Phase::New {
            return self.decline(refusal::NOT_DUE);
        }
        if !uid::valid(uid) {
            return self.decline(refusal::ARGUMENT);
        }
        self.phase = Phase::WupaSent { uid: uid.to_vec() };
        Answer::Send(frames::short(WUPA))
    }

    /// SELECT of a level of a UID that is known.
    fn send_select(&mut self, uid: Vec<u8>, level: usize) -> Answer {
        let frame = frames::select(level, &uid::levels(&uid)[level - 1]);
        self.phase = Phase::UidSelectSent { uid, level };
        Answer::Send(frame)
    }

    fn send_reqa(&mut self) -> Answer {
        self.uid.clear();
        self.phase = Phase::ReqaSent;
        Answer::Send(frames::short(REQA))
    }

    fn send_anticollision(&mut self, level: usize, known: Row) -> Answer {
        let frame = frames::anticollision(level, &known);
        self.phase = Phase::AnticollisionSent { level, known };
        Answer::Send(frame)
    }

    /// A level comes next, nothing of it heard yet. T-14: on the way to a branch SELECT goes out straight with the five bytes that are kept, and at
    /// the branch's level ANTICOLLISION with the bits before its position and then a 0.
    fn ask_level(&mut self, level: usize) -> Answer {
        let Some(memory) = &mut self.memory else { return self.send_anticollision(level, Row::new()) };
        let Some((to, position)) = memory.target else { return self.send_anticollision(level, Row::new()) };
        if level < to {
            let bytes = memory.card[level - 1];
            note("remembered", "straight to SELECT", &format!("level {level}"));
            self.phase = Phase::SelectSent { level, bytes };
            return Answer::Send(frames::select(level, &bytes));
        }
        memory.target = None;
        let mut known = frames::bits_of(&memory.card[to - 1])[..position].to_vec();
        known.push(0);
        memory.card.truncate(to - 1);
        note("remembered", "branch taken", &format!("level {level}"));
        self.send_anticollision(level, known)
    }

    /// ATQA was good: the newest branch, or all anew.
    fn after_atqa(&mut self) -> Answer {
        if let Some(memory) = &mut self.memory {
            memory.target = memory.branches.pop();
            if memory.target.is_none() {
                memory.card.clear();
            }
        }
        self.ask_level(1)
    }

    /// Host call: RATS with the reader's own size index. Due if b6 of the last SAK is set; 6: index over 8.
    pub fn rats(&mut self, index: u8) -> Answer {
        note("reader call", self.phase_name(), "RATS");
        match self.phase {
            Phase::Selected { sak } if sak & 0x20 != 0 => {
                if index > 8 {
                    return self.decline(refusal::ARGUMENT);
                }
                self.phase = Phase::RatsSent { own_size: frames::size_of_index(index) };
                Answer::Send(frames::rats(index))
            }
            _ => self.decline(refusal::NOT_DUE),
        }
    }

    /// Host call: send a message.
    pub fn send(&mut self, message: &[u8]) -> Answer {
        note("reader call", self.phase_name(), "message");
        let outcome = match &mut self.phase {
            Phase::Linked(link) => link.send(message),
            _ => Err(refusal::NOT_DUE),
        };
        outcome.map(Answer::Send).unwrap_or_else(|number| self.decline(number))
    }

    /// Host call: DESELECT.
    pub fn deselect(&mut self) -> Answer {
        note("reader call", self.phase_name(), "DESELECT");
        let outcome = match &mut self.phase {
            Phase::Linked(link) => link.deselect(),
            _ => Err(refusal::NOT_DUE),
        };
        outcome.map(Answer::Send).unwrap_or_else(|number| self.decline(number))
    }

    /// A received row. The message being sent and the buffer for the answer are lent at each call.
    pub fn hear(&mut self, row: &[u8], message: &[u8], buffer: &mut [u8]) -> Answer {
        note("reader call", self.phase_name(), "row");
        match self.phase.clone() {
            Phase::New | Phase::Selected { .. } | Phase::Finished | Phase::Stopped => self.decline(refusal::NOT_DUE),
            Phase::ReqaSent if self.sweeping && row.is_empty() => self.finish(),
            Phase::ReqaSent => match read_atqa(row) {
                Ok(()) => self.after_atqa(),
                Err(refusal) => self.stop(refusal),
            },
            Phase::WupaSent { uid } => match read_atqa(row) {
                Ok(()) => self.send_select(uid, 1),
                Err(refusal) => self.stop(refusal),
            },
            Phase::UidSelectSent { uid, level } => self.hear_uid_sak(row, uid, level),
            Phase::AnticollisionSent { level, known } => self.hear_level(row, level, &known),
            Phase::SelectSent { level, bytes } => self.hear_sak(row, level, &bytes),
            // Silence; anything else is 9, ahead of other tests.
            Phase::HltaSent if row.is_empty() => self.send_reqa(),
            Phase::HltaSent => self.stop(refusal::FORBIDDEN),
            Phase::RatsSent { own_size } => match read_ats(row, own_size) {
                Ok(card_size) => {
                    self.phase = Phase::Linked(Link::new(own_size, card_size));
                    Answer::Open(card_size)
                }
                Err(number) => self.stop(number),
            },
            Phase::Linked(mut link) => {
                if let Some(number) = link.declines(row, message) {
                    return self.decline(number);
                }
                let outcome = link.hear(row, message, buffer);
                match outcome {
                    Answer::Refused(number) => self.stop(number),
                    Answer::Finished => self.finish(),
                    _ => {
                        self.phase = Phase::Linked(link);
                        outcome
                    }
                }
            }
        }
    }

    /// The answer to ANTICOLLISION with some bits known: 7, 2, 8, 3, 5.
    fn hear_level(&mut self, row: &[u8], level: usize, known: &[u8]) -> Answer {
        if row.is_empty() {
            return self.stop(refusal::SILENCE);
        }
        if row.len() != frames::rest_length(known.len()) {
            return self.stop(refusal::LENGTH);
        }
        // The remainder of a broken byte and its parity bit, which is ignored; then whole bytes. Parity bits are no positions.
        let remainder = if known.len() % 8 > 0 { 8 - known.len() % 8 } else { 0 };
        let whole = if remainder > 0 { &row[remainder + 1..] } else { row };
        let mut data = known.to_vec();
        data.extend_from_slice(&row[..remainder]);
        for nine in whole.chunks(9) {
            data.extend_from_slice(&nine[..8]);
        }
        assert_eq!(data.len(), 40);
        let collided = data.iter().position(|&bit| bit > 1);
        if collided.map_or(false, |p| p >= 32) {
            return self.stop(refusal::COLLISION);
        }
        if let Some(i) = first_wrong(whole) {
            // "In an ANTICOLLISION answer the index counts from the level's first byte": those not whole here come before.
            let byte = 5 - whole.len() / 9 + i;
            note("ANTICOLLISION parity", &format!("k = {}", known.len()), &format!("byte {byte}"));
            return self.stop(refusal::parity(byte));
        }
        if let Some(p) = collided {
            // The bits before p, and then a 1.
            let mut next = data[..p].to_vec();
            next.push(1);
            if let Some(memory) = &mut self.memory {
                memory.branches.push((level, p));
                note("remembered", "branch kept", &format!("level {level}"));
            }
            return self.send_anticollision(level, next);
        }
        let mut bytes = [0; 5];
        for (i, byte) in bytes.iter_mut().enumerate() {
            *byte = frames::byte_of(&data[8 * i..8 * i + 8]);
        }
        if bytes[4] != check_byte(&bytes[..4]) {
            return self.stop(refusal::B);
        }
        if let Some(memory) = &mut self.memory {
            memory.card.truncate(level - 1);
            memory.card.push(bytes);
        }
        self.phase = Phase::SelectSent { level, bytes };
        Answer::Send(frames::select(level, &bytes))
    }

    /// SAK: 7, 2, 8, 3, 4; then 9 where b3 contradicts the level that SELECT named (T-04), and where it is set at level 3;
    /// b3 set: next level, the level's first byte dropped from the UID; clear: the UID is complete.
    fn hear_sak(&mut self, row: &[u8], level: usize, bytes: &[u8; 5]) -> Answer {
        let sak = match read_sak(row) {
            Ok(sak) => sak,
            Err(number) => return self.stop(number),
        };
        let more = sak & 0x04 != 0;
        let tagged = bytes[0] == 0x88;
        note("SAK and level", &format!("level {level}, first byte {}", if tagged { "88" } else { "another" }), if more { "b3 set" } else { "b3 clear" });
        // Only a level with another behind it begins with the tag; the third level may begin with 88 by chance.
        let contradicts = match level {
            1 | 2 => more != tagged,
            _ => more,
        };
        if contradicts {
            return self.stop(refusal::FORBIDDEN);
        }
        if more {
            self.uid.extend_from_slice(&bytes[1..4]);
            return self.ask_level(level + 1);
        }
        self.uid.extend_from_slice(&bytes[..4]);
        let uid = std::mem::take(&mut self.uid);
        if self.sweeping {
            self.phase = Phase::HltaSent;
            return Answer::Found { uid, sak, frame: frames::hlta() };
        }
        self.phase = Phase::Selected { sak };
        Answer::Selected { uid, sak }
    }

    /// T-03, the SAK of a known UID: b3 is set exactly if the level is not its last, else 9. It ends as any selection.
    fn hear_uid_sak(&mut self, row: &[u8], uid: Vec<u8>, level: usize) -> Answer {
        let sak = match read_sak(row) {
            Ok(sak) => sak,
            Err(number) => return self.stop(number),
        };
        let (more, last) = (sak & 0x04 != 0, uid::level_count(&uid));
        note("SAK and UID", &format!("level {level} of {last}"), if more { "b3 set" } else { "b3 clear" });
        if more != (level < last) {
            return self.stop(refusal::FORBIDDEN);
        }
        if more {
            return self.send_select(uid, level + 1);
        }
        self.phase = Phase::Selected { sak };
        Answer::Selected { uid, sak }
    }
}

#[cfg(test)]
mod tests {
    use super::*;
    use crate::known::packed;
    use crate::language::hex;
    use crate::uid;

    fn hear(reader: &mut Reader, row: &[u8]) -> Answer {
        reader.hear(row, &[], &mut [])
    }

    fn after_atqa() -> Reader {
        let mut reader = Reader::new();
        assert_eq!(reader.select(), Answer::Send(packed("7:64")));
        assert_eq!(hear(&mut reader, &packed("18:20 00 40")), Answer::Send(packed("18:C9 82 00")));
        reader
    }

    /// Trace 1 of source document 004, the rows that our reader could send.
    #[test]
    fn first_trace() {
        let mut reader = after_atqa();
        let mut row = packed("45:01 24 45 30 9D 90");
        row[10] = 2; // data position 9: the eighth bit of the row is a parity bit
        assert_eq!(hear(&mut reader, &row), Answer::Send(packed("29:C9 A6 00 48")));
        let mut row = packed("34:22 29 84 EC 80");
        row[10] = 2; // position 19: six bits and parity end the broken byte, then positions 16 to 19
        assert_eq!(hear(&mut reader, &row), Answer::Send(packed("40:C9 91 40 49 11")));
        assert_eq!(hear(&mut reader, &packed("23:4C 27 64")), Answer::Send(packed("81:C9 87 00 49 11 4C 27 64 D5 3E 00")));
        assert_eq!(hear(&mut reader, &packed("27:00 BF A2 80")), Answer::Selected { uid: hex("80122821"), sak: 0 });
        assert_eq!(reader.rats(8), Answer::Refused(refusal::NOT_DUE));
    }

    /// 33 rows that part at every bit of a level need 33 ANTICOLLISION frames.
    #[test]
    fn thirty_three_frames() {
        let mut reader = after_atqa();
        let mut frames_sent = 1;
        let bytes = [0xFF, 0xFF, 0xFF, 0xFF, 0x00];
        for p in 0..32 {
            let known = frames_sent - 1;
            assert_eq!(known, p);
            let mut row = frames::rest_of_level(&bytes, p);
            row[0] = 2;
            match hear(&mut reader, &row) {
                Answer::Send(frame) => {
                    assert_eq!(frame, frames::anticollision(1, &vec![1; p + 1]));
                    frames_sent += 1;
                }
                other => panic!("{other:?}"),
            }
        }
        assert_eq!(frames_sent, 33);
        assert_eq!(hear(&mut reader, &frames::rest_of_level(&bytes, 32)), Answer::Send(frames::select(1, &bytes)));
    }

    #[test]
    fn atqa() {
        let ask = |row: &[u8]| {
            let mut reader = Reader::new();
            reader.select();
            hear(&mut reader, row)
        };
        let good = Answer::Send(packed("18:C9 82 00"));
        assert_eq!(ask(&frames::standard(&[0xC4, 0x00])), good);
        assert_eq!(ask(&[2; 18]), good);
        assert_eq!(ask(&[]), Answer::Refused(refusal::SILENCE));
        assert_eq!(ask(&[0; 17]), Answer::Refused(refusal::LENGTH));
        assert_eq!(ask(&frames::standard(&[0xE0, 0xFF])), Answer::Refused(refusal::FORBIDDEN));
        let mut row = frames::standard(&[0x04, 0x00]);
        row[8] = 2;
        assert_eq!(ask(&row), Answer::Refused(refusal::parity(0)));
        row[17] = 0;
        assert_eq!(ask(&row), Answer::Refused(refusal::parity(0)));
        row[0] = 2;
        assert_eq!(ask(&row), Answer::Refused(refusal::parity(1)));
        row[17] = 1;
        assert_eq!(ask(&row), good);
    }

    #[test]
    fn broken_byte_and_b() {
        let bytes = uid::levels(&hex("01020304"))[0];
        let all = frames::rest_of_level(&bytes, 0);
        let ask = |change: &dyn Fn(&mut Row)| {
            let mut row = all.clone();
            change(&mut row);
            hear(&mut after_atqa(), &row)
        };
        assert_eq!(ask(&|_| ()), Answer::Send(frames::select(1, &bytes)));
        assert_eq!(ask(&|r| r[44] = 2), Answer::Refused(refusal::parity(4)));
        assert_eq!(ask(&|r| r[36] = 2), Answer::Refused(refusal::COLLISION));
        assert_eq!(
            ask(&|r| {
                r[36] = 2;
                r[7] = 2
            }),
            Answer::Send(frames::anticollision(1, &frames::bits_of(&[0x81])))
        );
        assert_eq!(
            ask(&|r| {
                r[36] ^= 1;
                r[44] ^= 1
            }),
            Answer::Refused(refusal::B)
        );
        // The parity of the broken byte is ignored, also when it is collided.
        let mut reader = after_atqa();
        let mut row = all.clone();
        row[3] = 2;
        assert_eq!(hear(&mut reader, &row), Answer::Send(frames::anticollision(1, &[1, 0, 0, 1])));
        let mut rest = frames::rest_of_level(&[0x09, 2, 3, 4, 0x0C], 4);
        rest[4] = 2;
        assert_eq!(hear(&mut reader, &rest), Answer::Send(frames::select(1, &[0x09, 2, 3, 4, 0x0C])));
    }
}
