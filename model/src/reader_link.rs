//! Document 01, "RATS, ATS and blocks", the reader's end.

use crate::blocks::{self, read_block, Block, LONGEST_MESSAGE};
use crate::coverage::note;
use crate::frames::{size_of_index, Row};
use crate::reader::Answer;
use crate::refusal::{self, Refusal};

#[derive(Clone, Copy, Debug, PartialEq)]
pub enum Stage {
    /// Between messages.
    Open,
    /// A chained I is out: the reader has more to send.
    More,
    /// Its last I is out, and no I of the answer has come.
    Last,
    /// A chained I of the answer has come: the card is chaining.
    Joining,
    /// DESELECT is out.
    Deselect,
}

#[derive(Clone, Debug, PartialEq)]
pub struct Link {
    pub stage: Stage,
    /// The reader's own size, from its RATS, and the card's, from ATS.
    pub own_size: usize,
    pub card_size: usize,
    /// The reader's own block number; it goes on from message to message.
    pub number: u8,
    /// Where in the message the last I began; 0 while joining and between messages.
    pub place: usize,
    /// How many bytes of the answer are joined.
    pub joined: usize,
    /// Silence and damage running, 0 to 2.
    pub repeats: u8,
    /// How often the last I was sent again because of an R(ACK), 0 to 2.
    pub sent_again: u8,
}

/// ATS: 7, 2, 8, 3, 4, then its values. TL counts itself but not CRC_A; T0 b5, b6, b7 announce TA, TB, TC; T0 b8 set, or TL
/// not fitting the frame or T0: 9. TL = 1 means size index 2. Gives the card's size.
pub fn read_ats(row: &[u8], own_size: usize) -> Result<usize, Refusal> {
    let bytes = blocks::read_frame(row, own_size)?;
    if bytes[0] as usize != bytes.len() {
        return Err(refusal::FORBIDDEN);
    }
    if bytes.len() == 1 {
        return Ok(size_of_index(2));
    }
    let t0 = bytes[1];
    let announced = ((t0 >> 4) & 7).count_ones() as usize;
    if t0 & 0x80 != 0 || bytes.len() < 2 + announced {
        return Err(refusal::FORBIDDEN);
    }
    Ok(size_of_index(t0 & 0x0F))
}

impl Link {
    /// The reader's number starts at 0.
    pub fn new(own_size: usize, card_size: usize) -> Link {
        Link { stage: Stage::Open, own_size, card_size, number: 0, place: 0, joined: 0, repeats: 0, sent_again: 0 }
    }

    pub fn stage_name(&self) -> &'static str {
        match self.stage {
            Stage::Open => "open",
            Stage::More => "more to send",
            Stage::Last => "last I out",
            Stage::Joining => "joining",
            Stage::Deselect => "DESELECT sent",
        }
    }

    /// Host call: a message. 11, then 10.
    pub fn send(&mut self, message: &[u8]) -> Result<Row, Refusal> {
        if self.stage != Stage::Open {
            return Err(refusal::NOT_DUE);
        }
        if message.len() > LONGEST_MESSAGE {
            return Err(refusal::MESSAGE);
        }
        self.joined = 0;
        self.repeats = 0;
        Ok(self.send_i(message, 0))
    }

    /// Host call: DESELECT, due only between messages.
    pub fn deselect(&mut self) -> Result<Row, Refusal> {
        if self.stage != Stage::Open {
            return Err(refusal::NOT_DUE);
        }
        self.stage = Stage::Deselect;
        self.repeats = 0;
        Ok(blocks::deselect())
    }

    /// A new I, which begins at this place of the message.
    fn send_i(&mut self, message: &[u8], place: usize) -> Row {
        self.place = place;
        self.sent_again = 0;
        self.stage = if blocks::more_behind(message, place, self.card_size) { Stage::More } else { Stage::Last };
        blocks::i_block(message, place, self.card_size, self.number)
    }

    /// Why a row is declined with everything unchanged: 11 between messages; 1 or 10 where an I would have to be cut from a lent message that
    /// does not reach its place or is too long.
    pub fn declines(&self, row: &[u8], message: &[u8]) -> Option<Refusal> {
        if self.stage == Stage::Open {
            return Some(refusal::NOT_DUE);
        }
        let block = read_block(&blocks::read_frame(row, self.own_size).ok()?);
        let (place, what) = match (block, self.stage) {
            (Block::Ack(number), Stage::More) if number == self.number => {
                (self.place + blocks::full_payload(self.card_size), "next I")
            }
            (Block::Ack(number), Stage::More | Stage::Last) if number != self.number && self.sent_again < 2 => (self.place, "I again"),
            _ => return None,
        };
        let number = blocks::unfit(message, place)?;
        note("reader lent", &number.to_string(), what);
        Some(number)
    }

    /// A row that is not declined: the rules.
    pub fn hear(&mut self, row: &[u8], message: &[u8], buffer: &mut [u8]) -> Answer {
        let column = self.stage_name();
        let bytes = match blocks::read_frame(row, self.own_size) {
            Ok(bytes) => bytes,
            Err(refusal) => {
                note("reader block", &format!("silence or damage {}", refusal.number), column);
                return self.repeat();
            }
        };
        let outcome = if self.stage == Stage::Deselect {
            self.deselect_answer(&read_block(&bytes))
        } else {
            self.block(&read_block(&bytes), message, buffer)
        };
        // A good block starts the count of silence and damage anew.
        self.repeats = 0;
        outcome.unwrap_or_else(Answer::Refused)
    }

    /// Silence or a damaged frame: R(NAK), or R(ACK) again while the card is chaining, or DESELECT again, at most twice
    /// running; then 12.
    fn repeat(&mut self) -> Answer {
        let column = self.stage_name();
        if self.repeats == 2 {
            note("reader block", "repeats used up", column);
            return Answer::Refused(refusal::REPEATS);
        }
        self.repeats += 1;
        Answer::Send(match self.stage {
            Stage::Joining => blocks::ack(self.number),
            Stage::Deselect => blocks::deselect(),
            _ => blocks::nak(self.number),
        })
    }

    /// After DESELECT all but C2: 9.
    fn deselect_answer(&self, block: &Block) -> Result<Answer, Refusal> {
        let row = match block {
            Block::I { .. } => "I",
            Block::Ack(_) => "R(ACK)",
            Block::Nak(_) => "R(NAK)",
            Block::Wtx(_) => "WTX",
            Block::WrongLength => "wrong length",
            Block::Unknown => "unknown",
            Block::Deselect => "C2",
        };
        note("reader block", row, self.stage_name());
        match block {
            Block::Deselect => Ok(Answer::Finished),
            _ => Err(refusal::FORBIDDEN),
        }
    }

    /// A good block while one is awaited.
    fn block(&mut self, block: &Block, message: &[u8], buffer: &mut [u8]) -> Result<Answer, Refusal> {
        let column = self.stage_name();
        match block {
            // I of the own number once its last I is out: joined, and R(ACK) if chained.
            Block::I { chained, number, payload } if *number == self.number => {
                note("reader block", if *chained { "chained I own" } else { "last I own" }, column);
                if self.stage == Stage::More {
                    return Err(refusal::FORBIDDEN);
                }
                let joined = self.joined + payload.len();
                if joined > LONGEST_MESSAGE || joined > buffer.len() {
                    note("reader block", "I that does not fit", column);
                    return Err(refusal::MESSAGE);
                }
                buffer[self.joined..joined].copy_from_slice(payload);
                self.number ^= 1;
                self.joined = joined;
                self.place = 0;
                if *chained {
                    self.stage = Stage::Joining;
                    return Ok(Answer::Send(blocks::ack(self.number)));
                }
                self.stage = Stage::Open;
                Ok(Answer::Answered(buffer[..joined].to_vec()))
            }
            Block::I { .. } => {
                note("reader block", "I other", column);
                Err(refusal::FORBIDDEN)
            }
            // R(ACK) of the own number while the reader has more to send: next I.
            Block::Ack(number) if *number == self.number => {
                note("reader block", "R(ACK) own", column);
                if self.stage != Stage::More {
                    return Err(refusal::FORBIDDEN);
                }
                self.number ^= 1;
                let next = self.place + blocks::full_payload(self.card_size);
                Ok(Answer::Send(self.send_i(message, next)))
            }
            // R(ACK) of the other number before any I of the awaited answer has come: the last I again, at most twice for
            // that I, then 9.
            Block::Ack(_) => {
                if self.stage == Stage::Joining || self.sent_again == 2 {
                    note(
                        "reader block",
                        if self.stage == Stage::Joining { "R(ACK) other" } else { "R(ACK) other, third" },
                        column,
                    );
                    return Err(refusal::FORBIDDEN);
                }
                note("reader block", "R(ACK) other", column);
                self.sent_again += 1;
                let chained = self.stage == Stage::More;
                Ok(Answer::Send(blocks::i_again(message, self.place, self.card_size, self.number, chained)))
            }
            Block::Nak(number) => {
                note("reader block", if *number == self.number { "R(NAK) own" } else { "R(NAK) other" }, column);
                Err(refusal::FORBIDDEN)
            }
            // WTX 1 to 59 is echoed, its two top bits cleared; other values 9.
            Block::Wtx(value) => {
                let asked = value & 0x3F;
                if (1..=59).contains(&asked) {
                    note("reader block", if *value == asked { "WTX 1 to 59" } else { "WTX 1 to 59, top bits set" }, column);
                    Ok(Answer::Send(blocks::wtx(asked)))
                } else {
                    note("reader block", if asked == 0 { "WTX 0" } else { "WTX 60 to 63" }, column);
                    Err(refusal::FORBIDDEN)
                }
            }
            Block::Deselect => {
                note("reader block", "C2", column);
                Err(refusal::FORBIDDEN)
            }
            Block::WrongLength => {
                note("reader block", "wrong length", column);
                Err(refusal::FORBIDDEN)
            }
            Block::Unknown => {
                note("reader block", "unknown", column);
                Err(refusal::FORBIDDEN)
            }
        }
    }
}

#[cfg(test)]
mod tests {
    use super::*;
    use crate::frames::{standard, standard_with_crc};
    use crate::language::hex;

    #[test]
    fn ats_forms() {
        let read = |bytes: &str| read_ats(&standard_with_crc(&hex(bytes)), 16);
        assert_eq!(read_ats(&standard(&hex("020858A1")), 16), Ok(256));
        assert_eq!(read_ats(&standard(&hex("017740")), 16), Ok(32));
        assert_eq!(read("0200"), Ok(16));
        assert_eq!(read("020F"), Ok(256));
        assert_eq!(read("00"), Err(refusal::FORBIDDEN));
        assert_eq!(read("02"), Err(refusal::FORBIDDEN));
        assert_eq!(read("0288"), Err(refusal::FORBIDDEN));
        assert_eq!(read("0248"), Err(refusal::FORBIDDEN));
        assert_eq!(read("034802"), Ok(256));
        assert_eq!(read("0578112233"), Ok(256));
        assert_eq!(read("04781122"), Err(refusal::FORBIDDEN));
        assert_eq!(read("067811223344"), Ok(256));
        assert_eq!(read("0E080102030405060708090A0B0C"), Ok(256));
        assert_eq!(read("0F080102030405060708090A0B0C0D"), Err(refusal::LENGTH));
        assert_eq!(read_ats(&[], 16), Err(refusal::SILENCE));
        assert_eq!(read_ats(&standard(&[1, 2]), 16), Err(refusal::LENGTH));
    }

    fn hear(link: &mut Link, bytes: &str, message: &[u8], buffer: &mut [u8]) -> Answer {
        link.hear(&standard_with_crc(&hex(bytes)), message, buffer)
    }

    #[test]
    fn a_message_and_its_answer() {
        let mut link = Link::new(16, 16);
        let message: Vec<u8> = (0..20).collect();
        let mut buffer = [0; 64];
        assert_eq!(link.send(&message), Ok(blocks::i_block(&message, 0, 16, 0)));
        assert_eq!(hear(&mut link, "A3", &message, &mut buffer), Answer::Send(blocks::i_block(&message, 0, 16, 0)));
        assert_eq!(hear(&mut link, "A2", &message, &mut buffer), Answer::Send(blocks::i_block(&message, 13, 16, 1)));
        assert_eq!(hear(&mut link, "F2FB", &message, &mut buffer), Answer::Send(blocks::wtx(0x3B)));
        assert_eq!(link.hear(&[], &message, &mut buffer), Answer::Send(blocks::nak(1)));
        assert_eq!(link.hear(&[1], &message, &mut buffer), Answer::Send(blocks::nak(1)));
        let again = standard_with_crc(&hex("A2"));
        assert_eq!(link.declines(&again, &message[..12]), Some(refusal::ROOM));
        assert_eq!(link.declines(&again, &message[..13]), None);
        assert_eq!(link.declines(&again, &[0; 4097]), Some(refusal::MESSAGE));
        assert_eq!(link.declines(&[1], &[]), None);
        assert_eq!(hear(&mut link, "1301", &message, &mut buffer), Answer::Send(blocks::ack(0)));
        assert_eq!(link.hear(&[], &message, &mut buffer), Answer::Send(blocks::ack(0)));
        assert_eq!(hear(&mut link, "0202", &message, &mut buffer), Answer::Answered(vec![1, 2]));
        assert_eq!(link.number, 1);
        assert_eq!(link.deselect(), Ok(blocks::deselect()));
        for _ in 0..2 {
            assert_eq!(link.hear(&[], &message, &mut buffer), Answer::Send(blocks::deselect()));
        }
        assert_eq!(link.hear(&[], &message, &mut buffer), Answer::Refused(refusal::REPEATS));
        assert_eq!(hear(&mut link, "C2", &message, &mut buffer), Answer::Finished);
    }
}
