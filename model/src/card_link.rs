//! Document 01, "RATS, ATS and blocks", the card's end.
//!
//! The link keeps places and counts, no copy of a message: its host's answer and the buffer for what comes are lent at
//! each call, and "last block again" is written anew from the lent answer.

use crate::blocks::{self, read_block, Block, LONGEST_MESSAGE};
use crate::card::Outcome;
use crate::coverage::note;
use crate::refusal;

#[derive(Clone, Copy, Debug, PartialEq)]
pub enum Mode {
    /// Joining a message, or waiting for one.
    Receiving,
    /// A message was delivered, or a WTX granted: the host's answer is awaited, and no frame is taken.
    Owing,
    /// A WTX with this value is out.
    WtxAsked(u8),
    /// A chained I of the answer is out: the card is chaining.
    Answering,
}

/// The last block sent since RATS.
#[derive(Clone, Copy, Debug, PartialEq)]
pub enum Last {
    Nothing,
    /// The I that begins at `place`, and whether it was chained.
    I(bool),
    Ack,
    Wtx(u8),
}

#[derive(Clone, Debug, PartialEq)]
pub struct Link {
    /// The card's own block number.
    pub number: u8,
    /// The reader's size, from RATS.
    pub reader_size: usize,
    pub mode: Mode,
    /// How many bytes of the message under way are joined.
    pub joined: usize,
    /// Where in its answer the last I began; 0 again with every accepted I.
    pub place: usize,
    pub last: Last,
    /// DESELECT was answered: the card leaves Protocol for Halt.
    pub deselected: bool,
}

impl Link {
    /// The card's number starts at 1.
    pub fn new(reader_size: usize) -> Link {
        Link { number: 1, reader_size, mode: Mode::Receiving, joined: 0, place: 0, last: Last::Nothing, deselected: false }
    }

    pub fn mode_name(&self) -> &'static str {
        match self.mode {
            Mode::Receiving => "receiving",
            Mode::Owing => "owing",
            Mode::WtxAsked(_) => "WTX asked",
            Mode::Answering => "answering",
        }
    }

    fn toggle(&mut self) {
        self.number ^= 1;
    }

    /// A frame. 11 while the host owes its answer; then the rules.
    pub fn take(&mut self, row: &[u8], message: &[u8], buffer: &mut [u8], own_size: usize) -> Outcome {
        let column = self.mode_name();
        if self.mode == Mode::Owing {
            let damaged = blocks::read_frame(row, own_size).is_err();
            note("card block", if damaged { "damage" } else { "any good block" }, column);
            return Outcome::Refused(refusal::NOT_DUE);
        }
        // A damaged frame gets silence and changes nothing.
        let bytes = match blocks::read_frame(row, own_size) {
            Ok(bytes) => bytes,
            Err(refusal) => {
                note("card block", &format!("damage {}", refusal.number), column);
                return Outcome::Silent;
            }
        };
        match read_block(&bytes) {
            Block::I { chained, payload, .. } => self.take_i(chained, &payload, buffer),
            Block::Ack(number) | Block::Nak(number) if number == self.number => self.last_again(message, bytes[0]),
            Block::Nak(_) => {
                note("card block", "R(NAK) other", column);
                self.send_ack()
            }
            Block::Ack(_) if self.mode == Mode::Answering => {
                note("card block", "R(ACK) other", column);
                let next = self.place + blocks::full_payload(self.reader_size);
                if let Some(number) = blocks::unfit(message, next) {
                    note("card lent", &number.to_string(), "next I");
                    return Outcome::Refused(number);
                }
                self.toggle();
                self.send_i(message, next)
            }
            Block::Ack(_) => {
                note("card block", "R(ACK) other", column);
                Outcome::Silent
            }
            Block::Wtx(value) if self.mode == Mode::WtxAsked(value) => {
                note("card block", "WTX asked for", column);
                self.mode = Mode::Owing;
                Outcome::Again
            }
            Block::Wtx(_) => {
                note("card block", "WTX not asked for or of another value", column);
                Outcome::Silent
            }
            Block::Deselect => {
                note("card block", "C2", column);
                self.deselected = true;
                Outcome::Answer(blocks::deselect())
            }
            Block::WrongLength => {
                note("card block", "wrong length", column);
                Outcome::Silent
            }
            Block::Unknown => {
                note("card block", "unknown", column);
                Outcome::Silent
            }
        }
    }

    /// An I, whatever its number: joined behind what came before, toggled; it drops any answer or WTX under way. One that
    /// does not fit is 10: silent, not toggled, the host told.
    fn take_i(&mut self, chained: bool, payload: &[u8], buffer: &mut [u8]) -> Outcome {
        let column = self.mode_name();
        let joined = self.joined + payload.len();
        if joined > LONGEST_MESSAGE || joined > buffer.len() {
            note("card block", "I that does not fit", column);
            return Outcome::Told10;
        }
        note("card block", if chained { "chained I that fits" } else { "last I that fits" }, column);
        buffer[self.joined..joined].copy_from_slice(payload);
        self.toggle();
        self.place = 0;
        if chained {
            self.joined = joined;
            self.mode = Mode::Receiving;
            return self.send_ack();
        }
        self.joined = 0;
        self.mode = Mode::Owing;
        Outcome::Delivered(buffer[..joined].to_vec())
    }

    fn send_ack(&mut self) -> Outcome {
        self.last = Last::Ack;
        Outcome::Answer(blocks::ack(self.number))
    }

    /// The I that begins at this place of the answer.
    fn send_i(&mut self, message: &[u8], place: usize) -> Outcome {
        self.place = place;
        let chained = blocks::more_behind(message, place, self.reader_size);
        self.last = Last::I(chained);
        self.mode = if chained { Mode::Answering } else { Mode::Receiving };
        Outcome::Answer(blocks::i_block(message, place, self.reader_size, self.number))
    }

    /// R of equal number: last block again; with none sent yet, silent.
    fn last_again(&self, message: &[u8], first: u8) -> Outcome {
        let kind = if first & 0xF0 == 0xA0 { "R(ACK)" } else { "R(NAK)" };
        let what = match self.last {
            Last::Nothing => "nothing",
            Last::I(_) => "I",
            Last::Ack => "R(ACK)",
            Last::Wtx(_) => "WTX",
        };
        note("card block", &format!("{kind} own, last was {what}"), self.mode_name());
        match self.last {
            Last::Nothing => Outcome::Silent,
            Last::I(chained) => match blocks::unfit(message, self.place) {
                Some(number) => {
                    note("card lent", &number.to_string(), "I again");
                    Outcome::Refused(number)
                }
                None => Outcome::Answer(blocks::i_again(message, self.place, self.reader_size, self.number, chained)),
            },
            Last::Ack => Outcome::Answer(blocks::ack(self.number)),
            Last::Wtx(value) => Outcome::Answer(blocks::wtx(value)),
        }
    }

    /// The host's answer: 11, then 10 with all unchanged.
    pub fn reply(&mut self, message: &[u8]) -> Outcome {
        if self.mode != Mode::Owing {
            return Outcome::Refused(refusal::NOT_DUE);
        }
        if message.len() > LONGEST_MESSAGE {
            note("card block", "answer over 4096", "owing");
            return Outcome::Refused(refusal::MESSAGE);
        }
        note("card block", "answer", "owing");
        self.send_i(message, 0)
    }

    /// The host asks for WTX: 11, then 6 outside 1 to 59.
    pub fn ask_wtx(&mut self, value: u8) -> Outcome {
        if self.mode != Mode::Owing {
            return Outcome::Refused(refusal::NOT_DUE);
        }
        if !(1..=59).contains(&value) {
            note("card block", "WTX outside 1 to 59", "owing");
            return Outcome::Refused(refusal::ARGUMENT);
        }
        note("card block", "WTX", "owing");
        self.last = Last::Wtx(value);
        self.mode = Mode::WtxAsked(value);
        Outcome::Answer(blocks::wtx(value))
    }
}

#[cfg(test)]
mod tests {
    use super::*;
    use crate::frames::standard_with_crc;

    fn block(link: &mut Link, bytes: &[u8], message: &[u8], buffer: &mut [u8]) -> Outcome {
        link.take(&standard_with_crc(bytes), message, buffer, 16)
    }

    #[test]
    fn one_message() {
        let mut link = Link::new(16);
        let mut buffer = [0; 32];
        assert_eq!(block(&mut link, &[0xB3], &[], &mut buffer), Outcome::Silent);
        assert_eq!(block(&mut link, &[0xB2], &[], &mut buffer), Outcome::Answer(blocks::ack(1)));
        assert_eq!(block(&mut link, &[0x12, 1, 2], &[], &mut buffer), Outcome::Answer(blocks::ack(0)));
        assert_eq!(block(&mut link, &[0xB2], &[], &mut buffer), Outcome::Answer(blocks::ack(0)));
        assert_eq!(block(&mut link, &[0x03, 3], &[], &mut buffer), Outcome::Delivered(vec![1, 2, 3]));
        assert_eq!(block(&mut link, &[0xC2], &[], &mut buffer), Outcome::Refused(refusal::NOT_DUE));
        assert_eq!(link.ask_wtx(0), Outcome::Refused(refusal::ARGUMENT));
        assert_eq!(link.ask_wtx(60), Outcome::Refused(refusal::ARGUMENT));
        assert_eq!(link.ask_wtx(59), Outcome::Answer(blocks::wtx(59)));
        assert_eq!(link.reply(&[9]), Outcome::Refused(refusal::NOT_DUE));
        assert_eq!(block(&mut link, &[0xF2, 58], &[], &mut buffer), Outcome::Silent);
        assert_eq!(block(&mut link, &[0xB3], &[], &mut buffer), Outcome::Answer(blocks::wtx(59)));
        assert_eq!(block(&mut link, &[0xF2, 59], &[], &mut buffer), Outcome::Again);
        assert_eq!(link.reply(&[0; 4097]), Outcome::Refused(refusal::MESSAGE));
        let answer: Vec<u8> = (0..20).collect();
        assert_eq!(link.reply(&answer), Outcome::Answer(blocks::i_block(&answer, 0, 16, 1)));
        assert_eq!(block(&mut link, &[0xB3], &answer, &mut buffer), Outcome::Answer(blocks::i_block(&answer, 0, 16, 1)));
        assert_eq!(block(&mut link, &[0xA2], &answer, &mut buffer), Outcome::Answer(blocks::i_block(&answer, 13, 16, 0)));
        assert_eq!(block(&mut link, &[0xA3], &answer, &mut buffer), Outcome::Silent);
        assert_eq!(block(&mut link, &[0xA2], &answer, &mut buffer), Outcome::Answer(blocks::i_block(&answer, 13, 16, 0)));
        assert_eq!(block(&mut link, &[0xA2], &answer[..12], &mut buffer), Outcome::Refused(refusal::ROOM));
        assert_eq!(block(&mut link, &[0xA2], &[0; 4097], &mut buffer), Outcome::Refused(refusal::MESSAGE));
        assert_eq!(block(&mut link, &[0xA3], &[], &mut buffer), Outcome::Silent);
    }

    #[test]
    fn no_room() {
        let mut link = Link::new(16);
        let mut buffer = [0xEE; 3];
        assert_eq!(block(&mut link, &[0x12, 1, 2], &[], &mut buffer), Outcome::Answer(blocks::ack(0)));
        assert_eq!(block(&mut link, &[0x13, 3, 4], &[], &mut buffer), Outcome::Told10);
        assert_eq!(buffer, [1, 2, 0xEE]);
        assert_eq!(link.number, 0);
        assert_eq!(block(&mut link, &[0x03, 3], &[], &mut buffer), Outcome::Delivered(vec![1, 2, 3]));
    }
}
