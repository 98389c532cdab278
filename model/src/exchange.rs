//! Both ends joined over a channel. Without errors the card's host gets exactly the message and the reader's host exactly the answer, in
//! the fewest blocks. The tests below also lose and damage single frames: they still do.

use crate::blocks::{full_payload, LONGEST_MESSAGE};
use crate::card::{Card, Outcome};
use crate::coverage::note;
use crate::frames::{size_of_index, Row};
use crate::reader::{Answer, Reader};
use crate::refusal::Refusal;
use crate::sweep::field_takes;

#[derive(Clone, Debug, PartialEq)]
pub struct Ends {
    pub reader: Reader,
    pub card: Card,
    /// The reader's own size index.
    pub own: u8,
    /// The card's host lends its latest answer until it gives the next.
    pub lent: Vec<u8>,
}

/// What the reader's host is told at the end of an exchange.
#[derive(Clone, Debug, PartialEq)]
pub enum Told {
    /// The rounds ran out.
    Quiet,
    Message(Vec<u8>),
    Refused(Refusal),
}

/// How an exchange ended.
#[derive(Clone, Debug, PartialEq)]
pub struct Done {
    pub told: Told,
    pub rounds: usize,
    /// The messages that the card's host got.
    pub messages: Vec<Vec<u8>>,
}

/// The fewest blocks that hold so many bytes; the empty message is one empty block.
fn blocks_for(length: usize, size: usize) -> usize {
    (length + full_payload(size) - 1).checked_div(full_payload(size)).unwrap().max(1)
}

impl Ends {
    /// A new card with power, and a new reader that has selected it.
    pub fn selected(uid: &[u8], index: u8) -> Result<(Reader, Card), Refusal> {
        let mut card = [Card::new(uid, true, index)?];
        card[0].power_on();
        let mut reader = Reader::new();
        let mut answer = reader.select();
        loop {
            answer = match answer {
                Answer::Send(frame) => reader.hear(&field_takes(&mut card, &frame), &[], &mut []),
                Answer::Selected { uid: found, sak } => {
                    assert_eq!((&found[..], sak), (uid, 0x20));
                    let [card] = card;
                    return Ok((reader, card));
                }
                other => panic!("{other:?}"),
            }
        }
    }

    /// .. and then sends RATS with its own size index. With them the card's frame size.
    pub fn open(uid: &[u8], own: u8, index: u8) -> Result<(Ends, usize), Refusal> {
        let (mut reader, card) = Ends::selected(uid, index)?;
        let mut card = [card];
        let rats = match reader.rats(own) {
            Answer::Send(frame) => frame,
            Answer::Refused(number) => return Err(number),
            other => panic!("{other:?}"),
        };
        match reader.hear(&field_takes(&mut card, &rats), &[], &mut []) {
            Answer::Open(size) => {
                let [card] = card;
                Ok((Ends::joined(reader, card, own), size))
            }
            other => panic!("{other:?}"),
        }
    }

    /// Ends that stand somewhere, and a card's host that has answered nothing yet.
    pub fn joined(reader: Reader, card: Card, own: u8) -> Ends {
        Ends { reader, card, own, lent: Vec::new() }
    }

    /// One message, which the card's host answers as soon as it owes. At most so many rounds: a frame of the reader, and what the card says to it.
    /// Each exchange checks itself by demand 2.
    pub fn exchange(&mut self, message: &[u8], answer: &[u8], rounds: usize, down: &mut [u8], up: &mut [u8]) -> Done {
        let due = self.reader.phase_name() == "open";
        let fits = message.len() <= down.len().min(LONGEST_MESSAGE) && answer.len() <= up.len().min(LONGEST_MESSAGE);
        let fewest = self.fewest_rounds(message.len(), answer.len());
        let done = self.run(message, answer, rounds, down, up);
        assert_eq!(matches!(done.told, Told::Message(_)), due && fits && fewest <= rounds);
        if let Told::Message(got) = &done.told {
            assert_eq!((&got[..], done.rounds, done.messages.len()), (answer, fewest, 1));
            assert_eq!((&done.messages[0][..], &down[..message.len()], &up[..answer.len()]), (message, message, answer));
        }
        done
    }

    /// An I for each block of the message, and an R(ACK) for each of the answer but the last.
    pub fn fewest_rounds(&self, message: usize, answer: usize) -> usize {
        blocks_for(message, size_of_index(self.card.index)) + blocks_for(answer, size_of_index(self.own)) - 1
    }

    fn run(&mut self, message: &[u8], answer: &[u8], rounds: usize, down: &mut [u8], up: &mut [u8]) -> Done {
        let mut done = Done { told: Told::Quiet, rounds: 0, messages: Vec::new() };
        let mut phase = self.reader.phase_name();
        let mut turn = self.reader.send(message);
        loop {
            let frame = match turn {
                Answer::Send(frame) => frame,
                Answer::Answered(got) => {
                    note("exchange", "message", phase);
                    done.told = Told::Message(got);
                    return done;
                }
                Answer::Refused(number) => {
                    note("exchange", &format!("refused {number}"), phase);
                    done.told = Told::Refused(number);
                    return done;
                }
                other => panic!("{other:?}"),
            };
            phase = self.reader.phase_name();
            if done.rounds == rounds {
                note("exchange", "quiet", phase);
                return done;
            }
            done.rounds += 1;
            let heard = self.card_turn(&frame, answer, down, &mut done.messages);
            turn = self.reader.hear(&heard, message, up);
        }
    }

    /// What the card sends to a frame, its host's answer included; nothing where it is silent or a call is refused.
    fn card_turn(&mut self, frame: &[u8], answer: &[u8], down: &mut [u8], messages: &mut Vec<Vec<u8>>) -> Row {
        let mut outcome = self.card.take(frame, &self.lent, down);
        if let Outcome::Delivered(got) = &outcome {
            messages.push(got.clone());
        }
        if self.card.state_name() == "owing" {
            self.lent = answer.to_vec();
            outcome = self.card.reply(answer);
        }
        match outcome {
            Outcome::Answer(row) => row,
            _ => Row::new(),
        }
    }
}

#[cfg(test)]
mod tests {
    use super::*;
    use crate::card::State;
    use crate::frames;
    use crate::language::hex;
    use crate::random::Random;

    fn linked(own: u8, index: u8) -> Ends {
        let (ends, size) = Ends::open(&hex("04112233445566"), own, index).unwrap();
        assert_eq!(size, frames::size_of_index(index));
        ends
    }

    /// One message and its answer. `spoil` changes each row on its way. Gives the blocks that the reader sent.
    fn exchange(pair: &mut Ends, message: &[u8], reply: &[u8], wtx: u8, spoil: &mut dyn FnMut(Row) -> Row) -> usize {
        let mut at_card = vec![0; 4096];
        let mut at_reader = vec![0; 4096];
        let mut delivered = None;
        let mut sent = 0;
        let mut asked = wtx;
        let mut answer = pair.reader.send(message);
        loop {
            let frame = match answer {
                Answer::Send(frame) => frame,
                Answer::Answered(got) => {
                    assert_eq!(got, reply);
                    assert_eq!(delivered.as_deref(), Some(message));
                    return sent;
                }
                other => panic!("{other:?}"),
            };
            sent += 1;
            let frame = spoil(frame);
            let mut outcome = if frame.is_empty() { Outcome::Silent } else { pair.card.take(&frame, &pair.lent, &mut at_card) };
            loop {
                outcome = match outcome {
                    Outcome::Delivered(got) => {
                        assert_eq!(delivered, None, "delivered twice");
                        delivered = Some(got);
                        Outcome::Again
                    }
                    Outcome::Again if asked > 0 => {
                        asked -= 1;
                        pair.card.wtx(asked + 1)
                    }
                    Outcome::Again => {
                        pair.lent = reply.to_vec();
                        pair.card.reply(reply)
                    }
                    other => {
                        outcome = other;
                        break;
                    }
                }
            }
            let heard = match outcome {
                Outcome::Answer(row) => spoil(row),
                Outcome::Silent => Row::new(),
                other => panic!("{other:?}"),
            };
            answer = pair.reader.hear(&heard, message, &mut at_reader);
        }
    }

    #[test]
    fn without_errors() {
        let message: Vec<u8> = (0..4096u32).map(|i| (i * 7 + i / 250) as u8).collect();
        for own in 0..9 {
            for index in 0..9 {
                let (fsd, fsc) = (frames::size_of_index(own), frames::size_of_index(index));
                let mut pair = linked(own, index);
                for (out, back) in
                    [(0, 0), (1, 1), (fsc - 3, fsd - 3), (fsc - 2, fsd - 2), (2 * fsc - 6, 0), (0, 2 * fsd - 5), (4096, 4096)]
                {
                    let sent = exchange(&mut pair, &message[..out], &message[4096 - back..], 0, &mut |row| row);
                    // An I for each block of the message, and an R(ACK) for each of the answer but the last.
                    assert_eq!(sent, blocks_for(out, fsc) + blocks_for(back, fsd) - 1);
                }
                let Answer::Send(frame) = pair.reader.deselect() else { panic!() };
                let Outcome::Answer(row) = pair.card.take(&frame, &message, &mut []) else { panic!() };
                assert_eq!(pair.card.state, State::Halt);
                assert_eq!(pair.reader.hear(&row, &[], &mut []), Answer::Finished);
            }
        }
    }

    /// No two spoiled rows within six: the repeats always suffice, and nothing is delivered twice or joined twice.
    #[test]
    fn with_single_errors() {
        let mut random = Random::new(99);
        for round in 0..600 {
            let (own, index) = (random.below(3) as u8, random.below(3) as u8);
            let mut pair = linked(own, index);
            for _ in 0..3 {
                let count = random.below(120);
                let message = random.bytes(count);
                let count = random.below(120);
                let reply = random.bytes(count);
                let wtx = random.below(3) as u8;
                let mut quiet = 0;
                let mut chance = Random::new(round);
                exchange(&mut pair, &message, &reply, wtx, &mut |mut row: Row| {
                    if quiet > 0 || row.is_empty() || !chance.chance(40) {
                        quiet -= (quiet > 0) as usize;
                        return row;
                    }
                    quiet = 6;
                    if chance.chance(50) {
                        return Row::new();
                    }
                    let place = chance.below(row.len());
                    row[place] = if chance.chance(50) { 2 } else { row[place] ^ 1 };
                    row
                });
            }
        }
    }
}
