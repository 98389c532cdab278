//! The program `vectors_exchange`: a card and a reader that speak to each other over a channel without errors, or one that loses and damages frames.

use crate::blocks::LONGEST_MESSAGE;
use crate::coverage::note;
use crate::crc::crc_a;
use crate::exchange::{Done, Ends, Told};
use crate::language::{read_hex, read_number, read_row, show_hex, Program};
use crate::lossy::Channel;

/// The most bytes of a message in a line, the most rounds, and the largest seed.
const MOST_BYTES: usize = 5000;
const MOST_ROUNDS: usize = 5000;
const MOST_SEED: usize = 99_999;

/// The most elements of a word of `lossy`.
const MOST_ELEMENTS: usize = 2718;

/// What the buffers hold before each exchange.
const UNWRITTEN: u8 = 0xEE;

#[derive(Default)]
pub struct VectorsExchange {
    pub ends: Option<Ends>,
}

/// Byte k is the seed and 7 k, modulo 256.
fn bytes_from(count: usize, seed: usize) -> Vec<u8> {
    (0..count).map(|k| ((seed + 7 * k) % 256) as u8).collect()
}

fn answer(done: &Done, down: &[u8], up: &[u8]) -> String {
    let told = match &done.told {
        Told::Quiet => "quiet".to_string(),
        Told::Message(got) => format!("message {}", got.len()),
        Told::Refused(number) => format!("refused {number}"),
    };
    let last = done.messages.last().map_or(0, |m| m.len());
    let (down, up) = (show_hex(&crc_a(down)), show_hex(&crc_a(up)));
    format!("{told} rounds {} messages {} last {last} down {down} up {up}", done.rounds, done.messages.len())
}

impl VectorsExchange {
    /// One message and its answer by their numbers, over a channel without errors or this one.
    fn exchange(&mut self, numbers: [&str; 7], channel: Option<&Channel>) -> Option<String> {
        let [length, seed, back, back_seed, rounds, down, up] = numbers;
        let ends = self.ends.as_mut()?;
        let message = bytes_from(read_number(length, MOST_BYTES)?, read_number(seed, MOST_SEED)?);
        let reply = bytes_from(read_number(back, MOST_BYTES)?, read_number(back_seed, MOST_SEED)?);
        let rounds = read_number(rounds, MOST_ROUNDS)?;
        let mut down = vec![UNWRITTEN; read_number(down, LONGEST_MESSAGE)?];
        let mut up = vec![UNWRITTEN; read_number(up, LONGEST_MESSAGE)?];
        let done = match channel {
            None => ends.exchange(&message, &reply, rounds, &mut down, &mut up),
            Some(channel) => ends.lossy(&message, &reply, rounds, &mut down, &mut up, channel),
        };
        Some(answer(&done, &down, &up))
    }

    /// A refused one leaves the ends that were there.
    fn new_ends(&mut self, uid: &[u8], own: u8, index: u8) -> String {
        let length = format!("UID of {} bytes", uid.len());
        match Ends::open(uid, own, index) {
            Ok((ends, size)) => {
                note("exchange ends", &length, "open");
                if own == 8 || index == 8 {
                    note("exchange sizes", &format!("reader {own}"), &format!("card {index}"));
                }
                self.ends = Some(ends);
                format!("open {size}")
            }
            Err(number) => {
                let why = if own > 8 {
                    "reader's index"
                } else if index > 8 {
                    "card's index"
                } else {
                    "UID"
                };
                note("exchange ends", why, &format!("refused {number}"));
                format!("refused {number}")
            }
        }
    }
}

impl Program for VectorsExchange {
    fn words(&mut self, words: &[&str]) -> Option<Vec<String>> {
        let line = match *words {
            ["ends", uid, own, index] => {
                let uid = read_hex(uid).filter(|uid| (1..=10).contains(&uid.len()))?;
                let (own, index) = (read_number(own, 255)? as u8, read_number(index, 255)? as u8);
                self.new_ends(&uid, own, index)
            }
            ["exchange", length, seed, back, back_seed, rounds, down, up] => {
                self.exchange([length, seed, back, back_seed, rounds, down, up], None)?
            }
            ["lossy", length, seed, back, back_seed, rounds, down, up, downs, hosts, ups, noise] => {
                let most = |row: &Vec<u8>| row.len() <= MOST_ELEMENTS;
                let channel = Channel {
                    downs: read_row(downs).filter(most)?,
                    hosts: read_hex(hosts).filter(most)?,
                    ups: read_row(ups).filter(most)?,
                    noise: read_row(noise).filter(most)?,
                };
                self.exchange([length, seed, back, back_seed, rounds, down, up], Some(&channel))?
            }
            _ => return None,
        };
        Some(vec![line])
    }
}

#[cfg(test)]
mod tests {
    use super::*;
    use crate::language::Script;

    /// CRC_A of a buffer: these bytes, then as many unwritten ones.
    fn sum(bytes: &[u8], unwritten: usize) -> String {
        show_hex(&crc_a(&[bytes, &vec![UNWRITTEN; unwritten][..]].concat()))
    }

    #[test]
    fn a_message_and_its_answer() {
        let mut s = Script::new(VectorsExchange::default());
        assert_eq!(s.say("exchange 1 1 1 1 9 9 9"), "line 1: not understood");
        assert_eq!(s.say("ends 88020304 0 0"), "refused 6");
        assert_eq!(s.say("ends 01020304 9 0"), "refused 6");
        assert_eq!(s.say("ends 01020304 0 9"), "refused 6");
        assert_eq!(s.say("exchange 1 1 1 1 9 9 9"), "line 5: not understood");
        assert_eq!(s.say("ends 01020304 0 1"), "open 24");
        let (down, up) = (sum(&[255, 6], 2), sum(&[1], 0));
        assert_eq!(s.say("exchange 2 255 1 1 9 4 1"), format!("message 1 rounds 1 messages 1 last 2 down {down} up {up}"));
        // Two blocks each way: I, R(ACK), I, chained I, R(ACK), I.
        let message = bytes_from(22, 0);
        assert!(s.say("exchange 22 0 14 3 3 22 14").starts_with("message 14 rounds 3 messages 1 last 22 down "));
        assert_eq!(s.say("ends 0102030 0 1"), "line 9: not understood");
        // One round too few: the answer's first block is there.
        let (down, up) = (sum(&message, 0), sum(&bytes_from(13, 3), 1));
        assert_eq!(s.say("exchange 22 0 14 3 2 22 14"), format!("quiet rounds 2 messages 1 last 22 down {down} up {up}"));
        let (down, up) = (sum(&[], 22), sum(&[], 14));
        assert_eq!(s.say("exchange 22 0 14 3 3 22 14"), format!("refused 11 rounds 0 messages 0 last 0 down {down} up {up}"));
    }

    #[test]
    fn too_long() {
        let mut s = Script::new(VectorsExchange::default());
        assert_eq!(s.say("ends 01020304050607 8 8"), "open 256");
        // At the reader nothing changes.
        assert!(s.say("exchange 4097 0 0 0 99 4096 4096").starts_with("refused 10 rounds 0 messages 0 last 0 "));
        assert!(s.say("exchange 5000 0 0 0 99 4096 4096").starts_with("refused 10 rounds 0 messages 0 last 0 "));
        // The reader's buffer too short: it stops at the block that does not fit.
        assert!(s.say("exchange 0 0 254 0 99 0 253").starts_with("refused 10 rounds 2 messages 1 last 0 "));
        assert!(s.say("exchange 0 0 0 0 99 0 0").starts_with("refused 11 rounds 0 "));
        // The host's answer too long: refused each time that it is owed, so silence; the repeats are used up.
        assert_eq!(s.say("ends 01020304050607 8 8"), "open 256");
        assert!(s.say("exchange 3 0 4097 0 99 4096 4096").starts_with("refused 12 rounds 3 messages 1 last 3 "));
        // The card's buffer too short: silence; its R(ACK) of the other number to the R(NAK) asks for the same I, twice; then 9.
        assert_eq!(s.say("ends 01020304050607 8 8"), "open 256");
        assert!(s.say("exchange 3 0 0 0 99 2 0").starts_with("refused 9 rounds 6 messages 0 last 0 "));
    }
}
