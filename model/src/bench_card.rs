//! The program `bench_card`: one card played from text.

use crate::bench_sweep::read_sak;
use crate::blocks::LONGEST_MESSAGE;
use crate::card::{Card, Outcome, State};
use crate::frames::{self, Row};
use crate::language::{read_byte, read_hex, read_number, read_row, show_hex, show_row, Program};

pub struct BenchCard {
    pub card: Option<Card>,
    /// The message of the latest `reply` that was not refused, lent at each call.
    pub message: Vec<u8>,
    buffer: Vec<u8>,
    pub room: usize,
}

impl BenchCard {
    pub fn new() -> BenchCard {
        BenchCard { card: None, message: Vec::new(), buffer: vec![0; LONGEST_MESSAGE], room: LONGEST_MESSAGE }
    }

    fn state(&self) -> String {
        match &self.card {
            None => "none".to_string(),
            Some(card) => match &card.state {
                State::Off => "off".to_string(),
                State::Idle => "idle".to_string(),
                State::Ready(level) => format!("ready {level}"),
                State::Active => "active".to_string(),
                State::Halt => "halt".to_string(),
                State::ReadyStar(level) => format!("ready* {level}"),
                State::ActiveStar => "active*".to_string(),
                State::Protocol(_) => "protocol".to_string(),
            },
        }
    }

    fn result(&self, outcome: Outcome) -> String {
        let result = match outcome {
            Outcome::Silent => "silent".to_string(),
            Outcome::Answer(row) => format!("answer {}", show_row(&row)),
            Outcome::Delivered(message) => format!("delivered {}", show_hex(&message)),
            Outcome::Again => "again".to_string(),
            Outcome::Told10 => "told 10".to_string(),
            Outcome::Refused(number) => format!("refused {number}"),
        };
        format!("{result} ; {}", self.state())
    }
}

/// The lines by which a row is handed to either end.
pub fn row_line(words: &[&str]) -> Option<Row> {
    match *words {
        ["row", row] => read_row(row),
        ["short", value] => read_byte(value).map(frames::short),
        ["bytes", bytes] => read_hex(bytes).map(|b| frames::standard(&b)),
        ["crc", bytes] => read_hex(bytes).map(|b| frames::standard_with_crc(&b)),
        _ => None,
    }
}

impl Program for BenchCard {
    fn words(&mut self, words: &[&str]) -> Option<Vec<String>> {
        match *words {
            ["card", uid, sak, index] => {
                let uid = read_hex(uid).filter(|uid| (1..=10).contains(&uid.len()))?;
                let blocks = read_sak(sak)?;
                let index = read_number(index, 255)? as u8;
                let result = match Card::new(&uid, blocks, index) {
                    Ok(card) => {
                        self.card = Some(card);
                        "ok".to_string()
                    }
                    Err(number) => format!("refused {number}"),
                };
                return Some(vec![format!("{result} ; {}", self.state())]);
            }
            ["room", room] => {
                self.room = read_number(room, LONGEST_MESSAGE)?;
                return Some(vec![format!("room {}", self.room)]);
            }
            _ => {}
        }
        let card = self.card.as_mut()?;
        let outcome = match *words {
            ["power", "on"] => {
                card.power_on();
                return Some(vec![format!("ok ; {}", self.state())]);
            }
            ["power", "off"] => {
                card.power_off();
                return Some(vec![format!("ok ; {}", self.state())]);
            }
            ["reply", message] => {
                let message = read_hex(message)?;
                let outcome = card.reply(&message);
                if !matches!(outcome, Outcome::Refused(_)) {
                    self.message = message;
                }
                outcome
            }
            ["wtx", value] => card.wtx(read_number(value, 255)? as u8),
            _ => card.take(&row_line(words)?, &self.message, &mut self.buffer[..self.room]),
        };
        Some(vec![self.result(outcome)])
    }
}

#[cfg(test)]
mod tests {
    use super::*;
    use crate::language::Script;

    #[test]
    fn example() {
        let mut script = Script::new(BenchCard::new());
        assert_eq!(script.say("power on"), "line 1: not understood");
        assert_eq!(script.say("room 10"), "room 10");
        assert_eq!(script.say("card 0102 20 8"), "refused 6 ; none");
        assert_eq!(script.say("card 01020304 20 8"), "ok ; off");
        assert_eq!(script.say("power on"), "ok ; idle");
        assert_eq!(script.say("short 26"), "answer 001000000000000001 ; ready 1");
        assert_eq!(script.say("bytes 9320"), "answer 100000000010000000110000001001000000001000000 ; ready 1");
        assert_eq!(script.say("card 01020304 20 9"), "refused 6 ; ready 1");
        assert_eq!(script.say("reply 00"), "refused 11 ; ready 1");
        assert_eq!(script.say("bytes 9320 "), "answer 100000000010000000110000001001000000001000000 ; ready 1");
        assert_eq!(script.say("bytes 9320 00"), "line 11: not understood");
        assert_eq!(script.say("row -"), "silent ; idle");
    }

    #[test]
    fn message_bounds() {
        let mut script = Script::new(BenchCard::new());
        for line in ["card 01020304 20 0", "power on", "short 26", "crc 93700102030404", "crc E000"] {
            script.say(line);
        }
        assert_eq!(script.say("crc 02"), "delivered - ; protocol");
        assert_eq!(script.say(&format!("reply {}", "00".repeat(4097))), "refused 10 ; protocol");
        assert!(script.say(&format!("reply {}", "00".repeat(4096))).starts_with("answer "));
        assert_eq!(script.say(&format!("crc 02{}", "11".repeat(13))), format!("delivered {} ; protocol", "11".repeat(13)));
        assert!(script.say("reply -").starts_with("answer "));
        assert_eq!(script.say(&format!("crc 02{}", "11".repeat(14))), "silent ; protocol");
    }
}
