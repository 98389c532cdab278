//! The program `bench_reader`: one reader played from text.

use crate::bench_card::row_line;
use crate::bench_sweep::read_uid;
use crate::blocks::LONGEST_MESSAGE;
use crate::language::{read_hex, read_number, show_hex, show_row, Program};
use crate::reader::{Answer, Reader};

pub struct BenchReader {
    pub reader: Reader,
    /// The message of the latest `send` that was not refused, lent at each call.
    pub message: Vec<u8>,
    buffer: Vec<u8>,
    pub room: usize,
}

impl BenchReader {
    pub fn new() -> BenchReader {
        BenchReader { reader: Reader::new(), message: Vec::new(), buffer: vec![0; LONGEST_MESSAGE], room: LONGEST_MESSAGE }
    }
}

pub fn result(answer: Answer) -> String {
    match answer {
        Answer::Send(row) => format!("send {}", show_row(&row)),
        Answer::Selected { uid, sak } => format!("selected {} {sak:02X}", show_hex(&uid)),
        Answer::Found { uid, sak, frame } => format!("found {} {sak:02X} send {}", show_hex(&uid), show_row(&frame)),
        Answer::Finished => "finished".to_string(),
        Answer::Open(size) => format!("open {size}"),
        Answer::Answered(message) => format!("answered {}", show_hex(&message)),
        Answer::Refused(number) => format!("refused {number}"),
    }
}

impl Program for BenchReader {
    fn words(&mut self, words: &[&str]) -> Option<Vec<String>> {
        let answer = match *words {
            ["new"] => {
                self.reader = Reader::new();
                return Some(vec!["new".to_string()]);
            }
            ["room", room] => {
                self.room = read_number(room, LONGEST_MESSAGE)?;
                return Some(vec![format!("room {}", self.room)]);
            }
            ["select"] => self.reader.select(),
            ["sweep"] => self.reader.sweep(),
            ["remember"] => self.reader.remember(),
            ["wake", uid] => self.reader.wake(&read_uid(uid)?),
            ["rats", index] => self.reader.rats(read_number(index, 255)? as u8),
            ["send", message] => {
                let message = read_hex(message)?;
                let answer = self.reader.send(&message);
                if !matches!(answer, Answer::Refused(_)) {
                    self.message = message;
                }
                answer
            }
            ["deselect"] => self.reader.deselect(),
            ["silence"] => self.reader.hear(&[], &self.message, &mut self.buffer[..self.room]),
            _ => self.reader.hear(&row_line(words)?, &self.message, &mut self.buffer[..self.room]),
        };
        Some(vec![result(answer)])
    }
}

#[cfg(test)]
mod tests {
    use super::*;
    use crate::language::Script;

    #[test]
    fn one_card_selected_and_spoken_to() {
        let mut script = Script::new(BenchReader::new());
        assert_eq!(script.say("row -"), "refused 11");
        assert_eq!(script.say("select"), "send 0110010");
        assert_eq!(script.say("bytes 0400"), "send 110010011000001000");
        assert!(script.say("bytes 0102030404").starts_with("send 110010011000011100100000000"));
        assert_eq!(script.say("crc 20"), "selected 01020304 20");
        assert_eq!(script.say("rats 9"), "refused 6");
        assert!(script.say("rats 8").starts_with("send "));
        assert_eq!(script.say("crc 0200"), "open 16");
        assert!(script.say("send 0102").starts_with("send "));
        assert_eq!(script.say("room 1"), "room 1");
        assert_eq!(script.say("crc 0207"), "answered 07");
        assert!(script.say("send -").starts_with("send "));
        assert_eq!(script.say("crc 030708"), "refused 10");
        assert_eq!(script.say("silence"), "refused 11");
        assert_eq!(script.say("new"), "new");
        assert!(script.say("sweep").starts_with("send "));
        assert_eq!(script.say("silence"), "finished");
    }
}
