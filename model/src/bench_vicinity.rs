//! The program `bench_vicinity` (T-10): a field of vicinity tags, a reader and a list, played from text.

use crate::bench_type_b::{exactly, row_line};
use crate::language::{read_byte, read_hex, read_number, show_hex, Program};
use crate::refusal::{self, Refusal};
use crate::type_b::crc_b;
use crate::vicinity_field::{self, LIST_ROOM};
use crate::vicinity_reader::{Call, Held, Mode, Reader, Said};
use crate::vicinity_tag::{Frame, State, Tag};

/// So many tags may be put in, more than the core takes.
const MOST: usize = 40;

pub struct BenchVicinity {
    pub field: Vec<Tag>,
    pub reader: Reader,
    /// What the reader sent last, where it awaits what comes back.
    frame: Frame,
    list: Vec<u8>,
}

fn show_held(held: &Held) -> String {
    match held {
        Held::None => "none".to_string(),
        Held::One { dsfid, uid } => format!("one {dsfid:02X} {}", show_hex(uid)),
        Held::More => "more".to_string(),
    }
}

fn show_frame(frame: &Frame) -> String {
    match frame {
        Frame::Bytes(bytes) => show_hex(&[&bytes[..], &crc_b(bytes)].concat()),
        Frame::Eof => "eof".to_string(),
    }
}

fn mode(word: &str) -> Option<Mode> {
    match word {
        "any" => Some(Mode::Any),
        "selected" => Some(Mode::Selected),
        uid => exactly(uid).map(Mode::Addressed),
    }
}

fn byte_number(word: &str) -> Option<u8> {
    read_number(word, 255).map(|number| number as u8)
}

fn count(word: &str) -> Option<usize> {
    read_number(word, 256).filter(|&count| count > 0)
}

/// An AFI that may be left out.
fn asked(words: &[&str]) -> Option<Option<u8>> {
    match *words {
        [] => Some(None),
        [afi] => read_byte(afi).map(Some),
        _ => None,
    }
}

/// The reader's calls, but for inventory and sweep.
fn call(words: &[&str]) -> Option<Call> {
    let (words, status) = match words {
        [words @ .., "status"] if matches!(words, ["read" | "reads", ..]) => (words, true),
        words => (words, false),
    };
    Some(match *words {
        ["quiet", uid] => Call::Quiet(exactly(uid)?),
        ["select", uid] => Call::Select(exactly(uid)?),
        ["reset", to] => Call::Reset(mode(to)?),
        ["read", to, block] => Call::Read { mode: mode(to)?, block: byte_number(block)?, status },
        ["reads", to, first, n] => Call::Reads { mode: mode(to)?, first: byte_number(first)?, count: count(n)?, status },
        ["write", to, block, data] => Call::Write { mode: mode(to)?, block: byte_number(block)?, data: read_hex(data)? },
        ["writes", to, first, n, data] => {
            Call::Writes { mode: mode(to)?, first: byte_number(first)?, count: count(n)?, data: read_hex(data)? }
        }
        ["lock", to, block] => Call::Lock { mode: mode(to)?, block: byte_number(block)? },
        _ => return None,
    })
}

impl BenchVicinity {
    pub fn new() -> BenchVicinity {
        BenchVicinity { field: Vec::new(), reader: Reader::Ready, frame: Frame::Eof, list: vec![0xFF; LIST_ROOM] }
    }

    /// A tag of the field, counted from 1.
    fn place(&self, word: &str) -> Option<usize> {
        let place = read_number(word, MOST)?;
        (1..=self.field.len()).contains(&place).then(|| place - 1)
    }

    fn tag(&mut self, words: &[&str]) -> Option<String> {
        if self.field.len() >= MOST || !(3..=6).contains(&words.len()) {
            return None;
        }
        let word = |place: usize| words.get(place).copied();
        let uid = exactly(words[0])?;
        let (blocks, size) = (read_number(words[1], 999)?, read_number(words[2], 999)?);
        let state = match word(3) {
            None | Some("ready") => State::Ready,
            Some("quiet") => State::Quiet,
            Some("selected") => State::Selected,
            Some("off") => State::Off,
            _ => return None,
        };
        let afi = match word(4) {
            None | Some("none") => None,
            Some(afi) => Some(read_byte(afi)?),
        };
        let dsfid = word(5).map_or(Some(0), read_byte)?;
        Some(match Tag::new(uid, blocks, size, state, afi, dsfid) {
            None => format!("refused {}", refusal::ARGUMENT),
            Some(tag) => {
                self.field.push(tag);
                format!("ok ; {}", state.name())
            }
        })
    }

    fn said(&mut self, said: Result<Said, Refusal>) -> String {
        match said {
            Ok(Said::Sends(frame)) => {
                let text = format!("send {}", show_frame(&frame));
                self.frame = frame;
                text
            }
            Ok(Said::Slot { slot, held, next: Some(frame) }) => {
                let text = format!("slot {slot} {} send {}", show_held(&held), show_frame(&frame));
                self.frame = frame;
                text
            }
            Ok(Said::Slot { slot, held, next: None }) => format!("slot {slot} {} done", show_held(&held)),
            Ok(Said::Quiet) => "quiet".to_string(),
            Ok(Said::Data(data)) => format!("data {}", show_hex(&data)),
            Ok(Said::Good) => "ok".to_string(),
            Ok(Said::Error(code)) => format!("error {code:02X}"),
            Err(number) => format!("refused {number}"),
        }
    }

    fn air(&mut self) -> String {
        if matches!(self.reader, Reader::Ready | Reader::Stopped) {
            return format!("refused {}", refusal::NOT_DUE);
        }
        let row = vicinity_field::air(&mut self.field, &self.frame);
        let said = self.reader.hear(&row);
        self.said(said)
    }

    fn sweep(&mut self, afi: Option<u8>) -> Vec<String> {
        match vicinity_field::sweep(&mut self.reader, &mut self.field, &mut self.list, afi) {
            Err(number) => vec![format!("refused {number}")],
            Ok(found) => {
                let mut lines: Vec<String> = found.iter().map(|uid| format!("found {}", show_hex(uid))).collect();
                lines.push(format!("listed {}", found.len()));
                lines
            }
        }
    }
}

impl Program for BenchVicinity {
    fn words(&mut self, words: &[&str]) -> Option<Vec<String>> {
        let answer = match *words {
            ["new"] => {
                self.reader = Reader::Ready;
                "new".to_string()
            }
            ["clear"] => {
                self.field.clear();
                "clear".to_string()
            }
            ["room", room] => {
                self.list = vec![0xFF; read_number(room, 1024)?];
                format!("room {}", self.list.len())
            }
            ["list"] => format!("list {}", show_hex(&self.list)),
            ["tag", ref rest @ ..] => self.tag(rest)?,
            ["tags"] => {
                let mut lines: Vec<String> =
                    self.field.iter().map(|tag| format!("tag {} {}", show_hex(&tag.uid), tag.state.name())).collect();
                lines.push(format!("tags {}", self.field.len()));
                return Some(lines);
            }
            ["memory", place] => {
                let tag = &self.field[self.place(place)?];
                let locks: String = tag.locked.iter().map(|&locked| if locked { '1' } else { '0' }).collect();
                format!("memory {} {locks}", show_hex(&tag.blocks.concat()))
            }
            ["power", place, power] => {
                let place = self.place(place)?;
                let on = match power {
                    "on" => true,
                    "off" => false,
                    _ => return None,
                };
                self.field[place].power(on);
                format!("ok ; {}", self.field[place].state.name())
            }
            ["take", place, ref frame @ ..] => {
                let place = self.place(place)?;
                let tag = &mut self.field[place];
                let answer = match *frame {
                    ["eof"] => tag.eof(),
                    _ => tag.take(&row_line(frame)?),
                };
                let state = tag.state.name();
                if answer.is_empty() {
                    format!("silent ; {state}")
                } else {
                    let bytes: Vec<u8> =
                        answer.chunks(8).map(|bits| bits.iter().rev().fold(0, |sum, bit| 2 * sum + bit)).collect();
                    format!("answer {} ; {state}", show_hex(&bytes))
                }
            }
            ["hear", ref frame @ ..] => {
                let row = row_line(frame)?;
                let said = self.reader.hear(&row);
                self.said(said)
            }
            ["silence"] => {
                let said = self.reader.hear(&[]);
                self.said(said)
            }
            ["air"] => self.air(),
            ["inventory", slots, length, mask, ref rest @ ..] => {
                let mask = read_hex(mask).filter(|mask| mask.len() <= 8)?;
                let (slots, length, afi) = (byte_number(slots)?, byte_number(length)?, asked(rest)?);
                let said = self.reader.inventory(slots, length, &mask, afi);
                self.said(said)
            }
            ["sweep", ref rest @ ..] => {
                let afi = asked(rest)?;
                let said = self.reader.sweep(afi);
                self.said(said)
            }
            ["field", "sweep", ref rest @ ..] => {
                let afi = asked(rest)?;
                return Some(self.sweep(afi));
            }
            _ => {
                let call = call(words)?;
                let said = self.reader.call(call);
                self.said(said)
            }
        };
        Some(vec![answer])
    }
}

/// The example of the page, line by line: what is said, and the answer.
pub const EXAMPLE: &[(&str, &str)] = &[
    ("tag 11000000000104E0 4 4", "ok ; ready"),
    ("tag 21000000000104E0 4 4 ready 21", "ok ; ready"),
    ("tag 12000000000104E0 8 1 ready none 07", "ok ; ready"),
    ("field sweep", "found 12000000000104E0\nfound 11000000000104E0\nfound 21000000000104E0\nlisted 3"),
    ("write 11000000000104E0 2 AABBCCDD", "send 222111000000000104E002AABBCCDD6FAC"),
    ("air", "ok"),
    ("lock 11000000000104E0 2", "send 222211000000000104E002BFB5"),
    ("air", "ok"),
    ("memory 1", "memory 0000000000000000AABBCCDD00000000 0010"),
    ("reads 11000000000104E0 2 2 status", "send 622311000000000104E00201C9AE"),
    ("air", "data 01AABBCCDD0000000000"),
    ("writes 11000000000104E0 1 2 0102030405060708", "send 222411000000000104E00101010203040506070808FE"),
    ("air", "error 12"),
    ("inventory 16 4 01", "send 06010401719B"),
    ("air", "slot 0 none send eof"),
    ("hear row x", "refused 2"),
    ("take 1 crc 060100", "silent ; ready"),
    ("take 1 eof", "answer 000011000000000104E00D63 ; ready"),
];

#[cfg(test)]
mod tests {
    use super::*;
    use crate::language::Script;

    #[test]
    fn example() {
        let mut s = Script::new(BenchVicinity::new());
        for (line, answer) in EXAMPLE {
            assert_eq!(s.say(line), *answer, "{line}");
        }
    }
}
