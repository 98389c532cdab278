//! The program `bench_type_b` (T-05): a field of Type B cards, a reader and a list, played from text.

use crate::frames::Row;
use crate::language::{read_byte, read_hex, read_number, read_row, show_hex, Program};
use crate::refusal::{self, Refusal};
use crate::type_b::{self, Card, Held, Reader, Said, State};

/// So many cards may be put in, more than the core takes.
const MOST: usize = 40;

pub struct BenchTypeB {
    pub field: Vec<Card>,
    pub reader: Reader,
    /// The frame that the reader sent last, where it awaits what comes back.
    frame: Vec<u8>,
    list: Vec<u8>,
}

pub fn exactly<const N: usize>(word: &str) -> Option<[u8; N]> {
    read_hex(word)?.try_into().ok()
}

pub fn row_line(words: &[&str]) -> Option<Row> {
    match *words {
        ["row", row] => read_row(row),
        ["bytes", bytes] => read_hex(bytes).map(|b| type_b::plain(&b)),
        ["crc", bytes] => read_hex(bytes).map(|b| type_b::with_crc(&b)),
        _ => None,
    }
}

fn show_held(slot: usize, held: &Held) -> String {
    match held {
        Held::None => format!("slot {slot} none"),
        Held::One(atqb) => format!("slot {slot} one {}", show_hex(atqb)),
        Held::More => format!("slot {slot} more"),
    }
}

fn show_frame(bytes: &[u8]) -> String {
    show_hex(&[bytes, &type_b::crc_b(bytes)].concat())
}

impl BenchTypeB {
    pub fn new() -> BenchTypeB {
        BenchTypeB { field: Vec::new(), reader: Reader::Ready, frame: Vec::new(), list: vec![0xFF; type_b::LIST_ROOM] }
    }

    /// A card of the field, counted from 1.
    fn place(&self, word: &str) -> Option<usize> {
        let place = read_number(word, MOST)?;
        (1..=self.field.len()).contains(&place).then(|| place - 1)
    }

    fn cards(&self) -> Vec<String> {
        let show = |card: &Card| format!("card {} {}", show_hex(&card.pupi), card.state);
        let mut lines: Vec<String> = self.field.iter().map(show).collect();
        lines.push(format!("cards {}", self.field.len()));
        lines
    }

    fn said(&mut self, said: Result<Said, Refusal>) -> String {
        match said {
            Ok(Said::Sends(frame)) => {
                let text = format!("send {}", show_frame(&frame));
                self.frame = frame;
                text
            }
            Ok(Said::Slot { slot, held, next: Some(frame) }) => {
                let text = format!("{} send {}", show_held(slot as usize, &held), show_frame(&frame));
                self.frame = frame;
                text
            }
            Ok(Said::Slot { slot, held, next: None }) => format!("{} done", show_held(slot as usize, &held)),
            Ok(Said::Attached(mbli)) => format!("attached {mbli}"),
            Ok(Said::Halted) => "halted".to_string(),
            Err(number) => format!("refused {number}"),
        }
    }

    fn card(&mut self, words: &[&str]) -> Option<String> {
        if self.field.len() >= MOST || words.len() > 6 {
            return None;
        }
        let word = |place: usize| words.get(place).copied();
        let state = match word(1) {
            None | Some("idle") => State::Idle,
            Some("halt") => State::Halt,
            Some("off") => State::Off,
            _ => return None,
        };
        let markers = match word(3) {
            None | Some("yes") => true,
            Some("no") => false,
            _ => return None,
        };
        self.field.push(Card {
            pupi: exactly(words.first()?)?,
            afi: word(2).map_or(Some(0), read_byte)?,
            markers,
            application: word(4).map_or(Some([0; 4]), exactly)?,
            protocol: word(5).map_or(Some([0x00, 0x81, 0x81]), exactly)?,
            state,
            number: 1,
        });
        Some(format!("ok ; {state}"))
    }

    fn air(&mut self) -> String {
        if matches!(self.reader, Reader::Ready | Reader::Stopped) {
            return format!("refused {}", refusal::NOT_DUE);
        }
        let row = type_b::air(&mut self.field, &type_b::with_crc(&self.frame));
        let said = self.reader.hear(&row);
        self.said(said)
    }

    fn inquire(&mut self, wake: bool, slots: u8, afi: u8) -> Vec<String> {
        match type_b::inquire(&mut self.reader, &mut self.field, &mut self.list, wake, slots, afi) {
            Err(number) => vec![format!("refused {number}")],
            Ok(told) => {
                let mut lines: Vec<String> = told.iter().enumerate().map(|(i, held)| show_held(i + 1, held)).collect();
                lines.extend(self.cards());
                lines
            }
        }
    }
}

/// N and AFI of a request.
fn asked(words: &[&str]) -> Option<(u8, u8)> {
    match *words {
        [slots] => Some((read_number(slots, 255)? as u8, 0)),
        [slots, afi] => Some((read_number(slots, 255)? as u8, read_byte(afi)?)),
        _ => None,
    }
}

impl Program for BenchTypeB {
    fn words(&mut self, words: &[&str]) -> Option<Vec<String>> {
        let answer = match *words {
            ["new"] => {
                self.reader = Reader::Ready;
                "new".to_string()
            }
            ["clear"] => {
                self.field.clear();
                "clear".to_string()
            }
            ["room", room] => {
                self.list = vec![0xFF; read_number(room, 1024)?];
                format!("room {}", self.list.len())
            }
            ["list"] => format!("list {}", show_hex(&self.list)),
            ["card", ref rest @ ..] => self.card(rest)?,
            ["draw", ref numbers @ ..] => {
                let numbers: Option<Vec<usize>> = numbers.iter().map(|word| read_number(word, 255)).collect();
                let numbers = numbers?;
                if numbers.len() != self.field.len() {
                    return None;
                }
                for (card, number) in self.field.iter_mut().zip(numbers) {
                    card.number = number as u8;
                }
                "ok".to_string()
            }
            ["cards"] => return Some(self.cards()),
            ["power", place, power] => {
                let place = self.place(place)?;
                let on = match power {
                    "on" => true,
                    "off" => false,
                    _ => return None,
                };
                self.field[place].power(on);
                format!("ok ; {}", self.field[place].state)
            }
            ["take", place, ref frame @ ..] => {
                let place = self.place(place)?;
                let row = row_line(frame)?;
                let card = &mut self.field[place];
                let result = match card.take(&row) {
                    Ok(answer) if answer.is_empty() => "silent".to_string(),
                    Ok(answer) => {
                        let bytes: Vec<u8> = answer.chunks(8).map(|bits| bits.iter().rev().fold(0, |sum, bit| 2 * sum + bit)).collect();
                        format!("answer {}", show_hex(&bytes))
                    }
                    Err(number) => format!("refused {number}"),
                };
                format!("{result} ; {}", card.state)
            }
            ["hear", ref frame @ ..] => {
                let row = row_line(frame)?;
                let said = self.reader.hear(&row);
                self.said(said)
            }
            ["silence"] => {
                let said = self.reader.hear(&[]);
                self.said(said)
            }
            ["air"] => self.air(),
            [name @ ("reqb" | "wupb"), ref rest @ ..] => {
                let (slots, afi) = asked(rest)?;
                let said = self.reader.request(name == "wupb", slots, afi);
                self.said(said)
            }
            ["attrib", atqb, index] => {
                let atqb: [u8; 12] = exactly(atqb)?;
                let said = self.reader.attrib(&atqb, read_number(index, 255)? as u8);
                self.said(said)
            }
            ["hltb", pupi] => {
                let pupi: [u8; 4] = exactly(pupi)?;
                let said = self.reader.hltb(&pupi);
                self.said(said)
            }
            ["field", name @ ("reqb" | "wupb"), ref rest @ ..] => {
                let (slots, afi) = asked(rest)?;
                return Some(self.inquire(name == "wupb", slots, afi));
            }
            _ => return None,
        };
        Some(vec![answer])
    }
}

#[cfg(test)]
mod tests {
    use super::*;
    use crate::language::Script;

    #[test]
    fn example() {
        let mut s = Script::new(BenchTypeB::new());
        assert_eq!(s.say("card 11223344"), "ok ; idle");
        assert_eq!(s.say("card 99AABBCC"), "ok ; idle");
        assert_eq!(s.say("draw 1 2"), "ok");
        let told = "slot 1 one 501122334400000000008181\nslot 2 one 5099AABBCC00000000008181\ncard 11223344 declared\ncard 99AABBCC declared\ncards 2";
        assert_eq!(s.say("field reqb 2"), told);
        assert_eq!(s.say("attrib 501122334400000000008181 8"), "send 1D1122334400080100DB35");
        assert_eq!(s.say("air"), "attached 0");
        assert_eq!(s.say("hltb 99AABBCC"), "send 5099AABBCCB203");
        assert_eq!(s.say("air"), "halted");
        assert_eq!(s.say("hltb 99AABBCC"), "send 5099AABBCCB203");
        assert_eq!(s.say("air"), "refused 7");
        assert_eq!(s.say("reqb 1"), "refused 11");
        assert_eq!(s.say("new"), "new");
        assert_eq!(s.say("reqb 2 20"), "send 052001CBCD");
        assert_eq!(s.say("hear row x0001010"), "refused 2");
        assert_eq!(s.say("take 2 crc 05000C"), "silent ; requested 2");
    }
}
