//! The program `vectors_calls`: the refusals of the public calls, one for each line, with the room that is lent and what else is off.

use crate::card::{Card, Outcome, State};
use crate::coverage::note;
use crate::exchange::Ends;
use crate::frames::{self, Row, MOST_BYTES};
use crate::language::{read_hex, read_number, show_row, Program};
use crate::reader::{Answer, Reader};
use crate::refusal::{self, Refusal};
use crate::sweep;
use crate::uid;

/// What a call asks for: the longest frame, the longest frame of a selection (SELECT), the on-air row of three levels, the longest frame's bytes.
pub const ROW_ROOM: usize = 9 * MOST_BYTES;
pub const FRAME_ROOM: usize = 81;
pub const AIR_ROOM: usize = 120;
pub const BYTES_ROOM: usize = MOST_BYTES;

/// The bytes that the program has for a frame to be written, and for messages and their buffers.
const MOST_WRITTEN: usize = 300;
const MOST_MESSAGE: usize = 5000;

/// The UID of every card here but those of a sweep.
const UID: [u8; 4] = [1, 2, 3, 4];

/// A card and a reader, on which each line tries its call. No call changes them.
pub struct VectorsCalls {
    pub reader: Reader,
    pub card: Card,
    /// The reader's own size index.
    own: u8,
}

/// A call's answer: what it says, or its refusal.
type Told = Result<String, Refusal>;

/// "A call tests 11, 1, 6, 10 in that order": 11 is known from the call with all the room that it asks for, then comes 1.
fn in_room(room: usize, asked: usize, told: Told) -> Told {
    match told {
        Err(refusal::NOT_DUE) => told,
        _ if room < asked => Err(refusal::ROOM),
        _ => told,
    }
}

fn message(length: usize) -> Vec<u8> {
    vec![5; length.min(MOST_MESSAGE)]
}

fn sent(row: &[u8]) -> Told {
    Ok(format!("sent {}", show_row(row)))
}

fn card_told(outcome: Outcome) -> Told {
    match outcome {
        Outcome::Answer(row) => sent(&row),
        Outcome::Silent | Outcome::Delivered(_) | Outcome::Again => sent(&[]),
        Outcome::Told10 => Err(refusal::MESSAGE),
        Outcome::Refused(number) => Err(number),
    }
}

fn reader_told(answer: Answer) -> Told {
    match answer {
        Answer::Send(row) | Answer::Found { frame: row, .. } => sent(&row),
        Answer::Selected { .. } | Answer::Finished | Answer::Open(_) | Answer::Answered(_) => sent(&[]),
        Answer::Refused(number) => Err(number),
    }
}

/// The reader of a selection alone says how many bits it sends.
fn bits_told(answer: Answer) -> Told {
    match answer {
        Answer::Send(row) => Ok(format!("bits {}", row.len())),
        Answer::Refused(number) => Err(number),
        other => panic!("{other:?}"),
    }
}

/// A frame without its CRC_A; none is silence.
fn heard(bytes: &[u8]) -> Row {
    if bytes.is_empty() {
        return Row::new();
    }
    frames::standard_with_crc(bytes)
}

fn written(room: usize, row: &[u8]) -> Told {
    in_room(room, row.len(), Ok(format!("bits {}", row.len())))
}

fn new_card(index: u8) -> Card {
    let mut card = Card::new(&UID, true, index).expect("a good card");
    card.power_on();
    card
}

/// New, or with REQA out.
fn reader_at(sent: usize) -> Reader {
    let mut reader = Reader::new();
    if sent > 0 {
        reader.select();
    }
    reader
}

/// As many idle cards as a sweep takes, of them as many as the call is told to take, and one thing off.
fn field(count: usize, off: &str) -> Option<(Reader, Vec<Card>)> {
    let mut cards: Vec<Card> = (0..uid::MOST_CARDS as u8)
        .map(|n| {
            let mut card = Card::new(&[n, 2, 3, 4], true, 8).expect("a good card");
            card.power_on();
            card
        })
        .collect();
    let mut reader = Reader::new();
    match off {
        "none" => {}
        "index" => cards[0].index = 9,
        "uid" => cards[0].uid[0] = uid::TAG,
        "ready" => cards[0].state = State::Ready(1),
        "off" => cards[0].state = State::Off,
        "ready*" => cards[0].state = State::ReadyStar(1),
        "active*" => cards[0].state = State::ActiveStar,
        "twice" => cards[0].uid = cards[1].uid.clone(),
        "used" => drop(reader.select()),
        _ => return None,
    }
    // More cards than there are: any that are good, so that their number is what is off.
    while cards.len() < count.min(uid::MOST_CARDS + 1) {
        cards.push(Card { uid: vec![99, cards.len() as u8, 3, 4], ..cards[0].clone() });
    }
    cards.truncate(count);
    Some((reader, cards))
}

fn swept(log: usize, list: usize, count: usize, off: &str) -> Option<Told> {
    let (mut reader, mut cards) = field(count, off)?;
    Some(sweep::sweep(&mut reader, 0, &mut cards, log, list).map(|s| format!("frames {}", s.frames())))
}

/// The first bytes of a UID, at most eleven: the one given, then 2, 3, 4 ..
fn uid_of(bytes: usize, first: u8) -> Vec<u8> {
    let mut uid: Vec<u8> = (1..=bytes.min(11) as u8).collect();
    if let Some(u0) = uid.first_mut() {
        *u0 = first;
    }
    uid
}

fn woken(bytes: usize, first: u8, count: usize, off: &str) -> Option<Told> {
    let (mut reader, mut cards) = field(count, off)?;
    Some(sweep::wake(&mut reader, &uid_of(bytes, first), &mut cards).map(|(_, frames)| format!("frames {frames}")))
}

impl VectorsCalls {
    pub fn new() -> VectorsCalls {
        VectorsCalls { reader: Reader::new(), card: new_card(8), own: 8 }
    }

    /// The lines that set the ends.
    fn stand(&mut self, words: &[&str]) -> Option<()> {
        let small = |word: &str| read_number(word, 8).map(|n| n as u8);
        match *words {
            ["new"] => *self = VectorsCalls::new(),
            ["selected"] => {
                let (reader, card) = Ends::selected(&UID, 8).expect("good ends");
                *self = VectorsCalls { reader, card, own: 8 };
            }
            ["open", own, index] => {
                let own = small(own)?;
                let (ends, _) = Ends::open(&UID, own, small(index)?).expect("good ends");
                *self = VectorsCalls { reader: ends.reader, card: ends.card, own };
            }
            ["talk", down, up, rounds] => {
                let (down, up) = (read_number(down, MOST_MESSAGE)?, read_number(up, MOST_MESSAGE)?);
                let mut ends = Ends::joined(self.reader.clone(), self.card.clone(), self.own);
                let (mut first, mut second) = (vec![0; MOST_MESSAGE], vec![0; MOST_MESSAGE]);
                ends.exchange(&message(down), &message(up), read_number(rounds, 5000)?, &mut first, &mut second);
                *self = VectorsCalls { reader: ends.reader, card: ends.card, own: self.own };
            }
            _ => return None,
        }
        Some(())
    }

    fn call(&self, words: &[&str]) -> Option<Told> {
        let number = |word: &str| read_number(word, 99_999);
        let (mut card, mut reader) = (self.card.clone(), self.reader.clone());
        Some(match *words {
            ["write", room, bytes] => written(number(room)?, &frames::standard(&vec![0; number(bytes)?.min(MOST_WRITTEN)])),
            ["write_crc", room, bytes] => {
                written(number(room)?, &frames::standard_with_crc(&vec![0; number(bytes)?.min(MOST_WRITTEN)]))
            }
            ["write_short", room] => written(number(room)?, &frames::short(frames::REQA)),
            ["read", room] => {
                let told = frames::read_standard(&frames::hlta(), 1, MOST_BYTES);
                in_room(number(room)?, BYTES_ROOM, told.map(|b| format!("bytes {}", b.len())))
            }
            ["read_crc", room] => {
                let told = frames::read_standard_with_crc(&frames::hlta(), MOST_BYTES);
                in_room(number(room)?, BYTES_ROOM, told.map(|b| format!("bytes {}", b.len())))
            }
            ["air_row", room] => in_room(number(room)?, AIR_ROOM, Ok(format!("bits {}", uid::on_air(&UID).len()))),
            ["reader_select", room, sent] => {
                in_room(number(room)?, FRAME_ROOM, bits_told(reader_at(number(sent)?).select()))
            }
            ["reader_start_sweep", room, sent] => {
                in_room(number(room)?, FRAME_ROOM, bits_told(reader_at(number(sent)?).sweep()))
            }
            ["reader_wake", room, sent, bytes] => {
                let told = bits_told(reader_at(number(sent)?).wake(&uid_of(number(bytes)?, 1)));
                in_room(number(room)?, FRAME_ROOM, told)
            }
            ["reader_hear", room, sent] => {
                let atqa = frames::standard(&[0x04, 0x00]);
                in_room(number(room)?, FRAME_ROOM, bits_told(reader_at(number(sent)?).hear(&atqa, &[], &mut [])))
            }
            ["sweep" | "sweep_row", log, list, count, off] => {
                let told = swept(number(log)?, number(list)?, number(count)?, off)?;
                note("call off", off, words[0]);
                told
            }
            ["wake_field", bytes, first, count, off] => {
                let told = woken(number(bytes)?, read_number(first, 255)? as u8, number(count)?, off)?;
                note("call off", off, words[0]);
                told
            }
            ["take", room, lent, buffer, frame] => {
                let mut buffer = message(number(buffer)?);
                let outcome = card.take(&heard(&read_hex(frame)?), &message(number(lent)?), &mut buffer);
                in_room(number(room)?, ROW_ROOM, card_told(outcome))
            }
            ["reply", room, bytes] => in_room(number(room)?, ROW_ROOM, card_told(card.reply(&message(number(bytes)?)))),
            ["ask", room, value] => in_room(number(room)?, ROW_ROOM, card_told(card.wtx(read_number(value, 255)? as u8))),
            ["hear", room, lent, buffer, frame] => {
                let mut buffer = message(number(buffer)?);
                let answer = reader.hear(&heard(&read_hex(frame)?), &message(number(lent)?), &mut buffer);
                in_room(number(room)?, ROW_ROOM, reader_told(answer))
            }
            ["select", room] => in_room(number(room)?, ROW_ROOM, reader_told(reader.select())),
            ["start_sweep", room] => in_room(number(room)?, ROW_ROOM, reader_told(reader.sweep())),
            ["rats", room, index] => {
                in_room(number(room)?, ROW_ROOM, reader_told(reader.rats(read_number(index, 255)? as u8)))
            }
            ["send", room, bytes] => in_room(number(room)?, ROW_ROOM, reader_told(reader.send(&message(number(bytes)?)))),
            ["wake", room, bytes] => in_room(number(room)?, ROW_ROOM, reader_told(reader.wake(&uid_of(number(bytes)?, 1)))),
            ["deselect", room] => in_room(number(room)?, ROW_ROOM, reader_told(reader.deselect())),
            _ => return None,
        })
    }
}

impl Program for VectorsCalls {
    fn words(&mut self, words: &[&str]) -> Option<Vec<String>> {
        if self.stand(words).is_some() {
            return Some(vec!["ok".to_string()]);
        }
        let told = self.call(words)?;
        let column = told.as_ref().map_or_else(|number| number.to_string(), |_| "taken".to_string());
        note("call", words[0], &column);
        Some(vec![told.unwrap_or_else(|number| format!("refused {number}"))])
    }
}

#[cfg(test)]
mod tests {
    use super::*;
    use crate::language::Script;

    #[test]
    fn answers() {
        let mut s = Script::new(VectorsCalls::new());
        assert_eq!(s.say("write_short 6"), "refused 1");
        assert_eq!(s.say("write_short 7"), "bits 7");
        assert_eq!(s.say("sweep 40960 352 33 none"), "refused 6");
        assert_eq!(s.say("sweep 0 0 33 used"), "refused 11");
        assert_eq!(s.say("rats 0 9"), "refused 11");
        assert_eq!(s.say("selected"), "ok");
        assert_eq!(s.say("rats 2303 9"), "refused 1");
        assert_eq!(s.say("rats 2304 9"), "refused 6");
        assert!(s.say("rats 2304 8").starts_with("sent "));
        assert_eq!(s.say("rats 2304"), "line 10: not understood");
    }
}
