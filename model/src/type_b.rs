//! T-05: Type B. Frames, the card's states, the reader stepped by what it hears, and one request with all its markers over a field.
//!
//! Rows hold data bits only, eight a byte, lowest first. So there is no parity, and no refusal 3.

use crate::coverage::note;
use crate::frames::{merge, Row, COLLIDED};
use crate::refusal::{self, Refusal};

/// CRC_B: CRC_A's register, started as FFFF and inverted at the end; low byte first.
pub fn crc_b(bytes: &[u8]) -> [u8; 2] {
    let mut register: u16 = 0xFFFF;
    for &byte in bytes {
        register ^= byte as u16;
        for _ in 0..8 {
            register = if register & 1 == 1 { (register >> 1) ^ 0x8408 } else { register >> 1 };
        }
    }
    (!register).to_le_bytes()
}

pub fn plain(bytes: &[u8]) -> Row {
    bytes.iter().flat_map(|byte| (0..8).map(move |bit| byte >> bit & 1)).collect()
}

pub fn with_crc(bytes: &[u8]) -> Row {
    plain(&[bytes, &crc_b(bytes)].concat())
}

/// The bytes of a row of whole bytes without collided bits.
fn bytes_of(row: &[u8]) -> Option<Vec<u8>> {
    if row.len() % 8 != 0 || row.contains(&COLLIDED) {
        return None;
    }
    Some(row.chunks(8).map(|bits| bits.iter().enumerate().map(|(place, bit)| bit << place).sum()).collect())
}

/// The same without CRC_B, where that is right.
pub fn checked(row: &[u8]) -> Option<Vec<u8>> {
    let bytes = bytes_of(row)?;
    let end = bytes.len().checked_sub(2)?;
    (crc_b(&bytes[..end])[..] == bytes[end..]).then(|| bytes[..end].to_vec())
}

/// The codes of N in PARAM, in order.
pub const SLOTS: [u8; 5] = [1, 2, 4, 8, 16];

pub fn request(wake: bool, slots: u8, afi: u8) -> Vec<u8> {
    let code = SLOTS.iter().position(|&n| n == slots).expect("one of the five") as u8;
    vec![0x05, afi, code | if wake { 8 } else { 0 }]
}

/// APn: the slot's number less 1 in the high half.
pub fn marker(slot: u8) -> Vec<u8> {
    vec![(slot - 1) << 4 | 5]
}

/// Table of the AFI: 00 is for all, X0 for all of family X, XY and 0Y for just that one.
pub fn admits(asked: u8, own: u8) -> bool {
    match (asked >> 4, asked & 15) {
        (0, 0) => true,
        (family, 0) => own >> 4 == family,
        _ => own == asked,
    }
}

#[derive(Clone, Copy, Debug, PartialEq)]
pub enum State {
    Off,
    Idle,
    Requested(u8),
    Declared,
    Active,
    Halt,
}

impl State {
    fn name(self) -> &'static str {
        match self {
            State::Off => "off",
            State::Idle => "idle",
            State::Requested(_) => "requested",
            State::Declared => "declared",
            State::Active => "active",
            State::Halt => "halt",
        }
    }
}

impl std::fmt::Display for State {
    fn fmt(&self, to: &mut std::fmt::Formatter) -> std::fmt::Result {
        match self {
            State::Requested(slot) => write!(to, "requested {slot}"),
            other => to.write_str(other.name()),
        }
    }
}

#[derive(Clone, Debug, PartialEq)]
pub struct Card {
    pub pupi: [u8; 4],
    pub afi: u8,
    pub markers: bool,
    pub application: [u8; 4],
    pub protocol: [u8; 3],
    pub state: State,
    /// The slot number that its host hands in.
    pub number: u8,
}

/// What a card makes of a row, if it is one of these frames.
enum Heard {
    Request { wake: bool, slots: u8, afi: u8 },
    Marker(u8),
    Attrib([u8; 4]),
    Hltb([u8; 4]),
    Other,
}

fn heard(row: &[u8]) -> Heard {
    let Some(bytes) = checked(row) else { return Heard::Other };
    match bytes[..] {
        [0x05, afi, param] if param < 16 && param % 8 < 5 => Heard::Request { wake: param >= 8, slots: SLOTS[param as usize % 8], afi },
        [byte] if byte % 16 == 5 && byte != 5 => Heard::Marker(byte / 16 + 1),
        [0x1D, a, b, c, d, _, _, _, _] => Heard::Attrib([a, b, c, d]),
        [0x50, a, b, c, d] => Heard::Hltb([a, b, c, d]),
        _ => Heard::Other,
    }
}

impl Card {
    pub fn atqb(&self) -> Vec<u8> {
        [&[0x50][..], &self.pupi, &self.application, &self.protocol].concat()
    }

    pub fn power(&mut self, on: bool) {
        note("Type B power", self.state.name(), if on { "on" } else { "off" });
        self.state = match (on, self.state) {
            (true, State::Off) => State::Idle,
            (true, other) => other,
            (false, _) => State::Off,
        };
    }

    /// The answer to a row, empty for silence. 6, ahead of all: a good request whose N the number does not fit.
    pub fn take(&mut self, row: &[u8]) -> Result<Row, Refusal> {
        let heard = heard(row);
        let what = match heard {
            Heard::Request { wake: false, .. } => "REQB",
            Heard::Request { .. } => "WUPB",
            Heard::Marker(_) => "marker",
            Heard::Attrib(_) => "ATTRIB",
            Heard::Hltb(_) => "HLTB",
            Heard::Other => "else",
        };
        if let Heard::Request { slots, .. } = heard {
            if self.number < 1 || self.number > slots {
                note("Type B card", self.state.name(), "6");
                return Err(refusal::ARGUMENT);
            }
        }
        note("Type B card", self.state.name(), what);
        Ok(self.rules(heard))
    }

    fn rules(&mut self, heard: Heard) -> Row {
        let (state, answer) = match (self.state, heard) {
            (State::Off | State::Active, _) => return Row::new(),
            (State::Halt, Heard::Request { wake: false, .. }) => return Row::new(),
            (_, Heard::Request { afi, .. }) => {
                if !admits(afi, self.afi) {
                    note("Type B request", self.state.name(), "not admitted");
                    return Row::new();
                }
                let (place, state, answer) = match (self.number, self.markers) {
                    (1, _) => ("slot 1", State::Declared, self.atqb()),
                    (slot, true) => ("other slot, markers", State::Requested(slot), Vec::new()),
                    (_, false) => ("other slot, no markers", State::Idle, Vec::new()),
                };
                note("Type B request", self.state.name(), place);
                (state, answer)
            }
            (State::Requested(own), Heard::Marker(slot)) => {
                note("Type B marker", if own == slot { "own" } else { "another" }, "requested");
                if own != slot {
                    return Row::new();
                }
                (State::Declared, self.atqb())
            }
            (State::Declared, Heard::Attrib(pupi)) => {
                note("Type B PUPI", "ATTRIB", if pupi == self.pupi { "own" } else { "another" });
                if pupi != self.pupi {
                    return Row::new();
                }
                (State::Active, vec![0])
            }
            (State::Declared, Heard::Hltb(pupi)) => {
                note("Type B PUPI", "HLTB", if pupi == self.pupi { "own" } else { "another" });
                if pupi != self.pupi {
                    return Row::new();
                }
                (State::Halt, vec![0])
            }
            _ => return Row::new(),
        };
        self.state = state;
        if answer.is_empty() {
            Row::new()
        } else {
            with_crc(&answer)
        }
    }
}

/// What a slot held.
#[derive(Clone, Debug, PartialEq)]
pub enum Held {
    None,
    One(Vec<u8>),
    More,
}

/// What a reader awaits.
#[derive(Clone, Debug, PartialEq)]
pub enum Reader {
    Ready,
    Slot { slot: u8, slots: u8 },
    AttribSent,
    HltbSent,
    Stopped,
}

impl Reader {
    pub fn name(&self) -> &'static str {
        match self {
            Reader::Ready => "ready",
            Reader::Slot { .. } => "slot",
            Reader::AttribSent => "ATTRIB sent",
            Reader::HltbSent => "HLTB sent",
            Reader::Stopped => "stopped",
        }
    }
}

/// What a call of the reader, or a row, gives.
#[derive(Clone, Debug, PartialEq)]
pub enum Said {
    Sends(Vec<u8>),
    /// What the slot held, and the next marker.
    Slot { slot: u8, held: Held, next: Option<Vec<u8>> },
    Attached(u8),
    Halted,
}

impl Reader {
    fn call(&mut self, call: &str, next: Result<(Reader, Vec<u8>), Refusal>) -> Result<Said, Refusal> {
        let outcome = match self {
            Reader::Ready => next,
            _ => Err(refusal::NOT_DUE),
        };
        let number = outcome.as_ref().err().map_or("taken".to_string(), |e| e.to_string());
        note(&format!("Type B {call}"), self.name(), &number);
        let (reader, frame) = outcome?;
        *self = reader;
        Ok(Said::Sends(frame))
    }

    pub fn request(&mut self, wake: bool, slots: u8, afi: u8) -> Result<Said, Refusal> {
        let next = if SLOTS.contains(&slots) {
            Ok((Reader::Slot { slot: 1, slots }, request(wake, slots, afi)))
        } else {
            Err(refusal::ARGUMENT)
        };
        self.call(if wake { "WUPB" } else { "REQB" }, next)
    }

    /// Param 1 and 4 are 00, Param 2 the reader's index, Param 3 is 01 for a card of protocol type 1.
    pub fn attrib(&mut self, atqb: &[u8], index: u8) -> Result<Said, Refusal> {
        let kind = (atqb[10] & 15 == 1) as u8;
        let frame = [&[0x1D][..], &atqb[1..5], &[0, index, kind, 0]].concat();
        let next = if index > 8 { Err(refusal::ARGUMENT) } else { Ok((Reader::AttribSent, frame)) };
        self.call("ATTRIB", next)
    }

    pub fn hltb(&mut self, pupi: &[u8]) -> Result<Said, Refusal> {
        self.call("HLTB", Ok((Reader::HltbSent, [&[0x50], pupi].concat())))
    }

    pub fn hear(&mut self, row: &[u8]) -> Result<Said, Refusal> {
        let before = self.name();
        let outcome = self.heard(row);
        let column = match &outcome {
            Ok(Said::Slot { held: Held::None, .. }) => "none".to_string(),
            Ok(Said::Slot { held: Held::One(_), .. }) => "one".to_string(),
            Ok(Said::Slot { held: Held::More, .. }) => "more".to_string(),
            Ok(_) => "good".to_string(),
            Err(e) => e.to_string(),
        };
        note("Type B row", before, &column);
        match &outcome {
            Ok(Said::Slot { slot, next: Some(_), .. }) => {
                if let Reader::Slot { slots, .. } = *self {
                    *self = Reader::Slot { slot: slot + 1, slots };
                }
            }
            Ok(_) => *self = Reader::Ready,
            Err(refusal::NOT_DUE) => {}
            Err(_) => *self = Reader::Stopped,
        }
        outcome
    }

    fn heard(&self, row: &[u8]) -> Result<Said, Refusal> {
        match *self {
            Reader::Slot { slot, slots } => {
                let held = slot_held(row)?;
                let next = (slot < slots).then(|| marker(slot + 1));
                Ok(Said::Slot { slot, held, next })
            }
            Reader::AttribSent => match one_byte(row)? {
                byte if byte & 15 == 0 => Ok(Said::Attached(byte >> 4)),
                _ => Err(refusal::FORBIDDEN),
            },
            Reader::HltbSent => match one_byte(row)? {
                0 => Ok(Said::Halted),
                _ => Err(refusal::FORBIDDEN),
            },
            Reader::Ready | Reader::Stopped => Err(refusal::NOT_DUE),
        }
    }
}

fn slot_held(row: &[u8]) -> Result<Held, Refusal> {
    if row.is_empty() {
        return Ok(Held::None);
    }
    if row.len() != 112 {
        return Err(refusal::LENGTH);
    }
    if row.contains(&COLLIDED) {
        return Ok(Held::More);
    }
    let atqb = checked(row).ok_or(refusal::CRC)?;
    if atqb[0] != 0x50 {
        return Err(refusal::FORBIDDEN);
    }
    Ok(Held::One(atqb))
}

fn one_byte(row: &[u8]) -> Result<u8, Refusal> {
    if row.is_empty() {
        return Err(refusal::SILENCE);
    }
    if row.len() != 24 {
        return Err(refusal::LENGTH);
    }
    if row.contains(&COLLIDED) {
        return Err(refusal::COLLISION);
    }
    checked(row).map(|bytes| bytes[0]).ok_or(refusal::CRC)
}

/// Every card takes the frame; one whose number does not fit sends nothing.
pub fn air(field: &mut [Card], frame: &[u8]) -> Row {
    let rows: Vec<Row> = field.iter_mut().map(|card| card.take(frame).unwrap_or_default()).collect();
    merge(&rows)
}

/// One limit for Type A and Type B.
pub use crate::uid::MOST_CARDS;

/// Asked for, whatever N is.
pub const LIST_ROOM: usize = 208;

/// One request with all its markers over a field. 11, 1, 6, then what the slots held, in the list too.
pub fn inquire(reader: &mut Reader, field: &mut [Card], list: &mut [u8], wake: bool, slots: u8, afi: u8) -> Result<Vec<Held>, Refusal> {
    let refused = |number: Refusal, why: &str| {
        note("Type B field", &number.to_string(), why);
        Err(number)
    };
    if *reader != Reader::Ready {
        return refused(refusal::NOT_DUE, reader.name());
    }
    if list.len() < LIST_ROOM {
        return refused(refusal::ROOM, "list");
    }
    if let Some(why) = unfit(field, slots) {
        return refused(refusal::ARGUMENT, why);
    }
    let alone = expected(field, slots, afi);
    let mut said = reader.request(wake, slots, afi)?;
    let mut told = Vec::new();
    while let Said::Sends(frame) | Said::Slot { next: Some(frame), .. } = &said {
        let row = air(field, &with_crc(frame));
        said = reader.hear(&row)?;
        if let Said::Slot { slot, held, .. } = &said {
            let entry = &mut list[13 * (*slot as usize - 1)..13 * *slot as usize];
            entry.fill(0);
            match held {
                Held::None => {}
                Held::One(atqb) => {
                    entry[0] = 1;
                    entry[1..].copy_from_slice(atqb);
                }
                Held::More => entry[0] = 2,
            }
            told.push(held.clone());
        }
    }
    note("Type B field", "taken", &format!("N {slots}"));
    if let Some(alone) = alone {
        assert_eq!(told, alone, "the claim");
        assert!(field.iter().all(|card| card.state == State::Declared), "the claim");
        note("Type B field", "taken", "within the claim");
    }
    Ok(told)
}

/// Why a field is not taken, if it is not.
fn unfit(field: &[Card], slots: u8) -> Option<&'static str> {
    if !SLOTS.contains(&slots) {
        return Some("N");
    }
    if field.len() > MOST_CARDS {
        return Some("too many");
    }
    for (place, card) in field.iter().enumerate() {
        match card.state {
            State::Idle | State::Halt => {}
            other => return Some(other.name()),
        }
        if card.number < 1 || card.number > slots {
            return Some("number");
        }
        if field[..place].iter().any(|other| other.pupi == card.pupi) {
            return Some("PUPI twice");
        }
    }
    None
}

/// The claim, from the slot numbers alone: what each slot is to hold, where all cards are idle, admitted and answer markers.
fn expected(field: &[Card], slots: u8, afi: u8) -> Option<Vec<Held>> {
    if !field.iter().all(|card| card.state == State::Idle && card.markers && admits(afi, card.afi)) {
        return None;
    }
    let slot = |number| {
        let cards: Vec<&Card> = field.iter().filter(|card| card.number == number).collect();
        match cards[..] {
            [] => Held::None,
            [card] => Held::One(card.atqb()),
            _ => Held::More,
        }
    };
    Some((1..=slots).map(slot).collect())
}

#[cfg(test)]
mod tests {
    use super::*;
    use crate::language::hex;

    /// The three of the standard's annex, one of source document 001, and frames of T-05.
    const CRCS: &[(&str, &str)] = &[
        ("000000", "CCC6"),
        ("0FAAFF", "FCD1"),
        ("0A123456", "2CF6"),
        ("01020304", "9139"),
        ("050000", "71FF"),
        ("050004", "55B9"),
        ("05000C", "1D35"),
        ("15", "54B7"),
        ("95", "5C33"),
        ("F5", "5A50"),
        ("501122334400000000008181", "595F"),
        ("1D1122334400080100", "DB35"),
        ("5011223344", "664B"),
        ("00", "78F0"),
    ];

    #[test]
    fn known_crcs() {
        for (data, crc) in CRCS {
            assert_eq!(crc_b(&hex(data)).to_vec(), hex(crc), "{data}");
        }
    }

    #[test]
    fn afi_cases() {
        for (asked, own, is) in [
            (0x00, 0x00, true),
            (0x00, 0x35, true),
            (0x30, 0x30, true),
            (0x30, 0x35, true),
            (0x30, 0x45, false),
            (0x30, 0x03, false),
            (0x35, 0x35, true),
            (0x35, 0x30, false),
            (0x35, 0x36, false),
            (0x05, 0x05, true),
            (0x05, 0x35, false),
            (0x05, 0x00, false),
        ] {
            assert_eq!(admits(asked, own), is, "{asked:02X} {own:02X}");
        }
    }
}
