//! T-10: one vicinity tag: its states, rounds of inventory, memory and locks, and the error codes of table 7.
//!
//! Rows and CRC are those of Type B. A UID is its eight bytes as sent, low byte first; so its bits in air order begin with those that a mask names.

use crate::coverage::note;
use crate::frames::Row;
use crate::type_b::{admits, checked, plain, with_crc};

pub type Uid = [u8; 8];

/// What a reader sends: bytes, to which CRC_B is added, or the EOF that begins the next slot.
#[derive(Clone, Debug, PartialEq)]
pub enum Frame {
    Bytes(Vec<u8>),
    Eof,
}

#[derive(Clone, Copy, Debug, PartialEq)]
pub enum State {
    Off,
    Ready,
    Quiet,
    Selected,
}

impl State {
    pub fn name(self) -> &'static str {
        match self {
            State::Off => "off",
            State::Ready => "ready",
            State::Quiet => "quiet",
            State::Selected => "selected",
        }
    }
}

/// The error codes that our tag gives.
pub mod error {
    pub const NOT_SUPPORTED: u8 = 0x01;
    pub const NOT_RECOGNISED: u8 = 0x02;
    pub const OPTION: u8 = 0x03;
    pub const ABSENT: u8 = 0x10;
    pub const LOCKED_ALREADY: u8 = 0x11;
    pub const LOCKED: u8 = 0x12;
}

/// A round of 16 slots under way: the mask's bits, and the slot.
#[derive(Clone, Debug, PartialEq)]
struct Round {
    mask: Row,
    slot: u8,
}

#[derive(Clone, Debug, PartialEq)]
pub struct Tag {
    pub uid: Uid,
    pub blocks: Vec<Vec<u8>>,
    pub locked: Vec<bool>,
    /// None: it supports no AFI.
    pub afi: Option<u8>,
    pub dsfid: u8,
    pub state: State,
    round: Option<Round>,
}

/// The four bits of a slot's number, lowest first.
pub fn slot_bits(slot: u8) -> Row {
    plain(&[slot])[..4].to_vec()
}

/// The bits of a request's first byte that are looked at.
#[derive(Clone, Copy)]
struct Flags(u8);

impl Flags {
    fn bit(self, number: u8) -> bool {
        self.0 >> (number - 1) & 1 == 1
    }
}

/// How a request without the inventory flag is meant.
#[derive(Clone, Copy, Debug, PartialEq)]
enum Mode {
    Addressed,
    Select,
    Any,
}

impl Mode {
    fn name(self) -> &'static str {
        match self {
            Mode::Addressed => "addressed",
            Mode::Select => "Select flag",
            Mode::Any => "any",
        }
    }
}

impl Tag {
    /// A tag with zeros in its memory and no lock; none where the geometry is not 1 to 256 blocks of 1 to 32 bytes.
    pub fn new(uid: Uid, blocks: usize, size: usize, state: State, afi: Option<u8>, dsfid: u8) -> Option<Tag> {
        if !(1..=256).contains(&blocks) || !(1..=32).contains(&size) {
            return None;
        }
        Some(Tag { uid, blocks: vec![vec![0; size]; blocks], locked: vec![false; blocks], afi, dsfid, state, round: None })
    }

    pub fn power(&mut self, on: bool) {
        note("Vicinity power", self.state.name(), if on { "on" } else { "off" });
        match (on, self.state) {
            (true, State::Off) => self.state = State::Ready,
            (true, _) => {}
            (false, _) => {
                if self.round.take().is_some() {
                    note("Vicinity round", "ended", "power");
                }
                self.state = State::Off;
            }
        }
    }

    pub fn is_in_round(&self) -> bool {
        self.round.is_some()
    }

    pub fn hears(&mut self, frame: &Frame) -> Row {
        match frame {
            Frame::Bytes(bytes) => self.take(&with_crc(bytes)),
            Frame::Eof => self.eof(),
        }
    }

    fn named(&self) -> Row {
        with_crc(&[&[0x00, self.dsfid][..], &self.uid].concat())
    }

    /// Do the mask, and behind it the slot's number, begin the UID?
    fn is_meant(&self, mask: &[u8], slot: &[u8]) -> bool {
        plain(&self.uid).starts_with(&[mask, slot].concat())
    }

    /// The EOF: the next slot of a round, of which the last one ends it. Outside a round it is nothing.
    pub fn eof(&mut self) -> Row {
        let Some(mut round) = self.round.take() else {
            note("Vicinity EOF", self.state.name(), "no round");
            return Row::new();
        };
        round.slot += 1;
        let meant = self.is_meant(&round.mask, &slot_bits(round.slot));
        note("Vicinity EOF", self.state.name(), if meant { "its slot" } else { "another slot" });
        if round.slot < 15 {
            self.round = Some(round);
        } else {
            note("Vicinity round", "ended", "last slot");
        }
        if meant {
            self.named()
        } else {
            Row::new()
        }
    }

    /// The answer to a row, empty for silence. Every row ends a round.
    pub fn take(&mut self, row: &[u8]) -> Row {
        if self.state == State::Off {
            note("Vicinity row", "off", "silent");
            return Row::new();
        }
        let in_round = self.round.take().is_some();
        let seen = |state: State, why: &str| {
            note("Vicinity row", state.name(), why);
            if in_round {
                note("Vicinity round", "ended", why);
            }
        };
        let Some(bytes) = checked(row) else {
            seen(self.state, if row.is_empty() { "empty" } else { "damaged" });
            return Row::new();
        };
        let [flags, code, ref rest @ ..] = bytes[..] else {
            seen(self.state, "under four bytes");
            return Row::new();
        };
        let flags = Flags(flags);
        if flags.bit(4) || flags.bit(8) {
            seen(self.state, "b4 or b8");
            return Row::new();
        }
        if flags.bit(3) {
            seen(self.state, "inventory flag");
            return self.inventory(flags, code, rest).unwrap_or_default();
        }
        if flags.bit(5) && flags.bit(6) {
            seen(self.state, "both flags");
            return Row::new();
        }
        seen(self.state, "request");
        match self.request(flags, code, rest) {
            Some(answer) => with_crc(&answer),
            None => Row::new(),
        }
    }

    /// Inventory: b5 is the AFI flag, b6 asks for 1 slot, b7 has to be clear. Any fault: silent.
    fn inventory(&mut self, flags: Flags, code: u8, rest: &[u8]) -> Option<Row> {
        let table = if flags.bit(6) { "Vicinity 1 slot" } else { "Vicinity 16 slots" };
        let silent = |why: &str| {
            note(table, self.state.name(), why);
            None
        };
        if self.state == State::Quiet {
            return silent("quiet");
        }
        if code != 0x01 {
            return silent("code");
        }
        if flags.bit(7) {
            return silent("Option flag");
        }
        let rest = match (flags.bit(5), rest) {
            (false, rest) => rest,
            (true, []) => return silent("no AFI"),
            (true, [asked, rest @ ..]) => match self.afi {
                None => return silent("AFI not supported"),
                Some(own) if !admits(*asked, own) => return silent("AFI not admitted"),
                Some(_) => rest,
            },
        };
        let [length, ref mask @ ..] = rest[..] else {
            return silent("no mask length");
        };
        if length > if flags.bit(6) { 64 } else { 60 } {
            return silent("mask too long");
        }
        let length = length as usize;
        let needed = (length + 7) / 8;
        if mask.len() != needed {
            return silent(if mask.len() < needed { "mask bytes missing" } else { "bytes behind the mask" });
        }
        let mask = plain(mask)[..length].to_vec();
        let slot = if flags.bit(6) { Row::new() } else { slot_bits(0) };
        let meant = self.is_meant(&mask, &slot);
        note(table, self.state.name(), if meant { "meant" } else { "not meant" });
        if !flags.bit(6) {
            self.round = Some(Round { mask, slot: 0 });
        }
        meant.then(|| self.named())
    }

    /// A request without the inventory flag: the bytes of the answer without CRC_B, or none.
    fn request(&mut self, flags: Flags, code: u8, rest: &[u8]) -> Option<Vec<u8>> {
        let state = self.state.name();
        let option = flags.bit(7);
        let mode = match (flags.bit(6), flags.bit(5)) {
            (true, _) => Mode::Addressed,
            (_, true) => Mode::Select,
            _ => Mode::Any,
        };
        let mut rest = rest;
        match mode {
            Mode::Addressed => {
                if rest.len() < 8 {
                    note("Vicinity mode", state, "UID cut");
                    return None;
                }
                let (uid, behind) = rest.split_at(8);
                if uid != self.uid {
                    note("Vicinity mode", state, "another UID");
                    if code == 0x25 {
                        let good = behind.is_empty() && !option;
                        note("Vicinity Select of another", state, if good { "good" } else { "not good" });
                        if good && self.state == State::Selected {
                            self.state = State::Ready;
                        }
                    }
                    return None;
                }
                rest = behind;
            }
            Mode::Select if self.state != State::Selected => {
                note("Vicinity mode", state, "Select flag, not taken");
                return None;
            }
            Mode::Any if self.state == State::Quiet => {
                note("Vicinity mode", state, "any, not taken");
                return None;
            }
            _ => {}
        }
        note("Vicinity mode", state, mode.name());
        let row = |code: u8| match code {
            0x20..=0x26 | 0x02 | 0x01 => format!("{code:02X}, {}", mode.name()),
            _ => format!("other, {}", mode.name()),
        };
        let silent = |why: &str| {
            note("Vicinity code", &row(code), why);
            None
        };
        match code {
            0x01 => return silent("silent"),
            0x02 => {
                if mode != Mode::Addressed || !rest.is_empty() || option {
                    return silent("silent, as it was");
                }
                note("Vicinity quiet", state, "own UID");
                self.state = State::Quiet;
                return silent("silent, quiet");
            }
            0x25 if mode != Mode::Addressed => return silent("silent"),
            _ => {}
        }
        match self.fault(code, rest, option) {
            Some(error::NOT_SUPPORTED | error::NOT_RECOGNISED) if mode == Mode::Any => silent("silent"),
            Some(fault) => {
                note("Vicinity code", &row(code), &format!("{fault:02X}"));
                Some(vec![0x01, fault])
            }
            None => {
                let with = if option { "00, Option flag" } else { "00" };
                note("Vicinity code", &row(code), with);
                if code >= 0x25 {
                    note(if code == 0x25 { "Vicinity Select" } else { "Vicinity Reset" }, state, mode.name());
                }
                Some([vec![0x00], self.done(code, rest, option)].concat())
            }
        }
    }

    /// The first error that fits.
    fn fault(&self, code: u8, rest: &[u8], option: bool) -> Option<u8> {
        let size = self.blocks[0].len();
        let fits = match (code, rest) {
            (0x20 | 0x22, [_]) => true,
            (0x21, [_, data @ ..]) => data.len() == size,
            (0x23, [_, _]) => true,
            (0x24, [_, less, data @ ..]) => data.len() == size * (*less as usize + 1),
            (0x25 | 0x26, []) => true,
            (0x20..=0x26, _) => false,
            _ => return Some(error::NOT_SUPPORTED),
        };
        if !fits {
            return Some(error::NOT_RECOGNISED);
        }
        let named = named(code, rest);
        if named.clone().any(|block| block >= self.blocks.len()) {
            return Some(error::ABSENT);
        }
        let locked = named.clone().any(|block| self.locked[block]);
        match code {
            0x22 if locked => Some(error::LOCKED_ALREADY),
            0x21 | 0x24 if locked => Some(error::LOCKED),
            0x20 | 0x23 => None,
            _ if option => Some(error::OPTION),
            _ => None,
        }
    }

    /// What a request without fault does, and its answer behind the flags.
    fn done(&mut self, code: u8, rest: &[u8], option: bool) -> Vec<u8> {
        let mut answer = Vec::new();
        let size = self.blocks[0].len();
        let before = self.clone();
        for (place, block) in named(code, rest).enumerate() {
            match code {
                0x20 | 0x23 => {
                    if option {
                        answer.push(self.locked[block] as u8);
                    }
                    answer.extend(&self.blocks[block]);
                }
                0x22 => self.locked[block] = true,
                _ => {
                    let data = &rest[if code == 0x21 { 1 } else { 2 }..];
                    self.blocks[block].copy_from_slice(&data[size * place..size * (place + 1)]);
                }
            }
        }
        match code {
            0x25 => self.state = State::Selected,
            0x26 => self.state = State::Ready,
            0x21 | 0x24 => self.check_write(&before, rest, code),
            _ => {}
        }
        answer
    }

    /// The claim: a write without error makes the named blocks those sent and changes no other.
    fn check_write(&self, before: &Tag, rest: &[u8], code: u8) {
        let first = rest[0] as usize;
        let data = &rest[if code == 0x21 { 1 } else { 2 }..];
        let size = before.blocks[0].len();
        let mut memory = before.blocks.concat();
        memory[size * first..size * first + data.len()].copy_from_slice(data);
        assert_eq!(self.blocks.concat(), memory, "the claim");
        assert_eq!(Tag { blocks: before.blocks.clone(), ..self.clone() }, *before, "the claim");
    }
}

/// The blocks that a request of right length names.
fn named(code: u8, rest: &[u8]) -> std::ops::Range<usize> {
    let first = rest.first().map_or(0, |&block| block as usize);
    match code {
        0x23 | 0x24 => first..first + rest[1] as usize + 1,
        0x20..=0x22 => first..first + 1,
        _ => 0..0,
    }
}

#[cfg(test)]
mod tests {
    use super::*;
    use crate::language::hex;

    fn tag() -> Tag {
        let uid = hex("0123456789AB04E0").try_into().unwrap();
        Tag::new(uid, 16, 4, State::Ready, Some(0x21), 0).unwrap()
    }

    /// Requests with their CRC, and the answers to them, in order, of a tag of 16 blocks of four bytes.
    const WORKED: &[(&str, &str)] = &[
        ("260100F60A", "00000123456789AB04E001DC"),
        ("060100CD09", "-"),
        ("16011000A8BB", "-"),
        ("06010401719B", "00000123456789AB04E001DC"),
        ("06010CCF04B142", "-"),
        ("02200B94EE", "000000000000"),
        ("12200B016B", "-"),
        ("22210123456789AB04E00B11223344381B", "0078F0"),
        ("22200123456789AB04E00BE3BA", "0011223344043E"),
        ("62200123456789AB04E00BE677", "000011223344FC06"),
        ("22220123456789AB04E00BADE2", "0078F0"),
        ("62200123456789AB04E00BE677", "000111223344B80D"),
        ("22220123456789AB04E00BADE2", "01119717"),
        ("22210123456789AB04E00B11223344381B", "01120C25"),
        ("22240123456789AB04E00B01112233445566778816D6", "01120C25"),
        ("22250123456789AB04E0DBAD", "0078F0"),
        ("12200B016B", "0011223344043E"),
        ("0226C378", "0078F0"),
        ("22020123456789AB04E000B3", "-"),
        ("260100F60A", "-"),
        ("22260123456789AB04E0DC7B", "0078F0"),
        ("260100F60A", "00000123456789AB04E001DC"),
    ];

    #[test]
    fn worked_frames() {
        let mut tag = tag();
        for (request, answer) in WORKED {
            let answer = match *answer {
                // Its CRC follows from the data.
                "000000000000" => with_crc(&[0; 5]),
                other => plain(&hex(other)),
            };
            assert_eq!(tag.take(&plain(&hex(request))), answer, "{request}");
        }
    }

    #[test]
    fn error_answers() {
        for (code, frame) in [
            (error::NOT_SUPPORTED, "01011607"),
            (error::NOT_RECOGNISED, "01028D35"),
            (error::OPTION, "01030424"),
            (error::ABSENT, "01101E06"),
            (error::LOCKED_ALREADY, "01119717"),
            (error::LOCKED, "01120C25"),
        ] {
            assert_eq!(with_crc(&[1, code]), plain(&hex(frame)));
        }
    }

    /// The first error that fits, of a tag whose block 1 is locked, addressed and to any: None is silence.
    #[test]
    fn the_order_of_errors() {
        let mut tag = tag();
        tag.locked[1] = true;
        let before = tag.clone();
        for (option, code, rest, addressed, any) in [
            (0x40, 0x27, "-", Some(0x01), None),
            (0x40, 0x20, "FF00", Some(0x02), None),
            (0x40, 0x21, "FF112233", Some(0x02), None),
            (0x40, 0x24, "0101AABBCCDD", Some(0x02), None),
            (0x40, 0x25, "00", Some(0x02), None),
            (0x40, 0x21, "1011223344", Some(0x10), Some(0x10)),
            (0x00, 0x23, "FFFF", Some(0x10), Some(0x10)),
            (0x40, 0x24, "0F011122334455667788", Some(0x10), Some(0x10)),
            (0x40, 0x22, "01", Some(0x11), Some(0x11)),
            (0x40, 0x24, "00011122334455667788", Some(0x12), Some(0x12)),
            (0x40, 0x22, "00", Some(0x03), Some(0x03)),
            (0x40, 0x26, "-", Some(0x03), Some(0x03)),
            (0x40, 0x25, "-", Some(0x03), None),
            (0x40, 0x02, "-", None, None),
        ] {
            for (flags, error) in [(0x22, addressed), (0x02, any)] {
                let uid = if flags == 0x22 { &before.uid[..] } else { &[] };
                let answer = tag.take(&with_crc(&[&[flags | option, code][..], uid, &hex(rest)].concat()));
                assert_eq!(answer, error.map_or(Row::new(), |error| with_crc(&[0x01, error])), "{flags:02X} {code:02X} {rest}");
                assert_eq!(tag, before);
            }
        }
    }

    /// Where each good frame leads from ready, quiet and selected.
    #[test]
    fn the_states() {
        let own = "0123456789AB04E0";
        let other = "0123456789AB04E1";
        use State::{Quiet, Ready, Selected};
        for (frame, to) in [
            (format!("2202{own}"), [Quiet, Quiet, Quiet]),
            (format!("2225{own}"), [Selected, Selected, Selected]),
            (format!("2226{own}"), [Ready, Ready, Ready]),
            ("0226".to_string(), [Ready, Quiet, Ready]),
            ("1226".to_string(), [Ready, Quiet, Ready]),
            (format!("2225{other}"), [Ready, Quiet, Ready]),
            (format!("2202{other}"), [Ready, Quiet, Selected]),
            (format!("3225{other}"), [Ready, Quiet, Selected]),
            (format!("6225{other}"), [Ready, Quiet, Selected]),
            (format!("2225{other}00"), [Ready, Quiet, Selected]),
            ("260100".to_string(), [Ready, Quiet, Selected]),
        ] {
            for (from, to) in [Ready, Quiet, Selected].into_iter().zip(to) {
                let mut tag = Tag { state: from, ..tag() };
                tag.take(&with_crc(&hex(&frame)));
                assert_eq!(tag.state, to, "{frame} {from:?}");
            }
        }
    }

    /// A round of 16 slots has 15 EOFs, and the tag is as before behind the last.
    #[test]
    fn a_round() {
        let before = tag();
        let mut tag = before.clone();
        tag.take(&with_crc(&[0x06, 0x01, 0x00]));
        for slot in 1..=17 {
            assert_eq!(tag.eof().is_empty(), slot != 1, "slot {slot}");
            assert_eq!(tag == before, slot >= 15, "slot {slot}");
        }
    }
}
