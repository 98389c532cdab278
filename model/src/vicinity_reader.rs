//! T-10: the reader of vicinity tags, stepped by what it hears: one round of inventory, the sweep, and the requests to tags.

use crate::coverage::note;
use crate::frames::{Row, COLLIDED};
use crate::refusal::{self, Refusal};
use crate::type_b::{checked, plain};
use crate::vicinity_tag::{slot_bits, Frame, Uid};

/// To whom a request goes.
#[derive(Clone, Debug, PartialEq)]
pub enum Mode {
    Addressed(Uid),
    Any,
    Selected,
}

/// What a slot held.
#[derive(Clone, Debug, PartialEq)]
pub enum Held {
    None,
    One { dsfid: u8, uid: Uid },
    More,
}

/// A round of inventory under way; in a sweep also the masks still to be taken, the next one last.
#[derive(Clone, Debug, PartialEq)]
pub struct Round {
    slots: u8,
    slot: u8,
    /// Its bits, lowest first.
    pub mask: Row,
    afi: Option<u8>,
    sweep: Option<Sweep>,
}

#[derive(Clone, Debug, Default, PartialEq)]
struct Sweep {
    /// Slots of this round at which tags met.
    met: Vec<u8>,
    masks: Vec<Row>,
}

/// What a reader awaits.
#[derive(Clone, Debug, PartialEq)]
pub enum Reader {
    Ready,
    Slot(Round),
    Silence,
    Data { blocks: usize, status: bool },
    Word,
    Stopped,
}

/// What a call of the reader, or a row, gives.
#[derive(Clone, Debug, PartialEq)]
pub enum Said {
    Sends(Frame),
    /// What the slot held, and what goes out for the next slot or round.
    Slot {
        slot: u8,
        held: Held,
        next: Option<Frame>,
    },
    Quiet,
    Data(Vec<u8>),
    Good,
    /// The tag's error code.
    Error(u8),
}

/// The reader's calls, but for the inventory.
#[derive(Clone, Debug)]
pub enum Call {
    Quiet(Uid),
    Select(Uid),
    Reset(Mode),
    Read { mode: Mode, block: u8, status: bool },
    Reads { mode: Mode, first: u8, count: usize, status: bool },
    Write { mode: Mode, block: u8, data: Vec<u8> },
    Writes { mode: Mode, first: u8, count: usize, data: Vec<u8> },
    Lock { mode: Mode, block: u8 },
}

impl Call {
    fn name(&self) -> &'static str {
        match self {
            Call::Quiet(_) => "quiet",
            Call::Select(_) => "select",
            Call::Reset(_) => "reset",
            Call::Read { .. } => "read",
            Call::Reads { .. } => "reads",
            Call::Write { .. } => "write",
            Call::Writes { .. } => "writes",
            Call::Lock { .. } => "lock",
        }
    }

    /// The request, and what is awaited.
    fn frame(self) -> Result<(Vec<u8>, Reader), Refusal> {
        let less = |count: usize| (count - 1) as u8;
        Ok(match self {
            Call::Quiet(uid) => (request(&Mode::Addressed(uid), false, 0x02, &[]), Reader::Silence),
            Call::Select(uid) => (request(&Mode::Addressed(uid), false, 0x25, &[]), Reader::Word),
            Call::Reset(mode) => (request(&mode, false, 0x26, &[]), Reader::Word),
            Call::Read { mode, block, status } => (request(&mode, status, 0x20, &[block]), Reader::Data { blocks: 1, status }),
            Call::Reads { mode, first, count, status } => {
                (request(&mode, status, 0x23, &[first, less(count)]), Reader::Data { blocks: count, status })
            }
            Call::Write { mode, block, data } => {
                if !(1..=32).contains(&data.len()) {
                    return Err(refusal::ARGUMENT);
                }
                (request(&mode, false, 0x21, &[&[block][..], &data].concat()), Reader::Word)
            }
            Call::Writes { mode, first, count, data } => {
                if !(1..=32).any(|size| data.len() == count * size) {
                    return Err(refusal::ARGUMENT);
                }
                (request(&mode, false, 0x24, &[&[first, less(count)][..], &data].concat()), Reader::Word)
            }
            Call::Lock { mode, block } => (request(&mode, false, 0x22, &[block]), Reader::Word),
        })
    }
}

/// Lengths of a mask beside the limits, to be counted one by one.
pub const MASKS: [u8; 9] = [0, 1, 4, 59, 60, 61, 63, 64, 65];

/// Flags: b2, the Address or the Select flag, the Option flag; then the code, the UID where it is addressed, and the rest.
fn request(mode: &Mode, option: bool, code: u8, rest: &[u8]) -> Vec<u8> {
    let option = if option { 0x40 } else { 0x00 };
    match mode {
        Mode::Addressed(uid) => [&[0x22 | option, code][..], uid, rest].concat(),
        Mode::Any => [&[0x02 | option, code], rest].concat(),
        Mode::Selected => [&[0x12 | option, code], rest].concat(),
    }
}

/// Inventory: flags b2 and b3, b5 with an AFI, b6 for 1 slot; the mask's bits filled up with zeros to whole bytes.
fn inventory(slots: u8, mask: &[u8], afi: Option<u8>) -> Frame {
    let flags = 0x06 | if slots == 1 { 0x20 } else { 0 } | if afi.is_some() { 0x10 } else { 0 };
    let bytes: Vec<u8> = mask.chunks(8).map(|bits| bits.iter().enumerate().map(|(place, bit)| bit << place).sum()).collect();
    let mut frame = vec![flags, 0x01];
    frame.extend(afi);
    frame.push(mask.len() as u8);
    frame.extend(bytes);
    Frame::Bytes(frame)
}

impl Reader {
    pub fn name(&self) -> &'static str {
        match self {
            Reader::Ready => "ready",
            Reader::Slot(Round { sweep: Some(_), .. }) => "slot of a sweep",
            Reader::Slot(Round { slots: 1, .. }) => "the one slot",
            Reader::Slot(_) => "slot of 16",
            Reader::Silence => "silence",
            Reader::Data { status: false, .. } => "data",
            Reader::Data { .. } => "data with status",
            Reader::Word => "word",
            Reader::Stopped => "stopped",
        }
    }

    fn start(&mut self, call: &str, next: Result<(Frame, Reader), Refusal>) -> Result<Said, Refusal> {
        let outcome = match self {
            Reader::Ready => next,
            _ => Err(refusal::NOT_DUE),
        };
        let number = outcome.as_ref().err().map_or("taken".to_string(), |e| e.to_string());
        note(&format!("Vicinity call {call}"), self.name(), &number);
        let (frame, reader) = outcome?;
        *self = reader;
        Ok(Said::Sends(frame))
    }

    /// One round. The mask is bytes as sent; its low bits count, missing ones are 0.
    pub fn inventory(&mut self, slots: u8, length: u8, mask: &[u8], afi: Option<u8>) -> Result<Said, Refusal> {
        let next = match (slots, length) {
            (1, 0..=64) | (16, 0..=60) => {
                let mut bits = plain(mask);
                bits.resize(length as usize, 0);
                Ok((inventory(slots, &bits, afi), Reader::Slot(Round { slots, slot: 0, mask: bits, afi, sweep: None })))
            }
            _ => Err(refusal::ARGUMENT),
        };
        if matches!(slots, 1 | 16) {
            let column = if MASKS.contains(&length) { length.to_string() } else { "another".to_string() };
            note("Vicinity mask", if slots == 1 { "1 slot" } else { "16 slots" }, &column);
        }
        self.start("inventory", next)
    }

    /// The sweep: mask of no bits, always 16 slots.
    pub fn sweep(&mut self, afi: Option<u8>) -> Result<Said, Refusal> {
        let round = Round { slots: 16, slot: 0, mask: Row::new(), afi, sweep: Some(Sweep::default()) };
        self.start("sweep", Ok((inventory(16, &[], afi), Reader::Slot(round))))
    }

    pub fn call(&mut self, call: Call) -> Result<Said, Refusal> {
        let name = call.name();
        let next = call.frame().map(|(frame, reader)| (Frame::Bytes(frame), reader));
        self.start(name, next)
    }

    pub fn hear(&mut self, row: &[u8]) -> Result<Said, Refusal> {
        let before = self.name();
        let outcome = match self.clone() {
            Reader::Ready | Reader::Stopped => Err(refusal::NOT_DUE),
            Reader::Slot(round) => held(&round, row).map(|held| {
                let (reader, said) = round.next(held);
                *self = reader;
                said
            }),
            Reader::Silence if row.is_empty() => Ok(Said::Quiet),
            Reader::Silence => Err(refusal::FORBIDDEN),
            Reader::Data { blocks, status } => {
                let most = (1..=32).map(|size| blocks * (size + status as usize));
                answered(row, &most.collect::<Vec<usize>>())
                    .map(|(error, data)| if error { Said::Error(data[0]) } else { Said::Data(data) })
            }
            Reader::Word => answered(row, &[0]).map(|(error, data)| if error { Said::Error(data[0]) } else { Said::Good }),
        };
        let column = match &outcome {
            Ok(Said::Slot { held: Held::None, .. }) => "none".to_string(),
            Ok(Said::Slot { held: Held::One { .. }, .. }) => "one".to_string(),
            Ok(Said::Slot { held: Held::More, .. }) => "more".to_string(),
            Ok(Said::Error(_)) => "error".to_string(),
            Ok(_) => "good".to_string(),
            Err(e) => e.to_string(),
        };
        note("Vicinity heard", before, &column);
        match &outcome {
            Ok(Said::Slot { .. }) | Err(refusal::NOT_DUE) => {}
            Ok(_) => *self = Reader::Ready,
            Err(_) => *self = Reader::Stopped,
        }
        outcome
    }
}

impl Round {
    /// Behind a slot: the next slot, else the next round of a sweep, else the end.
    fn next(mut self, held: Held) -> (Reader, Said) {
        let slot = self.slot;
        if let (Some(sweep), Held::More) = (&mut self.sweep, &held) {
            note("Vicinity met", "mask bits", &self.mask.len().to_string());
            sweep.met.push(slot);
        }
        let said = |next| Said::Slot { slot, held, next };
        if slot + 1 < self.slots {
            self.slot += 1;
            return (Reader::Slot(self), said(Some(Frame::Eof)));
        }
        // The round is finished: its met slots come next, in rising order, each to its end.
        if let Some(sweep) = &mut self.sweep {
            for met in sweep.met.drain(..).rev() {
                sweep.masks.push([&self.mask[..], &slot_bits(met)].concat());
            }
            if let Some(mask) = sweep.masks.pop() {
                note(
                    "Vicinity sweep",
                    "further round",
                    if mask.len() > self.mask.len() { "below this one" } else { "beside or above" },
                );
                self.slot = 0;
                self.mask = mask;
                let frame = inventory(self.slots, &self.mask, self.afi);
                return (Reader::Slot(self), said(Some(frame)));
            }
        }
        (Reader::Ready, said(None))
    }
}

/// What a slot held, tests in order.
fn held(round: &Round, row: &[u8]) -> Result<Held, Refusal> {
    if row.is_empty() {
        return Ok(Held::None);
    }
    if row.len() != 96 {
        return Err(refusal::LENGTH);
    }
    if row.contains(&COLLIDED) {
        if round.sweep.is_some() && round.mask.len() == 60 {
            note("Vicinity met", "mask bits", "60");
            return Err(refusal::FORBIDDEN);
        }
        return Ok(Held::More);
    }
    let bytes = checked(row).ok_or(refusal::CRC)?;
    let uid: Uid = bytes[2..].try_into().expect("eight bytes");
    let due = if round.slots == 1 { round.mask.clone() } else { [&round.mask[..], &slot_bits(round.slot)].concat() };
    if bytes[0] != 0x00 || !plain(&uid).starts_with(&due) {
        let why = match bytes[0] {
            0x00 if !plain(&uid).starts_with(&round.mask) => "mask",
            0x00 => "slot",
            _ => "flags",
        };
        note("Vicinity slot's answer", if round.slots == 1 { "1 slot" } else { "16 slots" }, why);
        return Err(refusal::FORBIDDEN);
    }
    Ok(Held::One { dsfid: bytes[1], uid })
}

/// An answer to a request: whether it is an error, and all behind the flags. `good` are the numbers of bytes that a good one can have there.
fn answered(row: &[u8], good: &[usize]) -> Result<(bool, Vec<u8>), Refusal> {
    if row.is_empty() {
        return Err(refusal::SILENCE);
    }
    if row.len() != 32 && !good.iter().any(|bytes| row.len() == 24 + 8 * bytes) {
        return Err(refusal::LENGTH);
    }
    if row.contains(&COLLIDED) {
        return Err(refusal::COLLISION);
    }
    let bytes = checked(row).ok_or(refusal::CRC)?;
    match bytes[..] {
        [0x01, code] if is_error(code) => Ok((true, vec![code])),
        [0x00, ref data @ ..] if good.contains(&data.len()) => Ok((false, data.to_vec())),
        _ => Err(refusal::FORBIDDEN),
    }
}

/// A code of table 7, or a custom one.
fn is_error(code: u8) -> bool {
    matches!(code, 0x01..=0x03 | 0x0F..=0x14 | 0xA0..=0xDF)
}

#[cfg(test)]
mod tests {
    use super::*;
    use crate::language::hex;
    use crate::type_b::with_crc;

    fn sent(said: Result<Said, Refusal>) -> Row {
        match said {
            Ok(Said::Sends(Frame::Bytes(bytes))) => with_crc(&bytes),
            other => panic!("{other:?}"),
        }
    }

    /// The frames of a reader that are worked out: to the tag with this UID, and inventories.
    #[test]
    fn worked_frames() {
        let uid: Uid = hex("0123456789AB04E0").try_into().unwrap();
        let own = || Mode::Addressed(uid);
        let calls = [
            (Call::Quiet(uid), "22020123456789AB04E000B3"),
            (Call::Read { mode: own(), block: 11, status: false }, "22200123456789AB04E00BE3BA"),
            (Call::Read { mode: Mode::Any, block: 11, status: false }, "02200B94EE"),
            (Call::Read { mode: Mode::Selected, block: 11, status: false }, "12200B016B"),
            (Call::Read { mode: own(), block: 11, status: true }, "62200123456789AB04E00BE677"),
            (Call::Write { mode: own(), block: 11, data: hex("11223344") }, "22210123456789AB04E00B11223344381B"),
            (Call::Lock { mode: own(), block: 11 }, "22220123456789AB04E00BADE2"),
            (Call::Reads { mode: own(), first: 11, count: 2, status: false }, "22230123456789AB04E00B016DCA"),
            (
                Call::Writes { mode: own(), first: 11, count: 2, data: hex("1122334455667788") },
                "22240123456789AB04E00B01112233445566778816D6",
            ),
            (Call::Select(uid), "22250123456789AB04E0DBAD"),
            (Call::Reset(own()), "22260123456789AB04E0DC7B"),
            (Call::Reset(Mode::Any), "0226C378"),
        ];
        for (call, frame) in calls {
            assert_eq!(sent(Reader::Ready.call(call)), plain(&hex(frame)), "{frame}");
        }
        for (slots, length, mask, afi, frame) in [
            (1, 0, "-", None, "260100F60A"),
            (16, 0, "-", None, "060100CD09"),
            (16, 0, "-", Some(0x10), "16011000A8BB"),
            (16, 4, "01", None, "06010401719B"),
            (16, 4, "F1", None, "06010401719B"),
            (16, 12, "CF04", None, "06010CCF04B142"),
            (16, 12, "CFF4", None, "06010CCF04B142"),
        ] {
            assert_eq!(sent(Reader::Ready.inventory(slots, length, &hex(mask), afi)), plain(&hex(frame)), "{frame}");
        }
    }

    /// What each call makes of an answer: one block, two, each with status and without, and a word.
    #[test]
    fn answers() {
        let data = |blocks, status| Reader::Data { blocks, status };
        let read = |text: &str| Ok(Said::Data(hex(text)));
        for (reader, bytes, said) in [
            (data(1, false), "0005", read("05")),
            (data(1, false), "0105", Err(refusal::FORBIDDEN)),
            (data(1, false), "01A0", Ok(Said::Error(0xA0))),
            (data(1, false), "00", Err(refusal::LENGTH)),
            (data(1, true), "0005", Err(refusal::FORBIDDEN)),
            (data(1, true), "000105", read("0105")),
            (data(2, false), "0005", Err(refusal::FORBIDDEN)),
            (data(2, false), "000506", read("0506")),
            (data(2, false), "00050607", Err(refusal::LENGTH)),
            (data(2, true), "000506", Err(refusal::LENGTH)),
            (data(2, true), "0000050106", read("00050106")),
            (data(2, true), "0100050106", Err(refusal::FORBIDDEN)),
            (Reader::Word, "00", Ok(Said::Good)),
            (Reader::Word, "01", Err(refusal::FORBIDDEN)),
            (Reader::Word, "0001", Err(refusal::FORBIDDEN)),
            (Reader::Word, "0112", Ok(Said::Error(0x12))),
            (Reader::Word, "000506", Err(refusal::LENGTH)),
        ] {
            let mut heard = reader.clone();
            assert_eq!(heard.hear(&with_crc(&hex(bytes))), said, "{reader:?} {bytes}");
            assert_eq!(heard, if said.is_ok() { Reader::Ready } else { Reader::Stopped });
        }
    }

    #[test]
    fn error_codes() {
        let codes: Vec<u8> = (0..=255).filter(|&code| is_error(code)).collect();
        assert_eq!(codes.len(), 3 + 6 + 64);
        assert!(!is_error(0x00) && !is_error(0x04) && !is_error(0x0E) && !is_error(0x15) && !is_error(0x9F) && !is_error(0xE0));
    }
}
