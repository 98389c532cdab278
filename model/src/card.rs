//! Document 01, "The card": one card's states.

use crate::card_link::Link;
use crate::coverage::note;
use crate::frames::{self, Row, REQA, WUPA};
use crate::refusal::{self, Refusal};
use crate::uid;

#[derive(Clone, Debug, PartialEq)]
pub enum State {
    Off,
    Idle,
    /// Ready at a level, 1 to 3.
    Ready(usize),
    Active,
    Halt,
    /// Ready* and Active*, T-03: of a card that WUPA woke from Halt.
    ReadyStar(usize),
    ActiveStar,
    Protocol(Link),
}

#[derive(Clone, Debug, PartialEq)]
pub struct Card {
    pub uid: Vec<u8>,
    /// Its last SAK is 20 (it speaks blocks), else 00.
    pub blocks: bool,
    /// Its own size index.
    pub index: u8,
    pub state: State,
}

/// What a call to the card gives.
#[derive(Clone, Debug, PartialEq)]
pub enum Outcome {
    Silent,
    Answer(Row),
    /// A whole message has come; the host owes its answer.
    Delivered(Vec<u8>),
    /// The WTX was granted; the host still owes its answer.
    Again,
    /// Silent, and the host is told 10.
    Told10,
    Refused(Refusal),
}

/// A frame as the card hears it outside Protocol.
#[derive(Clone, Debug, PartialEq)]
enum Heard {
    Reqa,
    Wupa,
    Anticollision {
        level: usize,
        bits: Row,
    },
    Select {
        level: usize,
        bytes: Vec<u8>,
    },
    Hlta,
    Rats {
        fsdi: u8,
    },
    /// Damaged, or none of these.
    Else,
}

impl Heard {
    fn name(&self) -> &'static str {
        match self {
            Heard::Reqa => "REQA",
            Heard::Wupa => "WUPA",
            Heard::Anticollision { .. } => "ANTICOLLISION",
            Heard::Select { .. } => "SELECT",
            Heard::Hlta => "HLTA",
            Heard::Rats { .. } => "RATS",
            Heard::Else => "else",
        }
    }
}

/// The level that SEL names.
fn level_of(sel: u8) -> Option<usize> {
    match sel {
        0x93 => Some(1),
        0x95 => Some(2),
        0x97 => Some(3),
        _ => None,
    }
}

/// A frame of wrong length, parity, CRC_A or NVB, or with a collided bit, is damaged and counts as "else".
fn understand(row: &[u8]) -> Heard {
    if let Ok(value) = frames::read_short(row) {
        return match value {
            REQA => Heard::Reqa,
            WUPA => Heard::Wupa,
            _ => Heard::Else,
        };
    }
    if let Ok(bytes) = frames::read_standard_with_crc(row, frames::MOST_BYTES) {
        match bytes[..] {
            [0x50, 0x00] => return Heard::Hlta,
            // FSDI in the high half; a CID other than 0 is no RATS.
            [0xE0, parameter] if parameter & 0x0F == 0 => return Heard::Rats { fsdi: parameter >> 4 },
            [sel, 0x70, _, _, _, _, _] => {
                if let Some(level) = level_of(sel) {
                    return Heard::Select { level, bytes: bytes[2..].to_vec() };
                }
            }
            _ => {}
        }
    }
    understand_anticollision(row).unwrap_or(Heard::Else)
}

/// SEL, NVB, then as many bits as NVB says: whole bytes with parity, a broken byte without.
fn understand_anticollision(row: &[u8]) -> Option<Heard> {
    if frames::has_collision(row) || row.len() < 18 {
        return None;
    }
    let head = frames::read_standard(&row[..18], 2, 2).ok()?;
    let level = level_of(head[0])?;
    let (whole, left_over) = ((head[1] >> 4) as usize, (head[1] & 0x0F) as usize);
    // Two whole bytes are SEL and NVB themselves; seven would be a whole level, which is no ANTICOLLISION.
    if !(2..=6).contains(&whole) || left_over > 7 {
        return None;
    }
    let whole = whole - 2;
    let body = &row[18..];
    if body.len() != 9 * whole + left_over {
        return None;
    }
    let bytes = frames::read_standard(&body[..9 * whole], 0, 4).ok()?;
    let mut bits = frames::bits_of(&bytes);
    bits.extend_from_slice(&body[9 * whole..]);
    Some(Heard::Anticollision { level, bits })
}

impl Card {
    /// A new card is Off. 6: invalid UID, or index over 8.
    pub fn new(uid: &[u8], blocks: bool, index: u8) -> Result<Card, Refusal> {
        if !uid::valid(uid) || index > 8 {
            return Err(refusal::ARGUMENT);
        }
        Ok(Card { uid: uid.to_vec(), blocks, index, state: State::Off })
    }

    /// Power brings Idle from Off, and changes nothing elsewhere.
    pub fn power_on(&mut self) {
        note("card due", self.state_name(), "power on");
        if self.state == State::Off {
            self.state = State::Idle;
        }
    }

    /// Loss of power brings Off from anywhere.
    pub fn power_off(&mut self) {
        note("card due", self.state_name(), "power off");
        self.state = State::Off;
    }

    /// The last SAK: 20 if it speaks blocks, else 00.
    pub fn last_sak(&self) -> u8 {
        if self.blocks {
            0x20
        } else {
            0x00
        }
    }

    fn atqa(&self) -> Row {
        frames::standard(&match self.uid.len() {
            4 => [0x04, 0x00],
            7 => [0x44, 0x00],
            _ => [0x84, 0x00],
        })
    }

    /// The card takes a row. Its host's latest message and a message buffer are lent at each call.
    pub fn take(&mut self, row: &[u8], message: &[u8], buffer: &mut [u8]) -> Outcome {
        note("card due", self.state_name(), "frame");
        if let State::Protocol(link) = &mut self.state {
            let outcome = link.take(row, message, buffer, frames::size_of_index(self.index));
            if link.deselected {
                self.state = State::Halt;
            }
            return outcome;
        }
        if self.state == State::Off {
            return Outcome::Silent;
        }
        let heard = understand(row);
        note("card state", self.state_name(), heard.name());
        let (answer, state) = self.selection(heard);
        self.state = state;
        match answer {
            Some(row) => Outcome::Answer(row),
            None => Outcome::Silent,
        }
    }

    /// The states without Protocol: the answer, if any, and the state after it.
    fn selection(&self, heard: Heard) -> (Option<Row>, State) {
        // T-03: a woken card goes back to Halt where another falls to Idle. Else the rules are the same.
        let woken = matches!(self.state, State::ReadyStar(_) | State::ActiveStar);
        let home = if woken { State::Halt } else { State::Idle };
        let ready = |level| if woken { State::ReadyStar(level) } else { State::Ready(level) };
        match (&self.state, heard) {
            (State::Idle, Heard::Reqa | Heard::Wupa) => (Some(self.atqa()), State::Ready(1)),
            (State::Idle, _) => (None, State::Idle),

            (State::Ready(at) | State::ReadyStar(at), Heard::Anticollision { level, bits }) if *at == level => {
                let own = uid::levels(&self.uid)[level - 1];
                if frames::bits_of(&own).starts_with(&bits) {
                    (Some(frames::rest_of_level(&own, bits.len())), ready(level))
                } else {
                    (None, home)
                }
            }
            (State::Ready(at) | State::ReadyStar(at), Heard::Select { level, bytes }) if *at == level => {
                if uid::levels(&self.uid)[level - 1][..] != bytes[..] {
                    (None, home)
                } else if level < uid::level_count(&self.uid) {
                    (Some(frames::standard_with_crc(&[0x04])), ready(level + 1))
                } else {
                    let active = if woken { State::ActiveStar } else { State::Active };
                    (Some(frames::standard_with_crc(&[self.last_sak()])), active)
                }
            }
            (State::Ready(_) | State::ReadyStar(_), _) => (None, home),

            (State::Active | State::ActiveStar, Heard::Hlta) => (None, State::Halt),
            (State::Active | State::ActiveStar, Heard::Rats { fsdi }) if self.blocks => {
                let link = Link::new(frames::size_of_index(fsdi));
                // ATS: 02, then FSCI, CRC_A.
                (Some(frames::standard_with_crc(&[0x02, self.index])), State::Protocol(link))
            }
            (State::Active | State::ActiveStar, _) => (None, home),

            (State::Halt, Heard::Wupa) => (Some(self.atqa()), State::ReadyStar(1)),
            (State::Halt, _) => (None, State::Halt),

            (State::Off | State::Protocol(_), _) => unreachable!("taken care of before"),
        }
    }

    /// The host's answer.
    pub fn reply(&mut self, message: &[u8]) -> Outcome {
        note("card due", self.state_name(), "answer");
        match &mut self.state {
            State::Protocol(link) => link.reply(message),
            _ => Outcome::Refused(refusal::NOT_DUE),
        }
    }

    /// The host asks for more time.
    pub fn wtx(&mut self, value: u8) -> Outcome {
        note("card due", self.state_name(), "WTX");
        match &mut self.state {
            State::Protocol(link) => link.ask_wtx(value),
            _ => Outcome::Refused(refusal::NOT_DUE),
        }
    }

    /// The state as it stands in the table of what is due.
    pub fn state_name(&self) -> &'static str {
        match &self.state {
            State::Off => "Off",
            State::Idle => "Idle",
            State::Ready(_) => "Ready",
            State::Active => "Active",
            State::Halt => "Halt",
            State::ReadyStar(_) => "Ready*",
            State::ActiveStar => "Active*",
            State::Protocol(link) => link.mode_name(),
        }
    }
}

/// The bytes of SELECT at a level, without CRC_A.
pub fn select_bytes(uid: &[u8], level: usize) -> Vec<u8> {
    let mut bytes = vec![frames::sel(level), 0x70];
    bytes.extend_from_slice(&uid::levels(uid)[level - 1]);
    bytes
}

#[cfg(test)]
mod tests {
    use super::*;
    use crate::known::{packed, Expect, TRACES};
    use crate::language::hex;

    fn take(card: &mut Card, row: &[u8]) -> Outcome {
        card.take(row, &[], &mut [])
    }

    /// The rows that bring an idle card with this UID to Ready at a level.
    fn rows_to_ready(uid: &[u8], level: usize) -> Vec<Row> {
        let mut rows = vec![frames::short(REQA)];
        for before in 1..level {
            rows.push(frames::select(before, &uid::levels(uid)[before - 1]));
        }
        rows
    }

    fn ready(uid: &[u8], level: usize, blocks: bool) -> Card {
        let mut card = Card::new(uid, blocks, 8).unwrap();
        card.power_on();
        for row in rows_to_ready(uid, level) {
            assert!(matches!(take(&mut card, &row), Outcome::Answer(_)));
        }
        assert_eq!(card.state, State::Ready(level));
        card
    }

    /// Source document 004's traces, each row on a card freshly put into Ready at that level.
    #[test]
    fn traces() {
        for trace in TRACES {
            let uid = hex(trace.uid);
            for step in trace.steps {
                let mut card = ready(&uid, step.level, false);
                let heard = take(&mut card, &packed(step.frame));
                match step.expect {
                    Expect::Answer(row) => {
                        assert_eq!(heard, Outcome::Answer(packed(row)), "{}", step.frame);
                    }
                    Expect::Mismatch => {
                        assert_eq!(heard, Outcome::Silent, "{}", step.frame);
                        assert_eq!(card.state, State::Idle);
                    }
                }
            }
        }
    }

    #[test]
    fn whole_life() {
        let uid = hex("80122821");
        let mut card = ready(&uid, 1, false);
        assert_eq!(take(&mut card, &frames::select(1, &uid::levels(&uid)[0])), Outcome::Answer(packed("27:00 BF A2 80")));
        assert_eq!(card.state, State::Active);
        assert_eq!(take(&mut card, &packed("36:0A 80 7A 96 60")), Outcome::Silent);
        assert_eq!(card.state, State::Halt);
        assert_eq!(take(&mut card, &frames::short(REQA)), Outcome::Silent);
        assert_eq!(card.state, State::Halt);
        assert_eq!(take(&mut card, &frames::short(WUPA)), Outcome::Answer(packed("18:20 00 40")));
        assert_eq!(card.state, State::ReadyStar(1));
        // Ready* and WUPA: silent, Halt.
        assert_eq!(take(&mut card, &frames::short(WUPA)), Outcome::Silent);
        assert_eq!(card.state, State::Halt);
    }

    /// FACTS, section 6: a woken card, level by level, and where "else" leads.
    #[test]
    fn second_states() {
        let uid = hex("80122821441020");
        let halted = Card { state: State::Halt, ..Card::new(&uid, true, 8).unwrap() };
        let woken = |selects: usize| {
            let mut card = halted.clone();
            take(&mut card, &frames::short(WUPA));
            for level in 1..=selects {
                assert!(matches!(take(&mut card, &frames::select(level, &uid::levels(&uid)[level - 1])), Outcome::Answer(_)));
            }
            card
        };
        assert_eq!(woken(0).state, State::ReadyStar(1));
        assert_eq!(woken(1).state, State::ReadyStar(2));
        assert_eq!(woken(2).state, State::ActiveStar);
        for selects in 0..=2 {
            let mut card = woken(selects);
            assert_eq!(take(&mut card, &frames::short(REQA)), Outcome::Silent);
            assert_eq!(card, halted);
        }
        let mut card = woken(2);
        assert_eq!(take(&mut card, &frames::hlta()), Outcome::Silent);
        assert_eq!(card, halted);
        let mut card = woken(2);
        assert!(matches!(take(&mut card, &frames::rats(8)), Outcome::Answer(_)));
        assert!(matches!(card.state, State::Protocol(_)));
    }

    /// "Slips that have cost us", and the NVB values of "Numbers to check by" that get silence.
    #[test]
    fn slips() {
        let uid = hex("80122821");
        let silent_idle = |row: Row| {
            let mut card = ready(&uid, 1, true);
            assert_eq!(take(&mut card, &row), Outcome::Silent);
            assert_eq!(card.state, State::Idle);
        };
        silent_idle(frames::standard(&select_bytes(&uid, 1)));
        silent_idle(frames::standard(&hex("9319")));
        silent_idle([frames::standard(&hex("936880122821")), vec![1; 8]].concat());
        silent_idle([frames::standard(&hex("9371801228219B")), vec![1]].concat());
        silent_idle(frames::standard(&hex("9370801228219B")));
        silent_idle(frames::short(REQA));
        let mut card = Card::new(&uid, true, 8).unwrap();
        card.power_on();
        let eight_bits = frames::bits_of(&[0x52]);
        assert_eq!(take(&mut card, &eight_bits), Outcome::Silent);
        assert_eq!(card.state, State::Idle);
    }

    #[test]
    fn rats() {
        let uid = hex("01020304");
        let active = |blocks: bool| {
            let mut card = ready(&uid, 1, blocks);
            take(&mut card, &frames::select(1, &uid::levels(&uid)[0]));
            assert_eq!(card.state, State::Active);
            card
        };
        let ats = frames::standard(&hex("020858A1"));
        let mut card = active(true);
        assert_eq!(take(&mut card, &frames::standard(&hex("E0803173"))), Outcome::Answer(ats.clone()));
        let mut card = active(true);
        assert_eq!(take(&mut card, &frames::standard_with_crc(&hex("E0F0"))), Outcome::Answer(ats));
        let mut card = active(true);
        assert_eq!(take(&mut card, &frames::standard_with_crc(&hex("E081"))), Outcome::Silent);
        assert_eq!(card.state, State::Idle);
        let mut card = active(false);
        assert_eq!(take(&mut card, &frames::rats(8)), Outcome::Silent);
        assert_eq!(card.state, State::Idle);
    }
}
