//! Type B: a reader, a card, and a request with all its slot markers over a field of cards.
use super::{answer, c, Refusal, Row, STATE_SIZE};

const FRAME_SIZE: usize = 88;
const ANSWER_SIZE: usize = 112;
const LIST_ROOM: usize = 208;

/// An ATQB without CRC_B.
pub type Atqb = [u8; 12];

/// What a slot held.
#[derive(Clone, Copy, Debug, PartialEq, Eq)]
pub enum Held {
    None,
    One(Atqb),
    More,
}

/// What else a reader's call told.
#[derive(Clone, Copy, Debug, PartialEq, Eq)]
pub enum EventB {
    None,
    /// A slot is over; the next one's marker goes out.
    Slot(Held),
    /// The request's last slot is over.
    Slots(Held),
    /// The card's MBLI.
    Attached(usize),
    Halted,
}

fn held(number: u8, atqb: Atqb) -> Held {
    match number {
        0 => Held::None,
        1 => Held::One(atqb),
        _ => Held::More,
    }
}

/// A reader; a new one is ready, and it is ready again after each request, ATTRIB and HLTB.
#[derive(Clone, PartialEq, Debug)]
pub struct ReaderB(pub [u8; STATE_SIZE]);

fn row_of<const N: usize>(call: impl FnOnce(&mut [u8; N]) -> i64) -> Result<Row, Refusal> {
    let mut out = [0; N];
    let bits = answer(call(&mut out))?;
    Ok(out[..bits].to_vec())
}

impl Default for ReaderB {
    fn default() -> ReaderB {
        ReaderB([0; STATE_SIZE])
    }
}

impl ReaderB {
    pub fn new() -> ReaderB {
        ReaderB::default()
    }
    /// REQB, or WUPB where `wake`, with n slots.
    pub fn request(&mut self, wake: bool, n: u8, afi: u8) -> Result<Row, Refusal> {
        row_of::<FRAME_SIZE>(|out| unsafe { c::lac_b_reader_request(self.0.as_mut_ptr(), STATE_SIZE, wake as u8, n, afi, out.as_mut_ptr(), out.len()) })
    }
    /// ATTRIB, with the reader's own size index.
    pub fn attach(&mut self, atqb: &Atqb, index: u8) -> Result<Row, Refusal> {
        row_of::<FRAME_SIZE>(|out| unsafe { c::lac_b_reader_attach(self.0.as_mut_ptr(), STATE_SIZE, atqb.as_ptr(), atqb.len(), index, out.as_mut_ptr(), out.len()) })
    }
    pub fn halt(&mut self, pupi: &[u8; 4]) -> Result<Row, Refusal> {
        row_of::<FRAME_SIZE>(|out| unsafe { c::lac_b_reader_halt(self.0.as_mut_ptr(), STATE_SIZE, pupi.as_ptr(), pupi.len(), out.as_mut_ptr(), out.len()) })
    }
    pub fn hear(&mut self, row: &[u8]) -> Result<Row, Refusal> {
        row_of::<FRAME_SIZE>(|out| unsafe { c::lac_b_reader_hear(self.0.as_mut_ptr(), STATE_SIZE, row.as_ptr(), row.len(), out.as_mut_ptr(), out.len()) })
    }
    fn held(&self) -> Held {
        let mut atqb = [0; 12];
        unsafe {
            c::lac_b_atqb(self.0.as_ptr(), STATE_SIZE, atqb.as_mut_ptr(), atqb.len());
            held(c::lac_b_held(self.0.as_ptr(), STATE_SIZE), atqb)
        }
    }
    pub fn event(&self) -> EventB {
        let (event, length) = unsafe { (c::lac_event(self.0.as_ptr(), STATE_SIZE), c::lac_length(self.0.as_ptr(), STATE_SIZE) as usize) };
        match event {
            8 => EventB::Slot(self.held()),
            9 => EventB::Slots(self.held()),
            10 => EventB::Attached(length),
            11 => EventB::Halted,
            _ => EventB::None,
        }
    }
    /// A whole request over a field: one card for each slot number, changed in place. What each slot held, in order.
    pub fn inquire(&mut self, wake: bool, n: u8, afi: u8, field: &mut [(CardB, u8)]) -> Result<Vec<Held>, Refusal> {
        let mut bytes: Vec<u8> = field.iter().flat_map(|(card, _)| card.0).collect();
        let numbers: Vec<u8> = field.iter().map(|(_, number)| *number).collect();
        let mut list = [0; LIST_ROOM];
        #[rustfmt::skip]
        let slots = answer(unsafe {
            c::lac_b_inquire(self.0.as_mut_ptr(), STATE_SIZE, wake as u8, n, afi, bytes.as_mut_ptr(), bytes.len(), numbers.as_ptr(), numbers.len(), list.as_mut_ptr(), list.len())
        })?;
        for ((card, _), state) in field.iter_mut().zip(bytes.chunks(STATE_SIZE)) {
            card.0.copy_from_slice(state);
        }
        Ok(list.chunks(13).take(slots).map(|e| held(e[0], e[1..].try_into().expect("13 bytes a slot"))).collect())
    }
}

/// A card.
#[derive(Clone, PartialEq, Debug)]
pub struct CardB(pub [u8; STATE_SIZE]);

impl CardB {
    /// A card without power; `markers`: it answers slot markers.
    pub fn new(pupi: &[u8; 4], afi: u8, markers: bool, application: &[u8; 4], protocol: &[u8; 3]) -> CardB {
        let mut state = [0; STATE_SIZE];
        unsafe { c::lac_b_card_new(state.as_mut_ptr(), STATE_SIZE, pupi.as_ptr(), 4, afi, markers as u8, application.as_ptr(), 4, protocol.as_ptr(), 3) };
        CardB(state)
    }
    pub fn power_on(&mut self) {
        unsafe { c::lac_b_card_power_on(self.0.as_mut_ptr(), STATE_SIZE) };
    }
    pub fn power_off(&mut self) {
        unsafe { c::lac_b_card_power_off(self.0.as_mut_ptr(), STATE_SIZE) };
    }
    /// Takes a row, with the slot number that its host drew. An empty row is silence.
    pub fn take(&mut self, number: u8, row: &[u8]) -> Result<Row, Refusal> {
        row_of::<ANSWER_SIZE>(|out| unsafe { c::lac_b_card_take(self.0.as_mut_ptr(), STATE_SIZE, number, row.as_ptr(), row.len(), out.as_mut_ptr(), out.len()) })
    }
    pub fn state(&self) -> &'static str {
        let names = ["Off", "Idle", "Requested", "Declared", "Active", "Halt"];
        names[unsafe { c::lac_b_card_state(self.0.as_ptr(), STATE_SIZE) } as usize % names.len()]
    }
}
