//! The library for C as safe Rust: a reader, a card, frames, both sweeps and one card woken, each state in a value of its own; `type_b` has Type B. Nothing here can be called with memory
//! that is not lent, and every answer is one of the kinds named here. What the functions do is said in include/lacrivosum.h.
#![allow(dead_code)]

pub mod type_b;

pub const STATE_SIZE: usize = 64;
pub const ROW_SIZE: usize = 2304;
pub const MESSAGE_MAX: usize = 4096;
pub const MOST_CARDS: usize = 32;
pub const LOG_ROOM: usize = 40960;
pub const LIST_ROOM: usize = 352;

#[path = "../include/lacrivosum.rs"]
mod c;

/// A refusal's number, as the header names them.
#[derive(Clone, Copy, Debug, PartialEq, Eq)]
pub struct Refusal(pub u8);

impl std::fmt::Display for Refusal {
    fn fmt(&self, f: &mut std::fmt::Formatter) -> std::fmt::Result {
        #[rustfmt::skip]
        let words = ["", "room", "length", "parity", "CRC_A", "check byte", "argument", "silence", "collision", "forbidden", "too long", "not due", "repeats used up"];
        write!(f, "{} ({})", self.0, words.get(self.0 as usize).unwrap_or(&"?"))
    }
}

/// What else a call told.
#[derive(Clone, Copy, Debug, PartialEq, Eq)]
pub enum Event {
    None,
    Found,
    Selected,
    Swept,
    /// The card's size index.
    Opened(usize),
    /// So many bytes stand in the buffer.
    Message(usize),
    /// The reader granted the card's WTX.
    Granted,
    Deselected,
}

fn answer(n: i64) -> Result<usize, Refusal> {
    if n < 0 {
        Err(Refusal(-n as u8))
    } else {
        Ok(n as usize)
    }
}

/// A row of air bits: 0, 1, or 2 for a collided one.
pub type Row = Vec<u8>;

/// Runs a call that writes a row, and gives it.
fn row_of(call: impl FnOnce(&mut [u8; ROW_SIZE]) -> i64) -> Result<Row, Refusal> {
    let mut out = [0; ROW_SIZE];
    let bits = answer(call(&mut out))?;
    Ok(out[..bits].to_vec())
}

fn event_in(s: &[u8; STATE_SIZE]) -> Event {
    let (event, length) = unsafe { (c::lac_event(s.as_ptr(), s.len()), c::lac_length(s.as_ptr(), s.len()) as usize) };
    match event {
        1 => Event::Found,
        2 => Event::Selected,
        3 => Event::Swept,
        4 => Event::Opened(length),
        5 => Event::Message(length),
        6 => Event::Granted,
        7 => Event::Deselected,
        _ => Event::None,
    }
}

fn uid_in(s: &[u8; STATE_SIZE]) -> Vec<u8> {
    let mut out = [0; 10];
    let n = unsafe { c::lac_uid(s.as_ptr(), s.len(), out.as_mut_ptr(), out.len()) };
    out[..n as usize].to_vec()
}

/// The whole reader.
#[derive(Clone, PartialEq, Debug)]
pub struct Reader(pub [u8; STATE_SIZE]);

impl Default for Reader {
    fn default() -> Reader {
        Reader([0; STATE_SIZE])
    }
}

impl Reader {
    pub fn new() -> Reader {
        Reader::default()
    }
    pub fn select(&mut self) -> Result<Row, Refusal> {
        row_of(|out| unsafe { c::lac_reader_select(self.0.as_mut_ptr(), STATE_SIZE, out.as_mut_ptr(), out.len()) })
    }
    pub fn wake(&mut self, uid: &[u8]) -> Result<Row, Refusal> {
        row_of(|out| unsafe { c::lac_reader_wake(self.0.as_mut_ptr(), STATE_SIZE, uid.as_ptr(), uid.len(), out.as_mut_ptr(), out.len()) })
    }
    pub fn sweep(&mut self) -> Result<Row, Refusal> {
        row_of(|out| unsafe { c::lac_reader_sweep(self.0.as_mut_ptr(), STATE_SIZE, out.as_mut_ptr(), out.len()) })
    }
    pub fn rats(&mut self, index: u8) -> Result<Row, Refusal> {
        row_of(|out| unsafe { c::lac_reader_rats(self.0.as_mut_ptr(), STATE_SIZE, index, out.as_mut_ptr(), out.len()) })
    }
    pub fn send(&mut self, message: &[u8]) -> Result<Row, Refusal> {
        row_of(|out| unsafe { c::lac_reader_send(self.0.as_mut_ptr(), STATE_SIZE, message.as_ptr(), message.len(), out.as_mut_ptr(), out.len()) })
    }
    pub fn deselect(&mut self) -> Result<Row, Refusal> {
        row_of(|out| unsafe { c::lac_reader_deselect(self.0.as_mut_ptr(), STATE_SIZE, out.as_mut_ptr(), out.len()) })
    }
    /// Hears a row; the message being sent is lent again, and the answer is joined in the buffer.
    pub fn hear(&mut self, row: &[u8], message: &[u8], buffer: &mut [u8]) -> Result<Row, Refusal> {
        row_of(|out| unsafe {
            c::lac_reader_hear(self.0.as_mut_ptr(), STATE_SIZE, row.as_ptr(), row.len(), message.as_ptr(), message.len(), buffer.as_mut_ptr(), buffer.len(), out.as_mut_ptr(), out.len())
        })
    }
    pub fn event(&self) -> Event {
        event_in(&self.0)
    }
    /// What came with the last answer: the byte of refusal 3, or a sweep's bytes of log.
    pub fn length(&self) -> usize {
        unsafe { c::lac_length(self.0.as_ptr(), STATE_SIZE) as usize }
    }
    pub fn uid(&self) -> Vec<u8> {
        uid_in(&self.0)
    }
    pub fn sak(&self) -> u8 {
        unsafe { c::lac_reader_sak(self.0.as_ptr(), STATE_SIZE) }
    }
}

/// The whole card.
#[derive(Clone, PartialEq, Debug)]
pub struct Card(pub [u8; STATE_SIZE]);

impl Card {
    /// A card without power.
    pub fn new(uid: &[u8], blocks: bool, index: u8) -> Result<Card, Refusal> {
        let mut state = [0; STATE_SIZE];
        answer(unsafe { c::lac_card_new(state.as_mut_ptr(), STATE_SIZE, uid.as_ptr(), uid.len(), blocks as u8, index) })?;
        Ok(Card(state))
    }
    pub fn power_on(&mut self) {
        unsafe { c::lac_card_power_on(self.0.as_mut_ptr(), STATE_SIZE) };
    }
    pub fn power_off(&mut self) {
        unsafe { c::lac_card_power_off(self.0.as_mut_ptr(), STATE_SIZE) };
    }
    /// Takes a row; its host's answer is lent while it goes out, and the message is joined in the buffer. An empty row is silence.
    pub fn take(&mut self, row: &[u8], answer: &[u8], buffer: &mut [u8]) -> Result<Row, Refusal> {
        row_of(|out| unsafe {
            c::lac_card_take(self.0.as_mut_ptr(), STATE_SIZE, row.as_ptr(), row.len(), answer.as_ptr(), answer.len(), buffer.as_mut_ptr(), buffer.len(), out.as_mut_ptr(), out.len())
        })
    }
    pub fn reply(&mut self, answer: &[u8]) -> Result<Row, Refusal> {
        row_of(|out| unsafe { c::lac_card_reply(self.0.as_mut_ptr(), STATE_SIZE, answer.as_ptr(), answer.len(), out.as_mut_ptr(), out.len()) })
    }
    pub fn ask(&mut self, wtxm: u8) -> Result<Row, Refusal> {
        row_of(|out| unsafe { c::lac_card_ask(self.0.as_mut_ptr(), STATE_SIZE, wtxm, out.as_mut_ptr(), out.len()) })
    }
    pub fn owes(&self) -> bool {
        unsafe { c::lac_card_owes(self.0.as_ptr(), STATE_SIZE) == 1 }
    }
    pub fn state(&self) -> &'static str {
        let names = ["Off", "Idle", "Ready", "Active", "Halt", "Ready*", "Active*", "Protocol"];
        names[unsafe { c::lac_card_state(self.0.as_ptr(), STATE_SIZE) } as usize & 7]
    }
    pub fn event(&self) -> Event {
        event_in(&self.0)
    }
    pub fn uid(&self) -> Vec<u8> {
        uid_in(&self.0)
    }
}

/// What a sweep left: the UIDs in falling on-air order, the log's bytes, and the reader's frames.
pub struct Swept {
    pub uids: Vec<Vec<u8>>,
    pub log: Vec<u8>,
    pub frames: u64,
}

/// Makes a call on the states of a field of cards, one behind the other, and gives the cards what it left.
fn on_field(cards: &mut [Card], call: impl FnOnce(&mut [u8]) -> i64) -> Result<usize, Refusal> {
    let mut bytes: Vec<u8> = cards.iter().flat_map(|k| k.0).collect();
    let n = answer(call(&mut bytes))?;
    for (k, b) in cards.iter_mut().zip(bytes.chunks(STATE_SIZE)) {
        k.0.copy_from_slice(b);
    }
    Ok(n)
}

/// Sweeps a field of cards, changed in place; with a memory in fewer frames.
pub fn sweep(cards: &mut [Card], tick: u32, remember: bool) -> Result<Swept, Refusal> {
    let mut reader = Reader::new();
    let (count, mut log, mut list) = (cards.len(), vec![0; LOG_ROOM], vec![0; LIST_ROOM]);
    let call = if remember { c::lac_sweep_remember } else { c::lac_sweep };
    #[rustfmt::skip]
    let found = on_field(cards, |field| unsafe {
        call(reader.0.as_mut_ptr(), STATE_SIZE, field.as_mut_ptr(), field.len(), count, tick, log.as_mut_ptr(), log.len(), list.as_mut_ptr(), list.len())
    })?;
    log.truncate(reader.length());
    let uids = list.chunks(11).take(found).map(|e| e[1..1 + e[0] as usize].to_vec()).collect();
    let frames = unsafe { c::lac_frames(reader.0.as_ptr(), STATE_SIZE) };
    Ok(Swept { uids, log, frames })
}

/// Wakes the one card of a field that has this UID: the reader that has selected it, and the frames that it sent. No other card is disturbed.
pub fn wake(cards: &mut [Card], uid: &[u8]) -> Result<(Reader, usize), Refusal> {
    let (mut reader, count) = (Reader::new(), cards.len());
    let frames = on_field(cards, |field| unsafe { c::lac_wake(reader.0.as_mut_ptr(), STATE_SIZE, uid.as_ptr(), uid.len(), field.as_mut_ptr(), field.len(), count) })?;
    Ok((reader, frames))
}

/// Bytes as a standard frame, and with CRC_A behind them.
pub fn frame(bytes: &[u8]) -> Result<Row, Refusal> {
    row_of(|out| unsafe { c::lac_frame_write(bytes.as_ptr(), bytes.len(), out.as_mut_ptr(), out.len()) })
}

pub fn frame_crc(bytes: &[u8]) -> Result<Row, Refusal> {
    row_of(|out| unsafe { c::lac_frame_write_crc(bytes.as_ptr(), bytes.len(), out.as_mut_ptr(), out.len()) })
}

/// The bytes of a received row, with CRC_A tested and taken off.
pub fn read_crc(row: &[u8]) -> Result<Vec<u8>, Refusal> {
    let mut out = [0; 256];
    let n = answer(unsafe { c::lac_frame_read_crc(row.as_ptr(), row.len(), out.as_mut_ptr(), out.len()) })?;
    Ok(out[..n].to_vec())
}

pub fn crc_a(bytes: &[u8]) -> u16 {
    unsafe { c::lac_crc_a(bytes.as_ptr(), bytes.len()) }
}
