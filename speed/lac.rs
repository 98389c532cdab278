// The core: the functions of include/lacrivosum.h that are measured, each lent slice a pointer and a length. A refusal is minus its number.
use std::slice;

#[path = "../include/lacrivosum.rs"]
mod c;
use c::*;

pub const STATE: usize = 64;
const ROW: usize = 2304;
const SELECTED: u8 = 2;
const OPENED: u8 = 4;
const MESSAGE: u8 = 5;

type OnBytes = unsafe extern "C" fn(*const u8, usize, *mut u8, usize) -> i64;

fn on(f: OnBytes, from: &[u8], to: &mut [u8]) -> i64 {
    unsafe { f(from.as_ptr(), from.len(), to.as_mut_ptr(), to.len()) }
}

pub fn crc_a(bytes: &[u8]) -> u16 {
    unsafe { lac_crc_a(bytes.as_ptr(), bytes.len()) }
}

pub fn crc_b(bytes: &[u8]) -> u16 {
    unsafe { lac_crc_b(bytes.as_ptr(), bytes.len()) }
}

pub fn write(bytes: &[u8], row: &mut [u8]) -> i64 {
    on(lac_frame_write, bytes, row)
}

pub fn write_crc(bytes: &[u8], row: &mut [u8]) -> i64 {
    on(lac_frame_write_crc, bytes, row)
}

pub fn read(row: &[u8], bytes: &mut [u8]) -> i64 {
    on(lac_frame_read, row, bytes)
}

pub fn read_crc(row: &[u8], bytes: &mut [u8]) -> i64 {
    on(lac_frame_read_crc, row, bytes)
}

// A card with power.
pub fn card(uid: &[u8], blocks: bool, index: u8) -> [u8; STATE] {
    let mut s = [0; STATE];
    let made = unsafe { lac_card_new(s.as_mut_ptr(), STATE, uid.as_ptr(), uid.len(), blocks as u8, index) };
    assert!(made >= 0 && unsafe { lac_card_power_on(s.as_mut_ptr(), STATE) } >= 0, "card {uid:02X?}");
    s
}

// A new reader over these cards: how many it found.
pub fn sweep(cards: &mut [[u8; STATE]], tick: u32, log: &mut [u8], list: &mut [u8]) -> (i64, usize) {
    let mut s = [0; STATE];
    let row = cards.as_flattened_mut();
    let count = row.len() / STATE;
    unsafe {
        let found = lac_sweep(s.as_mut_ptr(), STATE, row.as_mut_ptr(), row.len(), count, tick, log.as_mut_ptr(), log.len(), list.as_mut_ptr(), list.len());
        (found, lac_length(s.as_ptr(), STATE) as usize)
    }
}

// A reader and a card that have opened a link, with the rows between them.
pub struct Link {
    reader: [u8; STATE],
    card: [u8; STATE],
    down: [u8; ROW],
    up: [u8; ROW],
}

impl Link {
    pub fn open(uid: &[u8], index: u8) -> Link {
        let mut x = Link { reader: [0; STATE], card: card(uid, true, index), down: [0; ROW], up: [0; ROW] };
        let n = unsafe { lac_reader_select(x.reader.as_mut_ptr(), STATE, x.down.as_mut_ptr(), ROW) };
        x.run(n, &[], &[], &mut [0], &mut [0], SELECTED, &mut |_| ());
        let n = unsafe { lac_reader_rats(x.reader.as_mut_ptr(), STATE, index, x.down.as_mut_ptr(), ROW) };
        x.run(n, &[], &[], &mut [0], &mut [0], OPENED, &mut |_| ());
        x
    }

    // From a frame of the reader on, until the reader tells this event.
    #[allow(clippy::too_many_arguments)]
    fn run(&mut self, first: i64, message: &[u8], answer: &[u8], at_card: &mut [u8], at_reader: &mut [u8], event: u8, seen: &mut impl FnMut(&[u8])) -> usize {
        let (reader, card, down, up) = (self.reader.as_mut_ptr(), self.card.as_mut_ptr(), self.down.as_mut_ptr(), self.up.as_mut_ptr());
        let (m, a) = ((message.as_ptr(), message.len()), (answer.as_ptr(), answer.len()));
        let mut taken = 0;
        let mut bits = first;
        unsafe {
            loop {
                assert!(bits >= 0, "the reader refuses: {bits}");
                seen(slice::from_raw_parts(down, bits as usize));
                bits = lac_card_take(card, STATE, down, bits as usize, a.0, a.1, at_card.as_mut_ptr(), at_card.len(), up, ROW);
                if lac_event(card, STATE) == MESSAGE {
                    taken = lac_length(card, STATE) as usize;
                    bits = lac_card_reply(card, STATE, a.0, a.1, up, ROW);
                }
                assert!(bits >= 0, "the card refuses: {bits}");
                seen(slice::from_raw_parts(up, bits as usize));
                bits = lac_reader_hear(reader, STATE, up, bits as usize, m.0, m.1, at_reader.as_mut_ptr(), at_reader.len(), down, ROW);
                if lac_event(reader, STATE) == event {
                    return taken;
                }
            }
        }
    }

    // A message to the card and its answer to the reader: how many bytes came to each.
    pub fn exchange(&mut self, message: &[u8], answer: &[u8], at_card: &mut [u8], at_reader: &mut [u8], seen: &mut impl FnMut(&[u8])) -> (usize, usize) {
        let first = unsafe { lac_reader_send(self.reader.as_mut_ptr(), STATE, message.as_ptr(), message.len(), self.down.as_mut_ptr(), ROW) };
        let taken = self.run(first, message, answer, at_card, at_reader, MESSAGE, seen);
        (taken, unsafe { lac_length(self.reader.as_ptr(), STATE) } as usize)
    }
}
