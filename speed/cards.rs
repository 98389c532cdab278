// A card's states in plain Rust, from Idle to Halt: what it answers to each frame of a selection. Its levels are worked out once, at the start.
use crate::crc::crc_a;
use crate::frames::{is_clean, odd, put, take};

pub const REQA: u8 = 0x26;
pub const WUPA: u8 = 0x52;
pub const HLTA: [u8; 2] = [0x50, 0x00];
pub const SEL: [u8; 3] = [0x93, 0x95, 0x97];
pub const ANSWER: usize = 45;

#[derive(Clone, Copy, PartialEq)]
pub enum State {
    Idle,
    Ready(usize),
    Active,
    Halt,
}

#[derive(Clone, Copy)]
pub struct Card {
    pub uid: [u8; 10],
    pub length: usize,
    pub blocks: bool,
    pub state: State,
    levels: [[u8; 5]; 3],
    woken: bool,
}

fn level(a: u8, b: u8, c: u8, d: u8) -> [u8; 5] {
    [a, b, c, d, a ^ b ^ c ^ d]
}

impl Card {
    // None: no valid UID.
    pub fn new(bytes: &[u8], blocks: bool) -> Option<Card> {
        let mut u = [0; 10];
        u.get_mut(..bytes.len())?.copy_from_slice(bytes);
        let levels = match bytes.len() {
            4 if u[0] != 0x88 => [level(u[0], u[1], u[2], u[3]), [0; 5], [0; 5]],
            7 if u[3] != 0x88 => [level(0x88, u[0], u[1], u[2]), level(u[3], u[4], u[5], u[6]), [0; 5]],
            10 => [level(0x88, u[0], u[1], u[2]), level(0x88, u[3], u[4], u[5]), level(u[6], u[7], u[8], u[9])],
            _ => return None,
        };
        Some(Card { uid: u, length: bytes.len(), blocks, state: State::Idle, levels, woken: false })
    }

    fn depth(&self) -> usize {
        self.length / 3
    }

    // Where a card goes that hears what it does not await.
    fn rest(&mut self) -> usize {
        self.state = if self.woken { State::Halt } else { State::Idle };
        0
    }

    // The bits of its answer, at the front of out; 0: silence.
    pub fn take(&mut self, row: &[u8], out: &mut [u8; ANSWER]) -> usize {
        match self.state {
            State::Idle if is_short(row, REQA) || is_short(row, WUPA) => self.wake(false, out),
            State::Halt if is_short(row, WUPA) => self.wake(true, out),
            State::Idle | State::Halt => 0,
            State::Ready(l) if row.len() == 81 => self.select(l, row, out),
            State::Ready(l) => self.anticollision(l, row, out),
            State::Active if whole::<4>(row).is_some_and(|b| b[..2] == HLTA && ends_right(&b)) => {
                self.state = State::Halt;
                0
            }
            State::Active => self.rest(),
        }
    }

    fn wake(&mut self, woken: bool, out: &mut [u8; ANSWER]) -> usize {
        self.state = State::Ready(0);
        self.woken = woken;
        put(&[[0x04, 0x44, 0x84][self.depth() - 1], 0], out);
        18
    }

    fn select(&mut self, l: usize, row: &[u8], out: &mut [u8; ANSWER]) -> usize {
        match whole::<9>(row) {
            Some(b) if b[..2] == [SEL[l], 0x70] && b[2..7] == self.levels[l] && ends_right(&b) => {
                let last = l + 1 == self.depth();
                self.state = if last { State::Active } else { State::Ready(l + 1) };
                let sak = if !last { 0x04 } else if self.blocks { 0x20 } else { 0x00 };
                let crc = crc_a(&[sak]).to_le_bytes();
                put(&[sak, crc[0], crc[1]], out);
                27
            }
            _ => self.rest(),
        }
    }

    fn anticollision(&mut self, l: usize, row: &[u8], out: &mut [u8; ANSWER]) -> usize {
        let (n, broken) = (row.len() / 9, row.len() % 9);
        if !(2..7).contains(&n) || broken == 8 || !is_clean(row) {
            return self.rest();
        }
        let mut sent = [0; 6];
        let five = self.levels[l];
        let is_right = take(row, &mut sent[..n]).is_ok() && sent[0] == SEL[l] && sent[1] == (n << 4 | broken) as u8;
        let bits = &row[9 * n..];
        if !is_right || sent[2..n] != five[..n - 2] || bits.iter().enumerate().any(|(i, &x)| x != five[n - 2] >> i & 1) {
            return self.rest();
        }
        put(&five[n - 2..], out);
        let length = 9 * (7 - n) - broken;
        out.copy_within(broken..broken + length, 0);
        length
    }
}

pub fn is_short(row: &[u8], b: u8) -> bool {
    row.len() == 7 && row.iter().enumerate().all(|(i, &x)| x == b >> i & 1)
}

// The bytes of a row that is N bytes with right parity.
pub fn whole<const N: usize>(row: &[u8]) -> Option<[u8; N]> {
    let mut bytes = [0; N];
    (row.len() == 9 * N && is_clean(row) && take(row, &mut bytes).is_ok()).then_some(bytes)
}

// Are the last two bytes the CRC_A of those before?
pub fn ends_right(bytes: &[u8]) -> bool {
    let (data, crc) = bytes.split_at(bytes.len() - 2);
    crc == crc_a(data).to_le_bytes()
}

// The parity of a byte with no collided data bit is checked; a collided parity bit is wrong.
pub fn parity_holds(air: &[u8]) -> bool {
    !is_clean(&air[..8]) || air[8] == odd(crate::frames::byte(air))
}
