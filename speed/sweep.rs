// The sweep in plain Rust: the reader finds every idle card of a field and halts it. All cards hear each frame, and their answers are merged bit
// by bit. Log and list are written as the core does; so are the tests of the field and of each answer.
use crate::cards::{ends_right, parity_holds, whole, Card, State, ANSWER, HLTA, REQA, SEL};
use crate::frames::{byte, is_clean, put, write_crc, Refusal};

pub const MOST_CARDS: usize = 32;
pub const LOG_ROOM: usize = 40960;
pub const LIST_ROOM: usize = 11 * MOST_CARDS;
const COLLIDED: u8 = 2;
const CASCADE: u8 = 0x88;

pub struct Swept {
    pub found: usize,
    pub logged: usize,
    pub frames: usize,
}

struct Field<'a> {
    cards: &'a mut [Card],
    log: &'a mut [u8],
    logged: usize,
    tick: u32,
    frames: usize,
    heard: [u8; ANSWER],
}

impl Field<'_> {
    // Bits packed into bytes, the first in the top bit.
    fn pack(&mut self, row: &[u8], shown: fn(u8) -> u8) {
        for (to, bits) in self.log[self.logged..].iter_mut().zip(row.chunks(8)) {
            *to = bits.iter().enumerate().fold(0, |v, (i, &x)| v | shown(x) << (7 - i));
        }
        self.logged += row.len().div_ceil(8);
    }

    fn record(&mut self, kind: u8, row: &[u8]) {
        let head = &mut self.log[self.logged..self.logged + 6];
        head[..2].copy_from_slice(&((kind as u16) << 14 | row.len() as u16).to_be_bytes());
        head[2..].copy_from_slice(&self.tick.to_be_bytes());
        self.logged += 6;
        self.tick = self.tick.wrapping_add(1);
        self.pack(row, |x| if x < COLLIDED { x } else { 0 });
        if kind == 2 {
            self.pack(row, |x| (x >= COLLIDED) as u8);
        }
    }

    // Sends a frame to all cards: what is heard, merged; empty where none answers.
    fn send(&mut self, frame: &[u8]) -> ([u8; ANSWER], usize) {
        self.record(0, frame);
        self.frames += 1;
        let mut answer = [0; ANSWER];
        let mut bits = 0;
        for card in self.cards.iter_mut() {
            let n = card.take(frame, &mut answer);
            if bits == 0 {
                self.heard = answer;
                bits = n;
            } else {
                for (h, &a) in self.heard[..n].iter_mut().zip(&answer) {
                    *h = if *h == a { a } else { COLLIDED };
                }
            }
        }
        let heard = self.heard;
        let row = &heard[..bits];
        self.record(if bits == 0 { 3 } else if is_clean(row) { 1 } else { 2 }, row);
        (heard, bits)
    }

    // REQA. None: silence, and the sweep is over. In ATQA collided bits count as 1; one of b1 to b5 must be 1.
    fn request(&mut self) -> Result<bool, Refusal> {
        let (row, n) = self.send(&short(REQA));
        if n == 0 {
            return Ok(false);
        }
        if n != 18 {
            return Err(Refusal::Length);
        }
        if !row[..n].chunks(9).all(parity_holds) {
            return Err(Refusal::Parity);
        }
        if row[..5].iter().all(|&x| x == 0) {
            return Err(Refusal::Forbidden);
        }
        Ok(true)
    }

    // One level's five bytes: ANTICOLLISION with more and more bits, until no bit collides.
    fn level(&mut self, l: usize) -> Result<[u8; 5], Refusal> {
        let mut bits = [0; 40];
        let mut k = 0;
        loop {
            let mut frame = [0; 63];
            let n = anticollision(l, &bits[..k], &mut frame);
            let (row, heard) = self.send(&frame[..n]);
            if heard == 0 {
                return Err(Refusal::Silence);
            }
            if heard != 40 - k + 5 - k / 8 {
                return Err(Refusal::Length);
            }
            let first = spread(&row[..heard], k, &mut bits)?;
            match first {
                Some(p) if p >= 32 => return Err(Refusal::Collision),
                Some(p) => {
                    bits[p] = 1;
                    k = p + 1;
                }
                None => break,
            }
        }
        let mut five = [0; 5];
        five.iter_mut().zip(bits.chunks(8)).for_each(|(b, eight)| *b = byte(eight));
        if five[0] ^ five[1] ^ five[2] ^ five[3] != five[4] {
            return Err(Refusal::Check);
        }
        Ok(five)
    }

    // SELECT with all five bytes: the SAK.
    fn select(&mut self, l: usize, five: [u8; 5]) -> Result<u8, Refusal> {
        let mut frame = [0; 81];
        write_crc(&[SEL[l], 0x70, five[0], five[1], five[2], five[3], five[4]], &mut frame)?;
        let (row, n) = self.send(&frame);
        let bytes = match n {
            0 => return Err(Refusal::Silence),
            27 if !is_clean(&row[..n]) => return Err(Refusal::Collision),
            27 => whole::<3>(&row[..n]).ok_or(Refusal::Parity)?,
            _ => return Err(Refusal::Length),
        };
        if !ends_right(&bytes) {
            return Err(Refusal::Crc);
        }
        let more = bytes[0] & 0x04 != 0;
        if (more && l == 2) || more != (five[0] == CASCADE && l < 2) {
            return Err(Refusal::Forbidden);
        }
        Ok(bytes[0])
    }

    // One card's UID, level by level, its list entry; then HLTA, and silence.
    fn card(&mut self) -> Result<[u8; 11], Refusal> {
        let mut entry = [0; 11];
        for l in 0..3 {
            let five = self.level(l)?;
            let more = self.select(l, five)? & 0x04 != 0;
            let from = more as usize;
            let n = entry[0] as usize;
            entry[n + 1..n + 5 - from].copy_from_slice(&five[from..4]);
            entry[0] += 4 - from as u8;
            if !more {
                break;
            }
        }
        let mut frame = [0; 36];
        write_crc(&HLTA, &mut frame)?;
        match self.send(&frame).1 {
            0 => Ok(entry),
            _ => Err(Refusal::Forbidden),
        }
    }
}

fn short(b: u8) -> [u8; 7] {
    std::array::from_fn(|i| b >> i & 1)
}

// SEL, NVB and the bits of a level that are known: whole bytes with parity, a broken one without. The answer is how many bits that is.
fn anticollision(l: usize, known: &[u8], frame: &mut [u8; 63]) -> usize {
    let (n, broken) = (known.len() / 8, known.len() % 8);
    let mut bytes = [SEL[l], ((n + 2) << 4 | broken) as u8, 0, 0, 0, 0];
    bytes[2..].iter_mut().zip(known.chunks_exact(8)).for_each(|(b, eight)| *b = byte(eight));
    put(&bytes[..n + 2], frame);
    frame[9 * (n + 2)..][..broken].copy_from_slice(&known[8 * n..]);
    9 * (n + 2) + broken
}

// The data bits of an answer to k known bits, put behind them, and where the first collided one is. The broken byte's parity is passed over.
fn spread(row: &[u8], k: usize, bits: &mut [u8; 40]) -> Result<Option<usize>, Refusal> {
    let broken = k % 8;
    let (head, rest) = row.split_at(if broken == 0 { 0 } else { 9 - broken });
    let mut at = k;
    for air in [head].into_iter().filter(|h| !h.is_empty()).chain(rest.chunks(9)) {
        let n = air.len() - 1;
        bits[at..at + n].copy_from_slice(&air[..n]);
        at += n;
    }
    if !rest.chunks(9).all(parity_holds) {
        return Err(Refusal::Parity);
    }
    Ok(bits[k..].iter().position(|&x| x >= COLLIDED).map(|p| k + p))
}

fn is_field(cards: &[Card]) -> bool {
    cards.len() <= MOST_CARDS
        && cards.iter().all(|c| matches!(c.state, State::Idle | State::Halt))
        && (0..cards.len()).all(|i| cards[..i].iter().all(|c| (c.length, c.uid) != (cards[i].length, cards[i].uid)))
}

pub fn sweep(cards: &mut [Card], tick: u32, log: &mut [u8], list: &mut [u8]) -> Result<Swept, Refusal> {
    if log.len() < LOG_ROOM || list.len() < LIST_ROOM {
        return Err(Refusal::Room);
    }
    if !is_field(cards) {
        return Err(Refusal::Argument);
    }
    let mut field = Field { cards, log, logged: 0, tick, frames: 0, heard: [0; ANSWER] };
    let mut found = 0;
    while field.request()? {
        let entry = field.card()?;
        list[11 * found..11 * found + 11].copy_from_slice(&entry);
        found += 1;
    }
    Ok(Swept { found, logged: field.logged, frames: field.frames })
}
