// Frames in plain Rust: standard frames, with parity and CRC_A, written into rows and read back. A row has one byte for each air bit. The tests
// and their order are document 01's, and a refusal writes nothing. A row's bytes and their parity are taken in one walk, as the core does.
use crate::crc::crc_a;

#[derive(Clone, Copy, Debug, PartialEq)]
pub enum Refusal {
    Room,
    Length,
    Parity,
    Crc,
    Check,
    Argument,
    Silence,
    Collision,
    Forbidden,
}

pub const MOST: usize = 256;
pub const ROW: usize = 9 * MOST;

// The bit that makes the number of ones odd.
pub fn odd(b: u8) -> u8 {
    1 - (b.count_ones() % 2) as u8
}

// Bytes with parity; the row has room for them.
pub fn put(bytes: &[u8], row: &mut [u8]) {
    for (air, &b) in row.chunks_exact_mut(9).zip(bytes) {
        for (i, bit) in air[..8].iter_mut().enumerate() {
            *bit = b >> i & 1;
        }
        air[8] = odd(b);
    }
}

pub fn write(bytes: &[u8], row: &mut [u8]) -> Result<usize, Refusal> {
    let n = 9 * bytes.len();
    if row.len() < n {
        return Err(Refusal::Room);
    }
    put(bytes, row);
    Ok(n)
}

pub fn write_crc(bytes: &[u8], row: &mut [u8]) -> Result<usize, Refusal> {
    let m = 9 * bytes.len();
    if row.len() < m + 18 {
        return Err(Refusal::Room);
    }
    put(bytes, row);
    put(&crc_a(bytes).to_le_bytes(), &mut row[m..]);
    Ok(m + 18)
}

pub fn is_clean(row: &[u8]) -> bool {
    row.iter().fold(0, |all, &x| all | x) < 2
}

// The byte of eight bits, the lowest first.
pub fn byte(bits: &[u8]) -> u8 {
    bits[..8].iter().rev().fold(0, |v, &x| 2 * v + x)
}

// Whole bytes with parity, none of their bits collided, into bytes that are as many.
pub fn take(row: &[u8], bytes: &mut [u8]) -> Result<(), Refusal> {
    for (b, air) in bytes.iter_mut().zip(row.chunks_exact(9)) {
        *b = byte(air);
        if air[8] != odd(*b) {
            return Err(Refusal::Parity);
        }
    }
    Ok(())
}

// A frame of least to most bytes, tested 2, 8, 3, into an array of our own.
fn hold(row: &[u8], least: usize, most: usize, held: &mut [u8; MOST]) -> Result<usize, Refusal> {
    let n = row.len() / 9;
    if row.len() % 9 != 0 || n < least || n > most {
        return Err(Refusal::Length);
    }
    if !is_clean(row) {
        return Err(Refusal::Collision);
    }
    take(row, &mut held[..n])?;
    Ok(n)
}

pub fn read(row: &[u8], out: &mut [u8]) -> Result<usize, Refusal> {
    if out.len() < MOST {
        return Err(Refusal::Room);
    }
    let mut held = [0; MOST];
    let n = hold(row, 1, MOST, &mut held)?;
    out[..n].copy_from_slice(&held[..n]);
    Ok(n)
}

// .. that ends with its CRC_A, which is not handed on.
pub fn read_crc(row: &[u8], out: &mut [u8]) -> Result<usize, Refusal> {
    if out.len() < MOST {
        return Err(Refusal::Room);
    }
    let mut held = [0; MOST];
    let m = hold(row, 3, MOST, &mut held)? - 2;
    if held[m..m + 2] != crc_a(&held[..m]).to_le_bytes() {
        return Err(Refusal::Crc);
    }
    out[..m].copy_from_slice(&held[..m]);
    Ok(m)
}
