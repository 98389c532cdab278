//! What needs no state: frames written and read, and the CRCs.
use crate::c::*;
use crate::crc;
use crate::frames::{self, Row};
use crate::random::Random;
use crate::refusal;
use crate::rows::{any_row, bytes_of};
use crate::tally;
use crate::type_b;

pub fn frame_call(random: &mut Random) {
    written(random);
    read(random);
    short(random);
    let bytes = lent(&bytes_of(random, &[0, 1, 2, 3, 16, 100, 254, 300]));
    assert_eq!(unsafe { lac_crc_a(bytes.as_ptr(), bytes.len()) }.to_le_bytes(), crc::crc_a(&bytes));
    assert_eq!(unsafe { lac_crc_b(bytes.as_ptr(), bytes.len()) }.to_le_bytes(), type_b::crc_b(&bytes));
}

fn written(random: &mut Random) {
    let bytes = lent(&bytes_of(random, &[0, 1, 2, 3, 16, 100, 254, 255, 256, 257]));
    for with_crc in [false, true] {
        let row = if with_crc { frames::standard_with_crc(&bytes) } else { frames::standard(&bytes) };
        let out0 = bytes_of(random, &[2400, row.len(), row.len() + 1, row.len().saturating_sub(1), 9]);
        let mut out = lent(&out0);
        let call = if with_crc { lac_frame_write_crc } else { lac_frame_write };
        let got = unsafe { call(bytes.as_ptr(), bytes.len(), out.as_mut_ptr(), out.len()) };
        tally::note(got);
        if out0.len() < row.len() {
            assert_eq!((got, &out[..]), (-1, &out0[..]));
        } else {
            assert_eq!((got, &out[..row.len()], &out[row.len()..]), (row.len() as i64, &row[..], &out0[row.len()..]));
        }
    }
}

/// A frame, whole or damaged.
fn heard(random: &mut Random) -> Row {
    let bytes = bytes_of(random, &[1, 2, 3, 30, 254, 256, 257]);
    let mut row = if random.chance(50) { frames::standard_with_crc(&bytes) } else { frames::standard(&bytes) };
    for _ in 0..random.pick(&[0, 0, 0, 1, 1, 2, 3]) {
        let at = random.below(row.len());
        row[at] = random.pick(&[0, 1, 2, 7]);
    }
    if random.chance(10) {
        row.pop();
    }
    row
}

/// The first whole byte without a collided data bit whose parity is wrong; as many as there are where none is.
fn first_wrong(row: &[u8]) -> usize {
    let is_wrong = |nine: &[u8]| !frames::has_collision(&nine[..8]) && nine[8] != frames::parity(frames::byte_of(&nine[..8]));
    row.chunks_exact(9).position(is_wrong).unwrap_or(row.len() / 9)
}

fn read(random: &mut Random) {
    let row = lent(&heard(random));
    assert_eq!(unsafe { lac_frame_wrong(row.as_ptr(), row.len()) }, first_wrong(&row) as u64);
    let out0 = bytes_of(random, &[255, 256, 256, 256, 300]);
    for with_crc in [false, true] {
        let mut out = lent(&out0);
        let call = if with_crc { lac_frame_read_crc } else { lac_frame_read };
        let got = unsafe { call(row.as_ptr(), row.len(), out.as_mut_ptr(), out.len()) };
        tally::note(got);
        let read = if out0.len() < 256 {
            Err(refusal::ROOM)
        } else if with_crc {
            frames::read_standard_with_crc(&row, 256)
        } else {
            frames::read_standard(&row, 1, 256)
        };
        match read {
            Ok(bytes) => assert_eq!((got, &out[..bytes.len()], &out[bytes.len()..]), (bytes.len() as i64, &bytes[..], &out0[bytes.len()..])),
            Err(r) => {
                assert_eq!((got, &out[..]), (-(r.number as i64), &out0[..]));
                assert!(r.number != 3 || r.byte as usize == first_wrong(&row));
            }
        }
    }
}

fn short(random: &mut Random) {
    let byte = random.byte();
    let row = lent(&any_row(random, &[frames::short(byte)]));
    let got = unsafe { lac_frame_read_short(row.as_ptr(), row.len()) };
    tally::note(got);
    assert_eq!(got, frames::read_short(&row).map_or_else(|r| -(r.number as i64), |b| b as i64));
    let out0 = bytes_of(random, &[7, 7, 8, 6, 0]);
    let mut out = lent(&out0);
    let got = unsafe { lac_frame_write_short(byte, out.as_mut_ptr(), out.len()) };
    tally::note(got);
    if out0.len() < 7 {
        assert_eq!((got, &out[..]), (-1, &out0[..]));
    } else {
        assert_eq!((got, &out[..7], &out[7..]), (7, &frames::short(byte)[..], &out0[7..]));
    }
}
