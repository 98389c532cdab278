//! What a state of any bytes, long enough or not, tells without a call: bytes past its end count as 0.
use crate::c::*;
use crate::random::Random;
use crate::rows::bytes_of;
use crate::states::{put, KEPT, STATE};
use crate::tally;

/// Eight bytes from a place on, the low one first.
fn number_at(state: &[u8; 2 * STATE], at: usize) -> u64 {
    u64::from_le_bytes(state[at..at + 8].try_into().expect("eight bytes"))
}

pub fn told_call(random: &mut Random) {
    let length = if random.chance(50) { STATE } else { random.below(80) };
    let bytes: Vec<u8> = (0..length).map(|_| if random.chance(50) { random.byte() } else { random.below(9) as u8 }).collect();
    let state = lent(&bytes);
    let mut whole = [0; 2 * STATE];
    put(&mut whole, 0, &bytes);
    let (s, n) = (state.as_ptr(), state.len());
    unsafe {
        assert_eq!(lac_event(s, n), whole[KEPT]);
        assert_eq!(lac_length(s, n), number_at(&whole, KEPT + 1));
        assert_eq!(lac_frames(s, n), number_at(&whole, KEPT + 9));
        assert_eq!(lac_reader_sak(s, n), whole[20]);
        assert_eq!(lac_card_state(s, n), whole[0].min(7));
        assert_eq!(lac_card_owes(s, n), (whole[0] >= 7 && whole[24] == 1) as u8);
        assert_eq!(lac_b_held(s, n), whole[3]);
        assert_eq!(lac_b_card_state(s, n), whole[0].min(5));
    }
    let out0 = bytes_of(random, &[0, 9, 10, 11, 12, 13, 20]);
    let mut out = lent(&out0);
    let got = unsafe { lac_uid(s, n, out.as_mut_ptr(), out.len()) };
    let size = [4, 7, 10][whole[9].min(2) as usize];
    hold_bytes(got, &out, &out0, n >= STATE && out0.len() >= 10, &whole[10..10 + size]);
    let mut out = lent(&out0);
    let got = unsafe { lac_b_atqb(s, n, out.as_mut_ptr(), out.len()) };
    hold_bytes(got, &out, &out0, n >= STATE && out0.len() >= 12, &whole[4..16]);
    assert_eq!(state[..], bytes[..]);
}

/// These bytes at the front; or 1, where something is too short, and nothing is written.
fn hold_bytes(got: i64, out: &[u8], out0: &[u8], has_room: bool, bytes: &[u8]) {
    tally::note(got);
    if has_room {
        assert_eq!((got, &out[..bytes.len()], &out[bytes.len()..]), (bytes.len() as i64, bytes, &out0[bytes.len()..]));
    } else {
        assert_eq!((got, out), (-1, out0));
    }
}
