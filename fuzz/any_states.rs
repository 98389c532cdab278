//! States of any bytes at all: what holds of every state. The call gives a number that the header names, a refusal writes no row, one that names no
//! fault of what was heard (1, 6, 11) writes nothing, and nothing is written behind what is kept.
use crate::c::*;
use crate::random::Random;
use crate::rows::{any_row, bytes_of, likely_rows};
use crate::states::{KEPT, ROW, STATE};
use crate::tally;

/// Any bytes, or any small ones; in most of them the places named say what makes a call due.
fn any_bytes(random: &mut Random, count: usize, due: &[(usize, &[u8])]) -> Vec<u8> {
    let small = random.chance(50);
    let mut bytes: Vec<u8> = (0..count).map(|_| if small { random.below(12) as u8 } else { random.byte() }).collect();
    if random.chance(70) {
        for (place, values) in due {
            bytes[*place] = random.pick(values);
        }
    }
    bytes
}

fn hold_any(call: usize, got: i64, before: &[u8], state: &[u8], written: usize, out0: &[u8], out: &[u8]) {
    tally::note(got);
    assert!((-12..=out.len() as i64).contains(&got), "call {call} gave {got}");
    if got < 0 {
        assert_eq!(out, out0, "call {call}, {got}: a refused call wrote a row");
    } else {
        assert_eq!(out[got as usize..], out0[got as usize..], "call {call} wrote behind its row");
    }
    if [-1, -6, -11].contains(&got) {
        assert_eq!(state, before, "call {call}, {got}");
    }
    assert_eq!(state[written..], before[written..], "call {call} wrote behind the state");
}

/// A reader or a card.
pub fn any_state(random: &mut Random) {
    let call = random.below(12);
    let due: &[(usize, &[u8])] = match call {
        0 => &[(0, &[1, 2, 3, 4, 7, 8, 5, 5]), (21, &[1, 2])],
        1..=3 => &[(0, &[0])],
        4 => &[(0, &[5]), (20, &[0x20]), (21, &[0])],
        5 | 6 => &[(0, &[5]), (21, &[2]), (25, &[0])],
        8 | 9 => &[(0, &[7]), (24, &[1])],
        _ => &[],
    };
    let before = any_bytes(random, STATE, due);
    let out0 = bytes_of(random, &[ROW, ROW, ROW, ROW, ROW + 1, ROW - 1]);
    let (mut state, mut out) = (lent(&before), lent(&out0));
    let message = lent(&bytes_of(random, &[0, 4, 5, 7, 10, 300, 4096, 4097]));
    let buffer0 = bytes_of(random, &[0, 5, 200, 4096]);
    let mut buffer = lent(&buffer0);
    let rows = likely_rows(random);
    let row = lent(&any_row(random, &rows));
    let (s, n, o, k) = (state.as_mut_ptr(), STATE, out.as_mut_ptr(), out0.len());
    let (r, m, b) = ((row.as_ptr(), row.len()), (message.as_ptr(), message.len()), (buffer.as_mut_ptr(), buffer.len()));
    let value = random.pick(&[0, 1, 5, 8, 9, 59, 60, 255]);
    let got = unsafe {
        match call {
            0 => lac_reader_hear(s, n, r.0, r.1, m.0, m.1, b.0, b.1, o, k),
            1 => lac_reader_select(s, n, o, k),
            2 => lac_reader_wake(s, n, m.0, m.1, o, k),
            3 => lac_reader_sweep(s, n, o, k),
            4 => lac_reader_rats(s, n, value, o, k),
            5 => lac_reader_send(s, n, m.0, m.1, o, k),
            6 => lac_reader_deselect(s, n, o, k),
            7 => lac_card_take(s, n, r.0, r.1, m.0, m.1, b.0, b.1, o, k),
            8 => lac_card_reply(s, n, m.0, m.1, o, k),
            9 => lac_card_ask(s, n, value, o, k),
            10 => lac_card_power_on(s, n),
            _ => lac_card_power_off(s, n),
        }
    };
    hold_any(call, got, &before, &state, KEPT + 9, &out0, &out);
    let writes_nothing = [-1, -6, -11].contains(&got);
    // A card does not stop, and neither does a reader at a message that it does not send.
    if got < 0 && (call == 5 || call >= 7) {
        assert_eq!((&state[..], &buffer[..]), (&before[..], &buffer0[..]), "call {call}, {got}");
    }
    if call == 0 && writes_nothing {
        assert_eq!(buffer[..], buffer0[..], "{got} wrote a message");
    }
    if call == 0 && got < 0 && !writes_nothing {
        let (s, b, o) = (state.as_mut_ptr(), (buffer.as_mut_ptr(), buffer.len()), out.as_mut_ptr());
        assert_eq!(unsafe { lac_reader_hear(s, n, r.0, r.1, m.0, m.1, b.0, b.1, o, k) }, -11, "{got} stops a reader");
    }
}

/// A Type B reader or card, or a reader that remembers.
pub fn any_other_state(random: &mut Random) {
    let call = random.below(9);
    let (due, length, written): (&[(usize, &[u8])], usize, usize) = match call {
        0 => (&[(0, &[0])], 192, 192),
        1 => (&[(0, &[1, 2, 3, 4])], 192, 192),
        2..=4 => (&[(0, &[0])], STATE, KEPT + 9),
        5 => (&[(0, &[1, 2, 3])], STATE, KEPT + 9),
        _ => (&[(0, &[1, 2, 3, 5])], STATE, 15),
    };
    let before = any_bytes(random, length, due);
    let out0 = bytes_of(random, &[0, 80, 81, 87, 88, 88, 111, 112, 112, 112, 130]);
    let (mut state, mut out) = (lent(&before), lent(&out0));
    let rows = likely_rows(random);
    let row = lent(&any_row(random, &rows));
    let bytes = lent(&bytes_of(random, &[0, 4, 4, 12, 12, 13]));
    let (a, b) = (random.byte(), random.pick(&[1, 2, 4, 8, 16, 3]));
    let (s, n, o, k) = (state.as_mut_ptr(), length, out.as_mut_ptr(), out0.len());
    let (r, p) = ((row.as_ptr(), row.len()), (bytes.as_ptr(), bytes.len()));
    let got = unsafe {
        match call {
            0 => lac_memory_sweep(s, n, o, k),
            1 => lac_memory_hear(s, n, r.0, r.1, o, k),
            2 => lac_b_reader_request(s, n, a % 2, b, a, o, k),
            3 => lac_b_reader_attach(s, n, p.0, p.1, a % 10, o, k),
            4 => lac_b_reader_halt(s, n, p.0, p.1, o, k),
            5 => lac_b_reader_hear(s, n, r.0, r.1, o, k),
            6 => lac_b_card_take(s, n, b, r.0, r.1, o, k),
            7 => lac_b_card_power_on(s, n),
            _ => lac_b_card_power_off(s, n),
        }
    };
    hold_any(call, got, &before, &state, written, &out0, &out);
}
