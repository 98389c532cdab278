//! A Type B card, a few calls on from a drawn state; and one newly made.
use crate::b_states::{b_card_bytes, b_card_left, b_state_number, plain_b_card, random_b_card, B_CARD};
use crate::c::*;
use crate::frames::Row;
use crate::random::Random;
use crate::refusal::{self, Refusal};
use crate::rows::bytes_of;
use crate::states::STATE;
use crate::tally;
use crate::type_b::{self, Card, State};

/// A frame of any kind that a reader sends, whole or damaged, or another one.
pub fn b_frame(random: &mut Random, card: &Card) -> Row {
    let pupi = if random.chance(75) { card.pupi.to_vec() } else { random.bytes(4) };
    let slot = if let State::Requested(slot) = card.state { slot } else { 2 };
    let any = random.byte();
    let bytes = match random.below(12) {
        0..=3 => vec![5, random.pick(&[0, 0, card.afi, 0x10, 0x11, 0x01]), random.pick(&[0, 1, 2, 3, 4, 8, 9, 10, 11, 12])],
        4 => random.pick(&[vec![5, 0, any], vec![5, 0], vec![4, 0, 0], vec![5, 0, 0, 0]]),
        5 => type_b::marker(slot),
        6 => vec![random.pick(&[any << 4 | 5, any, 5])],
        7 | 8 => [&[0x1D][..], &pupi, &[0, any, 1, 0]].concat(),
        9 | 10 => [&[0x50][..], &pupi].concat(),
        _ => bytes_of(random, &[0, 1, 2, 3, 4, 5, 9, 12]),
    };
    let mut row = if random.chance(95) { type_b::with_crc(&bytes) } else { type_b::plain(&bytes) };
    if random.chance(8) && !row.is_empty() {
        let at = random.below(row.len());
        row[at] = random.pick(&[0, 1, 2, 255]);
    }
    if random.chance(3) {
        row.pop();
    }
    row
}

/// Anything but 0 and 1 is a collided bit, which the model has as 2.
pub fn in_model(row: &[u8]) -> Row {
    row.iter().map(|&bit| bit.min(2)).collect()
}

/// Holds what a call left of a card to the model's.
pub fn hold_b_card(what: &str, card: &Card, before: &[u8], state: &[u8]) {
    let mut wanted = before.to_vec();
    wanted[..B_CARD].copy_from_slice(&b_card_left(card));
    assert_eq!(state, &wanted[..], "{what}");
    assert_eq!(unsafe { lac_b_card_state(state.as_ptr(), state.len()) }, b_state_number(card.state), "{what}");
}

pub fn b_card_call(random: &mut Random) {
    let mut card = random_b_card(random);
    let mut state = lent(&b_card_bytes(&card, random));
    for _ in 0..1 + random.below(6) {
        let before = state.to_vec();
        card.number = random.pick(&[0, 1, 1, 1, 2, 4, 7, 16, 17, 255]);
        let row = lent(&b_frame(random, &card));
        let out0 = bytes_of(random, &[112, 112, 112, 112, 112, 113, 200, 111, 0]);
        let (mut out, call) = (lent(&out0), random.below(10));
        // A state that is too short is an allocation of its own.
        let mut cut = lent(&before[..if random.chance(3) { random.below(STATE) } else { STATE }]);
        let is_short = cut.len() < STATE;
        let (s, n) = if is_short { (cut.as_mut_ptr(), cut.len()) } else { (state.as_mut_ptr(), STATE) };
        let got = unsafe {
            match call {
                0 => lac_b_card_power_on(s, n),
                1 => lac_b_card_power_off(s, n),
                _ => lac_b_card_take(s, n, card.number, row.as_ptr(), row.len(), out.as_mut_ptr(), out.len()),
            }
        };
        tally::note(got);

        let mut next = card.clone();
        let taken = match call {
            _ if is_short => Err(refusal::ROOM),
            0 | 1 => {
                next.power(call == 0);
                Ok(Row::new())
            }
            _ if out0.len() < 112 => Err(refusal::ROOM),
            _ => next.take(&in_model(&row)),
        };
        let what = format!("Type B card call {call} in {}, number {}, row {row:?}", card.state, card.number);
        match taken {
            Err(Refusal { number, .. }) => {
                assert_eq!(got, -(number as i64), "{what}");
                assert!(state[..] == before[..] && cut[..] == before[..cut.len()] && out[..] == out0[..], "{what}: a refused call wrote");
            }
            Ok(row) => {
                assert_eq!((got, &out[..row.len()], &out[row.len()..]), (row.len() as i64, &row[..], &out0[row.len()..]), "{what}");
                card = next;
                hold_b_card(&what, &card, &before, &state);
            }
        }
    }
}

pub fn new_b_card(random: &mut Random) {
    let card = plain_b_card(random);
    let markers = if card.markers { random.pick(&[1, 2, 255]) } else { 0 };
    let before = bytes_of(random, &[STATE, STATE, STATE, STATE, STATE + 1, STATE - 1]);
    let is_short = before.len() < STATE;
    let mut state = lent(&before);
    let mut parts = [card.pupi.to_vec(), card.application.to_vec(), card.protocol.to_vec()];
    let fits = !random.chance(20);
    if !fits {
        let part = &mut parts[random.below(3)];
        if random.chance(50) {
            part.pop();
        } else {
            part.push(random.byte());
        }
    }
    let [p, a, q] = parts.map(|part| lent(&part));
    #[rustfmt::skip]
    let got = unsafe { lac_b_card_new(state.as_mut_ptr(), state.len(), p.as_ptr(), p.len(), card.afi, markers, a.as_ptr(), a.len(), q.as_ptr(), q.len()) };
    tally::note(got);
    match (is_short, fits) {
        (true, _) => assert_eq!((got, &state[..]), (-1, &before[..])),
        (_, false) => assert_eq!((got, &state[..]), (-6, &before[..])),
        _ => {
            assert_eq!(got, 0);
            hold_b_card("a new Type B card", &card, &before, &state);
        }
    }
}
