//! One request with all its slot markers over a row of Type B cards' states, by one call (T-05).
use crate::b_calls::hold_b_reader;
use crate::b_states::{b_card_bytes, b_card_left, b_reader_bytes, plain_b_card, random_b_card, random_b_reader, told_slot};
use crate::c::*;
use crate::random::Random;
use crate::refusal;
use crate::states::{put, STATE};
use crate::tally;
use crate::type_b::{self, Card, Reader, State, LIST_ROOM};

/// Mostly a number of slots that there is.
fn drawn_slots(random: &mut Random) -> u8 {
    match random.below(20) {
        0 => random.byte(),
        _ => random.pick(&type_b::SLOTS),
    }
}

/// Cards that a request takes, each with its slot number; now and then one that it does not take.
fn drawn_cards(random: &mut Random, slots: u8) -> Vec<Card> {
    let count = random.pick(&[0, 1, 2, 2, 3, 4, 5, 8, 16, 31, 32, 33]);
    let (all_idle, all_mark, alike) = (random.chance(50), random.chance(60), random.chance(20));
    let first = plain_b_card(random);
    let mut cards: Vec<Card> = (0..count).map(|_| plain_b_card(random)).collect();
    for (i, card) in cards.iter_mut().enumerate() {
        card.state = if all_idle { State::Idle } else { random.pick(&[State::Idle, State::Halt]) };
        card.markers |= all_mark;
        card.number = 1 + random.below(slots.clamp(1, 16) as usize) as u8;
        if alike {
            // All but a few bits of the PUPI are those of the first.
            *card = Card { state: card.state, number: card.number, ..first.clone() };
            card.pupi[i % 4] ^= 1 << (i / 4 % 8);
        }
    }
    if random.chance(12) && count > 0 {
        let (at, other) = (random.below(count), random.below(count));
        match random.below(3) {
            0 => cards[at].number = random.pick(&[0, slots.wrapping_add(1), 17, 255]),
            1 => cards[at].pupi = cards[other].pupi,
            _ => cards[at].state = random_b_card(random).state,
        }
    }
    cards
}

/// A reader's state, long enough or not: mostly one that is ready.
fn ready_reader(random: &mut Random) -> (Reader, Vec<u8>) {
    let model = if random.chance(93) { Reader::Ready } else { random_b_reader(random) };
    let mut state = b_reader_bytes(&model, random);
    match random.below(20) {
        0 => state.truncate(random.below(STATE)),
        1..=3 => {
            let more = random.below(200);
            state.extend(random.bytes(more));
        }
        _ => {}
    }
    (model, state)
}

/// The cards' states one behind the other, with anything behind the last one; or too short for them.
fn row_of(cards: &[Card], random: &mut Random) -> Vec<u8> {
    let mut row: Vec<u8> = cards.iter().flat_map(|card| b_card_bytes(card, random)).collect();
    if random.chance(4) {
        row.truncate(row.len().saturating_sub(1 + random.below(70)));
    } else {
        let more = random.below(70);
        row.extend(random.bytes(more));
    }
    row
}

pub fn inquiry(random: &mut Random) {
    let slots = drawn_slots(random);
    let cards = drawn_cards(random, slots);
    let (wake, afi) = (random.pick(&[0, 0, 1, 2, 255]), random.pick(&[0, 0, 0, 0x10, 0x11, 0x01, 0x20]));
    let (mut model, before) = ready_reader(random);
    let row0 = row_of(&cards, random);
    let room = if random.chance(75) { LIST_ROOM } else { random.pick(&[LIST_ROOM + 1, 300, LIST_ROOM - 1, 13 * cards.len()]) };
    let list0 = random.bytes(room);
    let (mut state, mut row, mut list) = (lent(&before), lent(&row0), lent(&list0));
    let numbers = lent(&cards.iter().map(|card| card.number).collect::<Vec<u8>>());
    let (s, c, m) = ((state.as_mut_ptr(), state.len()), (row.as_mut_ptr(), row.len()), (numbers.as_ptr(), numbers.len()));
    let got = unsafe { lac_b_inquire(s.0, s.1, wake, slots, afi, c.0, c.1, m.0, m.1, list.as_mut_ptr(), list.len()) };
    tally::note(got);

    let (mut after, mut told) = (cards.clone(), list0.clone());
    let is_short = before.len() < STATE || row0.len() / STATE < cards.len();
    let held = if is_short { Err(refusal::ROOM) } else { type_b::inquire(&mut model, &mut after, &mut told, wake != 0, slots, afi) };
    let what = format!("request of {slots} slots, wake {wake}, AFI {afi:02X}, over {cards:?}");
    match held {
        Err(r) => {
            assert_eq!(got, -(r.number as i64), "{what}");
            assert!(state[..] == before[..] && row[..] == row0[..] && list[..] == list0[..], "{what}: a refused request wrote");
        }
        Ok(held) => {
            assert_eq!((got, held.len()), (slots as i64, slots as usize), "{what}");
            assert_eq!(list[..], told[..], "{what}: the list");
            let mut wanted = row0.clone();
            for (i, card) in after.iter().enumerate() {
                put(&mut wanted, STATE * i, &b_card_left(card));
            }
            assert_eq!(row[..], wanted[..], "{what}: the cards");
            // The reader is ready again, and tells of the last slot.
            assert_eq!(model, Reader::Ready, "{what}");
            hold_b_reader(&what, &model, &told_slot(&held[held.len() - 1], 9), &before, &state);
        }
    }
}
