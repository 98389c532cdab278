//! One known card of a row of cards, woken by one call (T-03).
use crate::c::*;
use crate::card::Card;
use crate::field::Field;
use crate::random::Random;
use crate::reader::{Answer, Reader};
use crate::refusal;
use crate::states::{link_bytes, put, random_link, random_reader, reader_bytes, Known, KEPT, ROW, STATE};
use crate::sweep;
use crate::tally;
use crate::uid;

/// A UID that is there, or nearly there, or drawn, or none at all.
fn asked_uid(random: &mut Random, cards: &[Card]) -> Vec<u8> {
    let mut uid = if cards.is_empty() { random.uid() } else { random.pick(cards).uid };
    let place = random.below(uid.len());
    match random.below(12) {
        0..=4 => {}
        5 | 6 => uid[place] ^= 1 << random.below(8),
        7 => uid[place] = random.byte(),
        8 => {
            let length = random.pick(&[0, 3, 4, 5, 7, 10, 11]);
            uid.extend(random.bytes(11));
            uid.truncate(length);
        }
        9 => {
            let place = random.pick(&[0, 3]);
            uid[place] = uid::TAG;
        }
        10 => uid = random.uid(),
        _ => {
            let length = random.below(12);
            uid = random.bytes(length);
        }
    }
    uid
}

/// A reader's state, long enough or not: mostly a new one, with whatever link, which is to stay.
pub fn new_reader(random: &mut Random) -> (Reader, Vec<u8>) {
    let (model, known) = if random.chance(93) { (Reader::new(), Known::default()) } else { random_reader(random) };
    let mut state = reader_bytes(&model, &known.uid, known.sak, random).to_vec();
    if model == Reader::new() && random.chance(20) {
        put(&mut state, 21, &link_bytes(&random_link(random)));
    }
    match random.below(20) {
        0 => state.truncate(random.below(STATE)),
        1..=3 => {
            let more = random.below(200);
            state.extend(random.bytes(more));
        }
        _ => {}
    }
    (model, state)
}

pub fn wake_call(random: &mut Random) {
    let field = Field::draw(random);
    let wanted_uid = asked_uid(random, &field.cards);
    let (mut model, before) = new_reader(random);
    let (mut state, mut row, uid) = (lent(&before), lent(&field.row), lent(&wanted_uid));
    let got = unsafe { lac_wake(state.as_mut_ptr(), state.len(), uid.as_ptr(), uid.len(), row.as_mut_ptr(), row.len(), field.n) };
    tally::note(got);

    let mut cards = field.cards.clone();
    let is_short = before.len() < STATE || field.is_short();
    let woken = if is_short { Err(refusal::ROOM) } else { sweep::wake(&mut model, &uid, &mut cards) };
    let what = format!("{wanted_uid:02X?} of {} cards", field.cards.len());
    let (number, sak) = match woken {
        Ok((sak, frames)) => (frames as i64, sak),
        Err(r) => (-(r.number as i64), 0),
    };
    assert_eq!(got, number, "{what}");
    if got < 0 {
        assert_eq!(row[..], field.row[..], "{what}: a refused call wrote a card");
    } else {
        field.hold(&what, &row, &cards, random);
    }
    if got < 0 && got != -7 {
        assert_eq!(state[..], before[..], "{what}: a refused call wrote");
        return;
    }
    // The reader as after any selection, or stopped: its link stays.
    let mut after = before.clone();
    put(&mut after, 0, &reader_bytes(&model, &wanted_uid, sak, random)[..21]);
    put(&mut after, KEPT, &[if got < 0 { 0 } else { 2 }, 0, 0, 0, 0, 0, 0, 0, 0]);
    assert_eq!(state[..], after[..], "{what}: the reader");
    // RATS is due then to a card that speaks blocks, and to no other.
    if after[21..KEPT].iter().all(|&b| b == 0) {
        let (mut next, mut out) = (lent(&state), lent(&[7; ROW]));
        let sent = unsafe { lac_reader_rats(next.as_mut_ptr(), next.len(), 8, out.as_mut_ptr(), ROW) };
        assert_eq!(sent, if let Answer::Send(row) = model.rats(8) { row.len() as i64 } else { -11 }, "{what}: RATS");
    }
    if got < 0 {
        return;
    }
    let mut told = lent(&[7; 10]);
    unsafe {
        assert_eq!(lac_event(state.as_ptr(), state.len()), 2, "{what}");
        assert_eq!(lac_uid(state.as_ptr(), state.len(), told.as_mut_ptr(), 10), uid.len() as i64, "{what}");
        assert_eq!(lac_reader_sak(state.as_ptr(), state.len()), sak, "{what}");
    }
    assert_eq!(told[..uid.len()], uid[..], "{what}");
}
