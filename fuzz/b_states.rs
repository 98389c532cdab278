//! Type B: cards and readers that the rules can lead to, drawn at random, and their bytes.
use crate::random::Random;
use crate::states::{put, KEPT, STATE};
use crate::type_b::{Card, Held, Reader, State};

/// So many bytes of a state are a card; no call looks at those behind them.
pub const B_CARD: usize = 15;

/// What a reader told last: what a slot held with its ATQB, the event and what came with it.
#[derive(Default)]
pub struct Told {
    pub held: u8,
    pub atqb: Vec<u8>,
    pub event: u8,
    pub length: u8,
}

pub fn held_number(held: &Held) -> u8 {
    match held {
        Held::None => 0,
        Held::One(_) => 1,
        Held::More => 2,
    }
}

/// A slot is over: what it held, and the event.
pub fn told_slot(held: &Held, event: u8) -> Told {
    let atqb = if let Held::One(atqb) = held { atqb.clone() } else { Vec::new() };
    Told { held: held_number(held), atqb, event, length: 0 }
}

/// What a call leaves in a reader's state: its first 54 bytes.
pub fn b_reader_left(reader: &Reader, told: &Told) -> [u8; KEPT + 9] {
    let mut bytes = [0; KEPT + 9];
    let front = match *reader {
        Reader::Ready => [0, 0, 0],
        Reader::Slot { slot, slots } => [1, slots, slot],
        Reader::AttribSent => [2, 0, 0],
        Reader::HltbSent => [3, 0, 0],
        Reader::Stopped => [4, 0, 0],
    };
    put(&mut bytes, 0, &front);
    bytes[3] = told.held;
    put(&mut bytes, 4, &told.atqb);
    put(&mut bytes, KEPT, &[told.event, told.length]);
    bytes
}

/// A reader's state, with anything where nothing is kept of it.
pub fn b_reader_bytes(reader: &Reader, random: &mut Random) -> Vec<u8> {
    let mut bytes = random.bytes(STATE);
    put(&mut bytes, 0, &b_reader_left(reader, &Told::default())[..3]);
    bytes
}

pub fn random_b_reader(random: &mut Random) -> Reader {
    let slots = random.pick(&[1, 2, 4, 8, 16]);
    match random.below(6) {
        0..=1 => Reader::Slot { slot: 1 + random.below(slots as usize) as u8, slots },
        2 => Reader::AttribSent,
        3 => Reader::HltbSent,
        4 => Reader::Stopped,
        _ => Reader::Ready,
    }
}

pub fn b_state_number(state: State) -> u8 {
    match state {
        State::Off => 0,
        State::Idle => 1,
        State::Requested(_) => 2,
        State::Declared => 3,
        State::Active => 4,
        State::Halt => 5,
    }
}

/// A card's bytes, as a call leaves them.
pub fn b_card_left(card: &Card) -> [u8; B_CARD] {
    let mut bytes = [0; B_CARD];
    let slot = if let State::Requested(slot) = card.state { slot } else { 0 };
    put(&mut bytes, 0, &[b_state_number(card.state), slot, card.afi, card.markers as u8]);
    put(&mut bytes, 4, &card.pupi);
    put(&mut bytes, 8, &card.application);
    put(&mut bytes, 12, &card.protocol);
    bytes
}

pub fn b_card_bytes(card: &Card, random: &mut Random) -> Vec<u8> {
    [&b_card_left(card)[..], &random.bytes(STATE - B_CARD)].concat()
}

fn drawn<const N: usize>(random: &mut Random) -> [u8; N] {
    random.bytes(N).try_into().expect("as many as drawn")
}

/// A card without power.
pub fn plain_b_card(random: &mut Random) -> Card {
    let (afi, markers) = (random.pick(&[0, 0x10, 0x11, 0x01]), random.chance(75));
    let mut protocol: [u8; 3] = drawn(random);
    protocol[1] = random.pick(&[0x71, 0x70]);
    Card { pupi: drawn(random), afi, markers, application: drawn(random), protocol, state: State::Off, number: 1 }
}

pub fn random_b_card(random: &mut Random) -> Card {
    let slot = 2 + random.below(15) as u8;
    let state = random.pick(&[State::Off, State::Idle, State::Requested(slot), State::Declared, State::Active, State::Halt]);
    Card { state, ..plain_b_card(random) }
}
