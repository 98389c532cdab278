//! A row of cards' states, lent to the calls that play a field: mostly one that they take.
use crate::card::{Card, State};
use crate::card_states::{card_bytes, plain_card, random_card};
use crate::random::Random;
use crate::states::{put, STATE};
use crate::uid;

/// Of a card's state such a call writes so many bytes at most.
const WRITTEN: usize = 20;

pub struct Field {
    pub cards: Vec<Card>,
    /// How many cards the call is told of: those, or more than the row has room for.
    pub n: usize,
    /// The row, with anything behind each card's written bytes and behind the last card.
    pub row: Vec<u8>,
}

impl Field {
    pub fn draw(random: &mut Random) -> Field {
        let count = random.pick(&[0, 1, 1, 2, 3, 4, 8, 16, 31, 32, 33]);
        let mut cards: Vec<Card> = (0..count).map(|_| Card { state: random.pick(&[State::Idle, State::Idle, State::Halt]), ..plain_card(random) }).collect();
        if random.chance(30) {
            one_maker(&mut cards, random);
        }
        if random.chance(15) && count > 0 {
            spoil(&mut cards, random);
        }
        let mut row: Vec<u8> = cards.iter().flat_map(|c| [&card_bytes(c, random)[..WRITTEN], &random.bytes(STATE - WRITTEN)].concat()).collect();
        let mut n = count;
        if random.chance(6) {
            match random.below(3) {
                0 => row.truncate(row.len().saturating_sub(1 + random.below(70))),
                1 => n += 1 + random.below(3),
                _ => n = random.pick(&[1 << 32, 1 << 58, (1 << 58) + 1, usize::MAX]),
            }
        } else {
            let more = random.below(70);
            row.extend(random.bytes(more));
        }
        Field { cards, n, row }
    }

    pub fn is_short(&self) -> bool {
        self.row.len() / STATE < self.n
    }

    /// The row is to say these cards now, and is to be unchanged elsewhere.
    pub fn hold(&self, what: &str, row: &[u8], cards: &[Card], random: &mut Random) {
        let mut wanted = self.row.clone();
        for (i, card) in cards.iter().enumerate() {
            put(&mut wanted, STATE * i, &card_bytes(card, random)[..WRITTEN]);
        }
        assert_eq!(row, &wanted[..], "{what}: the cards");
    }
}

/// Cards of one maker share the first level, and meet late.
fn one_maker(cards: &mut [Card], random: &mut Random) {
    let maker = random.bytes(3);
    for card in cards.iter_mut().filter(|c| c.uid.len() > 4) {
        put(&mut card.uid, 0, &maker);
    }
}

/// One card that no sweep takes; or, now and then, that one does take.
fn spoil(cards: &mut [Card], random: &mut Random) {
    let (at, other) = (random.below(cards.len()), random.below(cards.len()));
    match random.below(6) {
        0 => cards[at].index = random.pick(&[9, 255]),
        1 => cards[at].state = State::Off,
        2 => cards[at].uid = cards[other].uid.clone(),
        3 => {
            let place = random.pick(&[0, 3]);
            cards[at].uid[place] = uid::TAG;
        }
        _ => cards[at].state = random_card(random).state,
    }
}
