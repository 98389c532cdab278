//! A card that the rules can lead to, drawn at random, and its bytes.
use crate::card::{Card, State};
use crate::card_link::{self, Last, Mode};
use crate::frames::size_of_index;
use crate::random::Random;
use crate::states::{blank, index_of, put, put_uid, size_of, STATE};
use crate::uid;

pub fn plain_card(random: &mut Random) -> Card {
    Card { uid: random.uid(), blocks: random.chance(70), index: random.below(9) as u8, state: State::Off }
}

pub fn card_bytes(card: &Card, random: &mut Random) -> [u8; STATE] {
    let mut s = blank(random);
    let (tag, level) = match &card.state {
        State::Off => (0, 0),
        State::Idle => (1, 0),
        State::Ready(level) => (2, level - 1),
        State::Active => (3, 0),
        State::Halt => (4, 0),
        State::ReadyStar(level) => (5, level - 1),
        State::ActiveStar => (6, 0),
        State::Protocol(_) => (7, 0),
    };
    s[0] = tag;
    s[1] = level as u8;
    s[3] = card.blocks as u8;
    s[4] = card.index;
    put_uid(&mut s, size_of(&card.uid), &card.uid);
    if let State::Protocol(link) = &card.state {
        s[2] = index_of(link.reader_size);
        s[21] = card.index;
        s[22] = index_of(link.reader_size);
        s[23] = 1 - link.number;
        let (phase, value) = match link.mode {
            Mode::Receiving => (0, 0),
            Mode::Owing => (1, 0),
            Mode::WtxAsked(value) => (2, value),
            Mode::Answering => (3, 0),
        };
        s[24] = phase;
        s[25] = value;
        // A card that owes its answer takes no frame, and has no block to send again.
        let last = match link.last {
            _ if link.mode == Mode::Owing => [0, 0, 0],
            Last::Nothing => [0, 0, 0],
            Last::I(chained) => [1, link.number, chained as u8],
            Last::Ack => [2, link.number, 0],
            Last::Wtx(value) => [5, value, 0],
        };
        put(&mut s, 26, &last);
        put(&mut s, 29, &link.joined.to_le_bytes());
        put(&mut s, 37, &link.place.to_le_bytes());
    }
    s
}

pub fn random_card(random: &mut Random) -> Card {
    let mut card = plain_card(random);
    let level = 1 + random.below(uid::level_count(&card.uid));
    card.state = match random.below(10) {
        0 => State::Off,
        1 => State::Idle,
        2 => State::Ready(level),
        3 => State::Active,
        4 => State::Halt,
        5 => State::ReadyStar(level),
        6 => State::ActiveStar,
        _ => {
            card.blocks = true;
            State::Protocol(random_card_link(random))
        }
    };
    card
}

fn random_card_link(random: &mut Random) -> card_link::Link {
    let mut link = card_link::Link::new(size_of_index(random.below(9) as u8));
    link.number = random.below(2) as u8;
    match random.below(6) {
        0 => {}
        1 => {
            // A message under way.
            link.joined = random.pick(&[0, 1, 13, 4090, 4096]);
            link.last = Last::Ack;
        }
        2 => link.mode = Mode::Owing,
        3 => {
            let value = 1 + random.below(59) as u8;
            link.mode = Mode::WtxAsked(value);
            link.last = Last::Wtx(value);
        }
        4 => {
            // The last I of an answer is out.
            link.last = Last::I(false);
            link.place = random.pick(&[0, 13, 253, 4000]);
        }
        _ => {
            link.mode = Mode::Answering;
            link.last = Last::I(true);
            link.place = random.pick(&[0, 13, 253, 4000]);
        }
    }
    link
}
