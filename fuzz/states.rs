//! States that the rules can have, drawn at random, and their bytes: a second telling of what stands where in a state. Here what all of them share,
//! and the reader; card_states.rs has the card, b_states.rs Type B.
use crate::frames::{self, size_of_index};
use crate::random::Random;
use crate::reader::{Phase, Reader};
use crate::reader_link::{Link, Stage};
use crate::uid;

pub const STATE: usize = 64;

/// The longest row that a call writes.
pub const ROW: usize = 2304;

/// So many bytes of a state say what the end is; event and length follow.
pub const KEPT: usize = 45;

pub fn index_of(size: usize) -> u8 {
    (0..9).find(|&i| size_of_index(i) == size).expect("a size of the table")
}

pub fn put(to: &mut [u8], at: usize, bytes: &[u8]) {
    to[at..at + bytes.len()].copy_from_slice(bytes);
}

pub fn put_uid(to: &mut [u8], size: u8, bytes: &[u8]) {
    to[9] = size;
    put(to, 10, bytes);
}

/// A state with anything where nothing is kept: event, length and what lies behind.
pub fn blank(random: &mut Random) -> [u8; STATE] {
    let mut state = [0; STATE];
    put(&mut state, KEPT, &random.bytes(STATE - KEPT));
    state
}

/// A UID's size, told by its bytes; one that is not complete counts as of four.
pub fn size_of(uid: &[u8]) -> u8 {
    match uid.len() {
        7 => 1,
        10 => 2,
        _ => 0,
    }
}

/// The UID and SAK that a reader has told last, which the model keeps only while it selects.
#[derive(Clone, Default)]
pub struct Known {
    pub uid: Vec<u8>,
    pub sak: u8,
}

/// A reader's bytes. `uid` and `sak`: what the selection that it had ended with.
pub fn reader_bytes(reader: &Reader, uid: &[u8], sak: u8, random: &mut Random) -> [u8; STATE] {
    let mut s = blank(random);
    s[2] = reader.sweeping as u8;
    if !matches!(reader.phase, Phase::SelectSent { .. } | Phase::AnticollisionSent { .. }) {
        put_uid(&mut s, size_of(uid), uid);
        s[20] = sak;
    } else {
        put_uid(&mut s, 0, &reader.uid);
    }
    match &reader.phase {
        Phase::New | Phase::ReqaSent | Phase::Stopped | Phase::Finished => {
            put_uid(&mut s, 0, &[0; 10]);
            s[20] = 0;
            s[0] = match &reader.phase {
                Phase::New => 0,
                Phase::ReqaSent => 1,
                Phase::Finished => 6,
                _ => 9,
            };
        }
        Phase::AnticollisionSent { level, known } => {
            s[0] = 2;
            s[1] = *level as u8 - 1;
            let mut bits = known.clone();
            bits.resize(40, 0);
            for i in 0..5 {
                s[3 + i] = frames::byte_of(&bits[8 * i..8 * i + 8]);
            }
            s[8] = known.len() as u8;
        }
        Phase::SelectSent { level, bytes } => {
            s[0] = 3;
            s[1] = *level as u8 - 1;
            put(&mut s, 3, bytes);
            s[8] = 40;
        }
        Phase::HltaSent => s[0] = 4,
        Phase::Selected { sak } => {
            s[0] = 5;
            s[20] = *sak;
        }
        Phase::WupaSent { uid } => {
            s[0] = 7;
            put_uid(&mut s, size_of(uid), uid);
            s[20] = 0;
        }
        Phase::UidSelectSent { uid, level } => {
            s[0] = 8;
            s[1] = *level as u8 - 1;
            put(&mut s, 3, &uid::levels(uid)[*level - 1]);
            s[8] = 40;
            put_uid(&mut s, size_of(uid), uid);
            s[20] = 0;
        }
        Phase::RatsSent { own_size } => {
            s[0] = 5;
            s[21] = 1;
            s[22] = index_of(*own_size);
        }
        Phase::Linked(link) => {
            s[0] = 5;
            put(&mut s, 21, &link_bytes(link));
        }
    }
    s
}

pub fn link_bytes(link: &Link) -> [u8; 24] {
    let (phase, turn) = match link.stage {
        Stage::Open => (0, 0),
        Stage::More => (1, 0),
        Stage::Last => (1, 1),
        Stage::Joining => (1, 2),
        Stage::Deselect => (2, 0),
    };
    // What a stage does not need is zero.
    let sends = matches!(link.stage, Stage::More | Stage::Last);
    let (again, place) = if sends { (link.sent_again, link.place) } else { (0, 0) };
    let repeats = if link.stage == Stage::Open { 0 } else { link.repeats };
    let joined = if link.stage == Stage::Joining { link.joined } else { 0 };
    let mut b = [0; 24];
    put(&mut b, 0, &[2, index_of(link.own_size), index_of(link.card_size), link.number, phase, turn, again, repeats]);
    put(&mut b, 8, &place.to_le_bytes());
    put(&mut b, 16, &joined.to_le_bytes());
    b
}

pub fn random_link(random: &mut Random) -> Link {
    let mut link = Link::new(size_of_index(random.below(9) as u8), size_of_index(random.below(9) as u8));
    link.number = random.below(2) as u8;
    link.stage = random.pick(&[Stage::Open, Stage::More, Stage::Last, Stage::Joining, Stage::Deselect]);
    if matches!(link.stage, Stage::More | Stage::Last) {
        link.place = random.pick(&[0, 13, 26, 253, 4000]);
        link.sent_again = random.below(3) as u8;
    }
    if link.stage == Stage::Joining {
        link.joined = random.pick(&[0, 1, 13, 4090, 4096]);
    }
    if link.stage != Stage::Open {
        link.repeats = random.below(3) as u8;
    }
    link
}

/// A reader that the rules can lead to, with the UID and SAK that its selection ended with.
pub fn random_reader(random: &mut Random) -> (Reader, Known) {
    let mut reader = Reader::new();
    let uid = random.uid();
    let mut known = Known::default();
    let level = 1 + random.below(3);
    let sweeping = random.chance(40);
    let sak = random.pick(&[0x20, 0x00, 0x60]);
    match random.below(12) {
        0 => {}
        1 => {
            reader.phase = Phase::ReqaSent;
            reader.sweeping = sweeping;
        }
        2 | 3 => {
            let n = random.below(40);
            reader.phase = Phase::AnticollisionSent { level, known: (0..n).map(|_| random.below(2) as u8).collect() };
            reader.sweeping = sweeping;
            reader.uid = random.bytes(3 * (level - 1));
        }
        4 => {
            let mut bytes = [0; 5];
            put(&mut bytes, 0, &random.bytes(4));
            if random.chance(50) {
                bytes[0] = uid::TAG;
            }
            bytes[4] = uid::check_byte(&bytes[..4]);
            reader.phase = Phase::SelectSent { level, bytes };
            reader.sweeping = sweeping;
            reader.uid = random.bytes(3 * (level - 1));
        }
        5 => reader.phase = Phase::WupaSent { uid },
        6 => {
            let level = 1 + random.below(uid::level_count(&uid));
            reader.phase = Phase::UidSelectSent { uid, level };
        }
        7 => {
            reader.phase = Phase::HltaSent;
            reader.sweeping = true;
            known = Known { uid, sak };
        }
        8 => {
            reader.phase = Phase::Selected { sak };
            known = Known { uid, sak };
        }
        9 => {
            reader.phase = Phase::RatsSent { own_size: size_of_index(random.below(9) as u8) };
            known = Known { uid, sak: 0x20 };
        }
        _ => {
            reader.phase = Phase::Linked(random_link(random));
            known = Known { uid, sak: 0x20 };
        }
    }
    (reader, known)
}
