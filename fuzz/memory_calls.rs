//! The reader that remembers (T-14), stepped by hand against a field of the model's cards, beside the model's own; now and then a row is damaged, and
//! now and then a call is not due or has too little room.
use crate::c::*;
use crate::card::{self, Card};
use crate::card_states::plain_card;
use crate::frames::Row;
use crate::hold::{refused, wants};
use crate::random::Random;
use crate::reader::{Answer, Reader};
use crate::refusal;
use crate::rows::bytes_of;
use crate::states::{put, reader_bytes, Known, KEPT, STATE};
use crate::sweep;
use crate::tally;

const MEMORY: usize = 192;
const FRAME: usize = 81;

/// What stands in front of the path: the reader, zeros for its link, what was told, zeros.
fn front(model: &Reader, known: &Known, event: u8, length: u64, random: &mut Random) -> [u8; STATE] {
    let mut bytes = [0; STATE];
    put(&mut bytes, 0, &reader_bytes(model, &known.uid, known.sak, random)[..21]);
    bytes[KEPT] = event;
    put(&mut bytes, KEPT + 1, &length.to_le_bytes());
    bytes
}

fn drawn_field(random: &mut Random) -> Vec<Card> {
    let n = random.below(7);
    let mut field: Vec<Card> = (0..n).map(|_| Card { state: card::State::Idle, ..plain_card(random) }).collect();
    if random.chance(30) {
        // Cards of one maker, which meet late.
        let maker = random.bytes(3);
        for card in field.iter_mut().filter(|c| c.uid.len() > 4) {
            put(&mut card.uid, 0, &maker);
        }
    }
    field
}

pub fn memory_calls(random: &mut Random) {
    let mut field = drawn_field(random);
    let (mut model, mut known) = (Reader::new(), Known::default());
    let more = random.below(9);
    let mut state = lent(&[vec![0; KEPT], random.bytes(STATE - KEPT), random.bytes(MEMORY - STATE), random.bytes(more)].concat());
    let (mut row, mut begun) = (Row::new(), false);
    loop {
        let before = state.to_vec();
        let out0 = bytes_of(random, &[FRAME, FRAME, FRAME, FRAME, FRAME, FRAME, FRAME, FRAME + 5, FRAME - 1]);
        let mut out = lent(&out0);
        let mut cut = lent(&before[..if random.chance(2) { random.below(MEMORY) } else { before.len() }]);
        let is_short = cut.len() < MEMORY;
        let (s, n) = if is_short { (cut.as_mut_ptr(), cut.len()) } else { (state.as_mut_ptr(), state.len()) };
        let begins = begun == random.chance(2);
        let heard = lent(&row);
        let mut next = model.clone();
        let (got, answer) = if begins {
            (unsafe { lac_memory_sweep(s, n, out.as_mut_ptr(), out.len()) }, next.remember())
        } else {
            (unsafe { lac_memory_hear(s, n, heard.as_ptr(), heard.len(), out.as_mut_ptr(), out.len()) }, next.hear(&heard, &[], &mut []))
        };
        tally::note(got);

        let short_of = is_short || (answer != Answer::Refused(refusal::NOT_DUE) && out0.len() < FRAME);
        let (wanted, stays) = match answer {
            _ if short_of => (refused(refusal::ROOM), true),
            Answer::Send(row) => (wants(row, 0, 0), false),
            Answer::Found { uid, sak, frame } => {
                known = Known { uid, sak };
                (wants(frame, 1, 0), false)
            }
            Answer::Finished => (wants(Row::new(), 3, 0), false),
            Answer::Refused(r) => (refused(r), next == model),
            other => panic!("a sweep gives no {other:?}"),
        };
        let sent = wanted.row.len();
        assert_eq!((got, &out[..sent], &out[sent..]), (wanted.number, &wanted.row[..], &out0[sent..]), "the reader that remembers");
        if stays {
            assert!(state[..] == before[..] && cut[..] == before[..cut.len()], "a refused call wrote");
            continue;
        }
        (model, begun) = (next, true);
        assert_eq!(state[..STATE], front(&model, &known, wanted.event, wanted.length, random), "the reader that remembers");
        assert_eq!(state[MEMORY..], before[MEMORY..], "behind the state");
        if got < 0 {
            assert!(state[STATE..MEMORY].iter().all(|&b| b == 0), "a stopped reader's path is forgotten");
        }
        if got <= 0 {
            return;
        }
        row = sweep::field_takes(&mut field, &wanted.row);
        if random.chance(2) && !row.is_empty() {
            let at = random.below(row.len());
            row[at] = random.pick(&[0, 1, 2, 255]);
        }
        if random.chance(1) {
            row.pop();
        }
    }
}
