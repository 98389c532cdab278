//! A Type B reader, stepped against two cards: requests with slots, ATTRIB, HLTB, the cards' answers merged, now and then damaged.
use crate::b_card_calls::{hold_b_card, in_model};
use crate::b_states::{b_card_bytes, b_reader_bytes, b_reader_left, random_b_card, random_b_reader, told_slot, Told};
use crate::c::*;
use crate::frames::{self, Row};
use crate::random::Random;
use crate::refusal::{self, Refusal};
use crate::rows::bytes_of;
use crate::states::STATE;
use crate::tally;
use crate::type_b::{self, Card, Held, Reader, Said};

const FRAME: usize = 88;

/// What is asked of a reader, whatever the call.
struct Asked {
    wake: u8,
    slots: u8,
    afi: u8,
    index: u8,
    atqb: Vec<u8>,
    row: Row,
}

/// 0 a request, 1 ATTRIB, 2 HLTB, else a row is heard. Mostly what is due.
fn drawn_call(random: &mut Random, model: &Reader) -> usize {
    match model {
        _ if random.chance(8) => random.below(4),
        Reader::Ready => random.below(3),
        _ => 3,
    }
}

fn by_model(model: &mut Reader, call: usize, asked: &Asked) -> Result<Said, Refusal> {
    let fits = asked.atqb.len() == 12;
    match call {
        0 => model.request(asked.wake != 0, asked.slots, asked.afi),
        1 if fits => model.attrib(&asked.atqb, asked.index),
        2 if fits => model.hltb(&asked.atqb[1..5]),
        1 | 2 if *model == Reader::Ready => Err(refusal::ARGUMENT),
        1 | 2 => Err(refusal::NOT_DUE),
        _ => model.hear(&in_model(&asked.row)),
    }
}

fn by_library(state: &mut [u8], call: usize, asked: &Asked, out: &mut [u8]) -> i64 {
    let (s, n, o, k) = (state.as_mut_ptr(), state.len(), out.as_mut_ptr(), out.len());
    let (a, r) = (lent(&asked.atqb), lent(&asked.row));
    let p = if asked.atqb.len() == 12 { lent(&asked.atqb[1..5]) } else { lent(&asked.atqb[1..]) };
    unsafe {
        match call {
            0 => lac_b_reader_request(s, n, asked.wake, asked.slots, asked.afi, o, k),
            1 => lac_b_reader_attach(s, n, a.as_ptr(), a.len(), asked.index, o, k),
            2 => lac_b_reader_halt(s, n, p.as_ptr(), p.len(), o, k),
            _ => lac_b_reader_hear(s, n, r.as_ptr(), r.len(), o, k),
        }
    }
}

pub fn type_b_calls(random: &mut Random) {
    let mut model = if random.chance(70) { Reader::Ready } else { random_b_reader(random) };
    let mut state = lent(&b_reader_bytes(&model, random));
    let mut cards: Vec<Card> = (0..2).map(|_| Card { state: type_b::State::Idle, ..random_b_card(random) }).collect();
    if random.chance(30) {
        cards[1] = random_b_card(random);
    }
    let mut field: Vec<(Card, Box<[u8]>)> = cards.iter().map(|card| (card.clone(), lent(&b_card_bytes(card, random)))).collect();
    let (mut row, mut atqb) = (Row::new(), field[0].0.atqb());
    for _ in 0..random.below(24) {
        if model == Reader::Stopped && random.chance(50) {
            return;
        }
        let mut asked = Asked {
            wake: random.pick(&[0, 0, 1, 255]),
            slots: random.pick(&[1, 2, 4, 4, 8, 16, 3, 0]),
            afi: random.pick(&[0, 0, 0, 0x10, 0x11]),
            index: random.below(10) as u8,
            atqb: atqb.clone(),
            row: row.clone(),
        };
        if random.chance(4) {
            asked.atqb = bytes_of(random, &[1, 4, 11, 13]);
        }
        let call = drawn_call(random, &model);
        let out0 = bytes_of(random, &[FRAME, FRAME, FRAME, FRAME, FRAME, FRAME + 9, FRAME - 1]);
        let (before, mut out) = (state.to_vec(), lent(&out0));
        let mut cut = lent(&before[..random.below(STATE)]);
        let is_short = random.chance(3);
        let got = by_library(if is_short { &mut cut } else { &mut state }, call, &asked, &mut out);
        tally::note(got);

        let mut next = model.clone();
        let mut said = by_model(&mut next, call, &asked);
        if is_short || (said != Err(refusal::NOT_DUE) && out0.len() < FRAME) {
            (said, next) = (Err(refusal::ROOM), model.clone());
        }
        let what = format!("Type B call {call} in {}", model.name());
        let (told, frame) = match said {
            Err(e) => {
                assert_eq!((got, &out[..]), (-(e.number as i64), &out0[..]), "{what}");
                if next == model {
                    assert!(state[..] == before[..] && cut[..] == before[..cut.len()], "{what}: a refused call wrote");
                    continue;
                }
                (Told::default(), None)
            }
            Ok(Said::Sends(bytes)) => (Told::default(), Some(bytes)),
            Ok(Said::Slot { held, next, .. }) => {
                let told = told_slot(&held, if next.is_some() { 8 } else { 9 });
                if let Held::One(bytes) = held {
                    atqb = bytes;
                }
                (told, next)
            }
            Ok(Said::Attached(mbli)) => (Told { event: 10, length: mbli, ..Told::default() }, None),
            Ok(Said::Halted) => (Told { event: 11, ..Told::default() }, None),
        };
        model = next;
        hold_b_reader(&what, &model, &told, &before, &state);
        let sent = frame.map_or(Row::new(), |bytes| type_b::with_crc(&bytes));
        if got >= 0 {
            assert_eq!((got, &out[..sent.len()], &out[sent.len()..]), (sent.len() as i64, &sent[..], &out0[sent.len()..]), "{what}: frame");
        }
        if !sent.is_empty() {
            row = field_takes(random, &mut field, &sent);
        }
    }
}

/// Holds what a call left of a reader, and what its state tells, to the model's.
pub fn hold_b_reader(what: &str, model: &Reader, told: &Told, before: &[u8], state: &[u8]) {
    let left = b_reader_left(model, told);
    assert_eq!((&state[..left.len()], &state[left.len()..]), (&left[..], &before[left.len()..]), "{what}");
    let (s, n, mut atqb) = (state.as_ptr(), state.len(), lent(&[7; 12]));
    unsafe {
        assert_eq!((lac_event(s, n), lac_length(s, n), lac_b_held(s, n)), (told.event, told.length as u64, told.held), "{what}");
        assert_eq!(lac_b_atqb(s, n, atqb.as_mut_ptr(), 12), 12, "{what}");
    }
    assert_eq!(atqb[..], left[4..16], "{what}");
}

/// Every card takes the frame, each with a slot number, and now and then loses or gets power; what is heard, now and then with a bit turned.
fn field_takes(random: &mut Random, field: &mut [(Card, Box<[u8]>)], frame: &Row) -> Row {
    let mut rows = Vec::new();
    for (card, state) in field.iter_mut() {
        let before = state.to_vec();
        if random.chance(4) {
            let on = random.chance(70);
            let call = if on { lac_b_card_power_on } else { lac_b_card_power_off };
            assert_eq!(unsafe { call(state.as_mut_ptr(), STATE) }, 0);
            card.power(on);
            hold_b_card("power", card, &before, state);
        }
        card.number = 1 + random.below(4) as u8;
        let (f, mut out) = (lent(frame), lent(&[7; 112]));
        let got = unsafe { lac_b_card_take(state.as_mut_ptr(), STATE, card.number, f.as_ptr(), f.len(), out.as_mut_ptr(), 112) };
        match card.take(frame) {
            Err(e) => assert_eq!(got, -(e.number as i64)),
            Ok(row) => {
                assert_eq!((got, &out[..row.len()]), (row.len() as i64, &row[..]), "Type B card");
                rows.push(row);
            }
        }
        hold_b_card("Type B card", card, &before, state);
    }
    let mut heard = frames::merge(&rows);
    match random.below(30) {
        0 => heard = type_b::with_crc(&bytes_of(random, &[1, 11, 12, 13])),
        1 => heard = type_b::with_crc(&[random.byte() & 0xF0]),
        2..=4 if !heard.is_empty() => {
            let at = random.below(heard.len());
            heard[at] = random.pick(&[0, 1, 2, 255]);
        }
        5 => {
            heard.pop();
        }
        _ => {}
    }
    heard
}
