//! A card, a few calls on from a drawn state; and one newly made.
use crate::c::*;
use crate::card::{self, Card, Outcome};
use crate::card_link::Mode;
use crate::card_states::{card_bytes, random_card};
use crate::frames::{self, Row};
use crate::hold::{hold, refused, wants};
use crate::random::Random;
use crate::refusal;
use crate::rows::{any_row, bytes_of, likely_rows};
use crate::states::{KEPT, ROW, STATE};
use crate::tally;
use crate::uid;

fn card_rows(random: &mut Random, model: &Card) -> Vec<Row> {
    let mut rows = likely_rows(random);
    let level = 1 + random.below(uid::level_count(&model.uid));
    let own = uid::levels(&model.uid)[level - 1];
    let k = random.below(40);
    rows.push(frames::anticollision(level, &frames::bits_of(&own)[..k]));
    rows.push(frames::select(level, &own));
    rows.push(frames::select(level, &own));
    rows
}

fn owes(model: &Card) -> bool {
    matches!(&model.state, card::State::Protocol(link) if link.mode == Mode::Owing)
}

/// 0 and 1 power, 2 more time, 3 and 4 the answer, else a row is taken: mostly what is due.
fn drawn_call(random: &mut Random, model: &Card) -> usize {
    match random.below(10) {
        0 => random.below(2),
        1 => 2 + random.below(3),
        _ if owes(model) => 2 + random.below(4),
        _ => 9,
    }
}

pub fn card_call(random: &mut Random) {
    let mut model = random_card(random);
    let mut state = lent(&card_bytes(&model, random));
    for _ in 0..1 + random.below(6) {
        let before = state.to_vec();
        // A state that is too short is an allocation of its own.
        let mut cut = lent(&before[..if random.chance(3) { random.below(STATE) } else { STATE }]);
        let short = cut.len() < STATE;
        let out_length = if random.chance(6) { random.pick(&[0, 1, 26, 45, 80, ROW - 1]) } else { ROW + random.below(2) };
        let out0 = random.bytes(out_length);
        let mut out = lent(&out0);
        let length = random.pick(&[0, 1, 2, 20, 300, 4095, 4096, 4097]);
        let answer = lent(&random.bytes(length));
        let room = random.pick(&[0, 1, 14, 300, 4096, 5000]);
        let buffer0 = random.bytes(room);
        let mut buffer = lent(&buffer0);
        let rows = card_rows(random, &model);
        let row = lent(&any_row(random, &rows));
        let (wtxm, call) = (random.pick(&[0, 1, 30, 59, 60, 255]), drawn_call(random, &model));

        let (s, n) = if short { (cut.as_mut_ptr(), cut.len()) } else { (state.as_mut_ptr(), STATE) };
        let (o, k) = (out.as_mut_ptr(), out.len());
        let got = unsafe {
            match call {
                0 => lac_card_power_on(s, n),
                1 => lac_card_power_off(s, n),
                2 => lac_card_ask(s, n, wtxm, o, k),
                3 | 4 => lac_card_reply(s, n, answer.as_ptr(), answer.len(), o, k),
                _ => lac_card_take(s, n, row.as_ptr(), row.len(), answer.as_ptr(), answer.len(), buffer.as_mut_ptr(), buffer.len(), o, k),
            }
        };

        let mut next = model.clone();
        let mut told = buffer0.clone();
        let outcome = match call {
            0 => {
                next.power_on();
                Outcome::Silent
            }
            1 => {
                next.power_off();
                Outcome::Silent
            }
            2 => next.wtx(wtxm),
            3 | 4 => next.reply(&answer),
            _ => next.take(&row, &answer, &mut told),
        };
        let deselected = matches!(model.state, card::State::Protocol(_)) && next.state == card::State::Halt;
        let (wanted, stays) = if short {
            (refused(refusal::ROOM), true)
        } else if outcome == Outcome::Refused(refusal::NOT_DUE) {
            (refused(refusal::NOT_DUE), true)
        } else if call > 1 && out_length < ROW {
            (refused(refusal::ROOM), true)
        } else {
            match outcome {
                Outcome::Silent => (wants(Row::new(), 0, 0), false),
                Outcome::Answer(row) => (wants(row, if deselected { 7 } else { 0 }, 0), false),
                Outcome::Delivered(bytes) => (wants(Row::new(), 5, bytes.len()), false),
                Outcome::Again => (wants(Row::new(), 6, 0), false),
                Outcome::Told10 => (refused(refusal::MESSAGE), true),
                Outcome::Refused(r) => (refused(r), next == model),
            }
        };
        if stays {
            told = buffer0.clone();
        } else {
            model = next;
        }
        assert_eq!(buffer[..], told[..], "card call {call}: buffer");
        assert_eq!(cut[..], before[..cut.len()], "card call {call}: too short a state was written");
        let kept = card_bytes(&model, random);
        hold(&format!("card call {call} in {}", model.state_name()), got, &wanted, &before, &state, stays, &kept, &out0, &out);
        unsafe {
            assert_eq!(lac_card_state(state.as_ptr(), STATE), kept[0]);
            assert_eq!(lac_card_owes(state.as_ptr(), STATE), owes(&model) as u8);
        }
    }
}

pub fn new_card(random: &mut Random) {
    let uid = if random.chance(70) { random.uid() } else { bytes_of(random, &[0, 1, 3, 4, 5, 7, 8, 10, 11]) };
    let (lent_uid, blocks, index) = (lent(&uid), random.pick(&[0, 1, 1, 2, 255]), random.below(11) as u8);
    let before = bytes_of(random, &[STATE, STATE, STATE, STATE, STATE + 1, STATE - 1]);
    let mut state = lent(&before);
    let got = unsafe { lac_card_new(state.as_mut_ptr(), state.len(), lent_uid.as_ptr(), lent_uid.len(), blocks, index) };
    tally::note(got);
    let made = if before.len() < STATE { Err(refusal::ROOM) } else { Card::new(&uid, blocks != 0, index) };
    match made {
        Err(r) => {
            assert_eq!((got, &state[..]), (-(r.number as i64), &before[..]));
        }
        Ok(card) => {
            assert_eq!(got, 0);
            assert_eq!(state[..KEPT], card_bytes(&card, random)[..KEPT]);
            assert_eq!(state[STATE - 10..], before[STATE - 10..]);
        }
    }
}
