//! A reader, a few calls on from a drawn state.
use crate::c::*;
use crate::frames::{self, Row};
use crate::hold::{hold, refused, wants};
use crate::random::Random;
use crate::reader::{Answer, Phase, Reader};
use crate::reader_link::Stage;
use crate::refusal;
use crate::rows::{any_row, likely_rows};
use crate::states::{self, random_reader, reader_bytes, Known, ROW, STATE};
use crate::uid;

fn reader_rows(random: &mut Random, model: &Reader) -> Vec<Row> {
    let mut rows = likely_rows(random);
    match &model.phase {
        Phase::AnticollisionSent { known, .. } => {
            // A level that goes on from the known bits, with its check byte, and now and then a collided bit.
            let mut bits = known.clone();
            while bits.len() < 32 {
                bits.push(random.below(2) as u8);
            }
            let mut bytes = [0; 5];
            for i in 0..4 {
                bytes[i] = frames::byte_of(&bits[8 * i..8 * i + 8]);
            }
            bytes[4] = uid::check_byte(&bytes[..4]);
            let mut rest = frames::rest_of_level(&bytes, known.len());
            if random.chance(50) {
                let at = random.below(rest.len());
                rest[at] = 2;
            }
            rows = vec![rest];
        }
        Phase::ReqaSent | Phase::WupaSent { .. } => rows = vec![frames::standard(&[random.pick(&[0x04, 0x44, 0x84, 0x03, 0x00]), 0]), Row::new()],
        Phase::SelectSent { .. } | Phase::UidSelectSent { .. } => rows = vec![frames::standard_with_crc(&[random.pick(&[0x20, 0x04, 0x00, 0x24])])],
        Phase::RatsSent { .. } if random.chance(70) => rows = vec![frames::standard_with_crc(&[0x02, random.below(16) as u8])],
        Phase::HltaSent => rows = vec![Row::new(), Row::new(), frames::hlta()],
        _ => {}
    }
    rows
}

/// 0 to 5 the host's calls, 6 a row is heard: mostly what is due.
fn drawn_call(random: &mut Random, model: &Reader) -> usize {
    match &model.phase {
        _ if random.chance(12) => random.below(7),
        Phase::New => random.below(3),
        Phase::Selected { .. } => 3,
        Phase::Linked(link) if link.stage == Stage::Open => random.pick(&[4, 4, 5]),
        _ => 6,
    }
}

pub fn reader_call(random: &mut Random) {
    let (mut model, mut known) = random_reader(random);
    let mut state = lent(&reader_bytes(&model, &known.uid, known.sak, random));
    // A few calls on from there.
    for _ in 0..1 + random.below(6) {
        if matches!(model.phase, Phase::Stopped | Phase::Finished) && random.chance(70) {
            return;
        }
        let before = state.to_vec();
        // A state that is too short is an allocation of its own.
        let mut cut = lent(&before[..if random.chance(3) { random.below(STATE) } else { STATE }]);
        let short = cut.len() < STATE;
        let out_length = if random.chance(6) { random.pick(&[0, 1, 26, 80, 81, ROW - 1]) } else { ROW + random.below(2) };
        let out0 = random.bytes(out_length);
        let mut out = lent(&out0);
        let length = random.pick(&[0, 1, 2, 20, 300, 4095, 4096, 4097]);
        let message = lent(&random.bytes(length));
        let room = random.pick(&[0, 1, 14, 300, 4096, 5000]);
        let buffer0 = random.bytes(room);
        let mut buffer = lent(&buffer0);
        let rows = reader_rows(random, &model);
        let row = lent(&any_row(random, &rows));
        let (index, call) = (random.below(11) as u8, drawn_call(random, &model));
        let wake = if random.chance(70) { random.uid() } else { random.bytes(7) };
        let uid = lent(&wake);

        let (s, n) = if short { (cut.as_mut_ptr(), cut.len()) } else { (state.as_mut_ptr(), STATE) };
        let (o, k) = (out.as_mut_ptr(), out.len());
        let got = unsafe {
            match call {
                0 => lac_reader_select(s, n, o, k),
                1 => lac_reader_sweep(s, n, o, k),
                2 => lac_reader_wake(s, n, uid.as_ptr(), uid.len(), o, k),
                3 => lac_reader_rats(s, n, index, o, k),
                4 => lac_reader_send(s, n, message.as_ptr(), message.len(), o, k),
                5 => lac_reader_deselect(s, n, o, k),
                _ => lac_reader_hear(s, n, row.as_ptr(), row.len(), message.as_ptr(), message.len(), buffer.as_mut_ptr(), buffer.len(), o, k),
            }
        };

        let mut next = model.clone();
        let mut told = buffer0.clone();
        let linked = matches!(model.phase, Phase::Linked(_));
        let answer = match call {
            0 => next.select(),
            1 => next.sweep(),
            2 => next.wake(&uid),
            3 => next.rats(index),
            4 => next.send(&message),
            5 => next.deselect(),
            _ => next.hear(&row, &message, &mut told),
        };
        let (wanted, stays) = if short {
            (refused(refusal::ROOM), true)
        } else if answer == Answer::Refused(refusal::NOT_DUE) {
            (refused(refusal::NOT_DUE), true)
        } else if out_length < ROW {
            (refused(refusal::ROOM), true)
        } else {
            match answer.clone() {
                Answer::Send(row) => (wants(row, 0, 0), false),
                Answer::Found { uid, sak, frame } => {
                    known = Known { uid, sak };
                    (wants(frame, 1, 0), false)
                }
                Answer::Selected { uid, sak } => {
                    known = Known { uid, sak };
                    (wants(Row::new(), 2, 0), false)
                }
                Answer::Finished => (wants(Row::new(), if linked { 7 } else { 3 }, 0), false),
                Answer::Open(size) => (wants(Row::new(), 4, states::index_of(size) as usize), false),
                Answer::Answered(bytes) => (wants(Row::new(), 5, bytes.len()), false),
                Answer::Refused(r) => (refused(r), next == model),
            }
        };
        if stays {
            told = buffer0.clone();
        } else {
            model = next;
        }
        assert_eq!(buffer[..], told[..], "reader call {call}: buffer");
        assert_eq!(cut[..], before[..cut.len()], "reader call {call}: too short a state was written");
        let kept = reader_bytes(&model, &known.uid, known.sak, random);
        hold(&format!("reader call {call} in {}", model.phase_name()), got, &wanted, &before, &state, stays, &kept, &out0, &out);
        if matches!(answer, Answer::Found { .. } | Answer::Selected { .. }) && !stays {
            let mut uid = lent(&[0; 10]);
            unsafe {
                let n = lac_uid(state.as_ptr(), STATE, uid.as_mut_ptr(), 10) as usize;
                assert_eq!(uid[..n], known.uid[..]);
                assert_eq!(lac_reader_sak(state.as_ptr(), STATE), known.sak);
            }
        }
    }
}
