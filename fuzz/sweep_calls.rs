//! Both sweeps over a row of cards' states.
use crate::c::*;
use crate::field::Field;
use crate::random::Random;
use crate::refusal;
use crate::states::{put, reader_bytes, KEPT, STATE};
use crate::sweep;
use crate::tally;
use crate::wake_calls::new_reader;

pub fn sweep_call(random: &mut Random) {
    let field = Field::draw(random);
    let remember = random.chance(50);
    let (mut model, before) = new_reader(random);
    let (mut state, mut row) = (lent(&before), lent(&field.row));
    let log_room = sweep::LOG_ROOM - 1 + random.pick(&[1, 1, 1, 1, 1, 1, 1, 6, 0]);
    let list_room = sweep::LIST_ROOM - 1 + random.pick(&[1, 1, 1, 1, 1, 1, 1, 49, 0]);
    let (log0, list0) = (vec![0xA5; log_room], vec![0x5A; list_room]);
    let (mut log, mut list) = (lent(&log0), lent(&list0));
    let tick = random.word();
    let call = if remember { lac_sweep_remember } else { lac_sweep };
    let (s, c) = ((state.as_mut_ptr(), state.len()), (row.as_mut_ptr(), row.len()));
    let got = unsafe { call(s.0, s.1, c.0, c.1, field.n, tick, log.as_mut_ptr(), log.len(), list.as_mut_ptr(), list.len()) };
    tally::note(got);

    let mut cards = field.cards.clone();
    let run = if remember { sweep::remember } else { sweep::sweep };
    let is_short = before.len() < STATE || field.is_short();
    let swept = if is_short { Err(refusal::ROOM) } else { run(&mut model, tick, &mut cards, log_room, list_room) };
    let what = format!("sweep of {}", field.cards.len());
    match swept {
        Err(r) => {
            assert_eq!(got, -(r.number as i64), "{what}");
            assert!(state[..] == before[..] && row[..] == field.row[..] && log[..] == log0[..] && list[..] == list0[..], "a refused sweep wrote");
        }
        Ok(swept) => {
            assert_eq!(got, swept.found.len() as i64, "{what}");
            assert_eq!(log[..swept.log.len()], swept.log[..], "{what}");
            assert_eq!(log[swept.log.len()..], log0[swept.log.len()..], "{what}");
            assert_eq!(list[..swept.list.len()], swept.list[..], "{what}");
            assert_eq!(list[swept.list.len()..], list0[swept.list.len()..], "{what}");
            field.hold(&what, &row, &cards, random);
            let mut after = before.clone();
            put(&mut after, 0, &reader_bytes(&model, &[], 0, random)[..21]);
            put(&mut after, KEPT, &[3]);
            put(&mut after, KEPT + 1, &(swept.log.len() as u64).to_le_bytes());
            put(&mut after, KEPT + 9, &(swept.frames() as u64).to_le_bytes());
            assert_eq!(state[..], after[..], "{what}: the reader");
            unsafe {
                assert_eq!(lac_event(state.as_ptr(), state.len()), 3);
                assert_eq!(lac_length(state.as_ptr(), state.len()), swept.log.len() as u64);
                assert_eq!(lac_frames(state.as_ptr(), state.len()), swept.frames() as u64);
            }
        }
    }
}
