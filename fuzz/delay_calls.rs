//! The judge of delay (T-09).
use crate::c::*;
use crate::delay::judge_row;
use crate::frames::{self, Row};
use crate::random::Random;
use crate::rows::{bytes_of, likely_rows};
use crate::tally;

/// A frame of any kind, whole or damaged, or no frame.
fn frame(random: &mut Random) -> Row {
    let level = 1 + random.below(3);
    let bytes: [u8; 5] = random.bytes(5).try_into().expect("as many as drawn");
    let mut row = match random.below(12) {
        0 => Row::new(),
        1 => frames::short(random.pick(&[frames::REQA, frames::WUPA])),
        2 => frames::short(random.byte()),
        3..=5 => frames::anticollision(level, &frames::bits_of(&bytes)[..random.below(40)]),
        6 | 7 => frames::select(level, &bytes),
        8 => not_quite(random, level, &bytes),
        9 => {
            let n = random.below(40);
            (0..n).map(|_| random.below(2) as u8).collect()
        }
        10 => frames::standard_with_crc(&bytes_of(random, &[1, 2, 7, 20, 254])),
        _ => {
            let rows = likely_rows(random);
            random.pick(&rows)
        }
    };
    if random.chance(15) && !row.is_empty() {
        let at = random.below(row.len());
        row[at] = random.pick(&[0, 1, 2, 255]);
    }
    if random.chance(5) {
        row.pop();
    }
    if random.chance(5) {
        row.push(random.below(3) as u8);
    }
    row
}

/// Nearly ANTICOLLISION or SELECT: another SEL, another NVB, no CRC_A or a wrong one.
fn not_quite(random: &mut Random, level: usize, bytes: &[u8; 5]) -> Row {
    let sel = frames::sel(level);
    let any = random.byte();
    match random.below(6) {
        0 => frames::standard(&[any, 0x20]),
        1 => frames::standard(&[sel, any]),
        2 => frames::standard(&[&[sel, 0x70][..], bytes].concat()),
        3 => frames::standard_with_crc(&[&[sel, any][..], bytes].concat()),
        4 => frames::standard(&[&[sel, 0x70][..], bytes, &random.bytes(2)].concat()),
        _ => {
            // NVB tells of more or fewer bits than follow.
            let mut row = frames::standard(&[sel, frames::nvb(random.below(40))]);
            row.extend(frames::bits_of(&bytes[..random.below(3)]));
            row
        }
    }
}

/// A delay near one that is due, near the limit, or any.
fn delay(random: &mut Random) -> u32 {
    let add = random.below(140) as u32;
    match random.below(10) {
        0 => random.word(),
        1 => (1u32 << 31) - 70 + add,
        2 => add,
        3 | 4 => 9 * 128 - 50 + add,
        5 => (random.word() >> 8) * 128 + 20 - 10 + add % 20,
        _ => (8 + random.below(40) as u32) * 128 + random.pick(&[20, 84]) - 70 + add,
    }
}

pub fn delay_call(random: &mut Random) {
    let row = lent(&frame(random));
    let sent = if random.chance(20) { u32::MAX - random.below(3000) as u32 } else { random.word() };
    let heard = sent.wrapping_add(delay(random));
    let got = unsafe { lac_delay(row.as_ptr(), row.len(), sent, heard) };
    let wanted = judge_row(&row, sent, heard);
    tally::note(wanted.map_or_else(|number| -(number as i64), |_| 0));
    assert_eq!(got, wanted.unwrap_or(i64::MIN), "row {row:?}, sent {sent}, heard {heard}");
}
