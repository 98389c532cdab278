//! The front end's energies as a received row (T-01). The model takes patterns of 32 bits, the library the numbers that they are.
use crate::c::*;
use crate::front::{receive, Gate, Profile};
use crate::random::Random;
use crate::refusal;
use crate::rows::bytes_of;
use crate::tally;

/// Patterns that are no energy: NaNs, infinities, numbers below zero.
const NONE: [u32; 12] = [
    0x7FC0_0000, 0x7F80_0001, 0x7FFF_FFFF, 0xFFC0_0000, 0xFF80_0001, 0xFFFF_FFFF, 0x7F80_0000, 0xFF80_0000, 0x8000_0001, 0x807F_FFFF, 0xBF80_0000, 0xFF7F_FFFF,
];

/// The ends of the format: zeros, the least and the largest subnormal number, the least and the largest normal one, 1 and its neighbours.
const ENDS: [u32; 10] = [0, 0x8000_0000, 1, 2, 0x007F_FFFF, 0x0080_0000, 0x7F7F_FFFF, 0x3F80_0000, 0x3F7F_FFFF, 0x3F80_0001];

/// Any energy, in one of these spans of the format.
fn energy(random: &mut Random) -> u32 {
    let digits = random.below(0x80_0000) as u32;
    let exponent = match random.below(4) {
        0 => 0,
        1 => random.below(255),
        _ => 120 + random.below(14),
    };
    if random.chance(15) {
        random.pick(&ENDS)
    } else {
        (exponent as u32) << 23 | digits
    }
}

/// Patterns next to each other are numbers next to each other.
fn near(random: &mut Random, pattern: u32) -> u32 {
    (pattern & 0x7FFF_FFFF).saturating_add_signed(random.pick(&[-2, -1, 0, 0, 1, 2])).min(0x7F7F_FFFF)
}

struct Drawn {
    gate: u8,
    value: u32,
    floor: u32,
    peak: u32,
    halves: Vec<u32>,
}

fn drawn(random: &mut Random) -> Drawn {
    let gate = if random.chance(92) { random.pick(&[1, 2]) } else { random.pick(&[0, 0, 3, 4, 255]) };
    let (mut floor, mut peak) = (if random.chance(60) { 0 } else { energy(random) }, energy(random));
    let mut value = match gate {
        0 if random.chance(50) => random.pick(&NONE),
        2 if random.chance(90) => 0x3F80_0000 - random.pick(&[0, 1, 0x80_0000, 0x100_0000, 0x60_0000, 0x2000_0000]),
        _ => energy(random),
    };
    // What the gate comes to, as near as this program needs it to draw by.
    let level = if gate == 2 { (f32::from_bits(value) * f32::from_bits(peak)).to_bits() } else { value };
    if random.chance(30) {
        floor = near(random, level);
    }
    let count = if random.chance(2) { 4608 } else { 2 * random.below(24) };
    let mut halves: Vec<u32> = (0..count).map(|_| half(random, level, floor)).collect();
    if random.chance(60) {
        lengthen(random, &mut halves, level.max(floor));
    }
    if random.chance(4) {
        halves.push(energy(random));
    }
    if random.chance(10) {
        let bad = random.pick(&NONE);
        match random.below(6) {
            0 => floor = bad,
            1 => peak = bad,
            2 => value = bad,
            _ if halves.is_empty() => {}
            _ => {
                let at = random.below(halves.len());
                halves[at] = bad;
            }
        }
    }
    Drawn { gate, value, floor, peak, halves }
}

/// A half: at the level, at the floor, at zero, or any.
fn half(random: &mut Random, level: u32, floor: u32) -> u32 {
    match random.below(8) {
        0..=3 => near(random, level),
        4 => near(random, floor),
        5 => random.pick(&[0, 0x8000_0000]),
        6 => near(random, level.max(floor)),
        _ => energy(random),
    }
}

/// Most bits get a half that is loaded, so that the row does not end at once.
fn lengthen(random: &mut Random, halves: &mut [u32], over: u32) {
    for bit in halves.chunks_mut(2) {
        if random.chance(90) {
            bit[random.below(2)] = (over & 0x7FFF_FFFF).saturating_add(1).min(0x7F7F_FFFF);
        }
    }
}

pub fn front_call(random: &mut Random) {
    let d = drawn(random);
    let bits = d.halves.len() / 2;
    let out0 = bytes_of(random, &[bits, bits, bits, bits + 1, bits + 9, bits.saturating_sub(1), 0]);
    let mut out = lent(&out0);
    let halves: Box<[f32]> = d.halves.iter().map(|&pattern| f32::from_bits(pattern)).collect();
    let [value, floor, peak] = [d.value, d.floor, d.peak].map(f32::from_bits);
    let got = unsafe { lac_front(d.gate, value, floor, peak, halves.as_ptr(), halves.len(), out.as_mut_ptr(), out.len()) };
    tally::note(got);

    let gate = match d.gate {
        0 => Ok(Gate::Off),
        1 => Ok(Gate::Level(d.value)),
        2 => Ok(Gate::Share(d.value)),
        _ => Err(refusal::ARGUMENT),
    };
    let mut places = out0.clone();
    let heard = gate.and_then(|gate| receive(Profile { floor: d.floor, peak: d.peak, gate }, &d.halves, &mut places));
    let number = heard.map_or_else(|r| -(r.number as i64), |bits| bits as i64);
    let what = format!("gate {}, value {:08X}, floor {:08X}, peak {:08X}, halves {:08X?}", d.gate, d.value, d.floor, d.peak, d.halves);
    assert_eq!(got, number, "{what}");
    assert_eq!(out[..], places[..], "{what}");
}
