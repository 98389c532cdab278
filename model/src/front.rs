//! T-01, "Raw energies from the new front end": rows of half-bit energies as received rows. Numbers are IEEE 754 patterns of 32 bits; all that is
//! computed with them here is computed in whole numbers, exactly, and no floating-point operation is used.

use crate::coverage::note;
use crate::frames::COLLIDED;
use crate::refusal::{self, Refusal};
use std::cmp::Ordering;

#[derive(Clone, Copy)]
pub enum Gate {
    Level(u32),
    Share(u32),
    Off,
}

#[derive(Clone, Copy)]
pub struct Profile {
    pub floor: u32,
    pub peak: u32,
    pub gate: Gate,
}

/// A number that is not below zero: m times 2 to the e.
#[derive(Clone, Copy, Debug)]
pub struct Exact {
    m: u64,
    e: i32,
}

/// The least numbers differ by 2 to the -149, and a number has 24 binary digits.
const LEAST: i32 = -149;
const DIGITS: i32 = 24;

impl Exact {
    pub fn is_zero(self) -> bool {
        self.m == 0
    }

    /// One more than the exponent of the leading digit.
    fn top(self) -> i32 {
        64 - self.m.leading_zeros() as i32 + self.e
    }

    pub fn compare(self, other: Exact) -> Ordering {
        if self.is_zero() || other.is_zero() {
            return self.m.cmp(&other.m);
        }
        // Of numbers whose leading digits stand in one place, the exponents differ by less than their digits.
        self.top().cmp(&other.top()).then_with(|| {
            let least = self.e.min(other.e);
            (u128::from(self.m) << (self.e - least)).cmp(&(u128::from(other.m) << (other.e - least)))
        })
    }

    /// "A share times the profile's peak is rounded once": the product, and of the two numbers of the format next to it the nearer; midway, the
    /// one whose last digit is 0.
    pub fn product(self, other: Exact) -> Exact {
        let whole = Exact { m: self.m * other.m, e: self.e + other.e };
        if whole.is_zero() {
            return whole;
        }
        let last = LEAST.max(whole.top() - DIGITS);
        let dropped = last - whole.e;
        if dropped <= 0 {
            return whole;
        }
        // The product has at most 48 digits.
        let (kept, rest, half) = match dropped {
            1..=63 => (whole.m >> dropped, whole.m & ((1 << dropped) - 1), 1 << (dropped - 1)),
            _ => (0, 0, 1),
        };
        let up = match rest.cmp(&half) {
            Ordering::Less => 0,
            Ordering::Equal => kept % 2,
            Ordering::Greater => 1,
        };
        Exact { m: kept + up, e: last }
    }

    fn is_subnormal(self) -> bool {
        !self.is_zero() && self.top() <= LEAST + DIGITS - 1
    }
}

/// A pattern, taken apart. `Err` names what "is 13".
pub fn exact(pattern: u32) -> Result<Exact, &'static str> {
    let is_negative = pattern >> 31 == 1;
    let field = (pattern >> 23) as i32 & 0xFF;
    let digits = u64::from(pattern & 0x7F_FFFF);
    match field {
        0xFF if digits != 0 => Err("NaN"),
        0xFF if is_negative => Err("minus infinity"),
        0xFF => Err("infinity"),
        // "a number below zero (minus zero is zero)"
        _ if is_negative && (field != 0 || digits != 0) => Err("below zero"),
        0 => Ok(Exact { m: digits, e: LEAST }),
        _ => Ok(Exact { m: digits + 0x80_0000, e: LEAST + field - 1 }),
    }
}

const ONE: Exact = Exact { m: 1, e: 0 };

fn tested(pattern: u32, place: &str) -> Result<Exact, Refusal> {
    match exact(pattern) {
        Ok(number) => {
            if pattern == 0x8000_0000 {
                note("front number", place, "minus zero");
            }
            Ok(number)
        }
        Err(what) => {
            note("front number", place, what);
            Err(refusal::ENERGY)
        }
    }
}

/// The level that the gate comes to; none where it is off.
fn level(gate: Gate, peak: Exact) -> Result<Option<Exact>, Refusal> {
    let (name, level) = match gate {
        Gate::Off => return Ok(None),
        Gate::Level(level) => ("level", tested(level, "level")?),
        Gate::Share(share) => {
            let share = tested(share, "share")?;
            // "a share not above 0 and at most 1"
            if share.is_zero() {
                note("front gate", "share", "0");
                return Err(refusal::ENERGY);
            }
            match share.compare(ONE) {
                Ordering::Greater => {
                    note("front gate", "share", "over 1");
                    return Err(refusal::ENERGY);
                }
                Ordering::Equal => note("front gate", "share", "1"),
                Ordering::Less => note("front gate", "share", "under 1"),
            }
            ("product", share.product(peak))
        }
    };
    // "or a level that comes out 0"
    if level.is_zero() {
        note("front gate", name, if peak.is_zero() { "0, peak 0" } else { "0, peak above 0" });
        return Err(refusal::ENERGY);
    }
    note("front gate", name, if level.is_subnormal() { "subnormal" } else { "normal" });
    Ok(Some(level))
}

/// "A half is loaded when its energy is at least the level and above the floor."
fn is_loaded(energy: Exact, level: Exact, floor: Exact) -> bool {
    let name = |order| match order {
        Ordering::Less => "below",
        Ordering::Equal => "at",
        Ordering::Greater => "above",
    };
    let (to_level, to_floor) = (energy.compare(level), energy.compare(floor));
    note("front half", &format!("{} the level", name(to_level)), &format!("{} the floor", name(to_floor)));
    to_level != Ordering::Less && to_floor == Ordering::Greater
}

/// The row of the energies, at the front of the places; how many bits it has.
pub fn receive(profile: Profile, halves: &[u32], places: &mut [u8]) -> Result<usize, Refusal> {
    // "It asks for a place per whole bit handed in"
    let bits = halves.len() / 2;
    if places.len() < bits {
        note("front room", "too small", if halves.len() % 2 == 0 { "whole bits" } else { "a lone half" });
        return Err(refusal::ROOM);
    }
    note("front room", if places.len() == bits { "just enough" } else { "more" }, "taken");
    // "A lone last half is 13."
    if halves.len() % 2 != 0 {
        note("front count", "odd", "13");
        return Err(refusal::ENERGY);
    }
    let floor = tested(profile.floor, "floor")?;
    let peak = tested(profile.peak, "peak")?;
    let level = level(profile.gate, peak)?;
    let row = match level {
        None => {
            note("front gate", "off", "silence");
            Vec::new()
        }
        Some(level) => row(halves, level, floor),
    };
    // "Halves after the end are tested for 13 and otherwise ignored."
    for (index, &half) in halves.iter().enumerate() {
        tested(half, if index / 2 > row.len() { "half behind the end" } else { "half" })?;
    }
    note("front row", "length", &row.len().to_string());
    places[..row.len()].copy_from_slice(&row);
    Ok(row.len())
}

/// "Only the first half loaded is a 1, only the second a 0, both a collision, neither the end." A half that is no energy ends the row here; what
/// comes of it is 13 in any case.
fn row(halves: &[u32], level: Exact, floor: Exact) -> Vec<u8> {
    let mut row = Vec::new();
    for bit in halves.chunks(2) {
        let (Ok(first), Ok(second)) = (exact(bit[0]), exact(bit[1])) else {
            break;
        };
        let (name, value) = match (is_loaded(first, level, floor), is_loaded(second, level, floor)) {
            (true, false) => ("1", 1),
            (false, true) => ("0", 0),
            (true, true) => ("x", COLLIDED),
            (false, false) => {
                note("front bit", "the end", if row.is_empty() { "first" } else { "later" });
                break;
            }
        };
        note("front bit", name, "heard");
        row.push(value);
    }
    row
}

#[cfg(test)]
mod tests {
    use super::*;

    fn number(pattern: u32) -> Exact {
        exact(pattern).unwrap()
    }

    /// The pattern of an exact number of the format.
    fn pattern(x: Exact) -> u32 {
        if x.is_zero() {
            return 0;
        }
        let mut x = x;
        while x.e > LEAST && x.m < 0x80_0000 {
            x = Exact { m: x.m * 2, e: x.e - 1 };
        }
        while x.e < LEAST || x.m > 0xFF_FFFF {
            assert_eq!(x.m % 2, 0);
            x = Exact { m: x.m / 2, e: x.e + 1 };
        }
        if x.m < 0x80_0000 {
            x.m as u32
        } else {
            (((x.e - LEAST + 1) as u32) << 23) + (x.m as u32 - 0x80_0000)
        }
    }

    /// The machine is asked what it makes of it; the model itself never asks it.
    #[test]
    fn as_the_machine_multiplies_and_compares() {
        let mut random = crate::random::Random::new(1);
        for round in 0..400_000 {
            let mut draw = || {
                let field = if round % 2 == 0 { random.below(255) } else { random.pick(&[0, 0, 1, 2, 23, 24, 63, 64, 126, 127]) };
                let any = random.below(0x80_0000) as u32;
                ((field as u32) << 23) + random.pick(&[0, 1, 2, 3, 0x40_0000, 0x7F_FFFF, any])
            };
            let (a, b) = (draw(), draw());
            let (x, y) = (f32::from_bits(a), f32::from_bits(b));
            assert_eq!(number(a).compare(number(b)), x.partial_cmp(&y).unwrap());
            if x <= 1.0 {
                assert_eq!(pattern(number(a).product(number(b))), (x * y).to_bits(), "{a:08X} {b:08X}");
            }
        }
    }

    #[test]
    fn corners() {
        assert!(exact(0x7FC0_0000).is_err() && exact(0x7F80_0001).is_err() && exact(0xFFFF_FFFF).is_err());
        assert!(exact(0x7F80_0000).is_err() && exact(0xFF80_0000).is_err());
        assert!(exact(0x8000_0001).is_err() && exact(0xBF80_0000).is_err());
        assert!(number(0x8000_0000).is_zero());
        assert_eq!(number(0x3F80_0000).compare(ONE), Ordering::Equal);
        // Half of the least number is 0, and a little more than half is that number.
        assert!(number(0x3F00_0000).product(number(1)).is_zero());
        assert_eq!(number(0x3F00_0001).product(number(1)).m, 1);
        assert!(number(1).product(number(1)).is_zero());
    }
}
