//! The programs `bench_front`, energies turned into received rows, and `vectors_front`, in which the reader hears these rows.

use crate::bench_reader::result;
use crate::front::{receive, Gate, Profile};
use crate::coverage::note;
use crate::delay::{frame_said, judge_row};
use crate::language::{read_hex, read_number, read_row, read_tick, show_row, Program};
use crate::reader::Reader;

/// The most places that a room has.
const MOST_PLACES: usize = 4096;

/// A place in which nothing was written yet.
const UNWRITTEN: u8 = 0xFF;

/// At the start floor and peak are 0 and the gate is off.
const START: Profile = Profile { floor: 0, peak: 0, gate: Gate::Off };

/// Numbers of eight digits each, one behind the other; `-` for none.
fn read_numbers(word: &str) -> Option<Vec<u32>> {
    let bytes = read_hex(word)?;
    if bytes.len() % 4 != 0 {
        return None;
    }
    Some(bytes.chunks(4).map(|four| u32::from_be_bytes([four[0], four[1], four[2], four[3]])).collect())
}

fn read_one(word: &str) -> Option<u32> {
    match read_numbers(word)?[..] {
        [number] => Some(number),
        _ => None,
    }
}

/// The lines that set a profile. Nothing is tested.
fn profile_line(profile: &mut Profile, words: &[&str]) -> Option<Vec<String>> {
    match *words {
        ["floor", number] => profile.floor = read_one(number)?,
        ["peak", number] => profile.peak = read_one(number)?,
        ["gate", "off"] => profile.gate = Gate::Off,
        ["gate", "level", number] => profile.gate = Gate::Level(read_one(number)?),
        ["gate", "share", number] => profile.gate = Gate::Share(read_one(number)?),
        _ => return None,
    }
    Some(vec!["ok".to_string()])
}

/// What the judge said, for the counts.
fn how(judged: Result<i64, u8>) -> &'static str {
    match judged {
        Err(_) => "refused",
        Ok(off) if off < 0 => "early",
        Ok(0) => "on time",
        Ok(_) => "late",
    }
}

pub struct BenchFront {
    profile: Profile,
    places: Vec<u8>,
}

impl BenchFront {
    pub fn new() -> BenchFront {
        BenchFront { profile: START, places: vec![UNWRITTEN; MOST_PLACES] }
    }

    fn shown(&self) -> String {
        if self.places.is_empty() {
            return "-".to_string();
        }
        let sign = |&place: &u8| match place {
            0 => '0',
            1 => '1',
            UNWRITTEN => '.',
            _ => 'x',
        };
        self.places.iter().map(sign).collect()
    }
}

impl Program for BenchFront {
    fn words(&mut self, words: &[&str]) -> Option<Vec<String>> {
        let answer = match *words {
            ["room", room] => {
                let room = read_number(room, MOST_PLACES)?;
                self.places = vec![UNWRITTEN; room];
                format!("room {room}")
            }
            ["halves", halves] => match receive(self.profile, &read_numbers(halves)?, &mut self.places) {
                Ok(bits) => format!("row {}", show_row(&self.places[..bits])),
                Err(number) => format!("refused {number}"),
            },
            ["places"] => format!("places {}", self.shown()),
            ["delay", row, sent, heard] => {
                let row = read_row(row)?;
                let (sent, heard) = (read_tick(sent)?, read_tick(heard)?);
                let judged = judge_row(&row, sent, heard);
                note("front delay", &frame_said(&row), how(judged));
                match judged {
                    Ok(off) => format!("off {off}"),
                    Err(number) => format!("refused {number}"),
                }
            }
            _ => return profile_line(&mut self.profile, words),
        };
        Some(vec![answer])
    }
}

pub struct VectorsFront {
    profile: Profile,
    reader: Reader,
}

impl VectorsFront {
    pub fn new() -> VectorsFront {
        VectorsFront { profile: START, reader: Reader::new() }
    }
}

impl Program for VectorsFront {
    fn words(&mut self, words: &[&str]) -> Option<Vec<String>> {
        let answer = match *words {
            ["new"] => {
                self.reader = Reader::new();
                return Some(vec!["new".to_string()]);
            }
            ["select"] => self.reader.select(),
            ["sweep"] => self.reader.sweep(),
            ["halves", halves] => {
                let mut row = [0; MOST_PLACES];
                match receive(self.profile, &read_numbers(halves)?, &mut row) {
                    Ok(bits) => self.reader.hear(&row[..bits], &[], &mut []),
                    Err(number) => return Some(vec![format!("refused {number}")]),
                }
            }
            _ => return profile_line(&mut self.profile, words),
        };
        Some(vec![result(answer)])
    }
}

#[cfg(test)]
mod tests {
    use super::*;
    use crate::language::Script;

    #[test]
    fn one_row() {
        let mut script = Script::new(BenchFront::new());
        assert_eq!(script.say("floor 3DCCCCCD"), "ok");
        assert_eq!(script.say("peak 40800000"), "ok");
        assert_eq!(script.say("gate share 3E800000"), "ok");
        assert_eq!(script.say("room 6"), "room 6");
        let halves = "halves 40800000000000003DCCCCCD3F8000003F8000003F80000000000000000000004080000000000000";
        assert_eq!(script.say(halves), "row 10x");
        assert_eq!(script.say("places"), "places 10x...");
        assert_eq!(script.say("halves 40800000000000007FC0000000000000"), "refused 13");
        assert_eq!(script.say("halves 408000000000000040800000"), "refused 13");
        assert_eq!(script.say("places"), "places 10x...");
        assert_eq!(script.say("gate level 80000000"), "ok");
        assert_eq!(script.say("halves -"), "refused 13");
        assert_eq!(script.say("gate off"), "ok");
        assert_eq!(script.say("halves 4080000000000000"), "row -");
        assert_eq!(script.say("room 0"), "room 0");
        assert_eq!(script.say("halves 7FC0000000000000"), "refused 1");
        assert_eq!(script.say("places"), "places -");
        assert_eq!(script.say("delay 0110010 0"), "line 17: not understood");
        assert_eq!(script.say("delay 110010010000001000 1000 2100"), "off -72");
    }
}
