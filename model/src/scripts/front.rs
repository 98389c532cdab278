//! The scripts of `bench_front` and `vectors_front`.

use crate::bench_front::{BenchFront, VectorsFront};
use crate::card::Card;
use crate::frames::{self, Row};
use crate::language::{hex, read_row, show_row, Script};
use crate::random::Random;
use crate::sweep::field_takes;

type S = Script<BenchFront>;

/// Patterns by name.
const ZERO: u32 = 0;
const MINUS_ZERO: u32 = 0x8000_0000;
const LEAST: u32 = 1;
const ONE: u32 = 0x3F80_0000;
const TWO: u32 = 0x4000_0000;
const LARGEST: u32 = 0x7F7F_FFFF;

/// No energies: NaNs of both signs, quiet and not, by their first and last patterns; the infinities; numbers below zero, the least and the largest too.
const WRONG: [u32; 12] = [
    0x7FC0_0000,
    0x7F80_0001,
    0x7FFF_FFFF,
    0xFF80_0001,
    0xFFC0_0000,
    0xFFFF_FFFF,
    0x7F80_0000,
    0xFF80_0000,
    0x8000_0001,
    0x807F_FFFF,
    0xBF80_0000,
    0xFF7F_FFFF,
];

/// Energies at the ends of the format's ranges.
const GOOD: [u32; 8] = [ZERO, MINUS_ZERO, LEAST, 0x007F_FFFF, 0x0080_0000, 0x3F7F_FFFF, ONE, LARGEST];

fn numbers(halves: &[u32]) -> String {
    if halves.is_empty() {
        return "-".to_string();
    }
    halves.iter().map(|half| format!("{half:08X}")).collect()
}

fn halves_line(halves: &[u32]) -> String {
    format!("halves {}", numbers(halves))
}

/// The halves of a row: loaded ones drawn from the one list, the others from the other.
fn halves_of(random: &mut Random, row: &[u8], loaded: &[u32], unloaded: &[u32]) -> Vec<u32> {
    let mut halves = Vec::new();
    for &bit in row {
        halves.push(random.pick(if bit == 0 { unloaded } else { loaded }));
        halves.push(random.pick(if bit == 1 { unloaded } else { loaded }));
    }
    halves
}

fn profile(s: &mut S, floor: u32, peak: u32, gate: &str) {
    s.say(&format!("floor {floor:08X}"));
    s.say(&format!("peak {peak:08X}"));
    s.say(&format!("gate {gate}"));
}

pub fn script(seed: u64) -> S {
    let mut s = Script::new(BenchFront::new());
    let mut random = Random::new(seed);
    language(&mut s);
    numbers_refused(&mut s);
    shares(&mut s);
    levels(&mut s);
    halves_at_the_bounds(&mut s);
    rooms(&mut s, &mut random);
    every_length(&mut s, &mut random);
    every_end(&mut s, &mut random);
    s.remark("random rows");
    for _ in 0..80 {
        random_row(&mut s, &mut random);
    }
    s.remark("random numbers");
    for _ in 0..160 {
        random_numbers(&mut s, &mut random);
    }
    longest(&mut s);
    delays(&mut s, &mut random);
    s
}

/// T-09: frames of each kind, after a 0 and after a 1.
fn judged_rows() -> Vec<Row> {
    let mut rows = vec![frames::short(0x26), frames::short(0x52), frames::short(0x27), frames::short(0x66), Row::new(), frames::hlta(), vec![1], vec![0], vec![2], vec![1, 2]];
    for k in [0, 1, 2, 7, 8, 9, 15, 16, 31, 32] {
        rows.push(frames::anticollision(1, &frames::bits_of(&[0xA5, 0x5A, 0xFF, 0x80, 0x80])[..k]));
    }
    for (l, bytes) in [(1, [1, 2, 3, 4, 4]), (2, [0x80, 0x12, 0x28, 0x21, 0x9B]), (3, [1, 2, 3, 4, 5])] {
        rows.push(frames::anticollision(l, &[]));
        rows.push(frames::select(l, &bytes));
    }
    // The last data bit is the last of CRC_A.
    rows.extend((0..=255).map(|b| frames::select(1, &[b, 2, 3, 4, 4])).find(|row| row[79] == 1));
    rows
}

/// T-09: the judge of delay: both sides of every tie, wrapping ticks, the least and the greatest delay, damaged frames, the empty row.
fn delays(s: &mut S, random: &mut Random) {
    s.remark("delays: the examples");
    for (line, answer) in [
        ("delay 0110010 0 1172", "off 0"),
        ("delay 0110010 4294967295 1299", "off 128"),
        ("delay 110010010000001000 1000 2100", "off -72"),
        ("delay 000010101000000001111010100101100110 0 1301", "off -63"),
        ("delay 0110010 5 4", "refused 14"),
    ] {
        assert_eq!(s.say(line), answer);
    }
    let judge = |s: &mut S, row: &[u8], sent: u32, delay: u32| s.say(&format!("delay {} {sent} {}", show_row(row), sent.wrapping_add(delay)));
    s.remark("each kind of frame: nothing, the due delays, both ends of what is judged");
    for row in judged_rows() {
        for delay in [0, 1172, 1236, 2_147_483_647, 2_147_483_648, u32::MAX] {
            judge(s, &row, 4_294_967_200, delay);
        }
    }
    s.remark("both sides of each tie, for n = 9, 10 and a large n, before the first point too");
    for row in [vec![], frames::hlta()] {
        let place = if row.is_empty() { 20 } else { 84 };
        for n in [8u32, 9, 10, 16_000_000, 16_777_214] {
            for add in [0, 1, 63, 64, 65, 127] {
                judge(s, &row, random.word(), n * 128 + place + add);
            }
        }
    }
    s.remark("a damaged frame is an other one: each bit of a SELECT and of an ANTICOLLISION turned, and collided");
    for good in [frames::select(1, &[1, 2, 3, 4, 4]), frames::anticollision(2, &[1, 0, 1])] {
        for place in 0..good.len() {
            for bit in [1 - good[place], 2] {
                let mut row = good.clone();
                row[place] = bit;
                judge(s, &row, 0, 1300);
            }
        }
    }
    s.remark("lines that are not understood");
    for line in ["delay", "delay 0110010", "delay 0110010 0", "delay 0110010 0 1 2", "delay 0110012 0 1", "delay 0110010 0 4294967296", "delay 0110010 4294967296 0", "delay 0110010 -1 0", "delay 0110010 0 00000000001", "delays 0110010 0 1"] {
        s.say(line);
    }
    s.say("delay 0110010 0000000000 0000001173");
    s.remark("random delays");
    for _ in 0..120 {
        let mut row = random.pick(&judged_rows());
        if random.chance(25) && !row.is_empty() {
            let place = random.below(row.len());
            row[place] = random.below(3) as u8;
        }
        let delay = match random.below(4) {
            0 => random.word(),
            1 => random.below(1400) as u32,
            2 => 128 * random.below(40) as u32 + 20,
            _ => 128 * random.below(40) as u32 + 84,
        };
        judge(s, &row, random.word(), delay);
    }
}

fn language(s: &mut S) {
    s.remark("at the start: floor and peak 0, the gate off, 4096 places");
    for line in
        ["halves -", "halves 3F80000000000000", "places", "peak 3F800000", "gate share 3f800000", "halves 3F80000000000000"]
    {
        s.say(line);
    }
    s.remark("a new room has nothing written in it");
    for line in [
        "room 3",
        "places",
        "halves 3F800000000000003F800000000000003F8000003F800000",
        "places",
        "room 3",
        "places",
        "room 0",
        "places",
    ] {
        s.say(line);
    }
    s.remark("lines that are not understood change nothing");
    s.say("room 4");
    for line in [
        "floor",
        "floor 3F80000",
        "floor 3F8000000",
        "floor 3F80000G",
        "floor -",
        "floor 3F8000003F800000",
        "floor 3F800000 3F800000",
        "peak",
        "peak 1",
        "peak 3F800000 0",
        "gate",
        "gate off off",
        "gate on",
        "gate level",
        "gate share",
        "gate level 3F80000",
        "gate level 3F800000 3F800000",
        "gate share 3F800000 3F800000",
        "gate share -",
        "gate 3F800000",
        "halves",
        "halves 3F80",
        "halves 3F8000000",
        "halves 3F800000000000",
        "halves 3F800000 00000000",
        "halves 3F80000x00000000",
        "room",
        "room 4097",
        "room x",
        "room 1 1",
        "room 000004",
        "places 4",
        "row 01",
        "delay 0110010 0 1172",
        "Halves -",
        "",
        "# halves -",
        "\r",
    ] {
        s.say(line);
    }
    s.say("places");
    s.say("halves 3f8000000000000000000000bf7fffff\r");
    s.say("  halves   3f80000000000000  ");
    s.say("places");
}

/// 13 for what is no energy, wherever it stands and whatever the gate is; the row that was there stays.
fn numbers_refused(s: &mut S) {
    s.remark("NaN, infinities and numbers below zero in every place; minus zero and the ends of the ranges");
    s.say("room 6");
    for gate in ["off", "level 3F800000", "share 3F000000"] {
        profile(s, ZERO, TWO, gate);
        s.say(&halves_line(&[TWO, ZERO, ZERO, TWO]));
        for number in WRONG.iter().chain(&GOOD) {
            for place in 0..6 {
                let mut halves = [TWO, ZERO, ZERO, ZERO, ZERO, TWO];
                halves[place] = *number;
                s.say(&halves_line(&halves));
            }
            for field in ["floor", "peak"] {
                profile(s, ZERO, TWO, gate);
                s.say(&format!("{field} {number:08X}"));
                s.say("halves 4000000000000000");
                s.say("halves -");
            }
            profile(s, ZERO, TWO, gate);
        }
        s.say("places");
    }
    for gate in ["level", "share"] {
        for number in WRONG.iter().chain(&GOOD) {
            profile(s, ZERO, TWO, &format!("{gate} {number:08X}"));
            s.say("halves -");
            s.say("halves 40000000000000003F80000000000000");
        }
    }
    s.say("places");
    s.remark("two faults, and a lone half: 13 once, 1 ahead of it");
    profile(s, 0x7FC0_0000, 0xFF80_0000, "level 80000000");
    for line in [
        "halves -",
        "halves 00000000",
        "room 0",
        "halves 00000000",
        "halves 7FC0000000000000",
        "halves 7FC000000000000000000000",
        "places",
    ] {
        s.say(line);
    }
}

fn shares(s: &mut S) {
    s.remark("shares at 0 and 1; products that are 0, that are the least number, and that are rounded once");
    s.say("room 2");
    for (share, peak) in [
        (ZERO, ONE),
        (LEAST, ONE),
        (LEAST, LARGEST),
        (0x3F7F_FFFF, ONE),
        (ONE, ONE),
        (0x3F80_0001, ONE),
        (TWO, ONE),
        (LARGEST, LEAST),
        (ONE, ZERO),
        (ONE, MINUS_ZERO),
        (ONE, LEAST),
        (ONE, LARGEST),
        (0x3F00_0000, LEAST),
        (0x3F00_0001, LEAST),
        (0x3EFF_FFFF, LEAST),
        (0x3F00_0000, 2),
        (0x3F00_0000, 3),
        (0x3F00_0000, 5),
        (0x3F40_0000, LEAST),
        (0x3EAA_AAAB, 3),
        (LEAST, LEAST),
        (0x1A00_0000, 0x1A00_0000),
        (0x1A00_0000, 0x1980_0000),
        (0x1A00_0000, 0x1980_0001),
        (0x1A00_0000, 0x1900_0000),
        (0x3F00_0000, 0x0080_0000),
        (0x3F7F_FFFF, 0x0080_0000),
        (0x3F7F_FFFF, 0x3F7F_FFFF),
        (0x3F7F_FFFF, 0x3F80_0001),
        (0x3F40_0001, 0x3F80_0001),
        (0x3F40_0001, 0x3F80_0002),
        (0x3F40_0001, 0x3F80_0003),
        (0x3DCC_CCCD, 0x4120_0000),
        (0x3E99_999A, 0x3DCC_CCCD),
    ] {
        profile(s, ZERO, peak, &format!("share {share:08X}"));
        around(s, share, peak);
    }
}

/// Energies at the level that a share comes to, and next to it on both sides.
fn around(s: &mut S, share: u32, peak: u32) {
    // The level is the least energy that is loaded: the patterns of numbers not below zero rise with them.
    let (mut low, mut high) = (0, LARGEST);
    if s.say(&halves_line(&[LARGEST, ZERO])).starts_with("refused") {
        return;
    }
    while high - low > 1 {
        let middle = low + (high - low) / 2;
        let mut probe = Script::new(BenchFront::new());
        profile(&mut probe, ZERO, peak, &format!("share {share:08X}"));
        match probe.say(&halves_line(&[middle, ZERO])).as_str() {
            "row 1" => high = middle,
            _ => low = middle,
        }
    }
    s.say(&halves_line(&[high, low, low, high]));
    s.say(&halves_line(&[low, high]));
    s.say(&halves_line(&[low, low]));
    s.say(&halves_line(&[high, high, high + 1, low]));
}

fn levels(s: &mut S) {
    s.remark("levels: 0 and minus zero are none, the least number is one");
    s.say("room 4");
    for level in [ZERO, MINUS_ZERO, LEAST, 2, 0x007F_FFFF, 0x0080_0000, 0x3F7F_FFFF, ONE, 0x3F80_0001, LARGEST] {
        for peak in [ZERO, ONE] {
            profile(s, ZERO, peak, &format!("level {level:08X}"));
            s.say(&halves_line(&[LARGEST, level, level, level.saturating_sub(1) & 0x7FFF_FFFF]));
            s.say(&halves_line(&[ZERO, level, MINUS_ZERO, level]));
        }
    }
}

fn halves_at_the_bounds(s: &mut S) {
    s.remark("each half below, at and above the level and the floor");
    s.say("room 1");
    for (level, floor) in [
        (ONE, TWO),
        (TWO, ONE),
        (ONE, ONE),
        (LEAST, ZERO),
        (LEAST, MINUS_ZERO),
        (LEAST, LEAST),
        (LARGEST, LARGEST),
        (ONE, LARGEST),
    ] {
        profile(s, floor, ZERO, &format!("level {level:08X}"));
        let mut energies = vec![ZERO, MINUS_ZERO, LARGEST];
        for bound in [level, floor & 0x7FFF_FFFF] {
            energies.extend([bound.saturating_sub(1), bound, (bound + 1).min(LARGEST)]);
        }
        energies.push(0x3FC0_0000);
        for &first in &energies {
            for second in [ZERO, LARGEST, first] {
                s.say(&halves_line(&[first, second]));
                s.say(&halves_line(&[second, first]));
            }
        }
    }
}

fn rooms(s: &mut S, random: &mut Random) {
    s.remark("a place for each whole bit, also for those behind the end; what is behind the row stays");
    profile(s, ZERO, TWO, "share 3F000000");
    for bits in [0usize, 1, 2, 7, 18, 45, 64] {
        let row: Row = (0..bits).map(|_| random.below(3) as u8).collect();
        let mut halves = halves_of(random, &row, &[ONE, TWO, LARGEST], &[ZERO, MINUS_ZERO, 0x3F7F_FFFF]);
        for room in [bits + 1, bits, bits.saturating_sub(1)] {
            s.say(&format!("room {room}"));
            s.say(&halves_line(&halves));
            s.say("places");
            halves.push(ONE);
            s.say(&halves_line(&halves));
            halves.pop();
            s.say("halves 3F8000000000000000000000000000007FC0000000000000");
            s.say("halves 0000000000000000");
            s.say("halves 000000003F800000");
            s.say("places");
        }
        s.say("gate off");
        s.say(&halves_line(&halves));
        s.say("gate share 3F000000");
        s.say("places");
    }
}

fn every_length(s: &mut S, random: &mut Random) {
    s.remark("rows of every length to 64 bits, without an end and with one behind them");
    s.say("room 66");
    profile(s, 0x3F00_0000, ZERO, "level 3F800000");
    for bits in 0..=64 {
        let row: Row = (0..bits).map(|_| random.below(3) as u8).collect();
        let mut halves = halves_of(random, &row, &[ONE, TWO, LARGEST], &[ZERO, MINUS_ZERO, 0x3F7F_FFFF, LEAST]);
        let all = s.say(&halves_line(&halves));
        if bits % 8 < 2 {
            halves.extend([ZERO, 0x3F7F_FFFF, ONE, ONE]);
            assert_eq!(s.say(&halves_line(&halves)), all);
        }
    }
    s.say("places");
}

fn every_end(s: &mut S, random: &mut Random) {
    s.remark("the end in every place, with good and bad halves behind it and odd counts");
    s.say("room 20");
    profile(s, ZERO, LARGEST, "level 3F800000");
    for end in 0..=18 {
        let row: Row = (0..18).map(|_| random.below(3) as u8).collect();
        let mut halves = halves_of(random, &row, &[ONE, TWO], &[ZERO, 0x3F7F_FFFF]);
        if end < 18 {
            halves[2 * end] = ZERO;
            halves[2 * end + 1] = MINUS_ZERO;
        }
        s.say(&halves_line(&halves));
        s.say(&halves_line(&halves[..35]));
        for (kind, number) in WRONG.iter().enumerate().step_by(3) {
            let mut bad = halves.clone();
            let behind = 2 * end + 2;
            if behind < 36 {
                bad[behind + (kind + end) % (36 - behind)] = *number;
            } else {
                bad[kind % 36] = *number;
            }
            s.say(&halves_line(&bad));
        }
        s.say("places");
    }
}

fn random_row(s: &mut S, random: &mut Random) {
    let low = random.below(0x7F00_0000) as u32;
    let level = low.max(1) + random.below(64) as u32;
    let floor = random.pick(&[ZERO, MINUS_ZERO, low, level - 1, level, level + 2]);
    let least = level.max((floor & 0x7FFF_FFFF) + 1);
    profile(s, floor, random.below(0x7F80_0000) as u32, &format!("level {level:08X}"));
    let row: Row = (0..random.below(40)).map(|_| random.below(3) as u8).collect();
    let loaded = [least, least + 1, least + random.below(0x1000) as u32, LARGEST];
    let unloaded = [ZERO, MINUS_ZERO, least - 1, level - 1, random.below(least as usize) as u32];
    let mut halves = halves_of(random, &row, &loaded, &unloaded);
    if random.chance(60) {
        halves.extend([random.pick(&unloaded), random.pick(&unloaded)]);
        halves.extend((0..random.below(12)).map(|_| random.pick(&[least, ZERO, LARGEST])));
    }
    if random.chance(10) && !halves.is_empty() {
        let place = random.below(halves.len());
        halves[place] = random.pick(&WRONG);
    }
    s.say(&format!("room {}", (row.len() + random.below(12)).min(4096)));
    s.say(&halves_line(&halves));
    s.say("places");
}

/// Whatever 32 bits can be, with a bias to what is near to a bound.
fn random_numbers(s: &mut S, random: &mut Random) {
    let draw = |random: &mut Random| -> u32 {
        match random.below(10) {
            0 => random.pick(&WRONG),
            1 | 2 => random.pick(&GOOD),
            3 => (random.below(0x1_0000) << 16) as u32 + random.below(0x1_0000) as u32,
            _ => random.below(0x3F80_0001) as u32,
        }
    };
    s.say(&format!("room {}", random.below(5)));
    for line in ["floor", "peak"] {
        s.say(&format!("{line} {:08X}", if random.chance(60) { random.below(0x3F00_0000) as u32 } else { draw(random) }));
    }
    s.say(&match random.below(6) {
        0 => "gate off".to_string(),
        1 | 2 => format!("gate level {:08X}", draw(random)),
        _ => format!("gate share {:08X}", draw(random)),
    });
    for _ in 0..3 {
        let halves: Vec<u32> = (0..random.below(9))
            .map(|_| if random.chance(80) { random.below(0x7F80_0000) as u32 } else { draw(random) })
            .collect();
        s.say(&halves_line(&halves));
    }
    s.say("places");
}

fn longest(s: &mut S) {
    s.remark("the longest line: 2047 halves; and whole bits alone, 1023");
    s.say("room 4096");
    profile(s, ZERO, ZERO, "level 00000001");
    s.say(&halves_line(&[ONE; 2047]));
    s.say(&format!("halves  {}", "0".repeat(16_376)));
    s.say(&format!("halves   {}", "0".repeat(16_376)));
    s.say("room 1022");
    s.say(&halves_line(&[ONE; 2047]));
    s.say("room 1023");
    s.say(&halves_line(&[ONE; 2046]));
}

/// Random rows and random numbers, for larger comparisons.
pub fn random_scripts(count: usize, seed: u64) -> S {
    let mut s = Script::new(BenchFront::new());
    let mut random = Random::new(seed);
    for _ in 0..count {
        random_row(&mut s, &mut random);
        random_numbers(&mut s, &mut random);
    }
    s
}

// ---- from energies to a selected card

type V = Script<VectorsFront>;

pub fn selections(seed: u64) -> V {
    let mut s = Script::new(VectorsFront::new());
    let mut random = Random::new(seed);
    s.remark("one card, four bytes; the gate is half of the strongest half heard");
    for line in ["floor 3DCCCCCD", "peak 40800000", "gate share 3F000000"] {
        s.say(line);
    }
    played(&mut s, &mut random, "select", &["80122821"]);
    s.remark("seven and ten bytes");
    played(&mut s, &mut random, "select", &["04112233445566"]);
    played(&mut s, &mut random, "select", &["88041122334455667788"]);
    s.remark("two cards that collide, selected and swept; nobody");
    played(&mut s, &mut random, "select", &["01020304", "80122821"]);
    played(&mut s, &mut random, "sweep", &["01020304", "80122821", "04112233445566"]);
    played(&mut s, &mut random, "select", &[]);
    played(&mut s, &mut random, "sweep", &[]);
    s.remark("what is refused with 13 is not heard: the same row can be handed in again, good");
    for line in [
        "new",
        "select",
        "halves 7FC0000000000000",
        "halves 40800000",
        "gate share 3F800001",
        "halves -",
        "gate off",
        "halves 4080000000000000",
    ] {
        s.say(line);
    }
    s.remark("a half that is too weak ends the row: 2");
    for line in ["gate level 40000000", "new", "select", "halves 3F8000004080000040800000000000004080000040800000"] {
        s.say(line);
    }
    for line in [
        "new",
        "select",
        "halves 4080000000000000408000003F800000",
        "new",
        "halves -",
        "halves",
        "halves 4",
        "halves - -",
        "select now",
        "rats 8",
    ] {
        s.say(line);
    }
    s.remark("random fields");
    for _ in 0..12 {
        let peak = 0x3F80_0000 + random.below(0x0100_0001) as u32;
        s.say(&format!("peak {peak:08X}"));
        s.say("floor 00000000");
        s.say("gate share 3F000000");
        let mut uids: Vec<String> = (0..1 + random.below(3)).map(|_| crate::language::show_hex(&random.uid())).collect();
        uids.dedup();
        let uids: Vec<&str> = uids.iter().map(|uid| uid.as_str()).collect();
        let call = random.pick(&["select", "sweep"]);
        played(&mut s, &mut random, call, &uids);
    }
    s
}

/// A selection or a sweep over these cards, each of the reader's frames taken by all of them, what they answer heard as energies.
fn played(s: &mut V, random: &mut Random, call: &str, uids: &[&str]) {
    let mut cards: Vec<Card> = uids.iter().map(|uid| Card::new(&hex(uid), true, 8).unwrap()).collect();
    cards.iter_mut().for_each(Card::power_on);
    s.say("new");
    let mut answer = s.say(call);
    while let Some(at) = answer.find("send ") {
        let frame = read_row(&answer[at + 5..]).unwrap();
        let row = field_takes(&mut cards, &frame);
        let mut halves = halves_of(random, &row, &[0x4060_0000, 0x4080_0000], &[0x3DCC_CCCD, ZERO, 0x3E80_0000]);
        halves.extend([ZERO, 0x3E00_0000, 0x4080_0000, ZERO]);
        answer = s.say(&halves_line(&halves));
    }
}
