//! The script of `bench_vicinity`.

use super::vicinity_reader::{self, hear, near};
use super::{collided, damaged, flipped, plain_row};
use crate::bench_vicinity::{BenchVicinity, EXAMPLE};
use crate::frames::Row;
use crate::language::{hex, show_hex, Script};
use crate::random::Random;
use crate::type_b::{checked, crc_b, plain, with_crc};
use crate::vicinity_reader::Reader;
use crate::vicinity_tag::State;

pub type S = Script<BenchVicinity>;

pub const ONE: &str = "11000000000104E0";
pub const TWO: &str = "21000000000104E0";
const THREE: &str = "31000000000104E0";
const STATES: [&str; 4] = ["off", "ready", "quiet", "selected"];

pub fn script(seed: u64) -> S {
    let mut s = Script::new(BenchVicinity::new());
    let mut random = Random::new(seed);
    for (line, _) in EXAMPLE {
        s.say(line);
    }
    s.say("new");
    s.say("clear");
    language(&mut s);
    damage(&mut s);
    flags(&mut s);
    masks(&mut s);
    afi(&mut s);
    rounds(&mut s);
    codes(&mut s);
    errors(&mut s);
    states(&mut s);
    counts(&mut s);
    vicinity_reader::add(&mut s, &mut random);
    s.remark("random scripts");
    for _ in 0..9 {
        random_script(&mut s, &mut random);
    }
    s
}

/// Random scripts alone, for larger comparisons.
pub fn random_scripts(count: usize, seed: u64) -> S {
    let mut s = Script::new(BenchVicinity::new());
    let mut random = Random::new(seed);
    for _ in 0..count {
        random_script(&mut s, &mut random);
    }
    s
}

/// These lines, with semicolons between them.
pub fn all(s: &mut S, lines: &str) {
    lines.split("; ").for_each(|line| drop(s.say(line)));
}

pub fn crc(bytes: &[u8]) -> String {
    format!("crc {}", show_hex(bytes))
}

/// The tag in place 1 takes these bytes.
fn take(s: &mut S, bytes: &[u8]) {
    s.say(&format!("take 1 {}", crc(bytes)));
}

/// One tag in a field of its own: UID `ONE`, and what is said of it.
fn alone(s: &mut S, tag: &str) {
    s.say("clear");
    s.say(&format!("tag {ONE} {tag}"));
}

/// Flags, code, the UID where the Address flag is set, and the rest.
fn to(uid: &str, flags: u8, code: u8, rest: &[u8]) -> Vec<u8> {
    let uid = if flags & 0x24 == 0x20 { hex(uid) } else { Vec::new() };
    [&[flags, code][..], &uid, rest].concat()
}

fn request(flags: u8, code: u8, rest: &[u8]) -> Vec<u8> {
    to(ONE, flags, code, rest)
}

/// Lines that are understood and lines that are not.
fn language(s: &mut S) {
    s.remark("the lines");
    all(s, "tags; list; air; silence; power 1 on; memory 1; take 1 eof; tag; tag 11000000000104E0 4; tag 110000000104E0 4 4");
    all(s, "tag 1100000000000104E0 4 4; tag 11000000000104E0 1000 4; tag 11000000000104E0 4 1000");
    all(s, "tag 11000000000104E0 4 4 idle; tag 11000000000104E0 4 4 ready 1; tag 11000000000104E0 4 4 ready all");
    all(s, "tag 11000000000104E0 4 4 ready none none; tag 11000000000104E0 4 4 ready none 00 00; tag 11000000000104E0 0 4");
    all(s, "tag 11000000000104E0 257 4; tag 11000000000104E0 4 0; tag 11000000000104E0 4 33");
    all(s, "tag 11000000000104E0 999 999 selected 20 FF; tags; tag 11000000000104e0 1 1");
    all(s, "tag 11000000000104E0 256 1 quiet none; tag 21000000000104E0 1 32 selected 00; tag 31000000000104E0 2 2 off ff a5");
    all(s, "tags; memory 0; memory 5; memory 1 1; memory 1; memory 3; power 0 on; power 5 on; power 4 up; power 4 on");
    all(s, "power 4 on; power 4 off; take 1; take 0 eof; take 1 eof eof; take 1 short 26; take 1 row 012; take 1 bytes -");
    all(s, "hear; hear eof; silence now; air now; inventory 16 0; inventory 256 0 -; inventory 16 256 -");
    all(s, "inventory 16 0 000000000000000000; inventory 16 0 - 0; inventory 16 0 - none; inventory 16 0 - 00 00; sweep none");
    all(s, "sweep 00 00; quiet any; select 11000000000104; reset all; reset 11000000000104E0 00; read any 256");
    all(s, "read any 0 option; read any status; read any 0 status status; reads any 0 0; reads any 0 257; reads any 256 1");
    all(s, "reads any 0 1 0; write any 0; write any 0 0; write any 0 00 status; writes any 0 1; writes any 0 0 -");
    all(s, "writes any 0 257 00; lock any 256; lock any 0 status; field sweep 0; field inventory; room 1025; new reader");
    all(s, "clear all; list all; tags all; room 0; list; room 1024; room 352; clear");
    s.remark("forty tags, and no more");
    for i in 0..41 {
        s.say(&format!("tag {i:02X}000000000104E0 1 1"));
    }
    all(s, "take 40 crc 260100; take 41 crc 260100; clear");
}

/// A row that is a request but for one thing.
fn damage(s: &mut S) {
    s.remark("damage");
    for state in ["ready", "quiet", "selected"] {
        alone(s, &format!("1 1 {state}"));
        for frame in [vec![0x26, 0x01, 0x00], request(0x22, 0x20, &[0x00])] {
            let row = with_crc(&frame);
            let mut rows: Vec<Row> = vec![Vec::new(), flipped(&row, row.len() - 1)];
            if state == "ready" {
                rows.extend([0, row.len() - 16].map(|place| flipped(&row, place)));
                rows.extend([8, row.len() - 1].map(|place| collided(&row, place)));
                rows.extend([row[..row.len() - 8].to_vec(), row[..row.len() - 1].to_vec()]);
                rows.extend([[&row[..], &[0]].concat(), [&row[..], &[0; 8]].concat()]);
                // CRC_A in place of CRC_B, CRC_B that is not inverted, and none.
                let turned: Vec<u8> = crc_b(&frame).iter().map(|byte| !byte).collect();
                rows.extend([plain(&crate::crc::with_crc(&frame)), plain(&[&frame[..], &turned].concat()), plain(&frame)]);
            }
            for row in rows {
                s.say(&format!("take 1 {}", plain_row(&row)));
            }
        }
        all(s, "take 1 crc -; take 1 crc 26; take 1 crc 02");
    }
    alone(s, "1 1 off");
    all(s, "take 1 row -; take 1 row x; take 1 crc 260100; take 1 eof");
}

/// Every bit of the flags, in every state.
fn flags(s: &mut S) {
    s.remark("flags: inventory, and a request to read");
    for state in ["ready", "quiet", "selected"] {
        alone(s, &format!("1 1 {state} 00"));
        for flags in [0x24, 0x25, 0x27, 0x2E, 0xA6, 0x66, 0x46, 0x36] {
            take(s, &[flags, 0x01, 0x00]);
        }
        for (flags, code) in [(0x26, 0x20), (0x26, 0x02), (0x06, 0x00)] {
            take(s, &[flags, code, 0x00]);
        }
        for flags in [0x00, 0x01, 0x03, 0x0A, 0x82, 0x12, 0x1A, 0x20, 0x2A, 0xA2, 0x30, 0x72, 0x42, 0x52, 0x62] {
            take(s, &request(flags, 0x20, &[0x00]));
        }
        // Another UID, and one that is cut.
        take(s, &to(TWO, 0x22, 0x20, &[0x00]));
        take(s, &hex("222011000000000104"));
    }
}

/// Masks of every length that matters, with their padding, of 1 and of 16 slots.
fn masks(s: &mut S) {
    s.remark("masks");
    let uid = "F1DEBC9A785634E2";
    s.say("clear");
    s.say(&format!("tag {uid} 1 1 ready none 3C"));
    s.say(&format!("tag {uid} 1 1 selected 00"));
    let bytes = hex(uid);
    for length in [0u8, 1, 4, 8, 9, 59, 60, 61, 63, 64, 65] {
        let needed = (length as usize + 7) / 8;
        let mask: Vec<u8> = bytes.iter().copied().chain([0; 2]).take(needed).collect();
        for flags in [0x26, 0x06] {
            s.say(&format!("take 1 {}", crc(&[&[flags, 0x01, length][..], &mask].concat())));
        }
        if length == 0 || length > 64 {
            continue;
        }
        // The last bit that counts is another one; so is the first; so is the padding.
        let last = (length - 1) as usize;
        let mut turns = vec![(last / 8, 1u8 << (last % 8)), (0, 1)];
        if length % 8 != 0 {
            turns.push((last / 8, 0xFF << (length % 8)));
        }
        for (byte, turned) in turns {
            let mut other = mask.clone();
            other[byte] ^= turned;
            s.say(&format!("take 1 {}", crc(&[&[0x26, 0x01, length][..], &other].concat())));
        }
        for other in [&mask[..needed - 1], &[&mask[..], &[0x00]].concat()] {
            s.say(&format!("take 2 {}", crc(&[&[0x26, 0x01, length][..], other].concat())));
        }
    }
    for place in [1, 2] {
        let bytess = "2601; 0601; 3601; 1601; 36010000; 16010000; 260141F1DEBC9A785634E200; \
            06013DF1DEBC9A785634E2; 260108; 060108; 26010000; 06010000; 260104F1; 26010402; 06010402";
        for bytes in bytess.split("; ") {
            s.say(&format!("take {place} crc {bytes}"));
        }
    }
    s.remark("in its slot, at the mask's full length");
    for (length, place) in [(59u8, 1), (60, 2)] {
        s.say(&format!("take {place} {}", crc(&[&[0x06, 0x01, length][..], &bytes].concat())));
        for _ in 0..16 {
            s.say(&format!("take {place} eof"));
        }
    }
    s.remark("over 60 bits and 16 slots: no round, though the UID's bits run out in slot 0");
    all(s, "clear; tag F1DEBC9A78563400 1 1");
    for length in [60, 61, 62, 63, 64] {
        s.say(&format!("take 1 crc 0601{length:02X}F1DEBC9A78563400"));
        s.say("take 1 eof");
    }
}

/// The AFI: by the request on one side and the tag's own, or none, on the other.
fn afi(s: &mut S) {
    s.remark("AFI");
    for own in ["none", "00", "03", "30", "35"] {
        alone(s, &format!("1 1 ready {own}"));
        for asked in [0x00, 0x03, 0x05, 0x30, 0x35, 0x40] {
            take(s, &[0x36, 0x01, asked, 0x00]);
        }
        take(s, &[0x16, 0x01, 0x30, 0x00]);
    }
    for own in ["none", "30"] {
        alone(s, &format!("1 1 selected {own}"));
        for (flags, asked) in [(0x36, 0x30), (0x16, 0x30), (0x36, 0x40), (0x16, 0x40)] {
            take(s, &[flags, 0x01, asked, 0x00]);
        }
    }
}

/// EOFs in a round and outside, and every row that ends one.
fn rounds(s: &mut S) {
    s.remark("rounds: the slot of each tag, and EOFs behind the last");
    for (state, first, eofs) in [
        ("ready", "01", 3),
        ("ready", "00", 2),
        ("selected", "00", 1),
        ("ready", "0F", 17),
        ("selected", "0E", 17),
        ("quiet", "02", 3),
    ] {
        s.say("clear");
        s.say(&format!("tag {first}000000000104E0 1 1 {state}"));
        s.say("take 1 eof");
        take(s, &[0x06, 0x01, 0x00]);
        for _ in 0..eofs {
            s.say("take 1 eof");
        }
    }
    s.remark("a round of one slot has no further ones");
    alone(s, "1 1");
    all(s, "take 1 crc 260100; take 1 eof; take 1 crc 26010401; take 1 eof");
    s.remark("every row ends a round");
    let another = crc(&to(TWO, 0x22, 0x20, &[0x00]));
    let own = crc(&request(0x22, 0x20, &[0x00]));
    for (state, rows) in [("ready", 17), ("selected", 3)] {
        alone(s, &format!("1 1 {state} 40"));
        let ending = [
            "row -",
            "row 0",
            "row x",
            "bytes 260100",
            "crc 26",
            "crc 0E0100",
            "crc 860100",
            "crc 322000",
            "crc 060000",
            "crc 16013000",
            "crc 06013D",
            "crc 260100",
            "crc 022000",
            "crc 0230",
            "crc 122000",
            &another,
            &own,
        ];
        for row in &ending[17 - rows..] {
            take(s, &[0x06, 0x01, 0x00]);
            s.say(&format!("take 1 {row}"));
            s.say("take 1 eof");
        }
    }
    s.remark("a new inventory begins anew; power lost ends a round, more power does not");
    alone(s, "1 1");
    let lines = "crc 060100; eof; eof; crc 060100; eof; crc 06010401; \
        eof; crc 06010402; eof; eof; crc 060104F1; eof";
    for line in lines.split("; ") {
        s.say(&format!("take 1 {line}"));
    }
    all(s, "take 1 crc 060100; power 1 on; take 1 eof; take 1 crc 060100; power 1 off; take 1 eof; power 1 on; take 1 eof");
}

/// The three modes: addressed, with the Select flag, with neither.
const MODES: [u8; 3] = [0x22, 0x12, 0x02];

/// The rest of a request of right length to a tag of blocks of two bytes.
fn right(code: u8) -> &'static [u8] {
    match code {
        0x20 | 0x22 => &[0x01],
        0x21 => &[0x01, 0xAB, 0xCD],
        0x23 => &[0x00, 0x01],
        0x24 => &[0x00, 0x01, 0x12, 0x34, 0x56, 0x78],
        _ => &[],
    }
}

/// Every code, with the Option flag and without, in every mode and state.
fn codes(s: &mut S) {
    s.remark("every code, with and without the Option flag");
    for state in ["ready", "quiet", "selected"] {
        for mode in MODES {
            alone(s, &format!("3 2 {state}"));
            let is_taken = mode == 0x22 || state == "selected" || (mode == 0x02 && state == "ready");
            let codes: &[u8] = if is_taken { &[0x20, 0x21, 0x24, 0x22, 0x23] } else { &[0x21] };
            for &code in codes {
                take(s, &request(mode | 0x40, code, right(code)));
                take(s, &request(mode, code, right(code)));
            }
            if is_taken {
                s.say("memory 1");
                for code in [0x00, 0x01, 0x03, 0x1F, 0x27, 0xA0, 0xFF] {
                    take(s, &request(mode, code, &[]));
                }
                take(s, &request(mode | 0x40, 0x2B, &[0x00]));
            }
        }
    }
}

/// The order of the errors: length, absent, locked, Option flag.
fn errors(s: &mut S) {
    s.remark("wrong lengths");
    alone(s, "3 2 selected");
    for mode in MODES {
        for (code, rests) in [
            (0x20, &["-", "03FF"][..]),
            (0x21, &["-", "00AA", "00AABBCC"]),
            (0x22, &["-", "0000"]),
            (0x23, &["00", "000000"]),
            (0x24, &["-", "00", "0000", "0000AA", "0001AABBCC", "00FFAABB"]),
            (0x26, &["00"]),
        ] {
            for rest in rests {
                take(s, &request(mode, code, &hex(rest)));
            }
        }
        // Ahead of an absent block and of the Option flag.
        take(s, &request(mode | 0x40, 0x21, &hex("03AA")));
    }
    take(s, &request(0x22, 0x25, &[0x00]));
    s.remark("absent blocks, locked blocks, the Option flag: the first that fits");
    for mode in MODES {
        alone(s, "4 1 selected");
        take(s, &request(mode, 0x22, &[0x02]));
        for (code, rests) in [
            (0x20, &["03", "04", "02"][..]),
            (0x21, &["0411", "FF11", "0211", "0311"]),
            (0x22, &["04", "02"]),
            (0x23, &["0003", "0004", "0400", "FFFF", "00FF", "0200"]),
            (0x24, &["0003AABBCCDD", "0004AABBCCDDEE", "0202AABBCC", "0201AABB", "0101AABB", "0001AABB", "FF01AABB"]),
        ] {
            for rest in rests {
                take(s, &request(mode, code, &hex(rest)));
                if mode == 0x22 {
                    take(s, &request(mode | 0x40, code, &hex(rest)));
                }
            }
        }
        s.say("memory 1");
    }
}

/// Stay quiet, Select, Reset to ready and power in every state, in every form.
fn states(s: &mut S) {
    s.remark("quiet, select, reset, power");
    for state in STATES {
        // Forms that change nothing come first.
        alone(s, &format!("1 1 {state}"));
        for code in [0x02, 0x25, 0x26] {
            for flags in [0x62, 0x32] {
                take(s, &request(flags, code, &[]));
            }
            take(s, &request(0x22, code, &[0x00]));
            // A Reset that is not addressed would be done, but for the Option flag.
            let option = if code == 0x26 { 0x40 } else { 0x00 };
            take(s, &request(0x12 | option, code, &[]));
            take(s, &request(0x02 | option, code, &[]));
        }
        take(s, &to(TWO, 0x22, 0x02, &[]));
        take(s, &to(TWO, 0x22, 0x26, &[]));
        for (flags, code) in [(0x22, 0x02), (0x22, 0x25), (0x22, 0x26), (0x12, 0x26), (0x02, 0x26)] {
            alone(s, &format!("1 1 {state}"));
            take(s, &request(flags, code, &[]));
        }
        // Select of another UID, not good and then good.
        alone(s, &format!("1 1 {state}"));
        take(s, &to(TWO, 0x22, 0x25, &[0x00]));
        for flags in [0x62, 0x12, 0x02, 0x2A, 0x32] {
            take(s, &to(TWO, flags, 0x25, &[]));
        }
        take(s, &to("11000000000104E1", 0x20, 0x25, &[]));
        take(s, &request(0x12, 0x20, &[0x00]));
        alone(s, &format!("1 1 {state}"));
        all(s, "power 1 on; power 1 off; power 1 off; power 1 on");
    }
    s.remark("memory and locks stay without power");
    alone(s, "2 2");
    for (code, rest) in [(0x21, &[0x00, 0x5A, 0xA5][..]), (0x22, &[0x00]), (0x25, &[])] {
        take(s, &request(0x22, code, rest));
    }
    all(s, "power 1 off; memory 1; power 1 on; memory 1; take 1 crc 422000; take 1 crc 122000");
    s.remark("one is selected after the other");
    s.say("clear");
    s.say("new");
    for uid in [ONE, TWO, THREE] {
        s.say(&format!("tag {uid} 2 1"));
    }
    let lines = "quiet THREE; select ONE; write selected 0 77; select TWO; \
        read selected 0; select THREE; reset selected; reset any; read selected 0";
    for line in lines.split("; ") {
        s.say(&line.replace("THREE", THREE).replace("ONE", ONE).replace("TWO", TWO));
        s.say("air");
        s.say("tags");
    }
}

/// Counts to 256, and blocks to 32 bytes.
fn counts(s: &mut S) {
    s.remark("many blocks");
    s.say("new");
    alone(s, "256 1");
    let data: Vec<u8> = (0..=255).map(|i: u8| i.wrapping_mul(7)).collect();
    s.say(&format!("writes any 0 256 {}", show_hex(&data)));
    all(s, "air; reads any 0 256; air; reads any 1 256; air; reads any 1 255 status; air; reads any 255 1; air");
    all(s, "lock any 255; air; reads any 254 2 status; air");
    for (first, count) in [(0, 256), (0, 255), (2, 255)] {
        s.say(&format!("writes any {first} {count} {}", show_hex(&vec![0x33; count])));
        s.say("air");
    }
    s.say("memory 1");
    s.remark("the longest blocks");
    alone(s, "256 32");
    for (first, count) in [(255, 1), (0, 255)] {
        let data: Vec<u8> = (0..32 * count).map(|i| (i * 5 + first) as u8).collect();
        s.say(&format!("writes {ONE} {first} {count} {}", show_hex(&data)));
        s.say("air");
    }
    all(s, "reads any 0 256 status; air; reads any 216 40; air; clear");
}

/// A field and a reader over it, with what may go wrong.
fn random_script(s: &mut S, random: &mut Random) {
    all(s, "clear; new");
    let mut uids: Vec<String> = Vec::new();
    for i in 0..random.pick(&[0, 1, 1, 2, 2, 3, 4, 6]) {
        let uid = if i > 0 && random.chance(8) { random.pick(&uids) } else { near(random) };
        let state = random.pick(&["ready", "ready", "ready", "ready", "quiet", "selected", "off"]);
        let afi = random.pick(&["none", "20", "21"]);
        let (blocks, size) = (random.pick(&[1, 3, 4, 4, 4, 6]), random.pick(&[1, 2, 2, 2, 2, 2, 4]));
        s.say(&format!("tag {uid} {blocks} {size} {state} {afi} {:02X}", random.byte()));
        uids.push(uid);
    }
    for _ in 0..10 {
        turn(s, random, &uids);
    }
}

/// What is said to a reader that awaits: mostly the field's answer, at times something else.
fn go_on(s: &mut S, random: &mut Random) {
    let mut turns = random.pick(&[1, 1, 2, 3, 20]);
    while !matches!(s.program.reader, Reader::Ready | Reader::Stopped) && turns > 0 {
        turns -= 1;
        if random.chance(95) {
            s.say("air");
            continue;
        }
        let bytes =
            random.pick(&[vec![0x00], vec![0x01, 0x10], vec![0x00, 0x12, 0x34], hex("000021436587A9CB04E0"), vec![0x01, 0x00]]);
        let row = with_crc(&bytes);
        let row = if random.chance(60) { damaged(random, &row) } else { row };
        hear(s, &row);
    }
}

fn turn(s: &mut S, random: &mut Random, uids: &[String]) {
    let uid = if uids.is_empty() || random.chance(5) { near(random) } else { random.pick(uids) };
    let mode = random.pick(&[uid.as_str(), uid.as_str(), "any", "any", "selected"]);
    let block = random.pick(&[0, 0, 1, 1, 2, 3, 5]);
    let count = 1 + random.below(3);
    let size = random.pick(&[1, 2, 2, 2, 2, 2, 4]);
    let status = random.pick(&["", "", " status"]);
    let afi = random.pick(&["", "", "", " 00", " 20", " 21"]);
    let call = match random.below(19) {
        0 | 1 => format!("field sweep{afi}"),
        2 => {
            let other = random.below(66);
            let length = random.pick(&[0, 0, 4, 8, 3, 12, 60, 64, other]);
            format!("inventory {} {length} {uid}{afi}", random.pick(&[1, 16]))
        }
        3 => format!("sweep{afi}"),
        4 => format!("quiet {uid}"),
        5 => format!("select {uid}"),
        6 => format!("reset {mode}"),
        7 | 8 => format!("read {mode} {block}{status}"),
        9 => format!("reads {mode} {block} {count}{status}"),
        10 => format!("write {mode} {block} {}", show_hex(&random.bytes(size))),
        11 => format!("writes {mode} {block} {count} {}", show_hex(&random.bytes(count * size))),
        12 | 18 => format!("lock {mode} {block}"),
        13 | 14 if !uids.is_empty() => {
            let place = 1 + random.below(uids.len());
            let flags = random.pick(&[0x26, 0x06, 0x36, 0x22, 0x22, 0x02, 0x12, 0x62, 0x42, 0x66, 0x32, 0x2A]);
            let code = random.pick(&[0x01, 0x01, 0x02, 0x20, 0x21, 0x22, 0x23, 0x24, 0x25, 0x26, 0x27]);
            let rest: Vec<u8> = (0..random.below(6)).map(|_| random.below(5) as u8).collect();
            let row = with_crc(&to(&uid, flags, code, &rest));
            let row = if random.chance(20) { damaged(random, &row) } else { row };
            let frame = checked(&row).map_or(plain_row(&row), |bytes| crc(&bytes));
            s.say(&format!("take {place} {frame}"));
            for _ in 0..random.below(3) {
                s.say(&format!("take {place} eof"));
            }
            format!("memory {place}")
        }
        15 if !uids.is_empty() => {
            let place = random.below(uids.len());
            let on = if s.program.field[place].state == State::Off { "on" } else { random.pick(&["on", "off"]) };
            format!("power {} {on}", place + 1)
        }
        _ => random.pick(&["new", "new", "new", "tags", "list"]).to_string(),
    };
    s.say(&call);
    go_on(s, random);
    if matches!(s.program.reader, Reader::Stopped) && random.chance(70) {
        s.say("new");
    }
}
