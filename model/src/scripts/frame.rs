//! The script of `vectors_frame`.

use super::{collided, damaged, flipped};
use crate::frames::{self, Row};
use crate::known::{packed, Expect, CHECKS, CRCS, TRACES};
use crate::language::{hex, show_hex, show_row, Script};
use crate::random::Random;
use crate::vectors_frame::VectorsFrame;

pub fn script(seed: u64) -> Script<VectorsFrame> {
    let mut s = Script::new(VectorsFrame);
    let mut random = Random::new(seed);
    known_values(&mut s);
    trace_rows(&mut s);
    bounds(&mut s);
    uids_and_sums(&mut s, &mut random);
    refusals(&mut s);
    where_it_broke(&mut s);
    random_frames(&mut s, &mut random);
    lines_not_understood(&mut s);
    s
}

fn known_values(s: &mut Script<VectorsFrame>) {
    s.remark("CRC_A: document 01's numbers, and those of source documents 000 and 004");
    for (data, crc) in CRCS {
        assert_eq!(s.say(&format!("crca {data}")), format!("crc {crc}"));
        s.say(&format!("crc {data}"));
        s.say(&format!("readcrc {}", show_row(&frames::standard(&hex(&format!("{data}{crc}"))))));
        // Over the bytes and their CRC_A the register ends at zero.
        assert_eq!(s.say(&format!("crca {data}{crc}")), "crc 0000");
    }
    s.say("crca -");
    s.remark("B");
    for (data, b) in CHECKS {
        assert_eq!(s.say(&format!("check {data}")), format!("b {b:02X}"));
    }
    s.say("check -");
    s.say("check 5A");
    s.say("check 0102040810204080ff");
    s.remark("short frames: REQA, WUPA, the ends, and the eighth bit that is not sent");
    for value in [0x26, 0x52, 0x00, 0x01, 0x40, 0x7F, 0x35, 0x80, 0xA6, 0xFF] {
        s.say(&format!("short {value:02X}"));
        s.say(&format!("readshort {}", show_row(&frames::short(value))));
    }
    s.remark("every byte with its parity");
    for high in 0..16 {
        let bytes: Vec<u8> = (0..16).map(|low| high * 16 + low).collect();
        s.say(&format!("bytes {}", show_hex(&bytes)));
    }
}

fn trace_rows(s: &mut Script<VectorsFrame>) {
    s.remark("the rows of source document 004's traces");
    let mut rows: Vec<Row> = vec![packed("36:0A 80 7A 96 60"), packed("7:64"), packed("7:4A")];
    for atqa in ["18:20 00 40", "18:22 80 40", "18:21 80 40", "18:80 00 40", "18:82 80 40"] {
        rows.push(packed(atqa));
    }
    for trace in TRACES {
        s.say(&format!("uid {}", trace.uid));
        for step in trace.steps {
            rows.push(packed(step.frame));
            if let Expect::Answer(row) = step.expect {
                rows.push(packed(row));
            }
        }
    }
    rows.dedup();
    for row in rows {
        s.say(&format!("read {}", show_row(&row)));
        if let Ok(bytes) = frames::read_standard(&row, 1, 256) {
            assert_eq!(s.say(&format!("bytes {}", show_hex(&bytes))), format!("row {}", show_row(&row)));
        }
    }
}

fn bounds(s: &mut Script<VectorsFrame>) {
    s.remark("1, 2, 255 and 256 bytes, and one more");
    let many: Vec<u8> = (0..600).map(|i| (i * 7 + i / 256) as u8).collect();
    for count in [0, 1, 2, 255, 256, 257, 512, 513] {
        s.say(&format!("bytes {}", show_hex(&many[..count])));
    }
    for count in [0, 1, 2, 253, 254, 255, 512, 513] {
        s.say(&format!("crc {}", show_hex(&many[..count])));
    }
    for count in [256, 512] {
        s.say(&format!("crca {}", show_hex(&many[..count])));
    }
    for count in [1, 2, 256, 257] {
        s.say(&format!("read {}", show_row(&frames::standard(&many[..count]))));
    }
    for count in [1, 2, 254, 255] {
        s.say(&format!("readcrc {}", show_row(&frames::standard_with_crc(&many[..count]))));
    }
    s.say("readcrc 110001101110001101");
    s.say(&format!("read {}", "1".repeat(4096)));
    s.say(&format!("read {}", "1".repeat(4097)));
    s.say(&format!("check {}", "01".repeat(512)));
    s.say(&format!("check {}", "01".repeat(513)));
}

fn uids_and_sums(s: &mut Script<VectorsFrame>, random: &mut Random) {
    s.remark("levels");
    for uid in [
        "01020304",
        "80122821",
        "04112233445566",
        "80122821441020",
        "56341280122821440010",
        "00000000",
        "FFFFFFFF",
        "00000000000000",
        "FFFFFFFFFFFFFFFFFFFF",
        "88112233445566",
        "01888888445566",
        "88888888888888888888",
        "01020388050607080910",
        "01020304050688080910",
        "88020304",
        "01020388050607",
        "08888888",
        "-",
        "01",
        "010203",
        "0102030405",
        "010203040506",
        "0102030405060708",
        "010203040506070809",
        "0102030405060708091011",
    ] {
        s.say(&format!("uid {uid}"));
    }
    s.say(&format!("uid {}", "00".repeat(512)));
    for _ in 0..12 {
        let uid = random.uid();
        s.say(&format!("uid {}", show_hex(&uid)));
    }
}

/// Each refusal of each line kind, and two faults at once for the order of the tests.
fn refusals(s: &mut Script<VectorsFrame>) {
    s.remark("2, 8, 3, 4 and their order");
    let row = frames::standard_with_crc(&hex("A55A01"));
    let wrong_crc = frames::standard(&hex("A55A010000"));
    let wrong_parity = flipped(&row, 17);
    for kind in ["read", "readcrc"] {
        let mut ask = |row: &[u8]| s.say(&format!("{kind} {}", show_row(row)));
        ask(&row);
        ask(&[]);
        ask(&row[..44]);
        ask(&row[..9]);
        ask(&row[..18]);
        ask(&row[..27]);
        ask(&[row.clone(), vec![0]].concat());
        ask(&wrong_parity);
        ask(&wrong_crc);
        ask(&flipped(&wrong_crc, 44));
        for place in [0, 8, 20, 44] {
            ask(&collided(&row, place));
            ask(&collided(&wrong_parity, place));
            ask(&collided(&row, place)[..44]);
        }
        ask(&flipped(&row, 44));
        ask(&flipped(&flipped(&row, 30), 35));
    }
    for place in 0..27 {
        let sak = frames::standard_with_crc(&[0x20]);
        s.say(&format!("readcrc {}", show_row(&flipped(&sak, place))));
        s.say(&format!("readcrc {}", show_row(&collided(&sak, place))));
    }
    for row in ["-", "0", "011001", "01100100", "01100101", "x110010", "011001x", "xxxxxxx", "xxxxxxxx", "0110010"] {
        s.say(&format!("readshort {row}"));
    }
}

/// T-07: with 3 comes the first byte whose parity is wrong, from 0.
fn where_it_broke(s: &mut Script<VectorsFrame>) {
    s.remark("where the parity broke: every byte that a frame can have, as the last of a frame");
    let many: Vec<u8> = (0..256).map(|i| (i * 11 + i / 32) as u8).collect();
    for byte in 0..256 {
        let row = flipped(&frames::standard(&many[..=byte]), 9 * byte + byte % 9);
        let kind = if byte < 2 || byte % 2 == 0 { "read" } else { "readcrc" };
        assert_eq!(s.say(&format!("{kind} {}", show_row(&row))), format!("refused 3 {byte}"));
    }
    s.remark("the first of several wrong ones");
    for byte in [0, 1, 8, 127, 128, 254, 255] {
        let mut row = frames::standard(&many);
        for later in (byte..256).step_by(3) {
            row[9 * later + 8] ^= 1;
        }
        assert_eq!(s.say(&format!("read {}", show_row(&row))), format!("refused 3 {byte}"));
    }
    s.remark("no byte comes with 2, 8 and 4");
    let row = flipped(&frames::standard(&many[..3]), 26);
    s.say(&format!("read {}", show_row(&row[..26])));
    s.say(&format!("read {}", show_row(&collided(&row, 0))));
    s.say(&format!("readcrc {}", show_row(&flipped(&row, 26))));
}

fn random_frames(s: &mut Script<VectorsFrame>, random: &mut Random) {
    s.remark("random bytes");
    for _ in 0..60 {
        let count = random.below(12);
        let bytes = random.bytes(count);
        let kind = random.pick(&["bytes", "crc", "crca", "check"]);
        s.say(&format!("{kind} {}", show_hex(&bytes)));
    }
    s.remark("random rows, many of them damaged");
    for _ in 0..110 {
        let count = 1 + random.below(8);
        let bytes = random.bytes(count);
        let mut row = if random.chance(70) { frames::standard_with_crc(&bytes) } else { frames::standard(&bytes) };
        if random.chance(70) {
            row = damaged(random, &row);
        }
        let kind = random.pick(&["read", "readcrc", "readcrc"]);
        s.say(&format!("{kind} {}", show_row(&row)));
    }
    for _ in 0..30 {
        let row = damaged(random, &frames::short(0x26));
        s.say(&format!("readshort {}", show_row(&row)));
    }
}

fn lines_not_understood(s: &mut Script<VectorsFrame>) {
    s.remark("words, and lines that are not understood");
    for line in [
        "",
        "bytes",
        "bytes 0",
        "bytes 012",
        "bytes 0g",
        "bytes 01 02",
        "Bytes 01",
        "bytes   aBcD",
        "short",
        "short 2",
        "short 126",
        "short -",
        "short 26 26",
        "read",
        "read 01X",
        "read 012",
        "readshort 0110010 0",
        "crca",
        "crca 0x12",
        "check --",
        "uid",
        "uid 0102030g",
        "uid 01020304 20",
        "sum 01020304",
        "frobnicate",
        "26",
        "\r",
        "short 52\r",
        "# a remark",
        "#short 52",
    ] {
        s.say(line);
    }
}
