//! The part of the script of `bench_vicinity` that plays the reader, several tags at once, and the sweep over a field.

use super::vicinity::{all, crc, ONE, S, TWO};
use super::{collided, flipped, plain_row};
use crate::language::{hex, show_hex};
use crate::random::Random;
use crate::type_b::{checked, with_crc};
use crate::vicinity_field::{LIST_ROOM, MOST_TAGS};
use crate::vicinity_reader::Reader;

pub fn add(s: &mut S, random: &mut Random) {
    calls(s);
    slots_heard(s);
    answers_heard(s);
    together(s);
    depth(s);
    fields(s, random);
    refusals(s);
}

/// Where a reader awaits something, and the lines that bring it there.
const PHASES: [(&str, &str); 9] = [
    ("slot of 16", "inventory 16 4 01"),
    ("the one slot", "inventory 1 8 11"),
    ("slot of a sweep", "sweep"),
    ("silence", "quiet 11000000000104E0"),
    ("data", "read any 0"),
    ("data of two", "reads any 0 2"),
    ("data with status", "read any 0 status"),
    ("data of two with status", "reads any 0 2 status"),
    ("word", "lock any 0"),
];

fn await_(s: &mut S, phase: &str) {
    if s.program.reader != Reader::Ready {
        s.say("new");
    }
    match PHASES.iter().find(|(name, _)| *name == phase) {
        Some((_, line)) => drop(s.say(line)),
        None if phase == "stopped" => all(s, "lock any 0; silence"),
        None => {}
    }
}

fn calls(s: &mut S) {
    s.remark("the reader's calls, in every phase");
    s.say("clear");
    let lines =
        "inventory 16 0 -; inventory 2 0 -; sweep; quiet 11000000000104E0; select 11000000000104E0; reset any; read any 0; \
        reads any 0 1; write any 0 00; write any 0 -; writes any 0 1 00; writes any 0 2 00; lock any 0; field sweep";
    for line in lines.split("; ") {
        s.say("new");
        s.say(line);
    }
    for phase in ["slot of 16", "the one slot", "slot of a sweep", "silence", "data", "data with status", "word", "stopped"] {
        await_(s, phase);
        all(s, lines);
        s.say("air");
    }
    s.remark("masks of the reader: the low bits, filled with zeros");
    for slots in [0, 1, 15, 16, 17, 255] {
        for length in [0, 1, 4, 59, 60, 61, 63, 64, 65, 255] {
            if matches!(slots, 1 | 16) || length == 0 {
                s.say("new");
                s.say(&format!("inventory {slots} {length} FFFFFFFFFFFFFFFF"));
            }
        }
    }
    for line in ["12 CF04", "12 CFF4 00", "12 CF 21", "9 -", "64 01 FF"] {
        s.say("new");
        s.say(&format!("inventory 1 {line}"));
    }
    for line in ["inventory 16 0 - 10", "sweep 00", "sweep A5"] {
        s.say("new");
        s.say(line);
    }
    s.remark("requests, in every mode");
    for mode in ["0123456789AB04E0", "any", "selected"] {
        let lines = "reset M; read M 11; read M 11 status; \
            reads M 11 2; reads M 0 256 status; write M 11 11223344; lock M 11";
        for line in lines.split("; ") {
            s.say("new");
            s.say(&line.replace('M', mode));
        }
        s.say("new");
        s.say(&format!("writes {mode} 255 2 1122334455667788"));
    }
    s.remark("data that is not 1 to 32 bytes a block");
    for (count, bytes) in [(1, 0), (1, 32), (1, 33), (2, 1), (2, 3), (2, 64), (2, 65), (2, 66), (256, 255), (32, 33)] {
        s.say("new");
        s.say(&format!("writes any 0 {count} {}", show_hex(&vec![0x5A; bytes])));
        if count == 1 {
            s.say("new");
            s.say(&format!("write any 0 {}", show_hex(&vec![0x5A; bytes])));
        }
    }
}

/// The line by which the reader hears a row, in its shortest form.
pub fn hear(s: &mut S, row: &[u8]) -> String {
    match checked(row) {
        Some(bytes) => s.say(&format!("hear {}", crc(&bytes))),
        None => s.say(&format!("hear {}", plain_row(row))),
    }
}

/// What the reader makes of a row where it awaits a slot's answer.
fn slots_heard(s: &mut S) {
    s.remark("what the reader makes of a row: slots");
    let answer = |bytes: &str| with_crc(&hex(bytes));
    let own = answer("000711000000000104E0");
    for phase in ["slot of 16", "the one slot", "slot of a sweep"] {
        let mut rows = vec![
            own.clone(),
            flipped(&own, 95),
            collided(&own, 0),
            own[..95].to_vec(),
            vec![],
            answer("010711000000000104E0"),
            // By the mask 1 of four bits slot 0; another mask; by the mask of no bits slots 0 and 15.
            answer("000701000000000104E0"),
            answer("000712000000000104E0"),
            answer("0007100000000001041F"),
            answer("00FF0F00000000010400"),
        ];
        if phase == "slot of 16" {
            rows.extend([
                flipped(&own, 20),
                collided(&own, 95),
                [&own[..], &[0]].concat(),
                collided(&own[..88], 3),
                vec![2],
                answer("00"),
            ]);
        }
        for row in rows {
            await_(s, phase);
            hear(s, &row);
        }
    }
    s.remark("the slot counts up; the last one is its own");
    await_(s, "slot of 16");
    for uid in ["01000000000104E0", ONE, TWO, TWO] {
        hear(s, &answer(&format!("0000{uid}")));
    }
    for row in [answer("0005F1000000000104E0"), own.clone()] {
        await_(s, "slot of 16");
        for _ in 0..15 {
            s.say("silence");
        }
        hear(s, &row);
    }
}

/// What the reader makes of a row where it awaits another answer.
fn answers_heard(s: &mut S) {
    s.remark("silence behind Stay quiet; data; the word");
    let answer = |bytes: &str| with_crc(&hex(bytes));
    let good = answer("00");
    for row in [vec![], good.clone(), vec![0], vec![2], answer("0110"), flipped(&good, 23)] {
        await_(s, "silence");
        hear(s, &row);
    }
    s.remark("every error code, which does not stop the reader, and others");
    s.say("new");
    for code in [0x00, 0x01, 0x02, 0x03, 0x04, 0x0E, 0x0F, 0x10, 0x11, 0x12, 0x13, 0x14, 0x15, 0x9F, 0xA0, 0xDF, 0xE0, 0xFF] {
        s.say(if code % 2 == 0 { "read any 0" } else { "reset any" });
        if hear(s, &with_crc(&[0x01, code])).starts_with("refused") {
            s.say("new");
        }
    }
    let error = answer("0112");
    for phase in ["data", "data of two", "data with status", "data of two with status", "word"] {
        let mut rows = vec![
            vec![],
            good.clone(),
            answer("0005"),
            answer("000102"),
            answer("010102"),
            answer("00010203"),
            answer("0001020304"),
            error.clone(),
            flipped(&error, 31),
            collided(&error, 31),
        ];
        if matches!(phase, "data" | "word") {
            rows.extend([
                answer("01"),
                answer("0105"),
                answer("8101"),
                collided(&error, 0),
                error[..31].to_vec(),
                collided(&error[..30], 2),
            ]);
        }
        // Blocks of 32 bytes, and one byte more.
        let most = match phase {
            "data" => 32,
            "data of two" => 64,
            "data with status" => 33,
            _ => 66,
        };
        rows.push(with_crc(&vec![0x00; 1 + most]));
        rows.push(with_crc(&vec![0x00; 2 + most]));
        for row in rows {
            await_(s, phase);
            hear(s, &row);
        }
    }
    for bytes in [255, 256, 257, 512] {
        all(s, "new; reads any 0 256");
        hear(s, &with_crc(&vec![0x00; 1 + bytes]));
    }
    for phase in ["ready", "stopped"] {
        await_(s, phase);
        all(s, "hear row 0; silence; air");
    }
}

/// Each line, and what comes back over the air.
fn aired(s: &mut S, lines: &str) {
    for line in lines.split("; ") {
        s.say(&line.replace("ONE", ONE).replace("TWO", TWO));
        s.say("air");
    }
}

/// Several tags answer a request that addresses none.
fn together(s: &mut S) {
    s.remark("several tags answer together");
    all(s, "clear; new");
    s.say(&format!("tag {ONE} 4 2"));
    s.say(&format!("tag {TWO} 4 2"));
    aired(s, "read any 0; reset any; write ONE 0 0102; write any 1 0304; read any 1; read any 9; lock any 2; lock any 2");
    s.remark("one of them refuses: an answer of 24 bits and one of 32");
    aired(s, "lock ONE 1; write any 1 0506");
    all(s, "memory 1; memory 2; new");
    s.remark("different data; different lengths");
    aired(s, "read any 0");
    all(s, "new; clear");
    s.say(&format!("tag {ONE} 2 2"));
    s.say(&format!("tag {TWO} 4 4"));
    aired(s, "read any 0");
    s.say("new");
    aired(s, "read any 3; read any 4; write any 0 1234; write any 0 12345678");
    s.remark("a tag that is quiet or off takes no part; a selected one does");
    aired(s, "quiet TWO; read any 0");
    s.say("power 1 off");
    aired(s, "read any 0");
    all(s, "new; power 1 on");
    aired(s, "select ONE; read selected 0; read any 0; inventory 1 0 -; quiet ONE; read any 0");
    s.say("new");
    aired(s, "reset ONE; reset TWO");
    s.remark("two tags in one slot; a round that is left");
    aired(s, "inventory 1 4 01; inventory 1 8 21; inventory 16 0 -");
    all(s, "air; air; reset any; new; inventory 16 4 01; air; air; air; new");
    aired(s, "reset ONE");
    all(s, "take 1 eof; take 2 eof");
}

/// Two tags that differ in the top four bits alone meet at every depth, stepped by hand; at 60 bits a met slot is refused.
fn depth(s: &mut S) {
    s.remark("two tags that meet at every depth, by hand");
    all(s, "clear; new; tag 11000000000104E0 1 1 ready 21 07; tag 11000000000104F0 1 1 ready 21 08; sweep 20");
    while matches!(&s.program.reader, Reader::Slot(round) if round.mask.len() < 60) {
        s.say("air");
    }
    for _ in 0..15 {
        s.say("air");
    }
    let row = plain_row(&collided(&with_crc(&hex("000711000000000104F0")), 95));
    s.say(&format!("hear {row}"));
    all(s, "tags; air; new; inventory 16 60 11000000000104F0");
    s.say(&format!("hear {row}"));
    all(s, "new; field sweep; list; field sweep 21; field sweep 20; field sweep 22");
}

/// Fields of many sizes.
fn fields(s: &mut S, random: &mut Random) {
    s.remark("sweeps over a field");
    s.say("room 352");
    for (tags, mixed) in [(0, false), (1, false), (2, false), (5, true), (9, true), (MOST_TAGS, false)] {
        field(s, random, tags, mixed);
    }
    s.remark("a list longer than asked: what lies behind is untouched");
    s.say("room 370");
    field(s, random, 3, false);
    all(s, "list; room 352");
    s.remark("five tags: met slots in rising order, each to its end");
    s.say("clear");
    for uid in ["11000000000104E0", "21000000000104E0", "12000000000104E0", "11010000000104E0", "03000000000104E0"] {
        s.say(&format!("tag {uid} 1 1"));
    }
    all(s, "field sweep; sweep");
    while s.program.reader != Reader::Ready {
        s.say("air");
    }
    s.remark("two slots met, one of them twice over");
    s.say("clear");
    for uid in
        ["2100000000000000", "1100000000000000", "1F00000000000000", "1F01000000000000", "2F00000000000000", "0400000000000000"]
    {
        s.say(&format!("tag {uid} 1 1"));
    }
    all(s, "field sweep; list");
    s.remark("a round under way is ended by the sweep, and no other thing changes");
    all(s, "take 1 crc 060100; take 2 crc 060100; power 2 off; field sweep; take 1 eof; tags; power 2 on; take 2 eof");
}

/// A UID that shares a run of low bits with others.
pub fn near(random: &mut Random) -> String {
    let mut uid = [0x21, 0x43, 0x65, 0x87, 0xA9, 0xCB, 0x04, 0xE0];
    let place = random.below(16);
    let value = random.below(16) as u8;
    let shift = if place % 2 == 0 { 0 } else { 4 };
    uid[place / 2] = uid[place / 2] & !(15 << shift) | value << shift;
    if random.chance(40) {
        uid[7] = random.byte();
    }
    show_hex(&uid)
}

/// A random field of different UIDs, and sweeps over it. Mixed: quiet tags, tags without power, AFIs.
fn field(s: &mut S, random: &mut Random, tags: usize, mixed: bool) {
    all(s, "clear; new");
    let mut uids: Vec<String> = Vec::new();
    while uids.len() < tags {
        let uid = near(random);
        if uids.contains(&uid) {
            continue;
        }
        let state = if mixed { random.pick(&["ready", "ready", "ready", "quiet", "off"]) } else { "ready" };
        let afi = if mixed { random.pick(&["none", "20", "21", "30"]) } else { "none" };
        s.say(&format!("tag {uid} 1 1 {state} {afi} {:02X}", uids.len()));
        uids.push(uid);
    }
    s.say("field sweep");
    if mixed {
        all(s, "tags; field sweep 20; field sweep 00");
    }
}

/// Each refusal of the sweep over a field, and what it leaves.
fn refusals(s: &mut S) {
    s.remark("refusals of the sweep over a field");
    s.say("clear");
    s.say(&format!("tag {ONE} 1 1 selected"));
    s.say("room 0");
    for phase in ["slot of 16", "the one slot", "slot of a sweep", "silence", "data", "data with status", "word", "stopped"] {
        await_(s, phase);
        s.say("field sweep");
    }
    s.say("new");
    for room in [0, 11, LIST_ROOM - 1] {
        s.say(&format!("room {room}"));
        all(s, "field sweep; list");
    }
    s.say(&format!("room {LIST_ROOM}"));
    all(s, "field sweep; list; reset any; air; field sweep; list");
    s.remark("a selected tag, a UID twice");
    s.say("clear");
    for (i, state) in ["ready", "quiet", "selected"].iter().enumerate() {
        s.say(&format!("tag {i:02X}000000000104E0 1 1 {state}"));
    }
    s.say("field sweep 30");
    for (uids, state) in [([ONE, ONE, TWO], "ready"), ([ONE, TWO, ONE], "quiet"), ([TWO, ONE, ONE], "off")] {
        s.say("clear");
        for uid in uids {
            s.say(&format!("tag {uid} 1 1 {state}"));
        }
        s.say("field sweep");
    }
    s.remark("a tag that is there twice is heard as one where each is alone");
    all(s, "clear");
    for _ in 0..2 {
        s.say(&format!("tag {ONE} 1 1"));
    }
    all(s, "inventory 1 0 -; air");
    s.remark("as many tags as the limit, and one more");
    s.say("clear");
    for i in 0..MOST_TAGS {
        s.say(&format!("tag 00{i:02X}0000000104E0 1 1"));
    }
    all(s, "field sweep; list; tag 0100000000010400 1 1 off; room 352; field sweep; list; tags; clear");
}
