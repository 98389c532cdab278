//! The script of `bench_type_b`.

use super::{collided, flipped, plain_row};
use crate::bench_type_b::BenchTypeB;
use crate::frames::Row;
use crate::language::{show_hex, Script};
use crate::random::Random;
use crate::type_b::{self, Reader, State, MOST_CARDS, SLOTS};

pub type S = Script<BenchTypeB>;

const ONE: &str = "11223344";
const TWO: &str = "99AABBCC";
const ATQB: &str = "501122334400000000008181";

pub fn script(seed: u64) -> S {
    let mut s = Script::new(BenchTypeB::new());
    let mut random = Random::new(seed);
    language(&mut s);
    afi(&mut s);
    every_state(&mut s);
    damage(&mut s);
    markers(&mut s);
    reader(&mut s);
    fields(&mut s, &mut random);
    refusals(&mut s);
    s.remark("random scripts");
    for _ in 0..60 {
        random_script(&mut s, &mut random);
    }
    s
}

/// Random scripts alone, for larger comparisons.
pub fn random_scripts(count: usize, seed: u64) -> S {
    let mut s = Script::new(BenchTypeB::new());
    let mut random = Random::new(seed);
    for _ in 0..count {
        random_script(&mut s, &mut random);
    }
    s
}

fn crc(bytes: &[u8]) -> String {
    format!("crc {}", show_hex(bytes))
}

/// One card in a field of its own.
fn alone(s: &mut S, card: &str, number: u8) {
    s.say("clear");
    s.say(&format!("card {card}"));
    s.say(&format!("draw {number}"));
}

/// Lines that are understood and lines that are not.
fn language(s: &mut S) {
    s.remark("the lines");
    for line in [
        "cards",
        "draw",
        "list",
        "power 1 on",
        "take 1 row -",
        "card",
        "card 112233",
        "card 1122334455",
        "card 11223344 awake",
        "card 11223344 idle 100",
        "card 11223344 idle 00 perhaps",
        "card 11223344 idle 00 yes 000000",
        "card 11223344 idle 00 yes 00000000 0081",
        "card 11223344 idle 00 yes 00000000 008181 00",
        "card 11223344 idle 20 no 01020304 112233",
        "card 99aabbcc halt",
        "card 55667788 off FF",
        "cards",
        "draw 1",
        "draw 1 2 256",
        "draw 1 2 3 4",
        "draw 1 2 255",
        "power 0 on",
        "power 4 on",
        "power 3 up",
        "power 3 on",
        "power 3 off",
        "take 1",
        "take 1 short 26",
        "take 1 row 012",
        "take 1 row - -",
        "hear",
        "hear row",
        "silence now",
        "air now",
        "reqb",
        "reqb 256",
        "reqb 1 0",
        "reqb 1 00 00",
        "attrib 501122334400000000008181",
        "attrib 5011223344000000000081 8",
        "attrib 501122334400000000008181 256",
        "hltb 112233",
        "hltb 11223344 00",
        "field",
        "field 1",
        "field reqb",
        "field wupb 1 00 00",
        "field hltb 1",
        "room 1025",
        "room -",
        "new reader",
        "clear all",
        "list all",
        "cards all",
        "room 0",
        "list",
        "room 1024",
        "room 208",
        "clear",
    ] {
        s.say(line);
    }
    s.remark("forty cards, and no more");
    for i in 0..41 {
        s.say(&format!("card 000000{i:02X}"));
    }
    s.say("clear");
}

/// The AFI: by the request on one side and the card's own on the other.
fn afi(s: &mut S) {
    s.remark("AFI");
    for own in ["00", "03", "30", "35", "45"] {
        for asked in [0x00, 0x03, 0x05, 0x30, 0x35, 0x36, 0x40] {
            alone(s, &format!("{ONE} idle {own}"), 1);
            s.say(&format!("take 1 {}", crc(&[0x05, asked, 0x00])));
        }
    }
}

/// Brings card 1, whose number is 1 to 16, into a state. Declared takes number 1, and requested another.
fn bring(s: &mut S, state: &str, number: u8, extra: &str) {
    let first = match state {
        "halt" => "halt",
        "off" => "off",
        _ => "idle",
    };
    s.say("clear");
    s.say(&format!("card {ONE} {first} {extra}"));
    match state {
        "requested" => {
            s.say("draw 3");
            s.say(&format!("take 1 {}", crc(&[0x05, 0, 4])));
        }
        "declared" | "active" => {
            s.say(&format!("take 1 {}", crc(&[0x05, 0, 4])));
        }
        _ => {}
    }
    if state == "active" {
        s.say("take 1 crc 1D1122334400080100");
    }
    s.say(&format!("draw {number}"));
}

const STATES: [&str; 6] = ["off", "idle", "requested", "declared", "active", "halt"];

/// Every frame in every state.
fn every_state(s: &mut S) {
    s.remark("every frame in every state");
    let mut frames: Vec<Vec<u8>> = vec![
        vec![0x25],
        vec![0x15],
        vec![0x05],
        vec![0x1D, 0x11, 0x22, 0x33, 0x44, 0xAB, 0xCD, 0xEF, 0x12],
        vec![0x1D, 0x11, 0x22, 0x33, 0x45, 0x00, 0x08, 0x01, 0x00],
        vec![0x1D, 0x11, 0x22, 0x33, 0x44, 0x00, 0x08, 0x01, 0x00, 0x00],
        vec![0x1D, 0x11, 0x22, 0x33, 0x44, 0x00, 0x08, 0x01],
        vec![0x50, 0x11, 0x22, 0x33, 0x44],
        vec![0x50, 0x11, 0x22, 0x33, 0x43],
        vec![0x50, 0x11, 0x22, 0x33],
    ];
    // PARAM: every N, REQB and WUPB; codes that are none; b5 to b8.
    frames.extend([0, 1, 4, 8, 12, 5, 7, 13, 15, 16, 0x80].map(|param| vec![0x05, 0x00, param]));
    frames.extend([vec![0x05, 0x30, 0x00], vec![0x06, 0x00, 0x00], vec![0x05, 0x00], vec![0x05, 0x00, 0x00, 0x00]]);
    for state in STATES {
        for frame in &frames {
            bring(s, state, 1, "");
            s.say(&format!("take 1 {}", crc(frame)));
        }
        for power in ["on", "off"] {
            bring(s, state, 1, "");
            s.say(&format!("power 1 {power}"));
        }
        for (number, extra) in [(2, ""), (16, ""), (16, "00 no"), (2, "00 no"), (0, ""), (17, ""), (255, ""), (1, "00 no")] {
            for param in [4, 12, 0, 8] {
                bring(s, state, number, extra);
                s.say(&format!("take 1 {}", crc(&[0x05, 0x00, param])));
            }
        }
        // A request of another family changes nothing.
        bring(s, state, 1, "20");
        s.say(&format!("take 1 {}", crc(&[0x05, 0x30, 0x0C])));
        // Frames of Type A.
        for row in ["row 0110010", "row 0100101", "bytes 9320", "bytes 9370112233440000", "bytes 5000"] {
            s.say(&format!("take 1 {row}"));
        }
    }
}

/// A row that is a frame but for one thing.
fn damage(s: &mut S) {
    s.remark("damage");
    let cases: [(&str, &[u8]); 4] = [
        ("idle", &[0x05, 0x00, 0x00]),
        ("requested", &[0x25]),
        ("declared", &[0x1D, 0x11, 0x22, 0x33, 0x44, 0x00, 0x08, 0x01, 0x00]),
        ("declared", &[0x50, 0x11, 0x22, 0x33, 0x44]),
    ];
    for (state, frame) in cases {
        let row = type_b::with_crc(frame);
        let number = if state == "requested" { 3 } else { 1 };
        let mut rows: Vec<Row> = Vec::new();
        for place in [0, 7, 8, row.len() - 16, row.len() - 1] {
            rows.push(flipped(&row, place));
            rows.push(collided(&row, place));
        }
        rows.push(row[..row.len() - 1].to_vec());
        rows.push(row[..row.len() - 8].to_vec());
        rows.push([&row[..], &[0]].concat());
        rows.push([&row[..], &[0; 8]].concat());
        rows.push(type_b::plain(frame));
        rows.push(Vec::new());
        // CRC_A in place of CRC_B, and CRC_B that is not inverted.
        rows.push(type_b::plain(&crate::crc::with_crc(frame)));
        let turned: Vec<u8> = type_b::crc_b(frame).iter().map(|byte| !byte).collect();
        rows.push(type_b::plain(&[frame, &turned].concat()));
        for row in rows {
            bring(s, state, number, "");
            s.say(&format!("take 1 {}", plain_row(&row)));
        }
    }
}

/// Every slot's marker, and a card of every slot.
fn markers(s: &mut S) {
    s.remark("markers: each card to its own slot alone");
    s.say("clear");
    for i in 1..=16 {
        s.say(&format!("card 000000{i:02X}"));
    }
    s.say("draw 1 2 3 4 5 6 7 8 9 10 11 12 13 14 15 16");
    s.say("new");
    s.say("reqb 16");
    for _ in 0..16 {
        s.say("air");
    }
    s.say("cards");
    for i in 2..=16u8 {
        for own in [i - 1, i, i % 16 + 1] {
            alone(s, ONE, own);
            s.say(&format!("take 1 {}", crc(&[0x05, 0x00, 0x04])));
            s.say(&format!("take 1 {}", crc(&type_b::marker(i))));
        }
    }
}

/// Brings the reader to where it awaits this.
fn await_(s: &mut S, phase: &str) {
    s.say("new");
    match phase {
        "slot" => s.say("reqb 2"),
        "last slot" => s.say("wupb 1"),
        "ATTRIB sent" => s.say(&format!("attrib {ATQB} 8")),
        "HLTB sent" => s.say(&format!("hltb {ONE}")),
        "stopped" => {
            s.say(&format!("hltb {ONE}"));
            s.say("silence")
        }
        _ => String::new(),
    };
}

fn reader(s: &mut S) {
    s.remark("the reader's calls, in every phase");
    s.say("clear");
    for phase in ["ready", "slot", "ATTRIB sent", "HLTB sent", "stopped"] {
        for call in ["reqb 1", "wupb 16", &format!("attrib {ATQB} 0"), "hltb 00000000", "field reqb 1", "reqb 3", "attrib 000000000000000000000000 9"] {
            await_(s, phase);
            s.say(call);
        }
    }
    for n in ["0", "1", "2", "3", "4", "5", "7", "8", "9", "15", "16", "17", "32", "255"] {
        for name in ["reqb", "wupb"] {
            s.say("new");
            s.say(&format!("{name} {n} A5"));
        }
    }
    for index in ["0", "8", "9", "255"] {
        for atqb in [ATQB, "00FFEEDDCC00000000008080", "50000000000000000000FF00", "5000000000000000000001F1"] {
            s.say("new");
            s.say(&format!("attrib {atqb} {index}"));
        }
    }
    s.remark("what the reader makes of a row");
    let mut rows: Vec<Row> = Vec::new();
    for bytes in [
        &crate::language::hex(ATQB)[..],
        &[0x51, 0x11, 0x22, 0x33, 0x44, 0, 0, 0, 0, 0, 0x81, 0x81],
        &[0x00],
        &[0x10],
        &[0xF0],
        &[0x01],
        &[0x0F],
    ] {
        let row = type_b::with_crc(bytes);
        rows.push(flipped(&row, 3));
        rows.push(flipped(&row, row.len() - 1));
        rows.push(collided(&row, 0));
        rows.push(collided(&row, row.len() - 1));
        rows.push(row[..row.len() - 1].to_vec());
        rows.push([&row[..], &[1]].concat());
        rows.push(collided(&row[..row.len() - 8], 2));
        rows.push(row);
    }
    rows.push(Vec::new());
    rows.push(vec![0]);
    rows.push(type_b::with_crc(&[0, 0]));
    for phase in ["ready", "slot", "last slot", "ATTRIB sent", "HLTB sent", "stopped"] {
        for row in &rows {
            await_(s, phase);
            s.say(&format!("hear {}", plain_row(row)));
        }
        await_(s, phase);
        s.say("silence");
        s.say("silence");
        await_(s, phase);
        s.say("air");
    }
}

/// Fields of many sizes, for every N.
fn fields(s: &mut S, random: &mut Random) {
    s.remark("requests over a field");
    for slots in SLOTS {
        for cards in [0, 1, 2, 3, MOST_CARDS] {
            field(s, random, cards, slots, false);
        }
        for _ in 0..3 {
            let cards = random.below(9);
            field(s, random, cards, slots, true);
        }
    }
    s.remark("a list longer than asked: what lies behind is untouched");
    s.say("room 240");
    field(s, random, 5, 4, false);
    s.say("list");
    field(s, random, 16, 16, false);
    s.say("list");
    s.say("room 208");
    s.remark("woken again, attached and halted");
    s.say("new");
    s.say("clear");
    s.say(&format!("card {ONE} halt 20"));
    s.say(&format!("card {TWO} idle 20"));
    s.say("draw 1 2");
    for line in ["field reqb 2 20", "cards", "clear"] {
        s.say(line);
    }
    s.say(&format!("card {ONE} halt 20"));
    s.say(&format!("card {TWO} idle 30"));
    for line in ["field wupb 1 20", "hltb 11223344", "air", "reqb 1", "air", "wupb 1", "air"] {
        s.say(line);
    }
    s.say(&format!("attrib {ATQB} 5"));
    for line in ["air", "hltb 11223344", "air", "new", "wupb 1", "air", "cards"] {
        s.say(line);
    }
}

/// A random field, and a request over it. Mixed: halted cards, cards without markers and other families too.
fn field(s: &mut S, random: &mut Random, cards: usize, slots: u8, mixed: bool) {
    s.say("clear");
    s.say("new");
    let base = random.below(200);
    let mut numbers = Vec::new();
    for i in 0..cards {
        let pupi = format!("{:02X}{:02X}00{:02X}", random.pick(&[0x11, 0x12]), 7, base + i);
        let state = if mixed && random.chance(30) { "halt" } else { "idle" };
        let afi = if mixed { random.pick(&["00", "20", "21", "30"]) } else { "20" };
        let markers = if mixed && random.chance(30) { "no" } else { "yes" };
        s.say(&format!("card {pupi} {state} {afi} {markers} {} {}", show_hex(&random.bytes(4)), show_hex(&random.bytes(3))));
        numbers.push((1 + random.below(slots as usize)).to_string());
    }
    s.say(format!("draw {}", numbers.join(" ")).trim_end());
    let name = random.pick(&["reqb", "wupb"]);
    let afi = random.pick(&["", " 00", " 20"]);
    s.say(&format!("field {name} {slots}{afi}"));
    if cards < 4 {
        s.say("list");
    }
}

/// Each refusal of the request over a field, and what it leaves.
fn refusals(s: &mut S) {
    s.remark("refusals of the request over a field");
    for phase in ["slot", "ATTRIB sent", "HLTB sent", "stopped"] {
        s.say("clear");
        await_(s, phase);
        s.say("room 0");
        s.say("field reqb 3");
    }
    for room in [0, 12, 207] {
        s.say("new");
        s.say(&format!("room {room}"));
        s.say("field reqb 3");
        s.say("list");
    }
    s.say("room 208");
    for n in ["0", "3", "5", "17", "32", "255"] {
        s.say("new");
        s.say(&format!("field reqb {n}"));
    }
    for (slots, number) in [(1, 0), (1, 2), (2, 3), (4, 5), (8, 9), (16, 17), (16, 255), (16, 0)] {
        for state in ["idle", "halt"] {
            s.say("new");
            s.say("clear");
            s.say(&format!("card {ONE}"));
            s.say(&format!("card {TWO} {state} 40"));
            s.say(&format!("draw 1 {number}"));
            s.say(&format!("field reqb {slots} 30"));
            s.say("cards");
        }
    }
    s.remark("a card that is neither idle nor halted");
    for state in STATES {
        bring(s, state, 1, "");
        s.say("new");
        s.say("field wupb 16");
        s.say("cards");
        s.say("list");
    }
    s.remark("a PUPI twice");
    for (first, second, third) in [("01", "01", "02"), ("01", "02", "01"), ("02", "01", "01")] {
        s.say("clear");
        s.say("new");
        for last in [first, second, third] {
            s.say(&format!("card 112233{last} halt"));
        }
        s.say("field reqb 1");
    }
    s.remark("as many cards as the limit, and one more");
    for cards in [MOST_CARDS, MOST_CARDS + 1, 40] {
        s.say("clear");
        s.say("new");
        for i in 0..cards {
            s.say(&format!("card 0000{i:02X}01"));
        }
        s.say("field reqb 1");
        s.say("reqb 1");
        s.say("air");
    }
    s.say("clear");
}

/// A field and a reader over it, with what may go wrong.
fn random_script(s: &mut S, random: &mut Random) {
    let slots = random.pick(&SLOTS);
    let count = random.below(6);
    s.say("clear");
    s.say("new");
    let mut pupis = Vec::new();
    for i in 0..count {
        let pupi = if random.chance(90) || i == 0 { show_hex(&random.bytes(4)) } else { random.pick(&pupis) };
        let state = random.pick(&["idle", "idle", "idle", "halt", "off"]);
        let afi = random.pick(&["00", "20", "21"]);
        let markers = random.pick(&["yes", "yes", "no"]);
        s.say(&format!("card {pupi} {state} {afi} {markers}"));
        pupis.push(pupi);
    }
    let numbers: Vec<String> = (0..count)
        .map(|_| if random.chance(95) { 1 + random.below(slots as usize) } else { random.below(20) })
        .map(|n| n.to_string())
        .collect();
    s.say(format!("draw {}", numbers.join(" ")).trim_end());
    for _ in 0..6 {
        turn(s, random, slots, &pupis);
    }
}

fn turn(s: &mut S, random: &mut Random, slots: u8, pupis: &[String]) {
    let pupi = if pupis.is_empty() { ONE.to_string() } else { random.pick(pupis) };
    match random.below(10) {
        0 | 1 => {
            s.say(&format!("field {} {slots} {}", random.pick(&["reqb", "wupb"]), random.pick(&["00", "20", "21"])));
        }
        2 | 3 => {
            s.say(&format!("{} {slots} {}", random.pick(&["reqb", "wupb"]), random.pick(&["00", "20"])));
            while matches!(s.program.reader, Reader::Slot { .. }) {
                s.say("air");
            }
        }
        4 => {
            s.say(&format!("attrib 50{pupi}{}{} {}", show_hex(&random.bytes(4)), show_hex(&random.bytes(3)), random.below(10)));
            s.say("air");
        }
        5 => {
            s.say(&format!("hltb {pupi}"));
            s.say("air");
        }
        6 => {
            let row: Row = (0..random.pick(&[0, 24, 112])).map(|_| random.below(2) as u8).collect();
            s.say(&format!("hear {}", plain_row(&row)));
        }
        7 if !pupis.is_empty() => {
            let place = 1 + random.below(pupis.len());
            let slot = 2 + random.below(15) as u8;
            let frame = random.pick(&[
                type_b::request(false, slots, 0x20),
                type_b::request(true, slots, 0x00),
                type_b::marker(slot),
                vec![0x50, 1, 2, 3, 4],
            ]);
            s.say(&format!("take {place} {}", crc(&frame)));
        }
        8 if !pupis.is_empty() => {
            let place = random.below(pupis.len());
            let on = if s.program.field[place].state == State::Off { "on" } else { random.pick(&["on", "off"]) };
            s.say(&format!("power {} {on}", place + 1));
        }
        _ => {
            s.say("new");
        }
    }
}
