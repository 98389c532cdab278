//! The script of `bench_card`, selection: no RATS, no block.

use super::{collided, crc_line, damaged, flipped, plain_row, row_line};
use crate::bench_card::BenchCard;
use crate::card::{select_bytes, State};
use crate::card_link::{Last, Mode};
use crate::frames::{self, Row, REQA, WUPA};
use crate::known::{packed, Expect, TRACES};
use crate::language::{hex, show_hex, show_row, Script};
use crate::random::Random;
use crate::uid;

pub type S = Script<BenchCard>;

pub const UID4: &str = "80122821";
pub const UID7: &str = "80122821441020";
pub const UID10: &str = "56341280122821440010";

pub fn script(seed: u64) -> S {
    let mut s = Script::new(BenchCard::new());
    let mut random = Random::new(seed);
    language(&mut s);
    traces(&mut s);
    every_k(&mut s);
    wrong_nvb(&mut s);
    slips(&mut s);
    every_state(&mut s, false);
    damage(&mut s);
    s.remark("random scripts");
    for _ in 0..36 {
        random_script(&mut s, &mut random, false);
    }
    s
}

/// The state of the card under test.
pub fn state(s: &S) -> State {
    s.program.card.as_ref().expect("a card").state.clone()
}

pub fn own_uid(s: &S) -> Vec<u8> {
    s.program.card.as_ref().expect("a card").uid.clone()
}

/// A new card, powered.
pub fn fresh(s: &mut S, uid: &str, sak: &str, index: usize) {
    s.say(&format!("card {uid} {sak} {index}"));
    s.say("power on");
}

/// Brings the card to Idle.
pub fn idle(s: &mut S) {
    match state(s) {
        State::Idle => {}
        State::Off => {
            s.say("power on");
        }
        _ => {
            s.say("power off");
            s.say("power on");
        }
    }
}

/// Brings the card to Ready at a level by the fewest lines.
pub fn ready(s: &mut S, level: usize) {
    if !matches!(state(s), State::Ready(at) if at <= level) {
        idle(s);
        s.say("short 26");
    }
    while let State::Ready(at) = state(s) {
        if at == level {
            return;
        }
        let line = crc_line(&select_bytes(&own_uid(s), at));
        s.say(&line);
    }
    panic!("the card has no such level");
}

pub fn active(s: &mut S) {
    if state(s) == State::Active {
        return;
    }
    let uid = own_uid(s);
    let last = uid::level_count(&uid);
    ready(s, last);
    s.say(&crc_line(&select_bytes(&uid, last)));
    assert_eq!(state(s), State::Active);
}

pub fn halt(s: &mut S) {
    if state(s) != State::Halt {
        active(s);
        s.say("crc 5000");
        assert_eq!(state(s), State::Halt);
    }
}

/// Brings the card to Ready* at a level, woken from Halt.
pub fn ready_star(s: &mut S, level: usize) {
    if !matches!(state(s), State::ReadyStar(at) if at <= level) {
        halt(s);
        s.say("short 52");
    }
    while let State::ReadyStar(at) = state(s) {
        if at == level {
            return;
        }
        let line = crc_line(&select_bytes(&own_uid(s), at));
        s.say(&line);
    }
    panic!("the card has no such level");
}

pub fn active_star(s: &mut S) {
    if state(s) == State::ActiveStar {
        return;
    }
    let uid = own_uid(s);
    let last = uid::level_count(&uid);
    ready_star(s, last);
    s.say(&crc_line(&select_bytes(&uid, last)));
    assert_eq!(state(s), State::ActiveStar);
}

fn language(s: &mut S) {
    s.remark("before the first card only card and room are understood");
    for line in [
        "power on",
        "row 0110010",
        "short 26",
        "bytes 9320",
        "crc 5000",
        "reply 00",
        "wtx 1",
        "room 4096",
        "room 4097",
        "card 0102 20 8",
        "card 88020304 20 8",
        "card 01020304 20 9",
        "card 01020388050607 00 0",
        "card 01020304 20 8",
        "power on",
        "short 26",
        "bytes 9320",
    ] {
        s.say(line);
    }
    s.remark("lines that are not understood change nothing; a card that is refused leaves the old one");
    for line in [
        "card",
        "card 01020304",
        "card 01020304 20",
        "card 01020304 21 8",
        "card 01020304 0 8",
        "card 01020304 20 256",
        "card 01020304 20 8 8",
        "card - 20 8",
        "card 0102030405060708090a0b 20 8",
        "card 0102030 20 8",
        "card 01020304 20 255",
        "card 0102030405060708090a 20 9",
        "card 010203040506070809 00 8",
        "power",
        "power up",
        "power on off",
        "Power on",
        "row",
        "row 012",
        "row 01X",
        "row 0 1",
        "short",
        "short 6",
        "short 026",
        "bytes",
        "bytes 932",
        "bytes 93 20",
        "crc 5000 57CD",
        "crc xx",
        "reply",
        "reply 0",
        "wtx",
        "wtx 256",
        "wtx -1",
        "wtx 000001",
        "room",
        "room 4097",
        "room 99999",
        "room 1 2",
        "new",
        "silence",
        "sweep",
        "",
        "\r",
        "# card 01020304 20 8",
        "bytes   9320\r",
        "BYTES 9320",
    ] {
        s.say(line);
    }
    s.say(&format!("row {}", "1".repeat(16_381)));
    s.remark("the longest line is understood");
    s.say(&format!("row {}", "1".repeat(16_380)));
    s.say("card 01020304 00 00008");
}

/// Source document 004's traces, each row on a card freshly put into Ready at that level.
fn traces(s: &mut S) {
    s.remark("the traces of source document 004");
    for trace in TRACES {
        fresh(s, trace.uid, "00", 8);
        for step in trace.steps {
            s.say("power off");
            ready(s, step.level);
            let answer = s.say(&plain_row(&packed(step.frame)));
            match step.expect {
                Expect::Answer(row) => assert!(answer.starts_with(&format!("answer {} ; ", show_row(&packed(row))))),
                Expect::Mismatch => assert_eq!(answer, "silent ; idle"),
            }
        }
        halt(s);
        s.say("short 26");
        s.say("short 52");
    }
}

fn level_bits(s: &S, level: usize) -> Row {
    frames::bits_of(&uid::levels(&own_uid(s))[level - 1])
}

/// Every k at every level, matching, and with the last bit another.
fn every_k(s: &mut S) {
    s.remark("k from 0 to 39, matching and not");
    fresh(s, UID10, "20", 8);
    for level in 1..=3 {
        for k in 0..40 {
            ready(s, level);
            let bits = level_bits(s, level);
            let row = frames::anticollision(level, &bits[..k]);
            let answer = s.say(&plain_row(&row));
            assert!(answer.ends_with(&format!("; ready {level}")) && answer.starts_with("answer "));
            // At the other levels only some of the mismatches, to keep the file short.
            if k > 0 && (level == 1 || [1, 8, 16, 31, 32, 39].contains(&k)) {
                let mut other = bits[..k].to_vec();
                other[k - 1] ^= 1;
                assert_eq!(s.say(&plain_row(&frames::anticollision(level, &other))), "silent ; idle");
            }
        }
    }
    s.remark("a mismatch in the first bit, and then the frame of the next level");
    fresh(s, UID7, "20", 8);
    for k in [1, 8, 17, 32, 39] {
        ready(s, 1);
        let bits = level_bits(s, 1);
        s.say(&plain_row(&frames::anticollision(1, &flipped(&bits[..k], 0))));
        s.say("bytes 9520");
        s.say("bytes 9320");
    }
    s.remark("SELECT that differs in one bit of the level, CRC_A right");
    fresh(s, UID4, "00", 0);
    for place in 0..40 {
        ready(s, 1);
        let mut bytes = select_bytes(&own_uid(s), 1);
        bytes[2 + place / 8] ^= 1 << (place % 8);
        assert_eq!(s.say(&crc_line(&bytes)), "silent ; idle");
    }
    s.remark("ANTICOLLISION again and again in the same state");
    ready(s, 1);
    for k in [0, 31, 32, 39, 0, 12] {
        let bits = level_bits(s, 1);
        s.say(&plain_row(&frames::anticollision(1, &bits[..k])));
    }
}

/// Each NVB over the bits that it announces, as far as it can announce any; and right NVBs over wrong lengths.
fn wrong_nvb(s: &mut S) {
    s.remark("NVB that is wrong, whatever follows");
    fresh(s, UID4, "20", 8);
    let level = frames::standard(&uid::levels(&hex(UID4))[0]);
    for nvb in [
        0x00, 0x02, 0x10, 0x17, 0x18, 0x19, 0x1F, 0x28, 0x29, 0x2F, 0x38, 0x48, 0x58, 0x5F, 0x68, 0x69, 0x6F, 0x70, 0x71, 0x72,
        0x77, 0x78, 0x7F, 0x80, 0x90, 0xF0, 0xFF,
    ] {
        let (whole, left_over) = ((nvb >> 4) as usize, (nvb & 0x0F) as usize);
        let head = frames::standard(&[0x93, nvb]);
        let mut lengths = vec![0, 45, (9 * whole.saturating_sub(2) + left_over).min(45), (9 * whole.saturating_sub(1)).min(45)];
        lengths.sort();
        lengths.dedup();
        for length in lengths {
            ready(s, 1);
            let row = [head.clone(), level[..length].to_vec()].concat();
            assert_eq!(s.say(&plain_row(&row)), "silent ; idle");
        }
    }
    s.remark("every NVB alone");
    for nvb in 0..=255u8 {
        if nvb % 5 != 0 && nvb & 0x0F > 1 {
            continue;
        }
        ready(s, 1);
        let answer = s.say(&format!("bytes 93{nvb:02X}"));
        assert_eq!(answer.starts_with("answer"), nvb == 0x20);
    }
    s.remark("a right NVB over one bit less and one more, and over the next NVB's bits");
    for k in [0, 1, 7, 8, 9, 15, 16, 31, 32, 39] {
        let row = frames::anticollision(1, &level_bits(s, 1)[..k]);
        ready(s, 1);
        s.say(&plain_row(&row[..row.len() - 1]));
        ready(s, 1);
        s.say(&plain_row(&[row.clone(), vec![level[k + k / 8]]].concat()));
    }
    s.remark("other SEL bytes");
    for sel in [0x91, 0x92, 0x94, 0x96, 0x98, 0x99, 0x13, 0xD3, 0x00] {
        ready(s, 1);
        s.say(&format!("bytes {sel:02X}20"));
    }
    for sel in [0x91, 0x94, 0x96, 0x99] {
        ready(s, 1);
        s.say(&format!("crc {sel:02X}70801228219B"));
    }
}

fn slips(s: &mut S) {
    s.remark("WUPA and REQA as 8 bits, and as bytes");
    fresh(s, UID4, "20", 8);
    for line in ["row 01001010", "row 01100100", "bytes 52", "bytes 26", "crc 52", "row 010010", "short 52"] {
        s.say(line);
        if state(s) != State::Idle {
            idle(s);
        }
    }
    halt(s);
    for line in ["row 01001010", "bytes 52", "row 010010", "row 01001011", "short 26", "short D2"] {
        s.say(line);
    }
    s.remark("SELECT without CRC_A, with CRC_A in wrong order, and a byte too many");
    for line in [
        "bytes 9370801228219B",
        "bytes 9370801228219B7C56",
        "bytes 9370801228219B0000",
        "crc 9370801228219B00",
        "crc 937080122821",
        "bytes 9370801228219B567C",
    ] {
        ready(s, 1);
        s.say(line);
    }
    s.remark("HLTA without CRC_A, and others near it");
    for line in ["bytes 5000", "crc 5001", "crc 50", "crc 500000", "crc 5100", "bytes 5000CD57", "bytes 500057CD"] {
        active(s);
        s.say(line);
    }
    s.remark("a mismatched card has left Ready: the next level's frame gets silence");
    fresh(s, UID7, "00", 4);
    ready(s, 1);
    s.say("crc 93708880122833");
    s.say("bytes 9520");
    ready(s, 2);
    s.say("bytes 9320");
    s.say("bytes 9520");
    s.remark("the last SELECT of a level, then of the level before");
    ready(s, 2);
    s.say("crc 93708880122832");
    s.say("crc 95702144102055");
    s.remark("a broken byte has no parity: with one it is of another length");
    fresh(s, UID4, "20", 8);
    for k in [1, 10, 20, 31, 39] {
        ready(s, 1);
        let row = frames::anticollision(1, &level_bits(s, 1)[..k]);
        s.say(&plain_row(&[row.clone(), vec![0]].concat()));
        ready(s, 1);
        s.say(&plain_row(&[row, vec![1]].concat()));
    }
}

/// The frames of selection, by which every state is tried.
fn selection_frames(uid: &[u8]) -> Vec<String> {
    let mut lines: Vec<String> =
        ["short 26", "short 52", "short 00", "short 35", "short 7F", "short 62"].map(String::from).to_vec();
    let levels = uid::levels(uid);
    for level in 1..=3 {
        let bits = frames::bits_of(&levels[level - 1]);
        lines.push(format!("bytes {:02X}20", frames::sel(level)));
        lines.push(plain_row(&frames::anticollision(level, &bits[..13])));
        lines.push(plain_row(&frames::anticollision(level, &flipped(&bits[..13], 12))));
        lines.push(crc_line(&select_bytes(uid, level)));
        let mut other = select_bytes(uid, level);
        other[3] ^= 0x40;
        lines.push(crc_line(&other));
        lines.push(format!("bytes {}", show_hex(&select_bytes(uid, level))));
    }
    for line in [
        "crc 5000",
        "bytes 5000",
        "crc 5001",
        "row -",
        "row 0",
        "row 1",
        "row x",
        "row 01001010",
        "row xxxxxxx",
        "bytes 00",
        "crc 00",
        "row xxxxxxxxxxxxxxxxxx",
    ] {
        lines.push(line.to_string());
    }
    lines
}

/// RATS and blocks as strangers in the states of selection, and where RATS is due.
fn block_frames() -> Vec<String> {
    [
        "crc E000",
        "crc E080",
        "crc E0F0",
        "crc E081",
        "crc E0",
        "crc E00000",
        "bytes E080",
        "crc 02",
        "crc 03AA",
        "crc 12BB",
        "crc A2",
        "crc A3",
        "crc B2",
        "crc C2",
        "crc F201",
    ]
    .map(String::from)
    .to_vec()
}

/// Every state of selection with every kind of frame, and with each host call. With `strangers` the frames are RATS and blocks.
pub fn every_state(s: &mut S, strangers: bool) {
    s.remark(if strangers { "every state with RATS and blocks" } else { "every state with every frame of selection" });
    for sak in ["20", "00"] {
        for place in 0..11 {
            // A card that speaks no blocks differs in Active and Active* only; RATS and blocks are the same at each level.
            if (sak == "00" && place != 5 && place != 10) || (strangers && [3, 4, 8, 9].contains(&place)) {
                continue;
            }
            // The card of three levels where the level matters, else one that is sooner Active.
            let uid = if place < 5 || (7..10).contains(&place) { UID10 } else { UID4 };
            let lines = if strangers { block_frames() } else { selection_frames(&hex(uid)) };
            fresh(s, uid, sak, 8);
            let bring = |s: &mut S| match place {
                0 => {
                    s.say("power off");
                }
                1 => idle(s),
                2 | 3 | 4 => ready(s, place - 1),
                5 => active(s),
                6 => halt(s),
                7 | 8 | 9 => ready_star(s, place - 6),
                _ => active_star(s),
            };
            for line in &lines {
                bring(s);
                s.say(line);
            }
            bring(s);
            for line in ["reply 0102", "reply -", "wtx 1", "wtx 0", "wtx 255", "power on"] {
                s.say(line);
                bring(s);
            }
        }
    }
}

/// The frame that is awaited, with each place flipped and collided, cut and lengthened. `step` thins the places out.
pub fn damage_of(s: &mut S, row: &[u8], step: usize, bring: &dyn Fn(&mut S)) {
    for place in (0..row.len()).step_by(step).chain([row.len() - 1]) {
        bring(s);
        s.say(&plain_row(&flipped(row, place)));
        bring(s);
        s.say(&plain_row(&collided(row, place)));
    }
    for count in [0, 1, row.len() / 2, row.len() - 9.min(row.len()), row.len() - 1] {
        bring(s);
        s.say(&plain_row(&row[..count]));
    }
    for more in [1, 2, 9] {
        bring(s);
        s.say(&plain_row(&[row.to_vec(), vec![1; more]].concat()));
    }
    bring(s);
    s.say(&plain_row(&[vec![0], row.to_vec()].concat()));
    bring(s);
    s.say(&plain_row(row));
}

fn damage(s: &mut S) {
    s.remark("awaited frames, damaged: REQA, WUPA, ANTICOLLISION, SELECT, HLTA");
    fresh(s, UID4, "20", 8);
    damage_of(s, &frames::short(REQA), 1, &idle);
    damage_of(s, &frames::short(WUPA), 1, &halt);
    let bits = level_bits(s, 1);
    damage_of(s, &frames::standard(&[0x93, 0x20]), 1, &|s| ready(s, 1));
    damage_of(s, &frames::anticollision(1, &bits[..13]), 3, &|s| ready(s, 1));
    damage_of(s, &frames::anticollision(1, &bits[..32]), 7, &|s| ready(s, 1));
    damage_of(s, &frames::select(1, &uid::levels(&hex(UID4))[0]), 5, &|s| ready(s, 1));
    damage_of(s, &frames::hlta(), 4, &active);
    s.remark("the same of a woken card, which goes back to Halt");
    damage_of(s, &frames::anticollision(1, &bits[..13]), 11, &|s| ready_star(s, 1));
    damage_of(s, &frames::select(1, &uid::levels(&hex(UID4))[0]), 17, &|s| ready_star(s, 1));
    damage_of(s, &frames::hlta(), 7, &active_star);
    fresh(s, UID10, "00", 8);
    damage_of(s, &frames::anticollision(3, &level_bits(s, 3)[..24]), 13, &|s| ready(s, 3));
    damage_of(s, &frames::select(2, &uid::levels(&hex(UID10))[1]), 19, &|s| ready(s, 2));
}

/// One random script: a new card and some lines, most of them due.
pub fn random_script(s: &mut S, random: &mut Random, blocks: bool) {
    let uid = random.uid();
    let sak = if random.chance(if blocks { 90 } else { 50 }) { "20" } else { "00" };
    let index = random.pick(&[0, 0, 0, 1, 2, 3, 5, 8]);
    s.say(&format!("card {} {sak} {index}", show_hex(&uid)));
    if blocks {
        let room = random.pick(&[4096, 4096, 100, 40, 20, 1]);
        s.say(&format!("room {room}"));
    }
    let steps = if blocks { 12 + random.below(40) } else { 6 + random.below(14) };
    for _ in 0..steps {
        let line = random_line(s, random, blocks);
        s.say(&line);
    }
}

fn random_line(s: &S, random: &mut Random, blocks: bool) -> String {
    if random.chance(2) {
        return random.pick(&["power on", "power on", "power off"]).to_string();
    }
    if random.chance(2) {
        let message = super::card_blocks::random_message(random, 16);
        return format!("reply {}", show_hex(&message));
    }
    if random.chance(2) {
        return format!("wtx {}", random.below(70));
    }
    let row = match state(s) {
        State::Off => return if random.chance(85) { "power on".to_string() } else { "short 26".to_string() },
        State::Protocol(_) => return super::card_blocks::random_protocol_line(s, random),
        State::Idle => frames::short(random.pick(&[REQA, REQA, WUPA])),
        State::Halt => frames::short(random.pick(&[WUPA, WUPA, WUPA, REQA])),
        State::Active | State::ActiveStar => {
            if blocks && random.chance(80) {
                frames::standard_with_crc(&[
                    0xE0,
                    random.pick(&[0x00, 0x00, 0x00, 0x10, 0x20, 0x30, 0x50, 0x80, 0xF0, 0x90, 0x01]),
                ])
            } else {
                frames::hlta()
            }
        }
        State::Ready(level) | State::ReadyStar(level) => {
            let own = uid::levels(&own_uid(s))[level - 1];
            let bits = frames::bits_of(&own);
            match random.below(10) {
                0..=3 if !blocks => frames::anticollision(level, &bits[..random.below(40)]),
                4 if !blocks => {
                    let k = 1 + random.below(39);
                    let place = random.below(k);
                    frames::anticollision(level, &flipped(&bits[..k], place))
                }
                0 => frames::anticollision(level, &bits[..random.below(40)]),
                5 if !blocks => frames::anticollision(1 + random.below(3), &bits[..random.below(40)]),
                _ => frames::select(level, &own),
            }
        }
    };
    let wrong = if blocks { 4 } else { 14 };
    if random.chance(wrong) {
        let row = damaged(random, &row);
        return plain_row(&row);
    }
    if random.chance(wrong / 2) {
        return random.pick(&["short 26", "short 52", "crc 5000", "bytes 9320", "bytes 9520", "row -"]).to_string();
    }
    row_line(&row)
}

/// Mode and last block of a card in Protocol.
pub fn link(s: &S) -> Option<(Mode, Last, u8)> {
    match state(s) {
        State::Protocol(link) => Some((link.mode, link.last, link.number)),
        _ => None,
    }
}

/// Random scripts, each beginning with `card`, for larger comparisons.
pub fn random_scripts(count: usize, seed: u64) -> S {
    let mut s = Script::new(BenchCard::new());
    let mut random = Random::new(seed);
    for i in 0..count {
        random_script(&mut s, &mut random, i % 4 != 0);
    }
    s
}
