//! The script of `bench_reader`, selection: no RATS, no block.

use super::{collided, damaged, flipped, plain_row, row_line, wrong_from};
use crate::bench_reader::BenchReader;
use crate::card::{Card, Outcome};
use crate::frames::{self, Row};
use crate::language::{hex, read_row, show_hex, Script};
use crate::random::Random;
use crate::reader::Phase;
use crate::uid;

pub type S = Script<BenchReader>;

pub fn script(seed: u64) -> S {
    let mut s = Script::new(BenchReader::new());
    let mut random = Random::new(seed);
    language(&mut s);
    not_due(&mut s, &SELECTION_PHASES, false);
    atqa(&mut s);
    anticollision(&mut s);
    thirty_three(&mut s);
    last_bits(&mut s);
    two_faults(&mut s);
    where_it_broke(&mut s);
    sak(&mut s);
    wake(&mut s);
    sweep_by_hand(&mut s);
    fields_by_hand(&mut s);
    remember_by_hand(&mut s);
    s.remark("random scripts");
    for _ in 0..36 {
        random_script(&mut s, &mut random, false);
    }
    s
}

/// The lines that bring a new reader into each phase of selection.
pub const SELECTION_PHASES: [&[&str]; 11] = [
    &["new"],
    &["new", "select"],
    &["new", "sweep"],
    &["new", "select", "bytes 0400"],
    &["new", "select", "bytes 0400", "bytes 0102030404"],
    &["new", "sweep", "bytes 0400", "bytes 0102030404", "crc 00"],
    &["new", "select", "bytes 0400", "bytes 0102030404", "crc 00"],
    &["new", "sweep", "silence"],
    &["new", "select", "silence"],
    &["new", "wake 04112233445566"],
    &["new", "wake 04112233445566", "bytes 4400", "crc 04"],
];

/// A card selected that speaks blocks: here only for the calls that are not due.
const SELECTED: &[&str] = &["new", "select", "bytes 0400", "bytes 0102030404", "crc 20"];

fn say_all(s: &mut S, lines: &[&str]) -> String {
    let mut answer = String::new();
    for line in lines {
        answer = s.say(line);
    }
    answer
}

fn language(s: &mut S) {
    s.remark("the program starts with a new reader");
    for line in ["row -", "silence", "short 26", "rats 8", "send 00", "deselect", "select", "select"] {
        s.say(line);
    }
    s.remark("lines that are not understood change nothing");
    for line in [
        "bytes",
        "bytes 040",
        "bytes 04 00",
        "row",
        "row 2",
        "row 0X",
        "short 4",
        "crc",
        "select now",
        "sweep all",
        "new reader",
        "New",
        "rats",
        "rats 256",
        "rats x",
        "rats 8 8",
        "rats 000008",
        "send",
        "send 0",
        "send 00 00",
        "deselect now",
        "silence now",
        "room",
        "room 4097",
        "room x",
        "power on",
        "card 01020304 20 8",
        "wtx 1",
        "reply 00",
        "",
        "# new",
        "\r",
        "room 4096",
        "room 00000",
        "room 4096",
        "bytes   0400\r",
        "bytes 9320",
    ] {
        s.say(line);
    }
    s.say(&format!("row {}", "0".repeat(16_381)));
    s.say("new");
    s.say("select");
    s.remark("the longest line is understood");
    s.say(&format!("row {}", "0".repeat(16_380)));
}

/// Every call in every phase; what is not due is 11 and changes nothing. A call that is due ends the visit.
pub fn not_due(s: &mut S, phases: &[&[&str]], blocks: bool) {
    s.remark("calls that are not due");
    for lines in phases.iter().chain([&SELECTED]) {
        say_all(s, lines);
        for call in
            ["select", "sweep", "remember", "wake 05060708", "wake 88060708", "rats 8", "rats 9", "rats 255", "send 0102", "send -", "deselect", "row -", "bytes 0400", "row x"]
        {
            let before = s.program.reader.clone();
            // RATS where it is due belongs to the other half of the script.
            let rats_due = matches!(before.phase, Phase::Selected { sak } if sak & 0x20 != 0);
            if call.starts_with("rats") && rats_due && !blocks {
                continue;
            }
            s.say(call);
            if s.program.reader != before {
                say_all(s, lines);
            }
        }
    }
}

/// T-03: one known card. The UID, ATQA, and SAK at each level.
fn wake(s: &mut S) {
    s.remark("one known card, T-03: lines that are not understood, UIDs that are not valid, and 88s that are");
    s.say("new");
    for line in ["wake", "wake -", "wake 0", "wake 01 02", "wake 0102030405060708090A0B", "wake x", "Wake 01020304"] {
        s.say(line);
    }
    for uid in ["01", "010203", "88020304", "0102030405", "010203040506", "01020388050607", "0102030405060708", "010203040506070809"] {
        assert_eq!(s.say(&format!("wake {uid}")), "refused 6");
    }
    for uid in ["05060708", "88020304050607", "88020388050688080910"] {
        s.say("new");
        assert_eq!(s.say(&format!("wake {uid}")), "send 0100101");
    }
    s.remark("ATQA is tested as ever");
    let row = frames::standard(&[0x04, 0x00]);
    let mut rows = vec![Row::new(), row[..17].to_vec(), [row.clone(), vec![1]].concat(), frames::standard(&[0xC4, 0x00])];
    rows.extend([frames::standard(&[0x20, 0x00]), frames::standard(&[0x00, 0x1F]), vec![2; 18]]);
    rows.extend((0..18).step_by(3).map(|place| flipped(&row, place)));
    rows.extend([4, 8, 13, 17].map(|place| collided(&row, place)));
    for row in rows {
        say_all(s, &["new", "wake 05060708"]);
        s.say(&plain_row(&row));
    }
    s.remark("SAK at each level: b3 set exactly if it is not the last; any other bits");
    for uid in ["05060708", "04112233445566", "56341280122821440010"] {
        for level in 1..=uid::level_count(&hex(uid)) {
            let bring = |s: &mut S| {
                say_all(s, &["new", &format!("wake {uid}"), "bytes 0400"]);
                (1..level).for_each(|_| drop(s.say("crc 04")));
            };
            for sak in ["00", "04", "20", "24", "08", "FB", "FF", "18"] {
                bring(s);
                s.say(&format!("crc {sak}"));
                s.say("silence");
            }
            let row = frames::standard_with_crc(&[if level < uid::level_count(&hex(uid)) { 0x04 } else { 0x20 }]);
            for place in (0..27).step_by(5).chain([8, 17, 26]) {
                bring(s);
                s.say(&plain_row(&flipped(&row, place)));
                bring(s);
                s.say(&plain_row(&collided(&row, place)));
            }
            let wrong_crc = frames::standard(&[row_byte(&row), 0, 0]);
            for row in [Row::new(), row[..26].to_vec(), [row.clone(), vec![0]].concat(), wrong_crc] {
                bring(s);
                s.say(&plain_row(&row));
            }
        }
    }
}

/// The first byte of a row.
fn row_byte(row: &[u8]) -> u8 {
    frames::byte_of(&row[..8])
}

/// A reader that has sent ANTICOLLISION with k = 0 at a level, by levels 88 01 02 03 and 88 04 05 06.
pub fn at_level(s: &mut S, level: usize) {
    say_all(s, &["new", "select", "bytes 4400"]);
    if level > 1 {
        say_all(s, &["bytes 8801020388", "crc 04"]);
    }
    if level > 2 {
        say_all(s, &["bytes 880405068F", "crc 04"]);
    }
}

/// The five bytes that the tests use at each level.
fn level_bytes(level: usize) -> [u8; 5] {
    let four = [[0x31, 0x42, 0x53, 0x64], [0x75, 0x86, 0x97, 0xA8], [0xB9, 0xCA, 0xDB, 0xEC]][level - 1];
    [four[0], four[1], four[2], four[3], uid::check_byte(&four)]
}

fn atqa(s: &mut S) {
    s.remark("ATQA: lengths");
    let row = frames::standard(&[0x04, 0x00]);
    let ask = |s: &mut S, row: &[u8]| {
        say_all(s, &["new", "select"]);
        s.say(&plain_row(row));
        // The same in a sweep.
        say_all(s, &["new", "sweep"]);
        s.say(&plain_row(row))
    };
    for count in [0, 1, 7, 8, 9, 16, 17, 18] {
        ask(s, &row[..count]);
    }
    for more in [1, 9, 18, 27] {
        ask(s, &[row.clone(), vec![1; more]].concat());
    }
    s.remark("ATQA: merged length bits 11, other bits, b1 to b5");
    for (first, second) in [
        (0xC4, 0x00),
        (0xFF, 0xFF),
        (0x01, 0x00),
        (0x02, 0x0F),
        (0x08, 0xF0),
        (0x10, 0x00),
        (0x1F, 0x00),
        (0x20, 0x00),
        (0x40, 0x00),
        (0x80, 0x00),
        (0xC0, 0x00),
        (0xE0, 0xFF),
        (0x00, 0x00),
        (0x00, 0x1F),
        (0x44, 0x00),
        (0x84, 0x00),
        (0xE1, 0x00),
    ] {
        ask(s, &frames::standard(&[first, second]));
    }
    s.remark("ATQA: parity, and collided bits");
    for place in 0..18 {
        ask(s, &flipped(&row, place));
        ask(s, &collided(&row, place));
    }
    let nothing = frames::standard(&[0x00, 0x00]);
    for place in 0..18 {
        ask(s, &collided(&nothing, place));
    }
    s.remark("a collided data bit leaves the byte's parity unchecked; the other byte's is checked");
    ask(s, &collided(&flipped(&row, 8), 0));
    ask(s, &collided(&collided(&row, 8), 0));
    ask(s, &collided(&flipped(&row, 17), 0));
    ask(s, &collided(&flipped(&row, 17), 12));
    ask(s, &collided(&flipped(&nothing, 8), 6));
    ask(s, &[2; 18]);
    ask(s, &[2; 17]);
    s.remark("3 before 9");
    ask(s, &flipped(&nothing, 17));
    s.remark("merged ATQAs of two and three sizes");
    let merged = |values: &[u8]| frames::merge(&values.iter().map(|&v| frames::standard(&[v, 0])).collect::<Vec<Row>>());
    for values in [&[0x04, 0x44][..], &[0x44, 0x84], &[0x04, 0x84], &[0x04, 0x44, 0x84], &[0x01, 0x02], &[0x81, 0x42]] {
        ask(s, &merged(values));
    }
}

/// A reader at a level with k bits of the test bytes known, brought there by a collision whose kept bit is that of the bytes or
/// a 1; gives the bytes that its answer must complete.
fn with_known(s: &mut S, level: usize, p: usize) -> [u8; 5] {
    at_level(s, level);
    let mut bytes = level_bytes(level);
    bytes[p / 8] |= 1 << (p % 8);
    bytes[4] = uid::check_byte(&bytes[..4]);
    let row = frames::rest_of_level(&bytes, 0);
    s.say(&plain_row(&collided(&row, p + p / 8)));
    bytes
}

fn anticollision(s: &mut S) {
    s.remark("ANTICOLLISION: lengths of the answer for some k");
    for p in [None, Some(0), Some(7), Some(12), Some(30), Some(31)] {
        let k = p.map_or(0, |p| p + 1);
        let right = frames::rest_length(k);
        for count in [0, 1, right - 1, right, right + 1, right + 9, 45] {
            let bytes = match p {
                None => {
                    at_level(s, 1);
                    level_bytes(1)
                }
                Some(p) => with_known(s, 1, p),
            };
            let mut row = frames::rest_of_level(&bytes, k);
            row.resize(count, 1);
            s.say(&plain_row(&row));
        }
    }
    s.remark("every position collided, k = 0; then what follows it, clean");
    for level in 1..=3 {
        let step = if level == 1 { 1 } else { 8 };
        for p in (level - 1..40).step_by(step) {
            at_level(s, level);
            let row = frames::rest_of_level(&level_bytes(level), 0);
            s.say(&plain_row(&collided(&row, p + p / 8)));
        }
    }
    s.remark("every parity bit flipped and collided, k = 0");
    for byte in 0..5 {
        let row = frames::rest_of_level(&level_bytes(1), 0);
        at_level(s, 1);
        s.say(&plain_row(&flipped(&row, 9 * byte + 8)));
        at_level(s, 1);
        s.say(&plain_row(&collided(&row, 9 * byte + 8)));
    }
    s.remark("a data bit flipped: parity; with its parity bit: B");
    for p in (0..40).step_by(3) {
        let row = frames::rest_of_level(&level_bytes(1), 0);
        let place = p + p / 8;
        at_level(s, 1);
        s.say(&plain_row(&flipped(&row, place)));
        at_level(s, 1);
        s.say(&plain_row(&flipped(&flipped(&row, place), 9 * (p / 8) + 8)));
    }
    s.remark("the parity of the broken byte is ignored: right, wrong, collided; its data bits go into B");
    for p in [0, 6, 12, 19, 30] {
        let k = p + 1;
        let remainder = 8 - k % 8;
        for change in 0..4 {
            let bytes = with_known(s, 1, p);
            let row = frames::rest_of_level(&bytes, k);
            let row = match change {
                0 => row,
                1 => flipped(&row, remainder),
                2 => collided(&row, remainder),
                _ => flipped(&row, 0),
            };
            s.say(&plain_row(&row));
        }
    }
    s.remark("in the whole bytes behind it parity is checked");
    for p in [3, 12, 22] {
        let k = p + 1;
        let bytes = with_known(s, 1, p);
        let row = frames::rest_of_level(&bytes, k);
        let first_parity = 8 - k % 8 + 9;
        s.say(&plain_row(&flipped(&row, first_parity)));
        with_known(s, 1, p);
        s.say(&plain_row(&collided(&row, first_parity)));
        with_known(s, 1, p);
        s.say(&plain_row(&collided(&flipped(&row, first_parity), first_parity - 1)));
        with_known(s, 1, p);
        s.say(&plain_row(&collided(&flipped(&row, row.len() - 1), 0)));
        with_known(s, 1, p);
        s.say(&plain_row(&collided(&row, row.len() - 2)));
    }
}

/// Rows that part at every bit of a level: 33 ANTICOLLISION frames, at each level.
fn thirty_three(s: &mut S) {
    s.remark("33 rows that part at every bit of a level");
    for (level, four) in [(1, [0xFF; 4]), (3, [0xFF; 4])] {
        at_level(s, level);
        let bytes = [four[0], four[1], four[2], four[3], uid::check_byte(&four)];
        let mut frames_sent = 1;
        for p in 0..32 {
            // The rows still there: the one of all ones, and those that part from it at p or behind it.
            let rows: Vec<Row> = (p..33)
                .map(|place| {
                    let mut own = four;
                    if place < 32 {
                        own[place / 8] ^= 1 << (place % 8);
                    }
                    frames::rest_of_level(&[own[0], own[1], own[2], own[3], uid::check_byte(&own)], p)
                })
                .collect();
            let answer = s.say(&plain_row(&frames::merge(&rows)));
            assert!(answer.starts_with("send "));
            frames_sent += 1;
        }
        assert_eq!(frames_sent, 33);
        s.say(&plain_row(&frames::rest_of_level(&bytes, 32)));
        s.say("crc 20");
    }
}

/// Collisions at the last bit of a byte at each level.
fn last_bits(s: &mut S) {
    s.remark("collisions at 7, 15, 23, 31 at each level, to the end");
    for level in 1..=3 {
        for p in [7, 15, 23, 31] {
            let bytes = with_known(s, level, p);
            assert_eq!((p + 1) % 8, 0);
            s.say(&plain_row(&frames::rest_of_level(&bytes, p + 1)));
            s.say("crc 20");
        }
        // All four, one after the other.
        at_level(s, level);
        let four = [0xFF; 4];
        let bytes = [0xFF, 0xFF, 0xFF, 0xFF, uid::check_byte(&four)];
        let mut k = 0;
        for p in [7, 15, 23, 31] {
            let row = frames::rest_of_level(&bytes, k);
            s.say(&plain_row(&collided(&row, p + p / 8 - k - k / 8)));
            k = p + 1;
        }
        s.say(&plain_row(&frames::rest_of_level(&bytes, k)));
        s.say("crc 00");
    }
}

/// Two faults at once show the order of the tests.
fn two_faults(s: &mut S) {
    s.remark("two faults at once: 2 before 8 before 3 before 5");
    let row = frames::rest_of_level(&level_bytes(1), 0);
    let b_first = 36;
    for change in [
        collided(&flipped(&row, 8), b_first),
        collided(&row, b_first)[..44].to_vec(),
        flipped(&row, 8)[..44].to_vec(),
        collided(&collided(&row, 5), b_first),
        collided(&collided(&flipped(&row, 17), 5), b_first),
        collided(&collided(&flipped(&row, 8), 5), b_first),
        flipped(&flipped(&row, b_first), 8),
        collided(&collided(&row, b_first), 44),
        collided(&row, 44),
        collided(&flipped(&row, b_first), 44),
        collided(&collided(&row, 43), 8),
        [row.clone(), vec![2]].concat(),
        vec![2; 45],
        vec![2; 46],
    ] {
        at_level(s, 1);
        s.say(&plain_row(&change));
    }
}

/// T-07: with 3 comes the first byte whose parity is wrong among those checked.
fn where_it_broke(s: &mut S) {
    s.remark("where the parity broke: the bytes of ATQA and SAK, alone and together");
    let bring = |s: &mut S, atqa: bool| {
        at_level(s, 1);
        if atqa {
            say_all(s, &["new", "select"]);
        } else {
            s.say(&format!("bytes {}", show_hex(&level_bytes(1))));
        }
    };
    for (row, atqa) in [(frames::standard(&[0x04, 0x00]), true), (frames::standard_with_crc(&[0x20]), false)] {
        for byte in 0..row.len() / 9 {
            for change in [flipped(&row, 9 * byte + 8), wrong_from(&row, byte)] {
                bring(s, atqa);
                assert_eq!(s.say(&plain_row(&change)), format!("refused 3 {byte}"));
            }
        }
    }
    s.remark("the answer to ANTICOLLISION, counted from the level's first byte: every k, every byte that is whole");
    for k in 0..=32 {
        let first_whole = (k + 7) / 8;
        for byte in first_whole..5 {
            let ask = |s: &mut S, change: &dyn Fn(&mut Row)| {
                let bytes = match k {
                    0 => {
                        at_level(s, 1);
                        level_bytes(1)
                    }
                    _ => with_known(s, 1, k - 1),
                };
                let mut row = frames::rest_of_level(&bytes, k);
                change(&mut row);
                assert_eq!(s.say(&plain_row(&row)), format!("refused 3 {byte}"));
            };
            // Counted from the end, since what was sent is not there.
            let place = |row: &Row, byte: usize, bit: usize| row.len() - 9 * (5 - byte) + bit;
            // The broken byte's parity is wrong too, and every later byte's; the byte's own parity bit is collided.
            ask(s, &|row| {
                if k % 8 > 0 {
                    row[8 - k % 8] ^= 1;
                }
                for later in byte + 1..5 {
                    let at = place(row, later, 8);
                    row[at] ^= 1;
                }
                let at = place(row, byte, 8);
                row[at] = 2
            });
            // Whole bytes before it have a collided data bit and wrong parity: they are counted and not named.
            if byte > first_whole && k % 3 == 0 {
                ask(s, &|row| {
                    for before in first_whole..byte {
                        let (data, parity) = (place(row, before, before), place(row, before, 8));
                        row[data] = 2;
                        row[parity] ^= 1;
                    }
                    let at = place(row, byte, 7);
                    row[at] ^= 1
                });
            }
        }
    }
}

fn sak(s: &mut S) {
    s.remark("SAK: lengths, 8, 3, 4");
    let bring = |s: &mut S, level: usize| {
        at_level(s, level);
        s.say(&format!("bytes {}", show_hex(&level_bytes(level))));
    };
    let row = frames::standard_with_crc(&[0x20]);
    for count in [0, 1, 9, 18, 26] {
        bring(s, 1);
        s.say(&plain_row(&row[..count]));
    }
    for more in [1, 9] {
        bring(s, 1);
        s.say(&plain_row(&[row.clone(), vec![0; more]].concat()));
    }
    for place in 0..27 {
        bring(s, 1);
        let change = if place % 2 == 0 { collided(&row, place) } else { flipped(&row, place) };
        s.say(&plain_row(&change));
    }
    for line in ["bytes 200000", "bytes 2070FC", "bytes 00FC70"] {
        bring(s, 1);
        s.say(line);
    }
    s.remark("two faults: 2 before 8 before 3 before 4 before 9");
    for change in [
        collided(&row, 3)[..26].to_vec(),
        collided(&flipped(&row, 8), 3),
        collided(&flipped(&row, 8), 8),
        flipped(&frames::standard(&[0x20, 0, 0]), 8),
        vec![2; 27],
        vec![2; 28],
    ] {
        bring(s, 1);
        s.say(&plain_row(&change));
    }
    bring(s, 3);
    s.say("bytes 040000");
    bring(s, 3);
    s.say(&plain_row(&flipped(&frames::standard_with_crc(&[0x04]), 8)));
    bring(s, 3);
    s.say(&plain_row(&collided(&frames::standard_with_crc(&[0x04]), 8)));
    sak_and_level(s);
}

/// T-04: b3 against the level's first byte. Each level with a first byte of 88, of 88 with one bit changed, and another; of the SAK only b3 is
/// used. Where the reader goes on it completes the UID; both kinds of call.
fn sak_and_level(s: &mut S) {
    s.remark("SAK values at each level, with a first byte of 88, near 88 and far from it: only b3 is used");
    for level in 1..=3 {
        for first in [0x88, 0x08, 0x89, level_bytes(level)[0]] {
            let four = [first, 0x42, 0x88, 0x64];
            let five = [&four[..], &[uid::check_byte(&four)]].concat();
            let values = [0x00, 0x04, 0x20, 0x24, 0xFB, 0xFF, 0x08, 0x18, 0x28, 0x60, 0xDB, 0x40];
            for &value in &values[..if first == 0x31 { 12 } else if first == 0x88 { 6 } else { 2 }] {
                at_level(s, level);
                s.say(&format!("bytes {}", show_hex(&five)));
                s.say(&format!("crc {value:02X}"));
                if level < 3 && value & 4 != 0 {
                    s.say("bytes 0102030404");
                    s.say("crc 20");
                }
            }
        }
    }
    s.remark("the first byte is the one sent in SELECT: with a collision at its last bit, the reader sends a 1 there and so 88, or 89");
    for (heard, rest, sak) in [("0001000x", 0x88u8, "crc 04"), ("0001000x", 0x88, "crc 20"), ("x0010001", 0x89, "crc 04"), ("x0010001", 0x89, "crc 20")] {
        at_level(s, 1);
        let four = [rest, 0x42, 0x53, 0x64];
        let five = [&four[..], &[uid::check_byte(&four)]].concat();
        let whole = frames::standard(&five);
        let bits: String = heard.to_string() + &whole[8..].iter().map(|b| b.to_string()).collect::<String>();
        s.say(&format!("row {bits}"));
        // The bits that the reader then sends are known; what is left of the level is heard.
        let known = heard.find('x').unwrap() + 1;
        s.say(&plain_row(&whole[known + known / 8..]));
        s.say(sak);
    }
    s.remark("damage comes before it: 7, 2, 8, 3, 4 at a SAK that also contradicts its level");
    let row = frames::standard_with_crc(&[0x04]);
    for change in [vec![], row[..26].to_vec(), collided(&row, 3), flipped(&row, 8), frames::standard(&[0x04, 0, 0])] {
        at_level(s, 1);
        s.say(&format!("bytes {}", show_hex(&level_bytes(1))));
        s.say(&plain_row(&change));
    }
    s.remark("in a sweep: the reader is stopped, and no UID is announced");
    for lines in [["bytes 8801020388", "crc 20"], ["bytes 0102030404", "crc 04"]] {
        say_all(s, &["new", "sweep", "bytes 4400"]);
        say_all(s, &lines);
        s.say("silence");
    }
}

fn sweep_by_hand(s: &mut S) {
    s.remark("a sweep stepped by hand");
    let cards = [
        ("bytes 0400", vec!["bytes 0102030404"], "crc 00"),
        ("bytes 4400", vec!["bytes 88041122BF", "crc 04", "bytes 3344556644"], "crc 20"),
    ];
    say_all(s, &["new", "sweep"]);
    for (atqa, lines, sak) in &cards {
        s.say(atqa);
        say_all(s, lines);
        s.say(sak);
        s.say("silence");
    }
    s.say("silence");
    s.say("silence");
    s.say("sweep");
    s.remark("anything but silence after HLTA is 9, ahead of other tests");
    for line in [
        "row 0",
        "row x",
        "row 0000",
        "bytes 0400",
        "crc 00",
        "bytes 00",
        "short 26",
        "row xxxxxxxxx",
        "row 000000000",
        "row 000000000000000000000000000",
    ] {
        say_all(s, SELECTION_PHASES[5]);
        s.say(line);
        s.say("silence");
    }
    s.remark("in a sweep only the silence after REQA ends it");
    for lines in [
        &["new", "sweep", "bytes 0400", "silence", "silence"][..],
        &["new", "sweep", "bytes 0400", "bytes 0102030404", "silence", "silence"],
        &["new", "sweep", "bytes 0400", "bytes 0102030404", "crc 00", "silence", "silence", "silence"],
        &["new", "sweep", "bytes 0400", "bytes 0102030404", "crc 00", "silence", "bytes 0000", "silence"],
        &["new", "sweep", "bytes 0400", "bytes 0102030404", "crc 00", "silence", "bytes 0400", "bytes 0102030405", "silence"],
    ] {
        say_all(s, lines);
    }
    s.remark("the second card's UID starts anew");
    say_all(
        s,
        &["new", "sweep", "bytes 8400", "bytes 8801020388", "crc 04", "bytes 880405068F", "crc 04", "bytes 0708090A0C", "crc 20"],
    );
    say_all(s, &["row -", "bytes 0400", "bytes 0102030404", "crc 28", "row -", "row -"]);
}

/// The reader against fields of cards, the traces' UIDs among them, without damage.
fn fields_by_hand(s: &mut S) {
    s.remark("fields of cards, as they answer");
    for uids in [
        &["80122821"][..],
        &["80122821441020"],
        &["56341280122821440010"],
        &["80122821", "80122821441020", "56341280122821440010"],
        &["80122821", "80122C21", "80100821"],
        &["21440010", "21C40010", "21440090"],
        &["08112233", "11223344556677", "11223308556677", "11223344556677889900"],
        &["01020304", "80122821", "04112233445566", "04112233445567"],
        &["01020304050607080910", "01020304050607080911", "01020304050607080990", "01020304050607"],
        &["31425364750617", "31425364750697", "3142536475061728394A", "3142536475061728394B", "B1425364"],
    ] {
        for call in ["select", "sweep", "remember"] {
            let mut partner = Partner::new(uids.iter().map(|u| hex(u)).collect());
            s.say("new");
            let mut answer = s.say(call);
            while let Some(frame) = frame_in(&answer) {
                let heard = partner.respond(None, &frame);
                answer = s.say(&row_line(&heard));
            }
        }
    }
}

/// T-14: a sweep that remembers, stepped by hand. Two cards of one maker part in their second level, two in their third.
fn remember_by_hand(s: &mut S) {
    s.remark("a sweep that remembers, by hand: a branch at the first level, and one at the second behind a SELECT sent straight");
    let maker = ["88041122BF", "3344556644", "3344556745"];
    let to_branch = |s: &mut S| {
        say_all(s, &["new", "remember", "bytes 4400", &format!("bytes {}", maker[0]), "crc 04"]);
        let both = frames::merge(&[frames::standard(&hex(maker[1])), frames::standard(&hex(maker[2]))]);
        s.say(&plain_row(&both));
        // The card that goes on with the 1 at position 24: the rest of its level.
        let rest = frames::standard(&hex(maker[2]))[28..].to_vec();
        s.say(&plain_row(&rest));
        say_all(s, &["crc 20", "silence"])
    };
    to_branch(s);
    say_all(s, &["bytes 4400", "crc 04"]);
    let rest = frames::standard(&hex(maker[1]))[28..].to_vec();
    s.say(&plain_row(&rest));
    say_all(s, &["crc 00", "silence", "silence", "remember"]);
    s.remark("silence after REQA ends it, also with a branch kept; nobody at the SELECT sent straight, or at the branch, is 7; b3 clear at the first is 9");
    for lines in [
        &["silence", "silence"][..],
        &["bytes 4400", "silence", "silence"],
        &["bytes 4400", "crc 04", "silence", "silence"],
        &["bytes 4400", "crc 00", "silence"],
        &["bytes 4400", "crc 20", "silence"],
        &["bytes 4400", "crc 04", "bytes 3344556644", "silence"],
        &["bytes 4400", "row x", "silence"],
        &["row 0", "silence"],
        &["bytes 0000", "silence"],
        &["remember", "select", "sweep", "bytes 4400", "rats 8", "send 00", "crc 04"],
    ] {
        to_branch(s);
        say_all(s, lines);
    }
    s.remark("after each of these the reader keeps nothing: a new one starts anew");
    say_all(s, &["new", "remember", "bytes 4400", "new", "remember", "bytes 0400", "bytes 0102030404", "crc 00", "silence", "bytes 0400"]);
}

/// The frame in an answer of the reader, if it sends one.
pub fn frame_in(answer: &str) -> Option<Row> {
    let words: Vec<&str> = answer.split(' ').collect();
    match words[..] {
        ["send", row] | ["found", _, _, "send", row] => read_row(row),
        _ => None,
    }
}

/// Cards for the reader to speak with, and their hosts.
pub struct Partner {
    cards: Vec<Card>,
    reply: Vec<u8>,
    buffer: Vec<u8>,
}

impl Partner {
    pub fn new(uids: Vec<Vec<u8>>) -> Partner {
        Partner::of_index(uids, 0)
    }

    pub fn of_index(uids: Vec<Vec<u8>>, index: u8) -> Partner {
        let cards = uids
            .iter()
            .map(|uid| {
                let mut card = Card::new(uid, true, index).expect("a valid card");
                card.power_on();
                card
            })
            .collect();
        Partner { cards, reply: Vec::new(), buffer: vec![0; 4096] }
    }

    /// What the reader hears. A host answers with `random`'s messages and WTX, or with nothing where there is none.
    pub fn respond(&mut self, mut random: Option<&mut Random>, frame: &Row) -> Row {
        let mut rows = Vec::new();
        for card in &mut self.cards {
            match card.take(frame, &self.reply, &mut self.buffer) {
                Outcome::Answer(row) => rows.push(row),
                Outcome::Delivered(_) | Outcome::Again => {
                    let outcome = match &mut random {
                        Some(random) => {
                            if random.chance(25) {
                                card.wtx(1 + random.below(59) as u8)
                            } else {
                                self.reply = super::card_blocks::random_message(random, 16);
                                card.reply(&self.reply)
                            }
                        }
                        None => card.reply(&[]),
                    };
                    if let Outcome::Answer(row) = outcome {
                        rows.push(row);
                    }
                }
                _ => {}
            }
        }
        frames::merge(&rows)
    }
}

/// One random script: a new reader, a field of cards, and rows of which some are damaged or invented.
pub fn random_script(s: &mut S, random: &mut Random, blocks: bool) {
    s.say("new");
    let mut uids = super::field::random_uids(random);
    uids.truncate(if blocks { 1 } else { 4 });
    if uids.is_empty() {
        uids.push(random.uid());
    }
    let index = random.pick(&[0, 0, 1, 2]);
    let mut partner = Partner::of_index(uids, index);
    if blocks {
        let room = random.pick(&[4096, 4096, 4096, 60, 20, 5]);
        s.say(&format!("room {room}"));
    }
    let mut answer = s.say(if blocks || random.chance(50) { "select" } else { random.pick(&["sweep", "remember"]) });
    let mut wrong = if random.chance(40) { 0 } else { 10 };
    for _ in 0..60 {
        let phase = s.program.reader.phase.clone();
        if matches!(phase, Phase::Finished | Phase::Stopped) {
            let line = random.pick(&["select", "silence", "send 00", "deselect", "rats 0", "bytes 0400"]);
            s.say(line);
            return;
        }
        if random.chance(3) {
            let message = super::card_blocks::random_message(random, 16);
            let line = random.pick(&[
                "select".to_string(),
                "sweep".to_string(),
                format!("send {}", show_hex(&message)),
                "deselect".to_string(),
            ]);
            let kept = s.say(&line);
            // A call that was due after all is the next answer.
            if !kept.starts_with("refused") {
                answer = kept;
            }
            continue;
        }
        match frame_in(&answer) {
            Some(frame) => {
                let mut heard = partner.respond(Some(random), &frame);
                if blocks && matches!(phase, Phase::Linked(_)) {
                    wrong = 22;
                    if random.chance(10) {
                        heard = super::reader_blocks::random_block(s, random);
                    }
                }
                if random.chance(if blocks && !matches!(phase, Phase::Linked(_)) { 1 } else { wrong }) {
                    heard = damaged(random, &heard);
                }
                let line = if random.chance(85) { row_line(&heard) } else { plain_row(&heard) };
                answer = s.say(&line);
            }
            None => {
                // Selected, or between messages.
                if !blocks {
                    return;
                }
                let line = match phase {
                    Phase::Selected { .. } => format!("rats {}", random.pick(&[0, 0, 1, 2, 8, 9])),
                    _ if random.chance(80) => {
                        let message = super::card_blocks::random_message(random, frames::size_of_index(index));
                        format!("send {}", show_hex(&message))
                    }
                    _ => "deselect".to_string(),
                };
                answer = s.say(&line);
            }
        }
    }
}

/// Random scripts, each beginning with `new`, for larger comparisons.
pub fn random_scripts(count: usize, seed: u64) -> S {
    let mut s = Script::new(BenchReader::new());
    let mut random = Random::new(seed);
    for i in 0..count {
        random_script(&mut s, &mut random, i % 3 != 0);
    }
    s
}
