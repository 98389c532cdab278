//! The script of `vectors_calls`: every refusal of every public call, each beside its last good neighbour.

use crate::card::State;
use crate::language::Script;
use crate::reader::Phase;
use crate::vectors_calls::VectorsCalls;

type S = Script<VectorsCalls>;

pub fn script() -> S {
    let mut s = Script::new(VectorsCalls::new());
    frames(&mut s);
    readers(&mut s);
    sweeps(&mut s);
    wakes(&mut s);
    new_ends(&mut s);
    open_ends(&mut s);
    owing_card(&mut s);
    lent_answer(&mut s);
    lent_message(&mut s);
    longest_message(&mut s);
    not_understood(&mut s);
    s
}

fn say_all(s: &mut S, lines: &[&str]) {
    lines.iter().for_each(|line| drop(s.say(line)));
}

/// A line that is refused with this number, and then its neighbour that is not.
fn beside(s: &mut S, line: &str, number: u8, good: &str) {
    assert_eq!(s.say(line), format!("refused {number}"), "{line}");
    assert!(!s.say(good).starts_with("refused"), "{good}");
}

fn refused(s: &mut S, line: &str, number: u8) {
    assert_eq!(s.say(line), format!("refused {number}"), "{line}");
}

fn frames(s: &mut S) {
    s.remark("frames and on-air rows: room");
    beside(s, "write_short 6", 1, "write_short 7");
    refused(s, "write_short 0", 1);
    beside(s, "write 8 1", 1, "write 9 1");
    beside(s, "write 2303 256", 1, "write 2304 256");
    beside(s, "write 2312 257", 1, "write 2313 257");
    say_all(s, &["write 0 0", "write 9 0"]);
    beside(s, "write_crc 26 1", 1, "write_crc 27 1");
    beside(s, "write_crc 2303 254", 1, "write_crc 2304 254");
    beside(s, "write_crc 2312 255", 1, "write_crc 2313 255");
    beside(s, "write_crc 17 0", 1, "write_crc 18 0");
    beside(s, "read 255", 1, "read 256");
    beside(s, "read_crc 255", 1, "read_crc 256");
    beside(s, "air_row 119", 1, "air_row 120");
}

fn readers(s: &mut S) {
    s.remark("the reader of a selection: 11 ahead of room");
    for call in ["reader_select", "reader_start_sweep"] {
        beside(s, &format!("{call} 80 0"), 1, &format!("{call} 81 0"));
        refused(s, &format!("{call} 80 1"), 11);
        refused(s, &format!("{call} 81 1"), 11);
    }
    beside(s, "reader_wake 80 0 4", 1, "reader_wake 81 0 4");
    refused(s, "reader_wake 80 0 5", 1);
    beside(s, "reader_wake 81 0 5", 6, "reader_wake 81 0 10");
    refused(s, "reader_wake 81 0 0", 6);
    refused(s, "reader_wake 80 1 5", 11);
    beside(s, "reader_hear 80 1", 1, "reader_hear 81 1");
    refused(s, "reader_hear 80 0", 11);
    refused(s, "reader_hear 81 0", 11);
}

fn sweeps(s: &mut S) {
    for call in ["sweep", "sweep_row"] {
        s.remark(&format!("{call}: a field with one thing off"));
        for off in ["index", "uid", "ready", "off", "ready*", "active*"] {
            beside(s, &format!("{call} 40960 352 1 {off}"), 6, &format!("{call} 40960 352 0 {off}"));
        }
        beside(s, &format!("{call} 40960 352 2 twice"), 6, &format!("{call} 40960 352 1 twice"));
        beside(s, &format!("{call} 40960 352 33 none"), 6, &format!("{call} 40960 352 32 none"));
        beside(s, &format!("{call} 40959 352 1 none"), 1, &format!("{call} 40960 352 1 none"));
        beside(s, &format!("{call} 40960 351 1 none"), 1, &format!("{call} 40960 352 1 none"));
        s.remark("1 ahead of 6, and 11 ahead of both");
        for (line, number) in [
            ("40959 352 33 none", 1),
            ("40960 351 2 index", 1),
            ("0 0 0 none", 1),
            ("40960 352 0 used", 11),
            ("40959 352 1 used", 11),
            ("40960 351 33 used", 11),
            ("40960 352 99999 none", 6),
        ] {
            refused(s, &format!("{call} {line}"), number);
        }
    }
}

fn wakes(s: &mut S) {
    s.remark("wake_field: 6 for the UID, and for a field with one thing off");
    for bytes in [0, 1, 3, 5, 6, 8, 9, 11] {
        refused(s, &format!("wake_field {bytes} 3 16 none"), 6);
    }
    beside(s, "wake_field 4 136 16 none", 6, "wake_field 4 15 16 none");
    for off in ["index", "uid", "ready", "off", "ready*", "active*"] {
        beside(s, &format!("wake_field 4 3 16 {off}"), 6, "wake_field 4 3 16 none");
    }
    refused(s, "wake_field 4 3 16 twice", 6);
    beside(s, "wake_field 4 3 33 none", 6, "wake_field 4 3 32 none");
    s.remark("7: not there, or an empty field; 11 ahead of all");
    for (line, number) in
        [("4 3 3 none", 7), ("4 3 0 none", 7), ("7 3 16 none", 7), ("10 3 16 none", 7), ("4 3 16 used", 11), ("5 3 17 used", 11), ("4 3 99999 none", 6)]
    {
        refused(s, &format!("wake_field {line}"), number);
    }
}

fn new_ends(s: &mut S) {
    s.remark("the whole card and the whole reader, new: 11 ahead of room");
    s.say("new");
    for call in ["select", "start_sweep"] {
        beside(s, &format!("{call} 2303"), 1, &format!("{call} 2304"));
    }
    beside(s, "wake 2303 4", 1, "wake 2304 4");
    refused(s, "wake 2303 5", 1);
    beside(s, "wake 2304 11", 6, "wake 2304 7");
    beside(s, "take 2303 0 0 5000", 1, "take 2304 0 0 5000");
    for line in ["reply 2303 0", "reply 2304 5000", "ask 2303 0", "ask 2304 60", "rats 2303 9", "rats 2304 8", "send 2303 5000"] {
        refused(s, line, 11);
    }
    for line in ["send 2304 0", "deselect 2303", "deselect 2304", "hear 2303 0 0 -", "hear 2304 0 0 -"] {
        refused(s, line, 11);
    }
    s.remark("selected: room ahead of the index");
    s.say("selected");
    beside(s, "rats 2303 8", 1, "rats 2304 8");
    refused(s, "rats 2303 9", 1);
    refused(s, "rats 2304 9", 6);
    refused(s, "rats 2304 255", 6);
    for call in ["select 2303", "start_sweep 2303", "wake 2303 5", "send 2303 0", "deselect 2303", "hear 2303 0 0 -"] {
        refused(s, call, 11);
    }
}

fn open_ends(s: &mut S) {
    s.remark("open: room ahead of the message's length");
    s.say("open 8 8");
    beside(s, "send 2303 1", 1, "send 2304 1");
    refused(s, "send 2303 4097", 1);
    beside(s, "send 2304 4097", 10, "send 2304 4096");
    beside(s, "deselect 2303", 1, "deselect 2304");
    beside(s, "take 2303 0 0 C2", 1, "take 2304 0 0 C2");
    for call in ["select 2303", "start_sweep 2304", "rats 2303 9", "hear 2303 0 0 -", "reply 2303 0", "ask 2303 0"] {
        refused(s, call, 11);
    }
    s.remark("a block is awaited");
    say_all(s, &["open 0 0", "talk 1 1 0"]);
    beside(s, "hear 2303 1 5000 02", 1, "hear 2304 1 5000 02");
    refused(s, "hear 2303 1 0 0201", 1);
    beside(s, "hear 2304 1 0 0201", 10, "hear 2304 1 1 0201");
    for call in ["send 2303 4097", "deselect 2303", "rats 2304 8", "select 2304"] {
        refused(s, call, 11);
    }
}

fn owing_card(s: &mut S) {
    s.remark("a card that owes its host's answer: its host's was too long");
    say_all(s, &["open 0 0", "talk 1 5000 1"]);
    beside(s, "reply 2303 1", 1, "reply 2304 1");
    refused(s, "reply 2303 4097", 1);
    beside(s, "reply 2304 4097", 10, "reply 2304 4096");
    beside(s, "ask 2303 59", 1, "ask 2304 59");
    refused(s, "ask 2303 60", 1);
    beside(s, "ask 2304 60", 6, "ask 2304 1");
    refused(s, "ask 2304 0", 6);
    refused(s, "take 2303 0 0 C2", 11);
    refused(s, "take 2304 0 0 C2", 11);
}

/// The card is asked for its last I again and, where it is chaining, for the next, with a lent answer that just reaches the I's place or does not,
/// and with the longest one and a longer one. Frames that bring no I look at no answer.
fn lent_answer(s: &mut S) {
    for (rounds, place, is_chaining) in [(1, 0, true), (2, 13, true), (3, 26, false)] {
        s.remark(&format!("the answer lent to a card whose last I began at {place}"));
        say_all(s, &["open 0 0", &format!("talk 1 30 {rounds}")]);
        let own = card_number(s);
        cut_at(s, "take", place, 0xB2 | own);
        cut_at(s, "take", place, 0xA2 | own);
        if is_chaining {
            cut_at(s, "take", place + 13, 0xA2 | (1 - own));
        }
        for lent in [0, 5000] {
            for frame in ["C2".to_string(), "F201".to_string(), "-".to_string(), "00".to_string(), format!("{:02X}", 0xB2 | (1 - own)), "02".to_string()] {
                assert!(s.say(&format!("take 2304 {lent} 5000 {frame}")).starts_with("sent"));
            }
        }
    }
}

/// A frame that brings the I that begins at this place.
fn cut_at(s: &mut S, call: &str, place: usize, block: u8) {
    let with = |lent: usize| format!("{call} 2304 {lent} 5000 {block:02X}");
    if place > 0 {
        beside(s, &with(place - 1), 1, &with(place));
    }
    beside(s, &with(4097), 10, &with(4096));
    refused(s, &with(5000), 10);
}

/// The same at the reader, which has more to send, or whose last I is out.
fn lent_message(s: &mut S) {
    for (rounds, place, has_more) in [(0, 0, true), (1, 13, true), (2, 26, false)] {
        s.remark(&format!("the message lent to a reader whose last I began at {place}"));
        say_all(s, &["open 0 0", &format!("talk 30 1 {rounds}")]);
        let own = number(s);
        cut_at(s, "hear", place, 0xA2 | (1 - own));
        if has_more {
            cut_at(s, "hear", place + 13, 0xA2 | own);
        }
        for lent in [0, 5000] {
            for frame in ["F201", "-", "0011"] {
                s.say(&format!("hear 2304 {lent} 5000 {frame}"));
            }
        }
    }
    s.remark("a message is lent in vain while an answer is joined, and after DESELECT");
    say_all(s, &["open 0 0", "talk 1 30 1", "hear 2304 5000 5000 -", "hear 2304 0 5000 F201"]);
    s.remark("an I that is both too early and too long is 9");
    say_all(s, &["open 0 0", "talk 30 1 0"]);
    let own = number(s);
    refused(s, &format!("hear 2304 30 0 {:02X}AABB", 0x02 | own), 9);
    refused(s, &format!("hear 2304 30 5000 {:02X}AABB", 0x02 | own), 9);
}

/// The card's block number.
fn card_number(s: &S) -> u8 {
    match &s.program.card.state {
        State::Protocol(link) => link.number,
        other => panic!("{other:?}"),
    }
}

/// The reader's block number.
fn number(s: &S) -> u8 {
    match &s.program.reader.phase {
        Phase::Linked(link) => link.number,
        other => panic!("{other:?}"),
    }
}

fn longest_message(s: &mut S) {
    s.remark("4,095 bytes joined in a buffer of 5,000: one more, and two");
    say_all(s, &["open 0 0", "talk 4096 1 315"]);
    for first in ["12", "02"] {
        beside(s, &format!("take 2304 0 5000 {first}AABB"), 10, &format!("take 2304 0 5000 {first}AA"));
        beside(s, &format!("take 2304 0 4095 {first}AA"), 10, &format!("take 2304 0 4096 {first}AA"));
    }
    say_all(s, &["open 0 0", "talk 1 4096 315"]);
    let own = number(s);
    for first in [0x12 | own, 0x02 | own] {
        beside(s, &format!("hear 2304 0 5000 {first:02X}AABB"), 10, &format!("hear 2304 0 5000 {first:02X}AA"));
        beside(s, &format!("hear 2304 0 4095 {first:02X}AA"), 10, &format!("hear 2304 0 4096 {first:02X}AA"));
    }
}

fn not_understood(s: &mut S) {
    s.remark("lines that are not understood");
    say_all(s, &["sing 1", "wake_field 4 3 16 tired", "sweep 40960 352 1 tired", "sweep 40960 352 1"]);
}
