//! The script of `vectors_trace`, and the input of `trace_check`.

use crate::card::{Card, State};
use crate::frames::{self, merge, Row};
use crate::language::{hex, show_hex, Script};
use crate::log::{record_bytes, Record};
use crate::random::Random;
use crate::reader::Reader;
use crate::sweep::{remember, sweep, LIST_ROOM, LOG_ROOM};
use crate::trace::LIMIT;
use crate::vectors_trace::VectorsTrace;

type S = Script<VectorsTrace>;

fn field(uids: &[Vec<u8>]) -> Vec<Card> {
    uids.iter()
        .enumerate()
        .map(|(i, uid)| {
            let mut card = Card::new(uid, i % 2 == 0, 8).expect("a valid UID");
            card.power_on();
            card
        })
        .collect()
}

/// The records that the plain sweep writes.
fn swept(uids: &[Vec<u8>]) -> Vec<Record> {
    sweep(&mut Reader::new(), 0, &mut field(uids), LOG_ROOM, LIST_ROOM).expect("a field that is taken").records
}

/// Their bytes from a starting tick on, or without ticks.
fn written(records: &[Record], tick: Option<u32>) -> Vec<u8> {
    let mut bytes = vec![tick.is_some() as u8];
    for (i, record) in records.iter().enumerate() {
        let whole = record_bytes(tick.unwrap_or(0).wrapping_add(i as u32), record);
        bytes.extend(&whole[..2]);
        bytes.extend(&whole[if tick.is_some() { 2 } else { 6 }..]);
    }
    bytes
}

fn check(s: &mut S, input: &[u8]) -> String {
    s.say(&format!("check {}", show_hex(input)))
}

/// Both kinds of log of the same records.
fn both(s: &mut S, records: &[Record]) {
    check(s, &written(records, None));
    check(s, &written(records, Some(0xFFFF_FFFE)));
}

/// The records with one of them another.
fn with(records: &[Record], at: usize, other: Record) -> Vec<Record> {
    let mut changed = records[..=at].to_vec();
    changed[at] = other;
    changed
}

/// UIDs that part as often as they can: one bit of difference each.
fn crowd(count: usize) -> Vec<Vec<u8>> {
    (0..count).map(|i| vec![i as u8, 0x20, 0x30, 0x40]).collect()
}

fn one_card() -> Vec<Record> {
    swept(&[hex("01020304")])
}

/// The input itself.
fn inputs(s: &mut S) {
    s.remark("the first byte, and the length");
    for line in ["check -", "check 00", "check 01", "check 02", "check FF", "check 02000764C000"] {
        s.say(line);
    }
    for line in ["filled 40961 00000764C000", "filled 40962 00000764C000", "filled 40961 02", "filled 40962 02", "filled 40962 00", "filled 41000 01"] {
        s.say(line);
    }
    s.say("filled 41001 00");
    s.say("check 0");
}

/// Clean logs.
fn clean(s: &mut S) {
    s.remark("logs that the plain sweep wrote");
    let fields: [Vec<Vec<u8>>; 5] = [
        vec![],
        vec![hex("01020304")],
        vec![hex("01020304"), hex("80122821"), hex("04112233445566")],
        vec![hex("04112233445566"), hex("04112233445567"), hex("04A1B288010288030405"), hex("04A1B288010288030404")],
        crowd(9),
    ];
    for uids in &fields {
        both(s, &swept(uids));
    }
    s.remark("as many cards as the limit");
    check(s, &written(&swept(&crowd(LIMIT)), None));
    s.remark("a halted card is not in the log");
    let mut cards = field(&[hex("01020304"), hex("80122821")]);
    cards[0].state = State::Halt;
    let half = sweep(&mut Reader::new(), 7, &mut cards, LOG_ROOM, LIST_ROOM).expect("a field that is taken");
    check(s, &[&[1][..], &half.log].concat());
}

/// Cut anywhere, or with bytes behind.
fn ends(s: &mut S) {
    s.remark("a log that stops at each byte");
    let records = one_card();
    for tick in [None, Some(5)] {
        let whole = written(&records, tick);
        for length in (1..whole.len()).step_by(if tick.is_some() { 7 } else { 1 }) {
            check(s, &whole[..length]);
        }
    }
    s.remark("bytes behind the end: a record, and less than one");
    let whole = written(&records, Some(5));
    for more in ["00", "C0", "00070000000064", "C00000000000", "FFFF"] {
        check(s, &[&whole[..], &hex(more)].concat());
    }
    s.remark("cut goes ahead of malformed and of the wrong kind");
    for bytes in ["002007", "00FFFF00", "008007", "000007", "00000764E001", "00000764C001", "00000764800100"] {
        check(s, &hex(bytes));
    }
}

/// Malformed records, both where the reader's is due and where a heard one is.
fn malformed(s: &mut S) {
    s.remark("malformed: the zero bit, a fill bit, no bits, silence with bits, no collided bit, a 1 at one, a fill bit of the marks");
    let wrong = ["200764", "000765", "000764", "0000", "4000", "8000", "C00100", "C00780", "401220004F", "8012200040000000", "8012200040200000", "801220004002800F", "A0122000400280003"];
    for bytes in wrong {
        let bytes = if bytes.len() % 2 == 0 { bytes.to_string() } else { format!("{bytes}0") };
        s.say(&format!("check 00{bytes}"));
        s.say(&format!("check 00000764{bytes}"));
    }
    s.remark("the same with ticks, which are not tested");
    for bytes in ["0120070000000064", "010007FFFFFFFF65", "010007FFFFFFFF64C0000000FFFF", "010007FFFFFFFF64E000000000FF"] {
        check(s, &hex(bytes));
    }
}

/// Records out of turn, and frames that the reader would not have sent.
fn turns(s: &mut S) {
    s.remark("out of turn, and another frame");
    let records = one_card();
    for at in 0..records.len() {
        let other = match &records[at] {
            Record::Reader(row) => Record::Heard(row.clone()),
            Record::Heard(row) if row.is_empty() => Record::Reader(frames::short(frames::REQA)),
            Record::Heard(row) => Record::Reader(row.clone()),
        };
        both(s, &with(&records, at, other));
        if let Record::Reader(row) = &records[at] {
            let mut row = row.clone();
            row[3] ^= 1;
            check(s, &written(&with(&records, at, Record::Reader(row.clone())), None));
            row.push(0);
            check(s, &written(&with(&records, at, Record::Reader(row)), None));
        }
    }
    check(s, &written(&[Record::Reader(frames::short(frames::WUPA))], None));
    s.remark("a log of the sweep that remembers");
    let mut cards = field(&[hex("04112233445566"), hex("04112233445567"), hex("80122821")]);
    let other = remember(&mut Reader::new(), 0, &mut cards, LOG_ROOM, LIST_ROOM).expect("a field that is taken");
    check(s, &[&[1][..], &other.log].concat());
}

/// What the reader declines, at each record that it hears: each of its refusals, with the byte after 3.
fn refusals(s: &mut S) {
    s.remark("what the reader declines");
    let three = swept(&[hex("04112233445566"), hex("04A1B288010288030405"), hex("01020304")]);
    for at in (1..three.len()).step_by(2) {
        let Record::Heard(row) = &three[at] else { panic!("a heard record") };
        let mut rows: Vec<Row> = vec![vec![], vec![0], vec![1; 100], vec![2]];
        if !row.is_empty() {
            rows.push(row[..row.len() - 1].to_vec());
            for place in [8, 17, 26, 35, 44] {
                if place < row.len() {
                    let mut changed = row.clone();
                    changed[place] = (changed[place] + 1) % 2;
                    rows.push(changed.clone());
                    changed[place] = 2;
                    rows.push(changed);
                }
            }
            let mut changed = row.clone();
            changed[0] = 2;
            rows.push(changed);
            rows.push(frames::standard_with_crc(&[0x04])[..row.len().min(27)].to_vec());
            rows.push(frames::standard(&vec![0; row.len() / 9]));
        }
        for other in rows {
            check(s, &written(&with(&three, at, Record::Heard(other)), None));
        }
    }
    s.remark("SAKs that contradict their level, and wrong check bytes");
    let one = one_card();
    for sak in [[0x04], [0x24], [0x08], [0x20], [0x28], [0x60]] {
        let mut changed = with(&one, 5, Record::Heard(frames::standard_with_crc(&sak)));
        check(s, &written(&changed, None));
        changed.extend_from_slice(&one[6..]);
        both(s, &changed);
    }
    let mut wrong = frames::standard_with_crc(&[0x00]);
    wrong.splice(9..27, frames::standard(&[0x12, 0x34]));
    check(s, &written(&with(&one, 5, Record::Heard(wrong)), None));
    check(s, &written(&with(&one, 3, Record::Heard(frames::standard(&[1, 2, 3, 4, 5]))), None));
}

/// Two exchanges that find a card, then HLTA and silence: what the reader sees of one card alone.
fn round(uid: &[u8], sak: u8) -> Vec<Record> {
    let mut cards = field(&[uid.to_vec()]);
    cards[0].blocks = sak == 0x20;
    let all = sweep(&mut Reader::new(), 0, &mut cards, LOG_ROOM, LIST_ROOM).expect("a field that is taken").records;
    all[..all.len() - 2].to_vec()
}

/// Cards that are repeated, past the limit, or not those of the sweep.
fn cards(s: &mut S) {
    s.remark("a card that is found again, one and more rounds later");
    let last = swept(&[]);
    let (a, b) = (round(&hex("80122821"), 0x20), round(&hex("01020304"), 0));
    both(s, &[&a[..], &a, &last].concat());
    both(s, &[&a[..], &b, &a, &last].concat());
    s.remark("one card after the other, as no sweep over both writes it: the ATQA is not merged, or no collision is there");
    both(s, &[&a[..], &b, &last].concat());
    both(s, &[&b[..], &a, &last].concat());
    let seven = round(&hex("04112233445566"), 0);
    both(s, &[&seven[..], &a, &last].concat());
    s.remark("past the limit, and as many as it");
    let many: Vec<Record> = crowd(LIMIT + 1).iter().rev().flat_map(|uid| round(uid, 0)).collect();
    check(s, &written(&[&many[..], &last].concat(), None));
    check(s, &written(&[&many[8..], &last].concat(), None));
    s.remark("an ATQA that no card of ours sends");
    let mut odd = one_card();
    odd[1] = Record::Heard(merge(&[frames::standard(&[0x04, 0x00]), frames::standard(&[0x44, 0x00])]));
    both(s, &odd);
    odd[1] = Record::Heard(frames::standard(&[0x08, 0x00]));
    both(s, &odd);
    s.remark("a collision that no listed card explains");
    let mut two = swept(&[hex("01020304"), hex("03020304")]);
    let at = two.iter().position(|r| matches!(r, Record::Heard(row) if frames::has_collision(row))).expect("they part");
    if let Record::Heard(row) = &mut two[at] {
        row[20] = 2;
    }
    both(s, &two);
}

/// Random fields: whole, and with one byte changed, cut, or more.
fn random(s: &mut S, count: usize, seed: u64) {
    let mut random = Random::new(seed);
    for _ in 0..count {
        let mut uids: Vec<Vec<u8>> = Vec::new();
        for _ in 0..random.below(4) {
            let mut uid = random.uid();
            if !uids.is_empty() && random.chance(50) {
                uid = random.pick(&uids);
                let last = uid.len() - 1;
                uid[last] ^= 1 << random.below(8);
            }
            if !uids.contains(&uid) && crate::uid::valid(&uid) {
                uids.push(uid);
            }
        }
        let records = swept(&uids);
        let tick = if random.chance(50) { Some(random.word()) } else { None };
        let mut input = written(&records, tick);
        check(s, &input);
        for _ in 0..2 {
            let at = 1 + random.below(input.len() - 1);
            let kept = input[at];
            input[at] ^= 1 << random.below(8);
            check(s, &input);
            if random.chance(70) {
                input[at] = kept;
            }
        }
    }
}

pub fn script(seed: u64) -> S {
    let mut s = Script::new(VectorsTrace);
    inputs(&mut s);
    clean(&mut s);
    ends(&mut s);
    malformed(&mut s);
    turns(&mut s);
    refusals(&mut s);
    cards(&mut s);
    s.remark("drawn fields, whole and with one bit changed");
    random(&mut s, 60, seed);
    s
}

pub fn random_scripts(count: usize, seed: u64) -> S {
    let mut s = Script::new(VectorsTrace);
    random(&mut s, count, seed);
    s
}

/// The input of `trace_check`: a sweep over as many cards as the limit, with ticks, as a customer sends it.
pub fn log_of_many() -> Vec<u8> {
    written(&swept(&crowd(LIMIT)), Some(0xFFFF_FF00))
}
