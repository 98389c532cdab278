//! T-12, the trace checker: a log, its first byte ahead of it, against the reader and then against the plain sweep over the cards it lists.

use crate::card::Card;
use crate::coverage::note;
use crate::frames::{Row, COLLIDED};
use crate::log::Record;
use crate::reader::{Answer, Reader};
use crate::refusal::{self, Refusal};
use crate::sweep::{self, LIST_ROOM, LOG_ROOM};

/// "The limit of 16 becomes 32" (T-06).
pub const LIMIT: usize = 32;

#[derive(Clone, Debug, PartialEq)]
pub enum Verdict {
    /// The cards found, each with its last SAK.
    Clean(Vec<(Vec<u8>, u8)>),
    /// The index of the record at fault, from 0.
    Fault(usize, Refusal),
}

/// Bits of bytes, the first in the top bit.
fn unpack(bytes: &[u8]) -> Row {
    bytes.iter().flat_map(|byte| (0..8).map(move |i| byte >> (7 - i) & 1)).collect()
}

/// What is wrong with a record that is whole, by name.
fn malformed(kind: u16, zero: bool, count: usize, row: &[u8], marks: &[u8]) -> Option<&'static str> {
    let shown = |bits: &[u8]| bits.get(count..).unwrap_or(&[]).contains(&1);
    match kind {
        _ if zero => Some("zero bit"),
        3 if count > 0 => Some("silence with bits"),
        3 => None,
        _ if count == 0 => Some("no bits"),
        _ if shown(row) => Some("fill bit"),
        2 if !marks[..count].contains(&1) => Some("no collided bit"),
        2 if (0..count).any(|i| row[i] == 1 && marks[i] == 1) => Some("1 at a collided bit"),
        2 if shown(marks) => Some("fill bit of the marks"),
        _ => None,
    }
}

/// The record at the front of some bytes, and how many bytes it takes. 2: there is none, or it is cut; 9: it is malformed.
fn first_record(bytes: &[u8], tick: usize, due: &str) -> Result<(Record, usize), Refusal> {
    let declined = |what: &str, refusal: Refusal| {
        note("trace record", due, what);
        Err(refusal)
    };
    if bytes.is_empty() {
        return declined("none", refusal::LENGTH);
    }
    if bytes.len() < 2 {
        return declined("cut in the header", refusal::LENGTH);
    }
    let head = u16::from_be_bytes([bytes[0], bytes[1]]);
    let (kind, zero, count) = (head >> 14, head >> 13 & 1 == 1, (head & 0x1FFF) as usize);
    let row_size = count.div_ceil(8);
    let size = 2 + tick + if kind == 2 { 2 * row_size } else { row_size };
    if bytes.len() < 2 + tick {
        return declined("cut in the tick", refusal::LENGTH);
    }
    if bytes.len() < size {
        return declined("cut in the bits", refusal::LENGTH);
    }
    let row = unpack(&bytes[2 + tick..2 + tick + row_size]);
    let marks = if kind == 2 { unpack(&bytes[2 + tick + row_size..size]) } else { Row::new() };
    if let Some(what) = malformed(kind, zero, count, &row, &marks) {
        return declined(what, refusal::FORBIDDEN);
    }
    let mut row = row[..count].to_vec();
    for (bit, mark) in row.iter_mut().zip(&marks) {
        if *mark == 1 {
            *bit = COLLIDED;
        }
    }
    Ok((if kind == 0 { Record::Reader(row) } else { Record::Heard(row) }, size))
}

/// "The first input byte, ahead of the log, is 0 for one without ticks, 1 with; another or none is 6 at 0; a log over 40,960 bytes is 1 at 0, ahead of all."
pub fn check(input: &[u8]) -> Verdict {
    if input.len() > 1 + LOG_ROOM {
        note("trace input", if input[0] > 1 { "another first byte" } else { "first byte" }, "too long");
        return Verdict::Fault(0, refusal::ROOM);
    }
    match input.split_first() {
        Some((0, log)) => check_log(log, 0),
        Some((1, log)) => check_log(log, 4),
        Some(_) => {
            note("trace input", "another first byte", "6");
            Verdict::Fault(0, refusal::ARGUMENT)
        }
        None => {
            note("trace input", "none", "6");
            Verdict::Fault(0, refusal::ARGUMENT)
        }
    }
}

/// Record by record against the reader's rules, then against the plain sweep.
fn check_log(log: &[u8], tick: usize) -> Verdict {
    let mut reader = Reader::new();
    let Answer::Send(mut frame) = reader.sweep() else { panic!("REQA is sent") };
    let mut records: Vec<Record> = Vec::new();
    let mut cards: Vec<(Vec<u8>, u8)> = Vec::new();
    let mut rest = log;
    loop {
        let index = records.len();
        let (sent, size) = match first_record(rest, tick, "reader's") {
            Ok(read) => read,
            Err(refusal) => return Verdict::Fault(index, refusal),
        };
        if sent != Record::Reader(frame.clone()) {
            note("trace record", "reader's", if matches!(sent, Record::Reader(_)) { "another frame" } else { "out of turn" });
            return Verdict::Fault(index, refusal::FORBIDDEN);
        }
        rest = &rest[size..];
        let (heard, size) = match first_record(rest, tick, "heard") {
            Ok(read) => read,
            Err(refusal) => return Verdict::Fault(index + 1, refusal),
        };
        let Record::Heard(row) = heard.clone() else {
            note("trace record", "heard", "out of turn");
            return Verdict::Fault(index + 1, refusal::FORBIDDEN);
        };
        rest = &rest[size..];
        let awaited = reader.phase_name();
        match reader.hear(&row, &[], &mut []) {
            Answer::Send(next) => frame = next,
            Answer::Found { uid, sak, frame: next } => {
                let repeated = cards.iter().any(|(known, _)| *known == uid);
                if repeated || cards.len() == LIMIT {
                    note("trace SAK", if repeated { "repeated" } else { "past the limit" }, "6");
                    return Verdict::Fault(index + 1, refusal::ARGUMENT);
                }
                cards.push((uid, sak));
                frame = next;
            }
            Answer::Finished if rest.is_empty() => {
                records.extend([sent, heard]);
                return against_sweep(records, cards, tick);
            }
            Answer::Finished => {
                note("trace end", "bytes left", if first_record(rest, tick, "behind the end").is_ok() { "a record" } else { "no whole record" });
                return Verdict::Fault(index + 2, refusal::NOT_DUE);
            }
            Answer::Refused(refusal) => {
                note("trace refusal", awaited, &refusal.number.to_string());
                return Verdict::Fault(index + 1, refusal);
            }
            other => panic!("in a sweep the reader gives nothing else: {other:?}"),
        }
        records.extend([sent, heard]);
    }
}

/// "If the reader is content throughout, it is the first record that differs from the sweep over the listed cards (speaking blocks where the last SAK is 20),
/// with 9."
fn against_sweep(records: Vec<Record>, cards: Vec<(Vec<u8>, u8)>, tick: usize) -> Verdict {
    let mut field: Vec<Card> = cards
        .iter()
        .map(|(uid, sak)| {
            let mut card = Card::new(uid, *sak == 0x20, 8).expect("what the reader completes is valid");
            card.power_on();
            card
        })
        .collect();
    let swept = sweep::sweep(&mut Reader::new(), 0, &mut field, LOG_ROOM, LIST_ROOM).expect("such a field is taken");
    match records.iter().zip(&swept.records).position(|(read, written)| read != written) {
        Some(index) => {
            let what = if records[index - 1] == swept.records[0] { "ATQA" } else { "another answer" };
            note("trace sweep", "differs", what);
            Verdict::Fault(index, refusal::FORBIDDEN)
        }
        None => {
            assert_eq!(records.len(), swept.records.len());
            let many = match cards.len() {
                0 => "no card",
                1 => "one card",
                LIMIT => "as many as the limit",
                _ => "some cards",
            };
            note("trace clean", if tick == 0 { "without ticks" } else { "with ticks" }, many);
            Verdict::Clean(cards)
        }
    }
}

#[cfg(test)]
mod tests {
    use super::*;
    use crate::language::hex;

    #[test]
    fn short_logs() {
        assert_eq!(check(&hex("00000764C000")), Verdict::Clean(vec![]));
        assert_eq!(check(&hex("00000764C00000")), Verdict::Fault(2, refusal::NOT_DUE));
        assert_eq!(check(&hex("00000764401220")), Verdict::Fault(1, refusal::LENGTH));
        assert_eq!(check(&hex("000007644012A00040")), Verdict::Fault(1, refusal::parity(0)));
        assert_eq!(check(&hex("000007644012200040")), Verdict::Fault(2, refusal::LENGTH));
        assert_eq!(check(&[2]), Verdict::Fault(0, refusal::ARGUMENT));
        assert_eq!(check(&[]), Verdict::Fault(0, refusal::ARGUMENT));
        assert_eq!(check(&[0]), Verdict::Fault(0, refusal::LENGTH));
    }

    #[test]
    fn one_card() {
        let log = "010007000000006440120000000120004000120000\
                   0002C98200402D00000003802030240200005100\
                   000004C98720080C090080E3A400401B00000005\
                   00BFA2800024000000060A807A9660C000000000\
                   0700070000000864C00000000009";
        assert_eq!(check(&hex(log)), Verdict::Clean(vec![(hex("01020304"), 0)]));
    }
}
