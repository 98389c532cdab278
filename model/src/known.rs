//! Values known from outside: document 01's "Numbers to check by", and those of source documents 000 and 004.

use crate::frames::Row;
use crate::language::hex;
use Expect::{Answer, Mismatch};

/// Bytes and their CRC_A, low byte first.
pub const CRCS: &[(&str, &str)] = &[
    ("0000", "A01E"),
    ("1234", "26CF"),
    ("5000", "57CD"),
    ("9370801228219B", "567C"),
    ("93708880122832", "C8EB"),
    ("95702144102055", "512D"),
    ("95708880122832", "05B3"),
    ("97702144001075", "DF08"),
    ("937088563412F8", "4CAF"),
    ("00", "FE51"),
    ("04", "DA17"),
    ("20", "FC70"),
    ("E000", "39F7"),
    ("E010", "B8E7"),
    ("E020", "3BD6"),
    ("E030", "BAC6"),
    ("E040", "3DB5"),
    ("E050", "BCA5"),
    ("E060", "3F94"),
    ("E070", "BE84"),
    ("E080", "3173"),
    ("0200", "102D"),
    ("0201", "993C"),
    ("0202", "020E"),
    ("0203", "8B1F"),
    ("0204", "346B"),
    ("0205", "BD7A"),
    ("0206", "2648"),
    ("0207", "AF59"),
    ("0208", "58A1"),
    ("01", "7740"),
    ("02", "EC72"),
    ("03", "6563"),
    ("12", "6D62"),
    ("13", "E473"),
    ("A2", "E6D7"),
    ("A3", "6FC6"),
    ("B2", "67C7"),
    ("B3", "EED6"),
    ("C2", "E0B4"),
    ("F201", "9140"),
    ("F23B", "48DE"),
    ("0A00", "D0E3"),
    ("0B00", "08FA"),
    ("1A05", "EC21"),
    ("AA05", "821B"),
    ("AB05", "5A02"),
    ("BA05", "138E"),
    ("BB05", "CB97"),
    ("CA05", "D77E"),
    ("FA0501", "6B35"),
    ("034002", "042F"),
    ("034102", "DC36"),
    ("034202", "B41C"),
    ("034302", "6C05"),
    ("034402", "6448"),
    ("034502", "BC51"),
    ("034602", "D47B"),
    ("034702", "0C62"),
    ("034802", "C4E1"),
];

/// Four bytes and their B.
pub const CHECKS: &[(&str, u8)] = &[
    ("80122821", 0x9B),
    ("88801228", 0x32),
    ("21441020", 0x55),
    ("88563412", 0xF8),
    ("21440010", 0x75),
    ("01020304", 0x04),
    ("88041122", 0xBF),
    ("33445566", 0x44),
];

/// What the card does in a trace.
pub enum Expect {
    Answer(&'static str),
    /// The bits do not match: silent, Idle.
    Mismatch,
}

/// A row is written as its number of air bits and the bits packed as in the log.
pub struct Step {
    /// The level at which the card is Ready.
    pub level: usize,
    pub frame: &'static str,
    pub expect: Expect,
}

pub struct Trace {
    pub uid: &'static str,
    pub steps: &'static [Step],
}

const fn step(level: usize, frame: &'static str, expect: Expect) -> Step {
    Step { level, frame, expect }
}

const SAK_00: Expect = Answer("27:00 BF A2 80");
const SAK_04: Expect = Answer("27:20 2D BA 20");

/// The rows of source document 004's three traces, with parity by document 01's rule.
pub const TRACES: &[Trace] = &[
    Trace {
        uid: "80122821",
        steps: &[
            step(1, "18:C9 82 00", Answer("45:01 24 45 30 9D 90")),
            step(1, "29:C9 A6 00 40", Mismatch),
            step(1, "29:C9 A6 00 48", Answer("34:22 29 84 EC 80")),
            step(1, "40:C9 91 40 49 10", Mismatch),
            step(1, "40:C9 91 40 49 11", Answer("23:4C 27 64")),
            step(1, "52:C9 F5 00 49 11 4C 20", Answer("11:76 40")),
            step(1, "81:C9 87 00 49 11 4C 27 64 D5 3E 00", SAK_00),
            step(1, "54:C9 83 40 49 11 4C 24", Answer("9:D9 00")),
            step(1, "61:C9 F3 00 49 11 4C 27 60", Answer("2:80")),
        ],
    },
    Trace {
        uid: "80122821441020",
        steps: &[
            step(1, "18:C9 82 00", Answer("45:11 80 92 22 94 C0")),
            step(1, "29:C9 A6 04 60", Answer("34:04 91 14 A6 00")),
            step(1, "40:C9 91 44 60 24", Answer("23:88 A5 30")),
            step(1, "52:C9 F5 04 60 24 88 A0", Answer("11:53 00")),
            step(1, "81:C9 87 04 60 24 88 A5 30 26 D7 80", SAK_04),
            step(2, "18:A9 82 00", Answer("45:84 91 42 00 8A A8")),
            step(2, "23:A9 D2 20", Answer("40:92 28 40 11 55")),
            step(2, "81:A9 87 21 24 50 80 22 AB 14 B4 80", SAK_00),
        ],
    },
    Trace {
        uid: "56341280122821440010",
        steps: &[
            step(1, "18:C9 82 00", Answer("45:11 B5 4B 09 11 F0")),
            step(1, "29:C9 A6 04 60", Mismatch),
            step(1, "29:C9 A6 04 68", Answer("34:AA 58 48 8F 80")),
            step(1, "40:C9 91 44 6D 52", Answer("23:C2 44 7C")),
            step(1, "52:C9 F5 04 6D 52 C2 40", Answer("11:47 C0")),
            step(1, "81:C9 87 04 6D 52 C2 44 7C 64 F5 80", SAK_04),
            step(2, "18:A9 82 00", Answer("45:11 80 92 22 94 C0")),
            step(2, "23:A9 D2 04", Answer("40:30 12 44 52 98")),
            step(2, "81:A9 87 04 60 24 88 A5 31 41 CD 00", SAK_04),
            step(3, "18:E9 02 00", Answer("45:84 91 40 21 0A E0")),
            step(3, "32:E9 56 61 24", Answer("31:50 08 42 B8")),
            step(3, "36:E9 01 21 24 50", Answer("27:00 84 2B 80")),
            step(3, "52:E9 75 21 24 50 08 40", Answer("11:2B 80")),
            step(3, "81:E9 07 21 24 50 08 42 B9 F6 10 00", SAK_00),
        ],
    },
];

/// A row written as its number of air bits and its packed bits: `29:C9 A6 00 48`.
pub fn packed(text: &str) -> Row {
    let (count, bytes) = text.split_once(':').expect("a count and bytes");
    let bytes = hex(&bytes.replace(' ', ""));
    let count: usize = count.parse().expect("a count");
    assert_eq!(bytes.len(), (count + 7) / 8, "{text}");
    (0..count).map(|i| (bytes[i / 8] >> (7 - i % 8)) & 1).collect()
}
