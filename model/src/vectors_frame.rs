//! The program `vectors_frame`: frames, CRC_A, B, and levels, one answer for each line.

use crate::crc::crc_a;
use crate::frames::{self, Row};
use crate::language::{read_byte, read_hex, read_row, show_hex, show_row, Program};
use crate::refusal::{self, Refusal};
use crate::uid;

/// The most bytes and row elements that a word of this program has.
const MOST_BYTES: usize = 512;
const MOST_BITS: usize = 4096;

pub struct VectorsFrame;

fn bytes_word(word: &str) -> Option<Vec<u8>> {
    read_hex(word).filter(|bytes| bytes.len() <= MOST_BYTES)
}

fn row_word(word: &str) -> Option<Row> {
    read_row(word).filter(|row| row.len() <= MOST_BITS)
}

fn told(answer: Result<String, Refusal>) -> String {
    answer.unwrap_or_else(|number| format!("refused {number}"))
}

fn levels(bytes: &[u8]) -> Result<String, Refusal> {
    if !uid::valid(bytes) {
        return Err(refusal::ARGUMENT);
    }
    let rows = uid::levels(bytes);
    Ok(format!(
        "levels {} {} {} {} row {}",
        uid::level_count(bytes),
        show_hex(&rows[0]),
        show_hex(&rows[1]),
        show_hex(&rows[2]),
        show_row(&uid::on_air(bytes))
    ))
}

impl Program for VectorsFrame {
    fn words(&mut self, words: &[&str]) -> Option<Vec<String>> {
        let answer = match *words {
            ["short", value] => format!("row {}", show_row(&frames::short(read_byte(value)?))),
            // Any number of bytes is written, also one that no frame has; reading it back is 2.
            ["bytes", bytes] => format!("row {}", show_row(&frames::standard(&bytes_word(bytes)?))),
            ["crc", bytes] => format!("row {}", show_row(&frames::standard_with_crc(&bytes_word(bytes)?))),
            ["crca", bytes] => format!("crc {}", show_hex(&crc_a(&bytes_word(bytes)?))),
            ["read", row] => {
                let row = row_word(row)?;
                told(frames::read_standard(&row, 1, frames::MOST_BYTES).map(|b| format!("bytes {}", show_hex(&b))))
            }
            ["readcrc", row] => {
                let row = row_word(row)?;
                told(frames::read_standard_with_crc(&row, frames::MOST_BYTES).map(|b| format!("bytes {}", show_hex(&b))))
            }
            ["readshort", row] => told(frames::read_short(&row_word(row)?).map(|v| format!("short {v:02X}"))),
            ["check", bytes] => format!("b {:02X}", uid::check_byte(&bytes_word(bytes)?)),
            ["uid", bytes] => told(levels(&bytes_word(bytes)?)),
            _ => return None,
        };
        Some(vec![answer])
    }
}

#[cfg(test)]
mod tests {
    use super::*;
    use crate::language::answer_line;

    fn ask(line: &str) -> String {
        answer_line(&mut VectorsFrame, 1, line.as_bytes()).join("\n")
    }

    #[test]
    fn answers() {
        assert_eq!(ask("short 26"), "row 0110010");
        assert_eq!(ask("short 52"), "row 0100101");
        assert_eq!(ask("bytes 0400"), "row 001000000000000001");
        assert_eq!(ask("bytes -"), "row -");
        assert_eq!(ask("crc -"), "row 110001101110001101");
        assert_eq!(ask(&format!("bytes {}", "00".repeat(257))), format!("row {}", "000000001".repeat(257)));
        assert!(ask(&format!("crc {}", "00".repeat(255))).starts_with("row 0000"));
        assert_eq!(ask(&format!("bytes {}", "00".repeat(513))), "line 1: not understood");
        assert_eq!(ask("crca 5000"), "crc 57CD");
        assert_eq!(ask("crca -"), "crc 6363");
        assert_eq!(ask("check 80122821"), "b 9B");
        assert_eq!(ask("read 001000000000000001"), "bytes 0400");
        assert_eq!(ask("read 00100000000000000x"), "refused 8");
        assert_eq!(ask("read 001000000000000000"), "refused 3 1");
        assert_eq!(ask("readcrc 001000000000000001"), "refused 2");
        assert_eq!(ask("readshort 0110010"), "short 26");
        assert_eq!(ask("uid 01020304"), "levels 1 0102030404 0000000000 0000000000 row 1000000001000000110000000010000000100000");
        assert_eq!(ask("uid 88020304"), "refused 6");
    }
}
