//! The program `vectors_trace`: one verdict for each line. `trace_check` prints the same, a card to a line.

use crate::language::{read_hex, read_number, show_hex, Program};
use crate::trace::{check, Verdict};

/// The most bytes of an input.
const MOST: usize = 41_000;

pub struct VectorsTrace;

/// The verdict, and the cards of a clean log.
pub fn told(verdict: Verdict) -> Vec<String> {
    match verdict {
        Verdict::Clean(cards) => {
            let cards = cards.iter().map(|(uid, sak)| format!("{}{sak:02X}", show_hex(uid)));
            std::iter::once("clean".to_string()).chain(cards).collect()
        }
        Verdict::Fault(index, refusal) => vec![format!("{index} {refusal}")],
    }
}

impl Program for VectorsTrace {
    fn words(&mut self, words: &[&str]) -> Option<Vec<String>> {
        let (bytes, size) = match *words {
            ["check", bytes] => (read_hex(bytes)?, 0),
            ["filled", size, bytes] => (read_hex(bytes)?, read_number(size, MOST)?),
            _ => return None,
        };
        let mut input = bytes;
        input.resize(input.len().max(size), 0);
        Some(vec![told(check(&input)).join(" ")])
    }
}
