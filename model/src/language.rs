//! The script language that all programs share: lines, words, bytes, rows, numbers.

use crate::frames::{Row, COLLIDED};
use std::io::{BufRead, Write};

/// The longest line that is understood, in bytes.
pub const LONGEST_LINE: usize = 16_384;

/// The words that follow `line N: `.
pub const NOT_UNDERSTOOD: &str = "not understood";

/// A program answers the words of a line by lines of its own; `None` means that the line is not understood.
pub trait Program {
    fn words(&mut self, words: &[&str]) -> Option<Vec<String>>;

    /// What is said when the input ends.
    fn end(&mut self) -> Vec<String> {
        Vec::new()
    }
}

/// One line of input, without its line feed. `number` counts all lines from 1.
pub fn answer_line<P: Program>(program: &mut P, number: usize, line: &[u8]) -> Vec<String> {
    let line = line.strip_suffix(b"\r").unwrap_or(line);
    if line.is_empty() {
        return Vec::new();
    }
    let declined = || vec![format!("line {number}: {NOT_UNDERSTOOD}")];
    if line.len() > LONGEST_LINE {
        return declined();
    }
    if line[0] == b'#' {
        return Vec::new();
    }
    let text = match std::str::from_utf8(line) {
        Ok(text) => text,
        Err(_) => return declined(),
    };
    let words: Vec<&str> = text.split(' ').filter(|w| !w.is_empty()).collect();
    if words.is_empty() {
        return Vec::new();
    }
    program.words(&words).unwrap_or_else(declined)
}

/// Plays standard input to standard output, each line answered at once.
pub fn play<P: Program>(mut program: P) {
    let stdin = std::io::stdin();
    let mut input = stdin.lock();
    let stdout = std::io::stdout();
    let mut output = stdout.lock();
    let mut number = 0;
    loop {
        let mut line = Vec::new();
        if input.read_until(b'\n', &mut line).expect("standard input") == 0 {
            break;
        }
        if line.last() == Some(&b'\n') {
            line.pop();
        }
        number += 1;
        for answer in answer_line(&mut program, number, &line) {
            writeln!(output, "{answer}").expect("standard output");
        }
        output.flush().expect("standard output");
    }
    for answer in program.end() {
        writeln!(output, "{answer}").expect("standard output");
    }
}

/// A script that is being written, played as it grows, so that its writer sees each answer.
pub struct Script<P: Program> {
    pub program: P,
    pub input: String,
    pub output: String,
    lines: usize,
}

impl<P: Program> Script<P> {
    pub fn new(program: P) -> Self {
        Script { program, input: String::new(), output: String::new(), lines: 0 }
    }

    /// Adds a line and gives what it was answered.
    pub fn say(&mut self, line: &str) -> String {
        self.lines += 1;
        self.input.push_str(line);
        self.input.push('\n');
        let answers = answer_line(&mut self.program, self.lines, line.as_bytes());
        for answer in &answers {
            self.output.push_str(answer);
            self.output.push('\n');
        }
        answers.join("\n")
    }

    pub fn remark(&mut self, text: &str) {
        self.say(&format!("# {text}"));
    }

    pub fn finish(mut self) -> (String, String) {
        for answer in self.program.end() {
            self.output.push_str(&answer);
            self.output.push('\n');
        }
        (self.input, self.output)
    }
}

/// Bytes: an even number of hexadecimal digits, at least two, either case; `-` for none.
pub fn read_hex(word: &str) -> Option<Vec<u8>> {
    if word == "-" {
        return Some(Vec::new());
    }
    if word.is_empty() || word.len() % 2 != 0 || !word.bytes().all(|c| c.is_ascii_hexdigit()) {
        return None;
    }
    let digit = |c: u8| (c as char).to_digit(16).unwrap() as u8;
    Some(word.as_bytes().chunks(2).map(|two| digit(two[0]) * 16 + digit(two[1])).collect())
}

/// Bytes that are known to be well written, as in tests and fixed scripts.
pub fn hex(text: &str) -> Vec<u8> {
    read_hex(text).expect("well written bytes")
}

pub fn show_hex(bytes: &[u8]) -> String {
    if bytes.is_empty() {
        return "-".to_string();
    }
    bytes.iter().map(|b| format!("{b:02X}")).collect()
}

/// Exactly two hexadecimal digits.
pub fn read_byte(word: &str) -> Option<u8> {
    if word.len() != 2 {
        return None;
    }
    read_hex(word).map(|bytes| bytes[0])
}

/// A row: `0`, `1`, `x`, or `-` for the empty one.
pub fn read_row(word: &str) -> Option<Row> {
    if word == "-" {
        return Some(Row::new());
    }
    word.chars()
        .map(|c| match c {
            '0' => Some(0),
            '1' => Some(1),
            'x' => Some(COLLIDED),
            _ => None,
        })
        .collect()
}

pub fn show_row(row: &[u8]) -> String {
    if row.is_empty() {
        return "-".to_string();
    }
    show_bits(row)
}

/// Bits without the sign for the empty row.
pub fn show_bits(bits: &[u8]) -> String {
    bits.iter()
        .map(|&b| match b {
            0 => '0',
            1 => '1',
            _ => 'x',
        })
        .collect()
}

/// A number: one to five decimal digits, at most `most`.
pub fn read_number(word: &str, most: usize) -> Option<usize> {
    if word.is_empty() || word.len() > 5 || !word.bytes().all(|c| c.is_ascii_digit()) {
        return None;
    }
    word.parse().ok().filter(|&n: &usize| n <= most)
}

/// A tick: one to ten decimal digits, below 2^32.
pub fn read_tick(word: &str) -> Option<u32> {
    if word.is_empty() || word.len() > 10 || !word.bytes().all(|c| c.is_ascii_digit()) {
        return None;
    }
    word.parse().ok()
}

#[cfg(test)]
mod tests {
    use super::*;

    struct Echo;

    impl Program for Echo {
        fn words(&mut self, words: &[&str]) -> Option<Vec<String>> {
            (words[0] == "say").then(|| vec![words[1..].join("+")])
        }
    }

    #[test]
    fn lines() {
        let mut p = Echo;
        assert_eq!(answer_line(&mut p, 1, b""), Vec::<String>::new());
        assert_eq!(answer_line(&mut p, 2, b"\r"), Vec::<String>::new());
        assert_eq!(answer_line(&mut p, 3, b"# say a"), Vec::<String>::new());
        assert_eq!(answer_line(&mut p, 4, b"say a   b\r"), ["a+b"]);
        assert_eq!(answer_line(&mut p, 7, b"sing"), ["line 7: not understood"]);
        let mut long = b"say ".to_vec();
        long.resize(LONGEST_LINE, b'a');
        assert_ne!(answer_line(&mut p, 8, &long), ["line 8: not understood"]);
        long.push(b'a');
        assert_eq!(answer_line(&mut p, 8, &long), ["line 8: not understood"]);
    }

    #[test]
    fn words() {
        assert_eq!(read_hex("-"), Some(vec![]));
        assert_eq!(read_hex("0aFf"), Some(vec![0x0A, 0xFF]));
        assert_eq!(read_hex("0"), None);
        assert_eq!(read_hex("0g"), None);
        assert_eq!(read_number("00008", 8), Some(8));
        assert_eq!(read_number("9", 8), None);
        assert_eq!(read_number("000008", 8), None);
        assert_eq!(read_number("+8", 8), None);
        assert_eq!(read_row("01x"), Some(vec![0, 1, 2]));
        assert_eq!(read_row("01X"), None);
    }
}
