//! The programs `bench_sweep` and `vectors_sweep`.

use crate::card::{Card, State};
use crate::card_link::Link;
use crate::coverage::note;
use crate::language::{read_hex, read_number, read_tick, show_hex, show_row, Program};
use crate::log::trace;
use crate::reader::{Answer, Reader};
use crate::refusal;
use crate::sweep::{remember, sweep, wake, LIST_ROOM, LOG_ROOM};
use crate::uid::MOST_CARDS;

/// The most bytes that `room` can ask to be lent.
const MOST_ROOM: usize = 65_535;

/// The cards collected so far, and what is lent to the sweep.
struct Collected {
    cards: Vec<Card>,
    /// A card that cannot be made: the whole answer is `refused 6`.
    refused: bool,
    log_room: usize,
    list_room: usize,
    /// The tick of the log's first record.
    tick: u32,
    /// T-14: the sweep that remembers, in place of the plain one.
    remembers: bool,
    /// The UID to wake, in place of the sweep.
    wake: Option<Vec<u8>>,
}

impl Default for Collected {
    fn default() -> Collected {
        Collected { cards: Vec::new(), refused: false, log_room: LOG_ROOM, list_room: LIST_ROOM, tick: 0, remembers: false, wake: None }
    }
}

impl Collected {
    /// A line that is no command of the program: a directive or a card. `None`: not understood.
    fn line(&mut self, words: &[&str]) -> Option<()> {
        if words[0] == "remember" {
            let [_] = *words else { return None };
            self.remembers = true;
            return Some(());
        }
        if words[0] == "tick" {
            let [_, tick] = *words else { return None };
            self.tick = read_tick(tick)?;
            return Some(());
        }
        if words[0] != "room" {
            return self.card_line(words);
        }
        let [_, log, list] = *words else { return None };
        let rooms = (read_number(log, MOST_ROOM)?, read_number(list, MOST_ROOM)?);
        (self.log_room, self.list_room) = rooms;
        Some(())
    }

    /// A card line: `UID [STATE [SAK [INDEX]]]`. `None`: not understood.
    fn card_line(&mut self, words: &[&str]) -> Option<()> {
        if words[0] == "wake" {
            let [_, uid] = *words else { return None };
            self.wake = Some(read_uid(uid)?);
            return Some(());
        }
        let uid = read_uid(words[0])?;
        let (state, behind) = match words[1..] {
            [] => (State::Idle, &[][..]),
            ["ready", level, ref behind @ ..] => (State::Ready(read_level(level)?), behind),
            ["ready*", level, ref behind @ ..] => (State::ReadyStar(read_level(level)?), behind),
            [word, ref behind @ ..] => (read_state(word)?, behind),
        };
        if behind.len() > 2 {
            return None;
        }
        let blocks = read_sak(behind.first().unwrap_or(&"20"))?;
        let index = read_number(behind.get(1).unwrap_or(&"8"), 255)? as u8;
        match Card::new(&uid, blocks, index) {
            Ok(card) => self.cards.push(Card { state, ..card }),
            Err(_) => self.refused = true,
        }
        Some(())
    }

    /// Sweeps the cards on a new reader; they are kept as they were.
    fn sweep(&self, for_people: bool) -> Vec<String> {
        let mut cards = self.cards.clone();
        if self.refused {
            return vec![format!("refused {}", refusal::ARGUMENT)];
        }
        if let Some(uid) = &self.wake {
            return woken(uid, cards);
        }
        note("field lent", against(self.log_room, LOG_ROOM), against(self.list_room, LIST_ROOM));
        note("field cards", against(cards.len(), MOST_CARDS), if self.log_room < LOG_ROOM { "short log" } else { "log" });
        let call = if self.remembers { remember } else { sweep };
        let swept = match call(&mut Reader::new(), self.tick, &mut cards, self.log_room, self.list_room) {
            Ok(swept) => swept,
            Err(number) => return vec![format!("refused {number}")],
        };
        let mut lines = if for_people { trace(&swept.records) } else { Vec::new() };
        lines.push(format!("frames {}", swept.frames()));
        for entry in swept.list.chunks(11) {
            lines.push(format!("found {}", show_hex(&entry[1..=entry[0] as usize])));
        }
        lines.extend(cards.iter().map(card_says));
        lines.push(format!("log {}", show_hex(&swept.log)));
        lines
    }
}

/// A number beside a limit.
fn against(number: usize, limit: usize) -> &'static str {
    match number {
        n if n < limit => "under",
        n if n == limit => "as many",
        _ => "over",
    }
}

fn card_says(card: &Card) -> String {
    let state = match card.state {
        State::Halt => "halt",
        State::Idle => "idle",
        State::Active => "active",
        State::ActiveStar => "active*",
        _ => unreachable!("no other state is left of a field that is taken"),
    };
    format!("card {} {state} {:02X} {}", show_hex(&card.uid), card.last_sak(), card.index)
}

/// The answer to `wake`: `refused 6` alone, or how it ended, RATS asked of the reader afterwards, and the cards.
fn woken(uid: &[u8], mut cards: Vec<Card>) -> Vec<String> {
    let mut reader = Reader::new();
    let mut lines = match wake(&mut reader, uid, &mut cards) {
        Ok((sak, frames)) => vec![format!("selected {} {sak:02X}", show_hex(uid)), format!("frames {frames}")],
        Err(refusal::SILENCE) => vec!["refused 7".to_string()],
        Err(number) => return vec![format!("refused {number}")],
    };
    lines.push(match reader.rats(8) {
        Answer::Send(row) => format!("rats send {}", show_row(&row)),
        Answer::Refused(number) => format!("rats refused {number}"),
        other => panic!("{other:?}"),
    });
    lines.extend(cards.iter().map(card_says));
    lines
}

/// 1 to 10 bytes.
pub fn read_uid(word: &str) -> Option<Vec<u8>> {
    read_hex(word).filter(|uid| (1..=10).contains(&uid.len()))
}

fn read_level(word: &str) -> Option<usize> {
    match word {
        "1" => Some(1),
        "2" => Some(2),
        "3" => Some(3),
        _ => None,
    }
}

fn read_state(word: &str) -> Option<State> {
    Some(match word {
        "idle" => State::Idle,
        "halt" => State::Halt,
        "off" => State::Off,
        "active" => State::Active,
        "active*" => State::ActiveStar,
        "protocol" => State::Protocol(Link::new(256)),
        _ => return None,
    })
}

/// The last SAK: exactly `20` or `00`.
pub fn read_sak(word: &str) -> Option<bool> {
    match word {
        "20" => Some(true),
        "00" => Some(false),
        _ => None,
    }
}

#[derive(Default)]
pub struct BenchSweep {
    collected: Collected,
}

impl Program for BenchSweep {
    fn words(&mut self, words: &[&str]) -> Option<Vec<String>> {
        self.collected.line(words)?;
        Some(Vec::new())
    }

    fn end(&mut self) -> Vec<String> {
        self.collected.sweep(true)
    }
}

#[derive(Default)]
pub struct VectorsSweep {
    collected: Collected,
}

impl Program for VectorsSweep {
    fn words(&mut self, words: &[&str]) -> Option<Vec<String>> {
        // Over a lent row or as values: the answer is the same. After `sweep` the cards are forgotten.
        if words == ["row"] {
            return Some(self.collected.sweep(false));
        }
        if words == ["sweep"] {
            return Some(std::mem::take(&mut self.collected).sweep(false));
        }
        self.collected.line(words)?;
        Some(Vec::new())
    }
}

#[cfg(test)]
mod tests {
    use super::*;
    use crate::language::Script;

    #[test]
    fn bench_example() {
        let mut script = Script::new(BenchSweep::default());
        script.say("80122821");
        script.say("01020304 idle 00");
        let (_, output) = script.finish();
        let lines: Vec<&str> = output.lines().collect();
        assert_eq!(
            lines[..8],
            [
                "> REQA               26",
                "< ATQA               04 00",
                "> ANTICOLLISION CL1  93 20",
                "< UID CL1            x000000x 0100x000 xx0x0x00 x0x00x00 xxxxx00x",
                "> ANTICOLLISION CL1  93 21 1",
                "< UID CL1            0000000 02 03 04 04",
                "> SELECT CL1         93 70 01 02 03 04 04 8E 25",
                "< SAK                00 FE 51",
            ]
        );
        assert_eq!(lines[8], "> HLTA               50 00 57 CD");
        assert_eq!(lines[9], "< silence");
        let tail: Vec<&str> = lines[20..25].to_vec();
        assert_eq!(tail, ["frames 10", "found 01020304", "found 80122821", "card 80122821 halt 20 8", "card 01020304 halt 00 8"]);
        assert!(lines[25].starts_with("log 000700000000644012000000012000"));
    }

    #[test]
    fn refused_fields() {
        let ask = |lines: &[&str]| {
            let mut script = Script::new(VectorsSweep::default());
            for line in lines {
                script.say(line);
            }
            let by_row = script.say("row");
            assert_eq!(script.say("row"), by_row);
            assert_eq!(script.say("sweep"), by_row);
            assert_eq!(script.say("row"), "frames 1\nlog 00070000000064C00000000001");
            by_row
        };
        assert_eq!(ask(&["88020304"]), "refused 6");
        assert_eq!(ask(&["0102"]), "refused 6");
        assert_eq!(ask(&["01020304", "01020304 halt"]), "refused 6");
        assert_eq!(ask(&["01020304 off"]), "refused 6");
        assert_eq!(ask(&["01020304 halt 00 9"]), "refused 6");
        assert_eq!(ask(&["01020304 halt"]), "frames 1\ncard 01020304 halt 20 8\nlog 00070000000064C00000000001");
        assert_eq!(ask(&["01020304 sleep"]), "frames 1\nlog 00070000000064C00000000001");
        assert_eq!(ask(&["room 40960 351"]), "refused 1");
        assert_eq!(ask(&["room 0 0", "room 65535 352"]), "frames 1\nlog 00070000000064C00000000001");
        assert_eq!(ask(&["room 0 0", "88020304"]), "refused 6");
        assert_eq!(ask(&["room 0", "room 0 65536", "room 0 0 0"]), "frames 1\nlog 00070000000064C00000000001");
        assert_eq!(ask(&["01020304 ready* 1"]), "refused 6");
        assert_eq!(ask(&["01020304 active*"]), "refused 6");
    }

    /// The examples of T-03's lines.
    #[test]
    fn woken_examples() {
        let ask = |lines: &[&str]| {
            let mut script = Script::new(BenchSweep::default());
            for line in lines {
                script.say(line);
            }
            script.finish().1
        };
        assert_eq!(
            ask(&["80122821 halt", "01020304 idle 00", "wake 80122821"]),
            "selected 80122821 20\nframes 2\nrats send 000001110000000010100011000110011100\ncard 80122821 active* 20 8\ncard 01020304 idle 00 8\n"
        );
        assert_eq!(ask(&["80122821 halt", "wake 80122822"]), "refused 7\nrats refused 11\ncard 80122821 halt 20 8\n");
        assert_eq!(ask(&["01020304 ready* 1"]), "refused 6\n");
    }
}
