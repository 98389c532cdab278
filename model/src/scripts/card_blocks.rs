//! The script of `bench_card`, blocks: RATS, ATS and the card's table of blocks.

use super::card::{active, damage_of, every_state, fresh, link, random_script, state, S, UID10, UID4};
use super::{collided, crc_line, damaged, flipped, plain_row, row_line};
use crate::card::State;
use crate::card_link::{Last, Mode};
use crate::frames;
use crate::language::show_hex;
use crate::random::Random;

pub fn add(s: &mut S, seed: u64) {
    let mut random = Random::new(seed);
    s.say("room 4096");
    every_state(s, true);
    rats(s);
    table(s);
    owing(s);
    lent_answer(s);
    chains(s);
    sizes(s);
    rooms(s);
    damage(s);
    long_messages(s, &mut random);
    s.remark("random scripts with blocks");
    let mut scripts = 0;
    while scripts < 130 && s.output.len() < 254_000 {
        random_script(s, &mut random, true);
        scripts += 1;
    }
}

/// A card of this size index in Protocol with a reader of this one.
fn protocol(s: &mut S, index: usize, fsdi: u8) {
    fresh(s, UID4, "20", index);
    enter(s, fsdi);
}

/// The card that is there, brought into a new Protocol.
fn enter(s: &mut S, fsdi: u8) {
    if matches!(state(s), State::Protocol(_)) {
        s.say("power off");
    }
    active(s);
    s.say(&format!("crc E0{fsdi:X}0"));
    assert!(matches!(state(s), State::Protocol(_)));
}

fn number(s: &S) -> u8 {
    link(s).expect("a card in Protocol").2
}

fn mode(s: &S) -> Mode {
    link(s).expect("a card in Protocol").0
}

fn mode_if_linked(s: &S) -> Option<Mode> {
    link(s).map(|(mode, _, _)| mode)
}

/// R(ACK) and R(NAK) of the card's own number, or of the other.
fn ack_line(s: &S, own: bool) -> String {
    format!("crc {:02X}", 0xA2 | if own { number(s) } else { number(s) ^ 1 })
}

fn nak_line(s: &S, own: bool) -> String {
    format!("crc {:02X}", 0xB2 | if own { number(s) } else { number(s) ^ 1 })
}

fn rats(s: &mut S) {
    s.remark("RATS of every index, to cards of every index");
    for fsdi in 0..16 {
        protocol(s, (fsdi % 9) as usize, fsdi);
    }
    s.remark("ATS of every index is document 000's; the largest frame of a reader that says 15 is index 8's");
    protocol(s, 8, 15);
    s.say("crc 02");
    s.say(&format!("reply {}", "C3".repeat(253)));
    s.remark("no RATS: CID, length, CRC_A, a card that speaks no blocks");
    fresh(s, UID10, "20", 3);
    for line in ["crc E001", "crc E08F", "crc E0", "crc E00000", "bytes E000", "bytes E000F739", "bytes E00039F7"] {
        active(s);
        s.say(line);
    }
    fresh(s, UID10, "00", 3);
    active(s);
    s.say("crc E050");
    fresh(s, UID4, "20", 5);
    damage_of(s, &frames::rats(5), 3, &|s| {
        if matches!(state(s), State::Protocol(_)) {
            s.say("power off");
        }
        active(s)
    });
}

/// The ways to stand in a column of the card's table.
#[derive(Clone, Copy)]
enum Place {
    /// Nothing sent since RATS.
    New,
    /// A chained I has come; R(ACK) was the last block.
    Joining,
    /// The answer's only I was the last block.
    Answered,
    /// The last of two I of the answer was the last block.
    AnsweredInTwo,
    WtxAsked,
    /// WTX asked, then R(ACK) sent because of an R(NAK).
    WtxAskedThenAck,
    Answering,
    /// Chaining, then R(ACK) sent because of an R(NAK).
    AnsweringThenAck,
    /// Chaining, the second chained I is out.
    AnsweringOn,
}

use Place::*;

const PLACES: [Place; 9] =
    [New, Joining, Answered, AnsweredInTwo, WtxAsked, WtxAskedThenAck, Answering, AnsweringThenAck, AnsweringOn];

fn stand(s: &mut S, place: Place) {
    if mode_if_linked(s) == Some(Mode::Owing) {
        s.say("reply -");
    }
    let joined = matches!(state(s), State::Protocol(link) if link.joined > 0);
    if matches!(place, New) || joined || mode_if_linked(s).is_none() {
        enter(s, 0);
    }
    let say_nak = |s: &mut S| {
        let line = nak_line(s, false);
        s.say(&line);
    };
    let say_ack = |s: &mut S| {
        let line = ack_line(s, false);
        s.say(&line);
    };
    match place {
        New => {}
        Joining => {
            s.say("crc 12A0A1");
        }
        Answered => {
            s.say("crc 02");
            s.say("reply C0C1");
        }
        AnsweredInTwo => {
            s.say("crc 02");
            s.say("reply 000102030405060708090A0B0C0D0E0F");
            say_ack(s);
        }
        WtxAsked | WtxAskedThenAck => {
            s.say("crc 02B0");
            s.say("wtx 7");
            if matches!(place, WtxAskedThenAck) {
                say_nak(s);
            }
        }
        Answering | AnsweringThenAck | AnsweringOn => {
            s.say("crc 02D0");
            s.say("reply 000102030405060708090A0B0C0D0E0F101112131415161718191A1B1C1D1E1F");
            if matches!(place, AnsweringThenAck) {
                say_nak(s);
            }
            if matches!(place, AnsweringOn) {
                say_ack(s);
            }
        }
    }
    assert_ne!(mode(s), Mode::Owing);
}

/// Every row of the card's table in every column, and what the card does after it.
fn table(s: &mut S) {
    s.remark("the card's table: every block at every place");
    fresh(s, UID4, "20", 0);
    for place in PLACES {
        let rows: Vec<Box<dyn Fn(&S) -> Vec<String>>> = vec![
            Box::new(|_| vec!["crc 02E0".into()]),
            Box::new(|_| vec!["crc 03E0E1".into()]),
            Box::new(|_| vec!["crc 12E2".into()]),
            Box::new(|_| vec!["crc 13".into(), "crc 03E3".into()]),
            Box::new(|_| vec!["room 1".into(), "crc 12E4E5".into(), "crc 02E4E5".into(), "room 4096".into()]),
            Box::new(|s| vec![ack_line(s, true)]),
            Box::new(|s| vec![nak_line(s, true)]),
            Box::new(|s| vec![ack_line(s, false)]),
            Box::new(|s| vec![nak_line(s, false), nak_line(s, true), ack_line(s, true), ack_line(s, false)]),
            Box::new(|_| vec!["crc F207".into()]),
            Box::new(|_| vec!["crc F208".into(), "crc F247".into(), "crc F200".into(), "crc F23B".into()]),
            Box::new(|_| vec!["crc C2".into(), "crc C2".into()]),
            Box::new(|_| {
                ["crc A200", "crc A300", "crc B200", "crc B3FF", "crc C200", "crc F2", "crc F20700"].map(String::from).to_vec()
            }),
            Box::new(|_| {
                [
                    "crc 00",
                    "crc 06",
                    "crc 07",
                    "crc 0A00",
                    "crc 1A05",
                    "crc 22",
                    "crc 42",
                    "crc 82",
                    "crc A0",
                    "crc A6",
                    "crc AA05",
                    "crc BA05",
                    "crc CA05",
                    "crc C3",
                    "crc E2",
                    "crc F3",
                    "crc FA0507",
                    "crc D2",
                    "crc E080",
                    "crc 5000",
                ]
                .map(String::from)
                .to_vec()
            }),
            Box::new(|_| {
                let deselect = frames::standard_with_crc(&[0xC2]);
                vec![plain_row(&flipped(&deselect, 8)), plain_row(&flipped(&deselect, 3)), plain_row(&collided(&deselect, 8))]
            }),
            Box::new(|_| {
                [
                    "row -",
                    "row 0",
                    "short 26",
                    "short 52",
                    "bytes 0200",
                    "bytes 020000",
                    "bytes C2E0B5",
                    "row 0100000000011011111001110x0",
                ]
                .map(String::from)
                .to_vec()
            }),
            Box::new(|_| vec!["reply FF".into(), "wtx 1".into(), "wtx 0".into(), "wtx 60".into(), "power on".into()]),
            Box::new(|_| vec!["power off".into()]),
        ];
        // Where the card came to its place by one block more, the rows that change nothing are left out.
        let count =
            if matches!(place, AnsweredInTwo | WtxAskedThenAck | AnsweringThenAck | AnsweringOn) { 12 } else { rows.len() };
        for row in &rows[..count] {
            stand(s, place);
            let lines = row(s);
            for line in lines {
                s.say(&line);
            }
            // What is left of it shows in the next block, unless the card is owing or gone.
            if let Some((found, _, _)) = link(s) {
                if found == Mode::Owing {
                    s.say("reply AA");
                }
                let line = nak_line(s, true);
                s.say(&line);
                s.say("crc 02");
            }
        }
    }
}

/// A card that owes its host's answer takes no frame.
fn owing(s: &mut S) {
    s.remark("owing: every frame is 11; WTX outside 1 to 59; messages over 4096 bytes");
    for again in [false, true] {
        enter(s, 1);
        s.say("crc 020102");
        if again {
            s.say("wtx 59");
            s.say("crc F23B");
        }
        for line in [
            "crc 02", "crc 13AA", "crc A2", "crc A3", "crc B2", "crc B3", "crc C2", "crc F23B", "crc F201", "crc 00", "row -",
            "row x", "short 26", "bytes 02", "power on", "wtx 0", "wtx 60", "wtx 63", "wtx 255", "wtx 1", "crc F202", "crc F201",
            "wtx 30", "crc F21E",
        ] {
            s.say(line);
        }
        s.say("reply 01");
        s.say("reply 02");
        s.say("wtx 1");
    }
    s.remark("power goes while the card owes");
    enter(s, 1);
    s.say("crc 02");
    s.say("power off");
    s.say("reply 00");
    s.say("power on");
    s.remark("WTX of 1 and of 59, and its reply with other top bits");
    for value in [1, 2, 58, 59] {
        enter(s, 0);
        s.say("crc 03");
        s.say(&format!("wtx {value}"));
        s.say(&format!("crc F2{:02X}", value | 0xC0));
        s.say(&format!("crc F2{:02X}", value ^ 1));
        s.say(&format!("crc F2{value:02X}"));
        s.say("reply -");
    }
}

/// The program lends the answer at each call. One that is refused is not kept: what goes out again is of the one before.
fn lent_answer(s: &mut S) {
    s.remark("a refused answer is not kept");
    let long = "000102030405060708090A0B0C0D0E0F101112131415161718191A1B1C1D1E1F";
    for (other, lines) in [("-", 0), ("-", 1), ("E5E5E5E5", 1), ("E5E5E5E5", 2)] {
        enter(s, 0);
        s.say("crc 02");
        s.say(&format!("reply {long}"));
        for _ in 0..lines {
            let line = ack_line(s, false);
            s.say(&line);
        }
        s.say(&format!("reply {other}"));
        let lines = [nak_line(s, true), "row -".to_string(), "crc C200".to_string(), ack_line(s, true), ack_line(s, false)];
        for line in lines {
            s.say(&line);
        }
        s.say("crc 02");
    }
    s.remark("nor is one that is too long");
    enter(s, 0);
    s.say("crc 02");
    s.say("reply 0102");
    s.say("crc 03");
    s.say(&format!("reply {}", "E5".repeat(4097)));
    s.say("reply 03");
    let line = nak_line(s, true);
    s.say(&line);
    s.remark("the place is 0 again once an I is accepted");
    enter(s, 0);
    s.say("crc 02");
    s.say(&format!("reply {long}"));
    let line = ack_line(s, false);
    s.say(&line);
    s.say("crc 1201");
    s.say("reply -");
    s.say("crc B2");
    s.say("crc B3");
    s.say("crc 0202");
    s.say("reply 00");
}

/// Messages in several blocks, both ways.
fn chains(s: &mut S) {
    s.remark("chains: shorter blocks, empty ones, repeats, an I that drops the answer");
    enter(s, 0);
    for line in ["crc 12", "crc 13", "crc 12", "crc 1301", "crc 120203", "crc 13", "crc 0204"] {
        s.say(line);
    }
    s.say("reply -");
    s.remark("the same number twice is joined twice");
    for line in ["crc 1201", "crc 1202", "crc 0203"] {
        s.say(line);
    }
    s.say("reply AA");
    s.remark("an answer in four blocks, each repeated");
    s.say("crc 03");
    s.say(&format!("reply {}", (0..45).map(|i| format!("{i:02X}")).collect::<String>()));
    for _ in 0..4 {
        let lines = [nak_line(s, true), ack_line(s, true), "row -".to_string(), nak_line(s, false), ack_line(s, false)];
        for line in lines {
            s.say(&line);
        }
    }
    s.remark("dropped: in the middle of an answer, of a WTX, of a chain");
    for first in ["crc 02", "crc 03", "crc 12AA", "crc 13BB"] {
        s.say("crc 02");
        s.say(&format!("reply {}", "5A".repeat(30)));
        s.say(first);
        if mode(s) == Mode::Owing {
            s.say("wtx 5");
        }
        s.say(first);
        if mode(s) == Mode::Owing {
            s.say("reply 77");
        }
        s.say("crc 02CC");
        s.say("reply 78");
    }
    s.remark("DESELECT in the middle; a new RATS starts from number 1 with nothing joined and no last block");
    for lines in [vec!["crc 1201"], vec!["crc 02", "reply 0102030405060708090A0B0C0D0E0F"], vec!["crc 02", "wtx 9"], vec![]] {
        enter(s, 0);
        for line in lines {
            s.say(line);
        }
        s.say("crc C2");
        s.say("short 26");
        s.say("short 52");
        enter(s, 0);
        s.say("crc B3");
        s.say("crc A3");
        s.say("crc B2");
        s.say("crc 02");
        s.say("reply -");
    }
}

/// Payload size - 3 and one more, for every index at either end.
fn sizes(s: &mut S) {
    s.remark("payload of size - 3 and one more");
    for index in 0..9 {
        let size = frames::size_of_index(index);
        protocol(s, index as usize, index);
        s.say(&format!("crc 02{}", "A5".repeat(size - 3)));
        s.say(&format!("reply {}", "5A".repeat(size - 3)));
        s.say(&crc_line(&[vec![0x03], vec![0x3C; size - 2]].concat()));
        s.say("crc 03");
        // One byte more goes in two blocks.
        s.say(&format!("reply {}", "C3".repeat(size - 2)));
        let line = ack_line(s, false);
        s.say(&line);
    }
    s.remark("two full blocks, and one byte more");
    protocol(s, 0, 0);
    for count in [0, 1, 26, 27] {
        s.say("crc 02");
        let message = if count == 0 { "-".to_string() } else { "99".repeat(count) };
        s.say(&format!("reply {message}"));
        while mode(s) == Mode::Answering {
            let line = ack_line(s, false);
            s.say(&line);
        }
    }
}

fn rooms(s: &mut S) {
    s.remark("the buffer: 0, 1, exactly full, one too many, shorter than what is joined");
    protocol(s, 0, 0);
    for (room, lines) in [
        (0, vec!["crc 0201", "crc 1201", "crc 12", "crc 03"]),
        (1, vec!["crc 020102", "crc 1201", "crc 1302", "crc 13", "crc 03"]),
        (3, vec!["crc 120102", "crc 130304", "crc 1203", "crc 0204", "crc 02"]),
        (13, vec!["crc 0200000000000000000000000001", "reply -", "crc 1200000000000000000000000001", "crc 1301", "crc 02"]),
    ] {
        s.say(&format!("room {room}"));
        for line in lines {
            s.say(line);
        }
        s.say("reply 01");
    }
    s.say("room 8");
    s.say("crc 120102030405");
    s.say("room 4");
    s.say("crc 03");
    s.say("crc 13");
    s.say("room 5");
    s.say("crc 13");
    s.say("room 4096");
    s.say("crc 0206");
    s.say("reply 00");
    s.remark("10 while an answer or a WTX is under way drops nothing");
    s.say("crc 02");
    s.say(&format!("reply {}", "11".repeat(20)));
    s.say("room 2");
    s.say("crc 03010203");
    let lines = [nak_line(s, true), ack_line(s, false)];
    for line in lines {
        s.say(&line);
    }
    s.say("crc 020102");
    s.say("wtx 3");
    s.say("crc 12010203");
    let line = nak_line(s, true);
    s.say(&line);
    s.say("crc F203");
    s.say("reply -");
    s.say("room 4096");
}

fn damage(s: &mut S) {
    s.remark("blocks, damaged");
    enter(s, 0);
    let block = frames::standard_with_crc(&[0x02, 0x55]);
    for place in (0..block.len()).step_by(2) {
        s.say(&plain_row(&flipped(&block, place)));
        s.say(&plain_row(&collided(&block, place)));
    }
    for count in [1, 9, 18, 26, 27, 35] {
        s.say(&plain_row(&block[..count]));
    }
    s.say(&plain_row(&[block.clone(), vec![0]].concat()));
    s.say(&plain_row(&[block.clone(), vec![0; 9]].concat()));
    s.say("bytes 02");
    s.say("bytes 0255");
    s.say("bytes 025500");
    s.say("bytes C2B4E0");
    for place in [0, 8, 13, 26] {
        s.say(&plain_row(&flipped(&frames::standard_with_crc(&[0xC2]), place)));
        s.say(&plain_row(&collided(&frames::standard_with_crc(&[0xB3]), place)));
    }
    s.say(&row_line(&block));
    s.say("reply 00");
}

/// 0, 1, 4096 and 4097 bytes, each way.
fn long_messages(s: &mut S, random: &mut Random) {
    s.remark("4096 bytes in, and 4097; 4097 out, and 4096");
    protocol(s, 8, 8);
    let message = random.bytes(4097);
    let mut chained_number = 0;
    for part in message[..4048].chunks(253) {
        s.say(&crc_line(&[vec![0x12 | chained_number], part.to_vec()].concat()));
        chained_number ^= 1;
    }
    // 16 full blocks are 4048 bytes; 49 more are one too many.
    assert_eq!(s.say(&crc_line(&[vec![0x02], message[4048..].to_vec()].concat())), "told 10 ; protocol");
    assert_eq!(s.say(&crc_line(&[vec![0x12], message[4048..].to_vec()].concat())), "told 10 ; protocol");
    assert!(s.say(&crc_line(&[vec![0x02], message[4048..4096].to_vec()].concat())).starts_with("delivered "));
    assert_eq!(s.say(&format!("reply {}", show_hex(&message))), "refused 10 ; protocol");
    s.say(&format!("reply {}", show_hex(&message[1..])));
    let mut blocks = 1;
    while mode(s) == Mode::Answering {
        let line = ack_line(s, false);
        s.say(&line);
        blocks += 1;
    }
    assert_eq!(blocks, 17);
    let line = nak_line(s, true);
    s.say(&line);
}

/// A message of a length that is worth trying against this frame size.
pub fn random_message(random: &mut Random, size: usize) -> Vec<u8> {
    let full = size - 3;
    let count = match random.below(8) {
        0 => 0,
        1 => 1,
        2 => full,
        3 => full + 1,
        4 => 2 * full,
        _ => random.below(3 * full + 2),
    };
    random.bytes(count)
}

/// A line for a card in Protocol, most of them due.
pub fn random_protocol_line(s: &S, random: &mut Random) -> String {
    let card = s.program.card.as_ref().expect("a card");
    let (mode, last, number) = link(s).expect("a card in Protocol");
    let reader_size = match state(s) {
        State::Protocol(link) => link.reader_size,
        _ => unreachable!(),
    };
    if mode == Mode::Owing {
        match random.below(10) {
            0..=5 => return format!("reply {}", show_hex(&random_message(random, reader_size.min(48)))),
            6 | 7 => return format!("wtx {}", 1 + random.below(59)),
            8 => return format!("wtx {}", random.pick(&[0, 60, 63, 255])),
            _ => {}
        }
    }
    if random.chance(2) {
        return format!("room {}", random.pick(&[4096, 60, 30, 13, 2, 0]));
    }
    let own_size = frames::size_of_index(card.index).min(48);
    let payload = |random: &mut Random| {
        let count = random.pick(&[0, 1, 2, 5, own_size - 3]);
        random.bytes(count)
    };
    let other = number ^ 1;
    let weights: [usize; 9] = match mode {
        Mode::Answering => [4, 4, 50, 12, 8, 2, 2, 3, 3],
        Mode::WtxAsked(_) => [6, 6, 4, 16, 6, 46, 2, 3, 3],
        _ => [36, 30, 4, 14, 6, 2, 2, 3, 3],
    };
    let bytes = match weighted(random, &weights) {
        0 => [vec![0x02 | random.below(2) as u8], payload(random)].concat(),
        1 => [vec![0x12 | random.below(2) as u8], payload(random)].concat(),
        2 => vec![0xA2 | other],
        3 => vec![random.pick(&[0xA2, 0xB2, 0xB2]) | number],
        4 => vec![0xB2 | other],
        5 => match (mode, last) {
            (Mode::WtxAsked(value), _) | (_, Last::Wtx(value)) => vec![0xF2, value],
            _ => vec![0xF2, random.byte()],
        },
        6 => vec![0xC2],
        7 => {
            let first = random.pick(&[0xA2, 0xB3, 0xC2, 0xF2, 0x0A, 0x06, 0xE0, 0x50, 0x00]);
            let count = random.below(3);
            [vec![first], random.bytes(count)].concat()
        }
        _ => {
            let first = 0x02 | random.below(2) as u8;
            let row = damaged(random, &frames::standard_with_crc(&[first, 0x42]));
            return plain_row(&row);
        }
    };
    crc_line(&bytes)
}

/// Draws a place by weight.
pub fn weighted(random: &mut Random, weights: &[usize]) -> usize {
    let mut drawn = random.below(weights.iter().sum());
    for (place, &weight) in weights.iter().enumerate() {
        if drawn < weight {
            return place;
        }
        drawn -= weight;
    }
    unreachable!()
}
