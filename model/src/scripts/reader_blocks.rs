//! The script of `bench_reader`, blocks: RATS, ATS and the reader's table of blocks.

use super::reader::{not_due, random_script, S};
use super::{collided, crc_line, flipped, plain_row, row_line, wrong_from};
use crate::frames::{self, Row};
use crate::language::show_hex;
use crate::random::Random;
use crate::reader::Phase;
use crate::reader_link::Stage;

pub fn add(s: &mut S, seed: u64) {
    let mut random = Random::new(seed);
    s.say("room 4096");
    rats(s);
    ats_forms(s);
    ats_refusals(s);
    not_due(s, &LINKED_PHASES, true);
    table(s);
    damage(s);
    repeats(s);
    sent_again(s);
    wtx(s);
    lent_message(s);
    deselect(s);
    sizes(s);
    rooms(s);
    long_messages(s, &mut random);
    s.remark("random scripts with blocks");
    s.say("room 4096");
    let mut scripts = 0;
    while scripts < 110 && s.output.len() < 255_000 {
        random_script(s, &mut random, true);
        scripts += 1;
    }
}

const SELECT: [&str; 5] = ["new", "select", "bytes 0400", "bytes 0102030404", "crc 20"];

/// The lines that bring a new reader into each phase behind RATS.
const LINKED_PHASES: [&[&str]; 7] = [
    &["new", "select", "bytes 0400", "bytes 0102030404", "crc 20", "rats 0"],
    &["new", "select", "bytes 0400", "bytes 0102030404", "crc 20", "rats 0", "crc 0200"],
    &["new", "select", "bytes 0400", "bytes 0102030404", "crc 20", "rats 0", "crc 0200", "send 000102030405060708090A0B0C0D0E0F"],
    &["new", "select", "bytes 0400", "bytes 0102030404", "crc 20", "rats 0", "crc 0200", "send 0001"],
    &["new", "select", "bytes 0400", "bytes 0102030404", "crc 20", "rats 0", "crc 0200", "send 0001", "crc 12AA"],
    &["new", "select", "bytes 0400", "bytes 0102030404", "crc 20", "rats 0", "crc 0200", "deselect"],
    &["new", "select", "bytes 0400", "bytes 0102030404", "crc 20", "rats 0", "crc 0200", "deselect", "crc C2"],
];

fn say_all(s: &mut S, lines: &[&str]) {
    for line in lines {
        s.say(line);
    }
}

/// A reader of this index that speaks with a card of this one, between messages.
fn open(s: &mut S, own: u8, card: u8) {
    say_all(s, &SELECT);
    s.say(&format!("rats {own}"));
    s.say(&format!("crc 02{card:02X}"));
}

fn stage(s: &S) -> Option<Stage> {
    match &s.program.reader.phase {
        Phase::Linked(link) => Some(link.stage),
        _ => None,
    }
}

fn number(s: &S) -> u8 {
    match &s.program.reader.phase {
        Phase::Linked(link) => link.number,
        _ => 0,
    }
}

fn rats(s: &mut S) {
    s.remark("RATS of every index; over 8 is 6, and then it is still due");
    for index in [0, 1, 2, 3, 4, 5, 6, 7, 8, 9, 15, 255] {
        say_all(s, &SELECT);
        s.say(&format!("rats {index}"));
        if index > 8 {
            s.say("rats 8");
        }
    }
    s.remark("due only if b6 of the last SAK is set");
    for sak in ["00", "08", "18", "28", "60", "FB"] {
        say_all(s, &SELECT[..4]);
        s.say(&format!("crc {sak}"));
        s.say("rats 9");
        s.say("rats 8");
        s.say("rats 8");
    }
}

fn ats_forms(s: &mut S) {
    s.remark("ATS: every index, TL 1, TA TB TC, historical bytes");
    let mut forms: Vec<String> = (0..16).map(|t0| format!("02{t0:02X}")).collect();
    for form in [
        "01",
        "0210",
        "031080",
        "0220",
        "032071",
        "0240",
        "034002",
        "033080",
        "04308071",
        "036071",
        "04607102",
        "0278",
        "037880",
        "04788071",
        "0578807102",
        "0678807102AA",
        "0308AA",
        "0A08AABBCCDDEEFF0011",
        "0E0000112233445566778899AABB",
        "03",
        "00",
        "0000",
        "02",
        "0208AA",
        "0408AA",
        "01AA",
        "0288",
        "0380AA",
        "05F8807102",
        "FF08",
        "C2",
    ] {
        forms.push(form.to_string());
    }
    for form in forms {
        say_all(s, &SELECT);
        s.say("rats 0");
        s.say(&format!("crc {form}"));
    }
    s.remark("the longest ATS that fits, and one byte more, for some sizes");
    for index in [0u8, 1, 2, 5, 8] {
        let size = frames::size_of_index(index);
        for over in [0, 1] {
            let length = size - 2 + over;
            let mut bytes = vec![length as u8, 0x78, 0x80, 0x71, 0x02];
            bytes.resize(length, 0x5A);
            say_all(s, &SELECT);
            s.say(&format!("rats {index}"));
            s.say(&crc_line(&bytes));
        }
    }
}

fn ats_refusals(s: &mut S) {
    s.remark("ATS: 7, 2, 8, 3, 4, and their order; nothing is repeated");
    let row = frames::standard_with_crc(&[0x02, 0x08]);
    let wrong_crc = frames::standard(&[0x02, 0x08, 0, 0]);
    let mut rows: Vec<Row> = vec![
        vec![],
        row[..35].to_vec(),
        row[..18].to_vec(),
        row[..27].to_vec(),
        [row.clone(), vec![1]].concat(),
        frames::standard(&[0x02, 0x08]),
        frames::standard_with_crc(&[]),
        wrong_crc.clone(),
        flipped(&wrong_crc, 8),
        collided(&flipped(&wrong_crc, 8), 3),
        collided(&row, 3)[..35].to_vec(),
        vec![2; 36],
        vec![2; 9],
    ];
    for place in (0..36).step_by(5).chain([8, 17, 26]) {
        rows.push(flipped(&row, place));
        rows.push(collided(&row, 35 - place));
    }
    for row in rows {
        say_all(s, &SELECT);
        s.say("rats 8");
        s.say(&plain_row(&row));
    }
    s.remark("where its parity broke: the first of two wrong bytes, up to the last of the longest ATS");
    let mut long = vec![254, 0x78, 0x80, 0x71, 0x02];
    long.resize(254, 0x5A);
    let long = frames::standard_with_crc(&long);
    for (row, bytes) in [(row, vec![0, 1, 2, 3]), (long, vec![0, 127, 128, 254, 255])] {
        for byte in bytes {
            say_all(s, &SELECT);
            s.say("rats 8");
            assert_eq!(s.say(&plain_row(&wrong_from(&row, byte))), format!("refused 3 {byte}"));
        }
    }
    s.remark("a damaged block is no 3, and the 12 behind it carries no byte");
    say_all(s, &SELECT);
    say_all(s, &["rats 8", "crc 0208", "send 01"]);
    for _ in 0..3 {
        s.say(&plain_row(&flipped(&frames::standard_with_crc(&[0x02, 0x07]), 17)));
    }
    say_all(s, &SELECT);
    say_all(s, &["rats 8", "silence", "silence", "crc 0208"]);
}

/// The ways to stand in a column of the reader's table.
#[derive(Clone, Copy, PartialEq)]
enum Place {
    More,
    MoreOn,
    Last,
    LastOfTwo,
    Joining,
    JoiningOn,
    Deselect,
}

const PLACES: [Place; 7] =
    [Place::More, Place::MoreOn, Place::Last, Place::LastOfTwo, Place::Joining, Place::JoiningOn, Place::Deselect];

fn stand(s: &mut S, place: Place) {
    open(s, 0, 0);
    match place {
        Place::More | Place::MoreOn => {
            s.say("send 000102030405060708090A0B0C0D0E0F101112131415161718191A1B1C1D1E1F");
            if place == Place::MoreOn {
                s.say("crc A2");
            }
        }
        Place::Last => {
            s.say("send C0C1");
        }
        Place::LastOfTwo => {
            s.say("send 000102030405060708090A0B0C0D0E0F");
            s.say("crc A2");
        }
        Place::Joining | Place::JoiningOn => {
            s.say("send C0C1");
            s.say("crc 12E0E1");
            if place == Place::JoiningOn {
                s.say("crc 13E2");
            }
        }
        Place::Deselect => {
            s.say("deselect");
        }
    }
}

/// Every row of the reader's table in every column, and one line more to see what is left.
fn table(s: &mut S) {
    s.remark("the reader's table: every block at every place");
    for place in PLACES {
        stand(s, place);
        let own = number(s);
        let other = own ^ 1;
        let mut lines = vec![
            format!("crc {:02X}D0D1", 0x02 | own),
            format!("crc {:02X}D2", 0x12 | own),
            format!("crc {:02X}", 0x02 | other),
            format!("crc {:02X}", 0xA2 | own),
            format!("crc {:02X}", 0xA2 | other),
            "row -".to_string(),
        ];
        if !matches!(place, Place::MoreOn | Place::LastOfTwo | Place::JoiningOn) {
            lines.push(format!("crc {:02X}D3", 0x12 | other));
            lines.push(format!("crc {:02X}", 0xB2 | own));
            lines.push(format!("crc {:02X}", 0xB2 | other));
            for line in ["crc F201", "crc F2FB", "crc F2C0", "crc F23C", "crc C2", "crc A2FF", "crc 0A00"] {
                lines.push(line.to_string());
            }
        }
        if place == Place::Last {
            for line in [
                "crc 02",
                "crc 12",
                "crc F23B",
                "crc F200",
                "crc F23F",
                "crc F2FF",
                "crc A300",
                "crc B200",
                "crc C200",
                "crc F20101",
                "crc 00",
                "crc 06",
                "crc 22",
                "crc A6",
                "crc AA00",
                "crc CA00",
                "crc FA0001",
                "crc FF",
                "crc E080",
                "row x",
                "bytes 02",
            ] {
                lines.push(line.to_string());
            }
        }
        for line in lines {
            stand(s, place);
            s.say(&line);
            match stage(s) {
                Some(Stage::Open) => s.say("send 77"),
                Some(_) => s.say("silence"),
                None => String::new(),
            };
        }
    }
}

fn damage(s: &mut S) {
    s.remark("blocks damaged in each way are repeated: 7, 2, 8, 3, 4");
    for place in [Place::More, Place::Last, Place::Joining, Place::Deselect] {
        stand(s, place);
        let row = match place {
            Place::Deselect => frames::standard_with_crc(&[0xC2]),
            Place::More => frames::standard_with_crc(&[0xA2]),
            _ => frames::standard_with_crc(&[0x12 | number(s), 0x55]),
        };
        let rows = [
            vec![],
            row[..row.len() - 1].to_vec(),
            row[..18].to_vec(),
            frames::standard_with_crc(&[0x02; 15]),
            collided(&row, 2),
            collided(&row, 8),
            flipped(&row, 1),
            flipped(&row, 8),
            flipped(&flipped(&row, 1), 8),
            frames::standard(&[0x02, 0, 0]),
            vec![2; 27],
        ];
        // Two can be taken running.
        for pair in rows.chunks(2) {
            stand(s, place);
            for row in pair {
                s.say(&plain_row(row));
            }
            s.say(&row_line(&row));
        }
    }
    s.remark("each place of a block, flipped and collided");
    let good = frames::standard_with_crc(&[0x02, 0x55]);
    open(s, 0, 0);
    for place in (0..good.len()).step_by(2) {
        if stage(s) == Some(Stage::Open) {
            s.say("send 01");
        }
        let row = frames::standard_with_crc(&[0x02 | number(s), 0x55]);
        s.say(&plain_row(&flipped(&row, place)));
        s.say(&plain_row(&collided(&row, place)));
        // The good block at last ends the message.
        s.say(&row_line(&row));
    }
}

fn repeats(s: &mut S) {
    s.remark("at most twice running, then 12");
    for place in PLACES {
        for rows in [["row -"; 3], ["bytes 020000", "row x", "bytes 02"]] {
            if rows[0] == "row -" && matches!(place, Place::MoreOn | Place::LastOfTwo | Place::JoiningOn) {
                continue;
            }
            stand(s, place);
            for row in rows {
                s.say(row);
            }
            s.say("silence");
        }
    }
    s.remark("a good block between them starts the count anew");
    for place in [Place::More, Place::Last, Place::Joining] {
        stand(s, place);
        for line in ["row -", "row -", "crc F205", "row -", "row -", "crc F206", "row -", "row x", "row -"] {
            s.say(line);
        }
    }
    stand(s, Place::More);
    say_all(s, &["row -", "row -", "crc A3", "row -", "row -", "crc A2", "row -", "row -", "crc A3", "row -", "row -", "row -"]);
    stand(s, Place::Joining);
    say_all(s, &["row -", "row -", "crc 1301", "row -", "row -", "crc 1202", "row -", "row -", "crc 0303"]);
    s.remark("so does each message, and DESELECT");
    s.say("send 01");
    say_all(s, &["row -", "row -", "crc 02", "deselect", "row -", "row -", "crc C2"]);
}

fn sent_again(s: &mut S) {
    s.remark("R(ACK) of the other number: the last I again, twice for that I, then 9");
    for place in [Place::More, Place::MoreOn, Place::Last, Place::LastOfTwo] {
        stand(s, place);
        let other = format!("crc {:02X}", 0xA2 | (number(s) ^ 1));
        for _ in 0..3 {
            s.say(&other);
        }
        if matches!(place, Place::MoreOn | Place::Last) {
            continue;
        }
        // Silence and WTX between them do not start that count anew.
        stand(s, place);
        for line in ["row -", &other, "row -", "crc F201", &other, "crc F202", "row -", &other] {
            s.say(line);
        }
    }
    s.remark("the next I has its own count");
    stand(s, Place::More);
    say_all(s, &["crc A3", "crc A3", "crc A2", "crc A2", "crc A2", "crc A3", "crc A3", "crc A3", "crc A3"]);
    s.remark("and so has the next message");
    open(s, 0, 0);
    say_all(
        s,
        &[
            "send 01", "crc A3", "crc A3", "crc 02", "send 02", "crc A2", "crc A2", "crc 03", "send 03", "crc A3", "crc A3",
            "crc A3",
        ],
    );
}

fn wtx(s: &mut S) {
    s.remark("WTX: echoed with the top bits cleared, any number of times");
    open(s, 0, 0);
    s.say("send 01");
    for value in [1, 2, 58, 59, 0x41, 0x7B, 0x81, 0xBB, 0xC1, 0xFB] {
        s.say(&format!("crc F2{value:02X}"));
    }
    say_all(s, &["row -", "crc F203", "crc 12AA", "crc F204", "row -", "crc F2FB", "crc 03BB"]);
    for value in [0x00, 0x40, 0x80, 0xC0, 0x3C, 0x3D, 0x3E, 0x3F, 0x7C, 0xBC, 0xFC, 0xFF] {
        open(s, 0, 0);
        s.say("send 01");
        s.say(&format!("crc F2{value:02X}"));
    }
}

/// The program lends the message at each call. One that is refused is not kept: what goes out again is of the one before.
fn lent_message(s: &mut S) {
    s.remark("a refused message is not kept");
    for place in [Place::More, Place::MoreOn, Place::LastOfTwo, Place::Last, Place::Joining, Place::Deselect] {
        for other in ["-", "E5E5E5E5"] {
            stand(s, place);
            s.say(&format!("send {other}"));
            let again = format!("crc {:02X}", 0xA2 | (number(s) ^ 1));
            for line in ["row -", "crc F201", &again, "row -"] {
                s.say(line);
            }
        }
    }
    s.remark("nor is one that is too long");
    stand(s, Place::Last);
    say_all(s, &["crc 02", &format!("send {}", "E5".repeat(4097)), "send 0708", "crc A2", "row -", "crc 03"]);
}

fn deselect(s: &mut S) {
    s.remark("DESELECT, repeated, answered; then nothing is due");
    for lines in [
        &["deselect", "crc C2", "deselect", "row -", "select"][..],
        &["deselect", "row -", "bytes C2", "crc C2"],
        &["deselect", "row -", "row -", "row -", "crc C2"],
        &["deselect", "row x", "crc C200"],
        &["deselect", "crc F201"],
        &["send 01", "deselect", "crc 02", "deselect", "crc C2"],
        &["send 01", "row -", "row -", "crc 02", "deselect", "row -", "row -", "crc C2"],
    ] {
        open(s, 0, 0);
        say_all(s, lines);
    }
}

fn sizes(s: &mut S) {
    s.remark("payload of size - 3 and one more, for every index of the card; an answer as long as the own size, and one more");
    for index in 0..9 {
        let size = frames::size_of_index(index);
        open(s, index, index);
        s.say(&format!("send {}", "A5".repeat(size - 3)));
        s.say(&crc_line(&[vec![0x02], vec![0x5A; size - 2]].concat()));
        s.say(&crc_line(&[vec![0x02], vec![0x5A; size - 3]].concat()));
        if index % 2 == 0 && index < 8 {
            s.say(&format!("send {}", "C3".repeat(size - 2)));
            s.say("crc A3");
            s.say("crc 02");
        }
    }
    s.remark("0, 1, 26 and 27 bytes in blocks of 13; TL = 1 means blocks of 29");
    open(s, 0, 0);
    for count in [0, 1, 26, 27] {
        let message = if count == 0 { "-".to_string() } else { "99".repeat(count) };
        s.say(&format!("send {message}"));
        while stage(s) == Some(Stage::More) {
            let line = format!("crc {:02X}", 0xA2 | number(s));
            s.say(&line);
        }
        let line = format!("crc {:02X}{}", 0x02 | number(s), if count == 0 { "" } else { "77" });
        s.say(&line);
    }
    say_all(s, &SELECT);
    s.say("rats 0");
    s.say("crc 01");
    s.say(&format!("send {}", "44".repeat(29)));
    s.say("crc 02");
    s.say(&format!("send {}", "44".repeat(30)));
    s.say("crc A3");
    s.say("crc 02");
    s.remark("empty and short blocks of the answer");
    open(s, 0, 0);
    say_all(s, &["send -", "crc 12", "crc 13", "crc 1201", "crc 13", "crc 020203", "send 01", "crc 03"]);
}

fn rooms(s: &mut S) {
    s.remark("the buffer: 10 where the block does not fit");
    for (room, lines) in [
        (0, &["crc 02"][..]),
        (0, &["crc 0201"]),
        (0, &["crc 12", "crc 13", "crc 1201"]),
        (1, &["crc 0201"]),
        (1, &["crc 020102"]),
        (1, &["crc 1201", "crc 03"]),
        (1, &["crc 1201", "crc 0302"]),
        (3, &["crc 1201", "crc 130203", "crc 02"]),
        (3, &["crc 1201", "crc 130203", "crc 1204"]),
        (3, &["crc 0301020304"]),
        (3, &["crc 1201", "crc 1201020304"]),
    ] {
        s.say(&format!("room {room}"));
        open(s, 0, 0);
        s.say("send 01");
        say_all(s, lines);
        s.say("send 02");
    }
    s.remark("a buffer that becomes shorter than what is joined");
    s.say("room 5");
    open(s, 0, 0);
    say_all(s, &["send 01", "crc 1201020304", "room 3", "crc 03"]);
    s.say("room 5");
    open(s, 0, 0);
    say_all(s, &["send 01", "crc 1201020304", "room 4", "crc 03", "room 4096"]);
}

fn long_messages(s: &mut S, random: &mut Random) {
    s.remark("4097 bytes out, and 4096; 4096 in, and 4097");
    let message = random.bytes(4097);
    open(s, 8, 8);
    assert_eq!(s.say(&format!("send {}", show_hex(&message))), "refused 10");
    s.say(&format!("send {}", show_hex(&message[1..])));
    let mut blocks = 1;
    while stage(s) == Some(Stage::More) {
        let line = format!("crc {:02X}", 0xA2 | number(s));
        s.say(&line);
        blocks += 1;
    }
    assert_eq!(blocks, 17);
    for part in message[..4048].chunks(253) {
        let line = crc_line(&[vec![0x12 | number(s)], part.to_vec()].concat());
        s.say(&line);
    }
    let line = crc_line(&[vec![0x02 | number(s)], message[4048..4096].to_vec()].concat());
    assert!(s.say(&line).starts_with("answered "));
    s.say("send -");
    for part in message[..4048].chunks(253) {
        let line = crc_line(&[vec![0x12 | number(s)], part.to_vec()].concat());
        s.say(&line);
    }
    let line = crc_line(&[vec![0x02 | number(s)], message[4048..].to_vec()].concat());
    assert_eq!(s.say(&line), "refused 10");
}

/// A good block of any kind.
pub fn random_block(s: &S, random: &mut Random) -> Row {
    let n = number(s);
    let o = n ^ 1;
    let count = random.below(8);
    let payload = random.bytes(count);
    let bytes = match random.below(12) {
        0 | 1 => [vec![0x02 | n], payload].concat(),
        2 | 3 => [vec![0x12 | n], payload].concat(),
        4 => [vec![0x02 | o], payload].concat(),
        5 => vec![0xA2 | n],
        6 | 7 => vec![0xA2 | o],
        8 => vec![0xB2 | random.below(2) as u8],
        9 | 10 => vec![0xF2, random.byte()],
        _ => vec![random.pick(&[0xC2, 0x0A, 0xE0, 0x00])],
    };
    frames::standard_with_crc(&bytes)
}
