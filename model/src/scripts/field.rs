//! The scripts of `vectors_sweep` and `bench_sweep`.

use crate::bench_sweep::{BenchSweep, VectorsSweep};
use crate::language::{show_hex, Script};
use crate::random::Random;
use crate::uid;

/// As many ten-byte UIDs as a sweep takes, whose rows form a comb: all ones but for a single 0 at places that differ, so that each card parts
/// from each later one at a place of its own. In a random order.
pub fn comb(random: &mut Random) -> Vec<Vec<u8>> {
    let mut uids = vec![vec![0xFF; 10]];
    let mut places: Vec<usize> = (0..80).collect();
    while uids.len() < uid::MOST_CARDS {
        let place = places.remove(random.below(places.len()));
        let mut uid = vec![0xFF; 10];
        uid[place / 8] ^= 1 << (place % 8);
        uids.push(uid);
    }
    shuffle(random, &mut uids);
    uids
}

fn shuffle<T>(random: &mut Random, list: &mut [T]) {
    for i in (1..list.len()).rev() {
        list.swap(i, random.below(i + 1));
    }
}

/// Different valid UIDs of mixed sizes, up to the limit, many with shared prefixes.
pub fn random_uids(random: &mut Random) -> Vec<Vec<u8>> {
    let most = random.pick(&[1, 2, 3, 4, 5, 6, 8, 16, 32]);
    let count = random.below(most + 1);
    let mut uids: Vec<Vec<u8>> = Vec::new();
    while uids.len() < count {
        let uid = if uids.is_empty() || random.chance(35) { random.uid() } else { relative(random, &uids) };
        if uid::valid(&uid) && !uids.contains(&uid) {
            uids.push(uid);
        }
    }
    uids
}

/// A UID that shares bits with one that is there: a bit changed, the end drawn anew, or another length with the same start.
fn relative(random: &mut Random, uids: &[Vec<u8>]) -> Vec<u8> {
    let mut uid = random.pick(uids);
    match random.below(4) {
        0 | 1 => {
            let place = random.below(8 * uid.len());
            uid[place / 8] ^= 1 << (place % 8);
        }
        2 => {
            let from = random.below(uid.len());
            for byte in &mut uid[from..] {
                *byte = random.byte();
            }
        }
        _ => {
            let length = random.pick(&[4, 7, 10]);
            uid.resize(length, 0);
            let last = length - 1;
            uid[last] = random.byte();
            if length == 4 && random.chance(30) {
                // One bit away from the tag 88 of the longer ones.
                uid[0] = uid::TAG ^ (1 << random.below(8));
            }
        }
    }
    uid
}

/// Card lines for a random field; now and then one that is refused.
pub fn random_field(random: &mut Random) -> Vec<String> {
    let mut lines = Vec::new();
    for uid in random_uids(random) {
        let mut line = show_hex(&uid);
        if random.chance(50) {
            line.push_str(if random.chance(75) { " idle" } else { " halt" });
            if random.chance(60) {
                line.push_str(random.pick(&[" 20", " 00"]));
                if random.chance(60) {
                    line.push_str(&format!(" {}", random.below(9)));
                }
            }
        }
        lines.push(line);
    }
    if random.chance(6) && !lines.is_empty() {
        let again = lines[0].split(' ').next().unwrap().to_string();
        let bad = random.pick(&[
            again.clone(),
            format!("{again} halt"),
            "88112233".to_string(),
            "A1A2A388A5A6A7 halt".to_string(),
            "0102030405".to_string(),
            "B1B2B3B4 off".to_string(),
            "B1B2B3B4 idle 20 9".to_string(),
        ]);
        let place = random.below(lines.len() + 1);
        lines.insert(place, bad);
    }
    lines
}

fn field(s: &mut Script<VectorsSweep>, lines: &[String]) -> String {
    for line in lines {
        s.say(line);
    }
    s.say("sweep")
}

/// The same field over a lent row, and then as values.
fn both(s: &mut Script<VectorsSweep>, lines: &[String]) -> String {
    for line in lines {
        s.say(line);
    }
    let by_row = s.say("row");
    assert_eq!(s.say("sweep"), by_row);
    by_row
}

/// Every third field both ways.
fn nth(s: &mut Script<VectorsSweep>, n: usize, lines: &[String]) -> String {
    if n % 3 == 0 {
        both(s, lines)
    } else {
        field(s, lines)
    }
}

fn texts(lines: &[&str]) -> Vec<String> {
    lines.iter().map(|l| l.to_string()).collect()
}

pub fn script(seed: u64) -> Script<VectorsSweep> {
    let mut s = Script::new(VectorsSweep::default());
    let mut random = Random::new(seed);
    document_fields(&mut s);
    parting_fields(&mut s);
    combs(&mut s, &mut random);
    refused_fields(&mut s);
    rooms(&mut s);
    ticks(&mut s);
    remembered(&mut s, &mut random);
    woken_fields(&mut s, &mut random);
    s.remark("random fields");
    let mut fields = 0;
    while fields < 260 && s.output.len() < 430_000 {
        let mut lines = random_field(&mut random);
        if random.chance(25) {
            let tick = if random.chance(50) { random.word() } else { u32::MAX - random.below(40) as u32 };
            lines.insert(random.below(lines.len() + 1), format!("tick {tick}"));
        }
        if random.chance(35) {
            lines.insert(random.below(lines.len() + 1), "remember".to_string());
        }
        // Large fields are rare: their logs take most of the room.
        if lines.len() > 5 && random.chance(if lines.len() > 12 { 95 } else { 70 }) {
            continue;
        }
        nth(&mut s, fields, &lines);
        fields += 1;
    }
    assert!(fields >= 150, "only {fields} random fields fit");
    s
}

/// T-03: one known card woken, in fields of idle and halted cards.
fn woken_fields(s: &mut Script<VectorsSweep>, random: &mut Random) {
    s.remark("one card woken: the examples, a halted card and an idle one, one that is not there, an empty field");
    let field = ["80122821 halt", "01020304 idle 00"];
    assert_eq!(
        both(s, &texts(&[&field[..], &["wake 80122821"]].concat())),
        "selected 80122821 20\nframes 2\nrats send 000001110000000010100011000110011100\ncard 80122821 active* 20 8\ncard 01020304 idle 00 8"
    );
    assert_eq!(
        both(s, &texts(&[&field[..], &["wake 01020304"]].concat())),
        "selected 01020304 00\nframes 2\nrats refused 11\ncard 80122821 halt 20 8\ncard 01020304 active 00 8"
    );
    assert_eq!(both(s, &texts(&["80122821 halt", "wake 80122822"])), "refused 7\nrats refused 11\ncard 80122821 halt 20 8");
    assert_eq!(both(s, &texts(&["wake 80122822"])), "refused 7\nrats refused 11");
    s.remark("cards that share first levels, and are not disturbed; a UID that ends where others go on; 88 where it may stand");
    let family = ["80122821441020 halt", "80122821441021", "80122899441020334455 halt 00", "80122821441020334456", "80122821 halt"];
    for uid in ["80122821441020", "80122821441021", "80122821441022", "80122899441020334455", "80122821441020334456", "80122899441020334456", "80122821", "80122822"] {
        both(s, &texts(&[&family[..], &[&format!("wake {uid}")]].concat()));
    }
    both(s, &texts(&["01020304050688080910 halt", "01020304050608080910", "wake 01020304050688080910"]));
    both(s, &texts(&["88888888888888888888", "88888808888888 halt", "wake 88888808888888"]));
    s.remark("refused: the UID, or the field; the last such line counts, and one that is not understood does not");
    for lines in [
        &["01020304", "wake 88020304"][..],
        &["01020304", "wake 0102"],
        &["wake 0102030405"],
        &["01020304", "01020304 halt", "wake 01020304"],
        &["01020304 off", "wake 01020304"],
        &["01020304 ready 1", "wake 01020304"],
        &["01020304 ready* 3 00 4", "wake 01020304"],
        &["01020304 active", "wake 01020304"],
        &["01020304 active* 20", "wake 01020304"],
        &["01020304 protocol", "wake 01020304"],
        &["01020304 halt 00 9", "wake 01020304"],
    ] {
        assert_eq!(both(s, &texts(lines)), "refused 6");
    }
    both(s, &texts(&["wake 01020305", "01020304", "wake 01020304", "01020305 halt 00", "wake", "wake -", "wake 01 02", "wake 0102030405060708090A0B"]));
    for state in ["ready", "ready 0", "ready 4", "ready* x", "ready 1 20 8 8", "active 1", "Active", "ready*1", "protocol 8 8"] {
        s.say(&format!("01020304 {state}"));
    }
    s.say("sweep");
    s.remark("the same states without a line to wake");
    for state in ["ready 1", "ready 2 00", "ready 3 20 0", "ready* 1", "ready* 2", "ready* 3 00", "active", "active* 00 3", "protocol"] {
        assert_eq!(both(s, &texts(&[&format!("01020304 {state}")])), "refused 6");
    }
    s.remark("random fields, one card woken");
    for i in 0..90 {
        let mut lines = random_field(random);
        let uid = match random.below(10) {
            0 => random.uid(),
            1 | 2 if !lines.is_empty() => {
                let uids: Vec<Vec<u8>> = lines.iter().filter_map(|line| crate::language::read_hex(line.split(' ').next()?)).collect();
                relative(random, &uids)
            }
            _ if !lines.is_empty() => crate::language::read_hex(random.pick(&lines).split(' ').next().unwrap()).unwrap(),
            _ => random.uid(),
        };
        lines.insert(random.below(lines.len() + 1), format!("wake {}", show_hex(&uid)));
        nth(s, i, &lines);
    }
}

fn document_fields(s: &mut Script<VectorsSweep>) {
    s.remark("no cards, and document 01's fields");
    assert_eq!(both(s, &[]), "frames 1\nlog 00070000000064C00000000001");
    let starts = |answer: String, start: &str| assert!(answer.starts_with(start), "{answer}");
    starts(both(s, &texts(&["80122821", "01020304 idle 00"])), "frames 10\nfound 01020304\nfound 80122821\n");
    starts(both(s, &texts(&["01020304 idle 00", "80122821"])), "frames 10\n");
    starts(both(s, &texts(&["80122821", "04112233445566", "01020304"])), "frames 17\n");
    starts(both(s, &texts(&["04112233445566", "01020304"])), "frames 12\n");
    starts(both(s, &texts(&["80122821 idle 00 0", "80122821441020 idle 20 5", "56341280122821440010"])), "frames ");
    s.remark("one card of each size, alone");
    for uid in ["80122821", "80122821441020", "56341280122821440010"] {
        both(s, &texts(&[uid]));
    }
    s.remark("halted cards");
    assert_eq!(
        both(s, &texts(&["01020304 halt 00 3", "04112233445566 halt"])),
        "frames 1\ncard 01020304 halt 00 3\ncard 04112233445566 halt 20 8\nlog 00070000000064C00000000001"
    );
    both(s, &texts(&["01020304 halt", "01020305", "01020306 halt 20 1", "01020307 idle 00 2"]));
    s.remark("u6 = 88, and other bytes that look like the tag");
    both(s, &texts(&["01020304050688080910", "01020304050608080910", "01020304050608080911"]));
    both(s, &texts(&["88888888888888888888", "88888808888888", "88888888888888888880", "08888888"]));
    both(s, &texts(&["88020304050607", "88020308050607", "88020388050607080910"]));
    s.remark("a word line, and lines that are not understood, change nothing");
    for line in [
        "01020304",
        "0102030g",
        "-",
        "0102030405060708090A0B",
        "80122821 asleep",
        "80122821 idle 08",
        "80122821 idle 20 256",
        "80122821 idle 20 123456",
        "80122821 idle 20 8 9",
        "sweep 1",
        "row 1",
        "rows",
        "swept",
        "# a remark",
        "",
        "80122821  halt  00  08\r",
        " row ",
        "sweep",
    ] {
        s.say(line);
    }
}

/// Fields of two and four cards that part at the last bit of each byte of each level.
fn parting_fields(s: &mut Script<VectorsSweep>) {
    s.remark("parting at positions 7, 15, 23, 31 of each level");
    let base4 = [0x31, 0x42, 0x53, 0x64];
    let base7 = [0x31, 0x42, 0x53, 0x64, 0x75, 0x06, 0x17];
    let base10 = [0x31, 0x42, 0x53, 0x64, 0x75, 0x06, 0x17, 0x28, 0x39, 0x4A];
    let pair = |s: &mut Script<VectorsSweep>, base: &[u8], byte: usize| {
        let mut other = base.to_vec();
        other[byte] ^= 0x80;
        nth(s, byte, &[show_hex(base), show_hex(&other)]);
    };
    for byte in 0..4 {
        pair(s, &base4, byte);
    }
    for byte in 0..7 {
        pair(s, &base7, byte);
    }
    for byte in 0..10 {
        pair(s, &base10, byte);
    }
    s.remark("position 7 of level 1 and of level 2 against the tag 88");
    both(s, &texts(&["08112233", "11223344556677", "99223344556677889900"]));
    both(s, &texts(&["11223308556677", "11223344556677889900"]));
    s.remark("every last bit at once");
    for base in [&base4[..], &base7[..], &base10[..]] {
        let mut lines = vec![show_hex(base)];
        for byte in 0..base.len() {
            let mut other = base.to_vec();
            other[byte] ^= 0x80;
            lines.push(show_hex(&other));
        }
        field(s, &lines);
    }
    s.remark("parting at every bit of a level, in two fields");
    for half in 0..2 {
        let mut lines = vec!["FFFFFFFF".to_string()];
        for place in 15 * half..15 * half + 15 {
            let mut other = vec![0xFF; 4];
            other[place / 8] ^= 1 << (place % 8);
            lines.push(show_hex(&other));
        }
        field(s, &lines);
    }
}

fn combs(s: &mut Script<VectorsSweep>, random: &mut Random) {
    s.remark("a comb of thirty-two ten-byte UIDs: the most frames");
    let lines: Vec<String> = comb(random).iter().map(|u| show_hex(u)).collect();
    assert!(both(s, &lines).starts_with("frames 753\n"));
    s.remark("thirty-two cards of any kind");
    let mut uids: Vec<Vec<u8>> = Vec::new();
    while uids.len() < uid::MOST_CARDS {
        let uid = random.uid();
        if uid::valid(&uid) && !uids.contains(&uid) {
            uids.push(uid);
        }
    }
    let lines: Vec<String> = uids.iter().map(|u| show_hex(u)).collect();
    assert!(field(s, &lines).starts_with("frames "));
}

fn refused_fields(s: &mut Script<VectorsSweep>) {
    s.remark("fields that are refused");
    let refused: &[&[&str]] = &[
        &["88020304"],
        &["01020304", "01020388050607"],
        &["01"],
        &["01020304", "0102030405"],
        &["01020304", "80122821", "01020304"],
        &["01020304 halt", "01020304 idle"],
        &["01020304050607", "01020304050607 halt 00 1"],
        &["01020304050607080910 halt", "01020304050607080910 halt"],
        &["01020304 idle 20 9"],
        &["01020304 halt 00 255"],
        &["01020304", "80122821 off"],
        &["80122821 off 00 0"],
        &["88020304 off 00 9"],
    ];
    for lines in refused {
        assert_eq!(both(s, &texts(lines)), "refused 6");
    }
    let many = |count: u8| -> Vec<String> { (0..count).map(|i| format!("0102{:02X}04", i * 5)).collect() };
    assert_eq!(both(s, &many(33)), "refused 6");
    assert!(both(s, &many(32)).starts_with("frames "));
    let halted: Vec<String> = many(33).iter().map(|l| format!("{l} halt")).collect();
    assert_eq!(both(s, &halted), "refused 6");
    let mut repeated = many(32);
    repeated.push("0102".to_string());
    assert_eq!(both(s, &repeated), "refused 6");
    s.remark("a shorter UID that begins a longer one is no repetition");
    both(s, &texts(&["01020304", "01020304050607", "01020304050607080910"]));
    assert_eq!(both(s, &[]), "frames 1\nlog 00070000000064C00000000001");
}

/// T-06: what is lent, on either side of what a sweep asks for; 1 goes ahead of 6, and a card that is not made ahead of both.
fn rooms(s: &mut Script<VectorsSweep>) {
    s.remark("rooms that are lent, one byte under what is asked for, as asked, and more");
    for log in [0, 40_959, 40_960, 65_535] {
        for list in [0, 351, 352, 353] {
            let answer = both(s, &[format!("room {log} {list}"), "01020304".to_string()]);
            assert_eq!(answer == "refused 1", log < 40_960 || list < 352);
        }
    }
    let with = |count: u8, line: &str| -> Vec<String> {
        let mut lines: Vec<String> = (0..count).map(|i| format!("0102{:02X}04 halt", i * 5)).collect();
        lines.push(line.to_string());
        lines
    };
    for (count, line, answer) in
        [(33, "room 40959 352", "refused 1"), (33, "room 40960 352", "refused 6"), (32, "room 40959 352", "refused 1")]
    {
        assert_eq!(both(s, &with(count, line)), answer);
    }
    assert!(both(s, &with(32, "room 40960 352")).starts_with("frames 1\n"));
    assert_eq!(both(s, &texts(&["88020304", "room 0 0"])), "refused 6");
    s.remark("the last line that is understood counts, wherever it stands");
    assert_eq!(both(s, &texts(&["room 0 0", "01020304 halt", "room 65535 65535"])).lines().next(), Some("frames 1"));
    assert_eq!(both(s, &texts(&["room 65535 65535", "01020304 halt", "room 0 0"])), "refused 1");
    for line in ["room", "room 0", "room 0 0 0", "room 65536 0", "room 0 65536", "room - 0", "room 0 x", "Room 0 0", "rooms 0 0"] {
        assert_eq!(both(s, &texts(&[line])).lines().last(), Some("log 00070000000064C00000000001"));
    }
}

/// T-09: where the ticks start, and where they wrap.
fn ticks(s: &mut Script<VectorsSweep>) {
    s.remark("starting ticks, at both ends and where they wrap between two records and within the field");
    for (tick, log) in [
        ("0", "00070000000064C00000000001"),
        ("1", "00070000000164C00000000002"),
        ("255", "0007000000FF64C00000000100"),
        ("65535", "00070000FFFF64C00000010000"),
        ("16777215", "000700FFFFFF64C00001000000"),
        ("305419896", "00071234567864C00012345679"),
        ("4294967294", "0007FFFFFFFE64C000FFFFFFFF"),
        ("4294967295", "0007FFFFFFFF64C00000000000"),
        ("0004294967", "00070041893764C00000418938"),
    ] {
        assert_eq!(both(s, &[format!("tick {tick}")]), format!("frames 1\nlog {log}"));
    }
    for tick in [4_294_967_276u32, 4_294_967_277, 4_294_967_286] {
        both(s, &[format!("tick {tick}"), "80122821".to_string(), "01020304 idle 00".to_string()]);
    }
    s.remark("the last line that is understood counts; a refusal tests no tick, and one card woken has none");
    assert_eq!(both(s, &texts(&["tick 7", "tick 9"])).lines().last(), Some("log 00070000000964C0000000000A"));
    for line in ["tick", "tick 4294967296", "tick 9999999999", "tick 00000000001", "tick -", "tick -1", "tick 1x", "tick 1 2", "Tick 1", "ticks 1"] {
        assert_eq!(both(s, &texts(&["tick 5", line])).lines().last(), Some("log 00070000000564C00000000006"));
    }
    assert_eq!(both(s, &texts(&["tick 5", "room 40959 352"])), "refused 1");
    assert_eq!(both(s, &texts(&["tick 5", "01020304 off"])), "refused 6");
    assert!(both(s, &texts(&["tick 5", "01020304", "wake 01020304"])).starts_with("selected 01020304 20\nframes 2\n"));
}

/// T-14: the sweep that remembers, beside the plain one.
fn remembered(s: &mut Script<VectorsSweep>, random: &mut Random) {
    s.remark("the sweep that remembers: the example, no cards, halted cards, one card of each size");
    let four = ["01020304 idle 00", "80122821", "04112233445566", "04112233445567"];
    assert!(both(s, &texts(&[&four[..], &["remember"]].concat()))
        .starts_with("frames 23\nfound 01020304\nfound 04112233445567\nfound 04112233445566\nfound 80122821\n"));
    assert!(both(s, &texts(&four)).starts_with("frames 25\n"));
    assert_eq!(both(s, &texts(&["remember"])), "frames 1\nlog 00070000000064C00000000001");
    assert_eq!(both(s, &texts(&["remember", "tick 4294967295"])), "frames 1\nlog 0007FFFFFFFF64C00000000000");
    both(s, &texts(&["01020304 halt", "remember", "01020305 halt"]));
    for uid in ["80122821", "80122821441020", "56341280122821440010"] {
        both(s, &texts(&[uid, "remember"]));
    }
    s.remark("cards that part at the last bit of each byte of each level: the branch is asked for with k = p + 1");
    let base = [0x31, 0x42, 0x53, 0x64, 0x75, 0x06, 0x17, 0x28, 0x39, 0x4A];
    for length in [4, 7, 10] {
        let mut lines = vec![show_hex(&base[..length]), "remember".to_string()];
        for byte in 0..length {
            let mut other = base[..length].to_vec();
            other[byte] ^= 0x80;
            lines.push(show_hex(&other));
        }
        field(s, &lines);
    }
    s.remark("cards of one maker; the comb, which the plain sweep needs 753 frames for");
    let one_maker: Vec<String> = (0..12).map(|i: u8| format!("04A1B2C3D4{:02X}80", i.wrapping_mul(37))).chain(["remember".to_string()]).collect();
    field(s, &one_maker);
    // Each card parts from each later one at one of the last 31 places of its row.
    let mut uids = vec![vec![0xFF; 10]];
    for place in 49..80 {
        let mut uid = vec![0xFF; 10];
        uid[place / 8] ^= 1 << (place % 8);
        uids.push(uid);
    }
    shuffle(random, &mut uids);
    let lines: Vec<String> = uids.iter().map(|u| show_hex(u)).chain(["remember".to_string()]).collect();
    assert!(field(s, &lines).starts_with("frames 226\n"));
    s.remark("refused as the plain one; the line needs no more words; with a card to wake it has no effect");
    assert_eq!(both(s, &texts(&["remember", "01020304", "room 40959 352"])), "refused 1");
    assert_eq!(both(s, &texts(&["remember", "01020304", "room 40960 351"])), "refused 1");
    assert_eq!(both(s, &texts(&["remember", "01020304", "01020304 halt"])), "refused 6");
    assert_eq!(both(s, &texts(&["remember", "01020304 off"])), "refused 6");
    assert_eq!(both(s, &texts(&["remember", "88020304"])), "refused 6");
    let many: Vec<String> = (0..33).map(|i: u8| format!("0102{:02X}04 halt", i * 5)).chain(["remember".to_string()]).collect();
    assert_eq!(both(s, &many), "refused 6");
    for line in ["remember 1", "Remember", "remembers"] {
        assert!(both(s, &texts(&[&four[..], &[line]].concat())).starts_with("frames 25\n"));
    }
    assert!(both(s, &texts(&["remember", "01020304", "wake 01020304"])).starts_with("selected 01020304 20\nframes 2\n"));
}

/// A locker field of four wristbands that part at the last bit of a byte.
pub fn locker() -> Script<BenchSweep> {
    let mut s = Script::new(BenchSweep::default());
    s.remark("four wristbands at a locker; each pair parts at the last bit of a byte");
    for line in ["04A1B2C3D45E80 idle 20 8", "04A1B2C3D4DE80 idle 20 8", "0421B2C3D45E80 idle 00 5", "0421B2C3D45E00"] {
        s.say(line);
    }
    s
}

/// Random fields, every third over a lent row too, each ending in `sweep`, for larger comparisons.
pub fn random_scripts(count: usize, seed: u64) -> Script<VectorsSweep> {
    let mut s = Script::new(VectorsSweep::default());
    let mut random = Random::new(seed);
    for n in 0..count {
        let lines = random_field(&mut random);
        nth(&mut s, n, &lines);
    }
    s
}
