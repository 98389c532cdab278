//! T-11 in the script of `vectors_exchange`: exchanges over a channel that loses and damages frames.

use crate::blocks::read_frame;
use crate::exchange::{Ends, Told};
use crate::frames::{self, size_of_index, Row};
use crate::language::{show_hex, show_row, Script};
use crate::lossy::Channel;
use crate::random::Random;
use crate::scripts::exchange::{ends, expect, fewest, payload, S};
use crate::scripts::{collided, flipped};
use crate::vectors_exchange::VectorsExchange;

/// One exchange by its numbers.
#[derive(Clone, Copy)]
struct Line {
    message: usize,
    answer: usize,
    rounds: usize,
    down: usize,
    up: usize,
}

/// Buffers of just these bytes, and rounds enough.
fn line(message: usize, answer: usize) -> Line {
    Line { message, answer, rounds: 5000, down: message.min(4096), up: answer.min(4096) }
}

fn say(s: &mut S, random: &mut Random, l: Line, channel: &Channel) -> String {
    let (seed, back) = (random.below(256), random.below(256));
    let (downs, ups, noise) = (show_row(&channel.downs), show_row(&channel.ups), show_row(&channel.noise));
    let hosts = if channel.hosts.is_empty() { "-".to_string() } else { show_hex(&channel.hosts) };
    s.say(&format!("lossy {} {seed} {} {back} {} {} {} {downs} {hosts} {ups} {noise}", l.message, l.answer, l.rounds, l.down, l.up))
}

fn channel(downs: &str, hosts: &[u8], ups: &str) -> Channel {
    let row = |text: &str| text.bytes().map(|c| if c == b'x' { 2 } else { c - b'0' }).collect();
    Channel { downs: row(downs), hosts: hosts.to_vec(), ups: row(ups), noise: Row::new() }
}

/// A row that both ends notice, by 2, 8, 3 or 4; or silence.
fn noise(random: &mut Random) -> Row {
    let good = frames::standard_with_crc(&[0x02, random.byte()]);
    let (wanted, row) = match random.below(5) {
        0 => (7, Row::new()),
        1 => (2, good[..random.below(26) + 1].to_vec()),
        2 => (8, collided(&good, random.below(good.len()))),
        3 => (3, flipped(&good, 9 * random.below(4) + 8)),
        // longer than any frame, now and then
        _ if random.chance(5) => (2, frames::standard(&[0; 257])),
        _ => (4, frames::standard(&[0x03, random.byte(), 0x00, 0x00])),
    };
    for index in 0..9 {
        assert_eq!(read_frame(&row, size_of_index(index)).unwrap_err().number, wanted);
    }
    row
}

pub fn add(s: &mut S, seed: u64) {
    let mut random = Random::new(seed + 11);
    all_patterns(s, &mut random);
    three(s, &mut random);
    hosts(s, &mut random);
    buffers(s, &mut random);
    long(s, &mut random);
    s.remark("any losses, any host, any buffers");
    random_lines(s, &mut random, 150);
    not_understood(s);
}

/// The rounds of every way in which at most two frames are lost between the start or a toggle and the next, up to the end.
fn patterns(ends: &Ends, message: &[u8], answer: &[u8]) -> Vec<Channel> {
    let mut found = Vec::new();
    let mut open = vec![Channel::default()];
    while let Some(before) = open.pop() {
        let all = play(ends, message, answer, &before).1;
        for (down, up) in [(0, 0), (1, 0), (0, 1), (1, 1)] {
            let mut next = before.clone();
            next.downs.push(down);
            next.ups.push(up);
            let (told, lost, most) = play(ends, message, answer, &next);
            // A frame that the card did not send is not lost.
            if most > 2 || lost != all + down as usize + up as usize {
                continue;
            }
            match told {
                Told::Quiet => open.push(next),
                Told::Message(_) => found.push(next),
                Told::Refused(number) => panic!("refused {number}"),
            }
        }
    }
    found
}

fn play(ends: &Ends, message: &[u8], answer: &[u8], channel: &Channel) -> (Told, usize, usize) {
    let (mut down, mut up) = (vec![0; message.len()], vec![0; answer.len()]);
    let (done, all, most) = ends.clone().lossy_counted(message, answer, channel.downs.len(), &mut down, &mut up, channel);
    (done.told, all, most)
}

/// Each loss is a silence or damage, as this says.
fn spoil(channel: &mut Channel, mut damaged: impl FnMut() -> bool) {
    for number in channel.downs.iter_mut().chain(channel.ups.iter_mut()).filter(|number| **number == 1) {
        *number += damaged() as u8;
    }
}

/// All patterns of at most two losses an interval: one block each way with every kind of loss; then more blocks, the kind drawn at random.
fn all_patterns(s: &mut S, random: &mut Random) {
    for (message, answer) in [(0, 0), (1, 13), (14, 2), (13, 14), (14, 26)] {
        s.remark(&format!("every way to lose at most two frames an interval: {message} bytes and {answer}"));
        ends(s, random, 0, 0);
        let open = s.program.ends.clone().expect("there are ends");
        for pattern in patterns(&open, &vec![7; message], &vec![8; answer]) {
            let losses = pattern.downs.iter().chain(&pattern.ups).filter(|number| **number == 1).count();
            let kinds = if message == 0 { 1 << losses } else { 1 };
            for kind in 0..kinds {
                let mut channel = pattern.clone();
                let (mut k, mut drawn) = (0, random.byte());
                spoil(&mut channel, || {
                    k += 1;
                    drawn = drawn.rotate_left(1);
                    if message == 0 { (kind >> (k - 1)) % 2 == 1 } else { drawn % 2 == 1 }
                });
                channel.noise = noise(random);
                let rounds = channel.downs.len();
                assert!(rounds <= fewest(s, message, answer) + 2 * losses);
                let l = Line { rounds, ..line(message, answer) };
                expect(say(s, random, l, &channel), &format!("message {answer} rounds {rounds} messages 1 last {message} "));
            }
        }
    }
}

/// One loss more than two in an interval: 12 and 9, and a run that still comes through.
fn three(s: &mut S, random: &mut Random) {
    s.remark("three lost in an interval: 12, while there is more to send, once the last I is out, while joining");
    let (one, two) = (payload(0), 2 * payload(0));
    for (message, answer, downs, ups, told) in [
        (two, 1, "111", "", "refused 12 rounds 3 messages 0 "),
        (two, 1, "x1x", "", "refused 12 rounds 3 messages 0 "),
        (one, 1, "1x1", "", "refused 12 rounds 3 messages 0 "),
        (one, 1, "", "11x", "refused 12 rounds 3 messages 1 "),
        (one, 1, "01", "1", "message 1 rounds 3 messages 1 "),
        (one, 1, "011", "1", "refused 12 rounds 3 messages 1 "),
        (one, two, "", "0111", "refused 12 rounds 4 messages 1 "),
        (one, two, "01x1", "", "refused 12 rounds 4 messages 1 "),
        (two, 1, "10101", "", "refused 9 rounds 6 messages 0 "),
        (one, 1, "10x01", "", "refused 9 rounds 6 messages 0 "),
        (one, 1, "101", "0001", "message 1 rounds 6 messages 1 "),
    ] {
        for kind in 0..3 {
            ends(s, random, 0, 0);
            let mut channel = channel(downs, &[], ups);
            channel.noise = noise(random);
            // Before the toggle that some of these end with: a message that goes through, so that the numbers are the others.
            if kind == 1 {
                expect(say(s, random, line(3, 3), &Channel::default()), "message 3 ");
            }
            let heard = say(s, random, line(message, answer), &channel);
            if !heard.starts_with(told) {
                panic!("{downs} {ups}: {heard} and not {told}");
            }
            if told.starts_with("refused") {
                expect(say(s, random, line(1, 1), &Channel::default()), "refused 11 rounds 0 ");
            }
        }
    }
}

/// A host that waits, asks for WTX, or asks with a value that is refused; with losses around it.
fn hosts(s: &mut S, random: &mut Random) {
    s.remark("a late host, and one that asks for WTX, alone and with frames lost");
    for (hosts, downs, ups, told) in [
        (&[0xFF][..], "", "", "message 20 rounds 3 messages 1 "),
        (&[0xFF, 0xFF], "", "", "message 20 rounds 4 messages 1 "),
        (&[0xFF, 0xFF, 0xFF], "", "", "refused 12 rounds 3 messages 1 "),
        (&[0xFF, 0xFF], "01", "", "message 20 rounds 4 messages 1 "),
        (&[0xFF, 0xFF], "", "00x", "refused 12 rounds 3 messages 1 "),
        (&[1], "", "", "message 20 rounds 3 messages 1 "),
        (&[59, 1, 30], "", "", "message 20 rounds 5 messages 1 "),
        (&[60], "", "", "message 20 rounds 3 messages 1 "),
        (&[254, 60, 59], "", "", "message 20 rounds 5 messages 1 "),
        (&[7], "", "1", "message 20 rounds 4 messages 1 "),
        (&[7], "", "x", "message 20 rounds 4 messages 1 "),
        (&[7], "01", "", "message 20 rounds 5 messages 1 "),
        (&[7], "0x", "01", "message 20 rounds 5 messages 1 "),
        (&[7], "01x", "1", "refused 12 rounds 3 messages 1 "),
        (&[7], "", "111", "refused 12 rounds 3 messages 1 "),
        (&[7, 0xFF, 8, 0xFF, 0xFF], "", "", "message 20 rounds 7 messages 1 "),
        (&[7, 0xFF, 0xFF, 0xFF], "", "", "refused 12 rounds 4 messages 1 "),
    ] {
        ends(s, random, 0, 1);
        let mut channel = channel(downs, hosts, ups);
        channel.noise = noise(random);
        let heard = say(s, random, line(5, 20), &channel);
        if !heard.starts_with(told) {
            panic!("{hosts:?} {downs} {ups}: {heard} and not {told}");
        }
    }
    s.remark("noise where the card is silent");
    for ups in ["x", "1", "0"] {
        ends(s, random, 2, 3);
        let mut channel = channel("1", &[], ups);
        channel.noise = noise(random);
        expect(say(s, random, line(5, 5), &channel), "message 5 rounds 3 messages 1 ");
    }
}

/// Buffers that do not hold the messages, with frames lost.
fn buffers(s: &mut S, random: &mut Random) {
    s.remark("buffers one byte too short, with frames lost: 10 at the reader, 9 or 12 from a card that is silent");
    let one = payload(0);
    for (l, downs, ups, told) in [
        (Line { up: 4, ..line(5, 5) }, "1", "", "refused 10 rounds 3 messages 1 "),
        (Line { up: 2 * one - 1, ..line(5, 2 * one) }, "", "x01", "refused 10 rounds 4 messages 1 "),
        (Line { up: one - 1, ..line(5, 2 * one) }, "", "1", "refused 10 rounds 2 messages 1 "),
        (Line { down: 4, ..line(5, 5) }, "", "", "refused 9 rounds 6 messages 0 "),
        (Line { down: 4, ..line(5, 5) }, "01", "", "refused 9 rounds 7 messages 0 "),
        (Line { down: 2 * one - 1, ..line(2 * one, 5) }, "01x", "", "refused 9 rounds 8 messages 0 "),
        (Line { down: 2 * one - 1, ..line(2 * one, 5) }, "01x1", "", "refused 12 rounds 4 messages 0 "),
        (Line { down: one - 1, ..line(2 * one, 5) }, "1", "", "refused 9 rounds 6 messages 0 "),
        (line(4097, 5), "1", "", "refused 10 rounds 0 messages 0 "),
    ] {
        ends(s, random, 0, 0);
        let mut channel = channel(downs, &[], ups);
        channel.noise = noise(random);
        let heard = say(s, random, l, &channel);
        if !heard.starts_with(told) {
            panic!("{} {} {downs} {ups}: {heard} and not {told}", l.down, l.up);
        }
    }
    s.remark("rounds that run out, in each phase");
    for (message, answer, rounds) in [(2 * one, 1, 0), (2 * one, 1, 2), (one, 1, 2), (one, 2 * one, 4)] {
        ends(s, random, 0, 0);
        let l = Line { rounds, ..line(message, answer) };
        expect(say(s, random, l, &channel("1x", &[], "")), &format!("quiet rounds {rounds} "));
    }
}

/// Long messages, with at most two losses an interval drawn at random.
fn long(s: &mut S, random: &mut Random) {
    s.remark("long messages, at most two frames lost an interval, drawn at random");
    for (own, index, message, answer) in [(0, 0, 900, 1000), (0, 3, 2000, 500), (8, 8, 4096, 4096), (2, 1, 700, 1500), (5, 6, 4096, 4000)] {
        ends(s, random, own, index);
        for _ in 0..3 {
            let channel = drawn(s, random, message, answer);
            let told = say(s, random, line(message, answer), &channel);
            expect(told, &format!("message {answer} "));
        }
    }
}

/// Rounds with losses drawn at random, at most two an interval, up to the end.
fn drawn(s: &S, random: &mut Random, message: usize, answer: usize) -> Channel {
    let open = s.program.ends.clone().expect("there are ends");
    let (message, answer) = (vec![1; message], vec![2; answer]);
    let mut channel = Channel { noise: noise(random), ..Channel::default() };
    let often = random.pick(&[10, 30, 60]);
    loop {
        let draw = |random: &mut Random| if random.chance(often) { 1 + random.below(2) as u8 } else { 0 };
        let (down, up) = (draw(random), draw(random));
        let tries = [(down, up), (down, 0), (0, up), (0, 0)];
        let fits = tries.into_iter().find_map(|(down, up)| {
            let mut next = channel.clone();
            next.downs.push(down);
            next.ups.push(up);
            let (told, _, most) = play(&open, &message, &answer, &next);
            (most <= 2).then_some((next, told))
        });
        let (next, told) = fits.expect("a round without loss is always there");
        channel = next;
        if told != Told::Quiet {
            return channel;
        }
    }
}

/// So many scripts of random lines, for larger comparisons.
pub fn random_scripts(count: usize, seed: u64) -> S {
    let mut s = Script::new(VectorsExchange::default());
    let mut random = Random::new(seed);
    for _ in 0..count {
        let (own, index) = (random.below(9), random.below(9));
        ends(&mut s, &mut random, own, index);
        random_lines(&mut s, &mut random, 20);
    }
    s
}

fn random_lines(s: &mut S, random: &mut Random, count: usize) {
    for _ in 0..count {
        let is_open = s.program.ends.as_ref().is_some_and(|ends| ends.reader.phase_name() == "open");
        if !is_open {
            let (own, index) = (random.below(4), random.below(4));
            ends(s, random, own, index);
        }
        let most = random.pick(&[5, 40, 150]);
        let mut l = line(random.below(most + 1), random.below(most + 1));
        if random.chance(15) {
            l.down = random.below(most);
        }
        if random.chance(15) {
            l.up = random.below(most);
        }
        let often = random.pick(&[5, 15, 40]);
        let fates = |random: &mut Random| -> Row { (0..40).map(|_| if random.chance(often) { 1 + random.below(2) as u8 } else { 0 }).collect() };
        let (downs, ups) = (fates(random), fates(random));
        let hosts = if random.chance(50) {
            Vec::new()
        } else {
            (0..40).map(|_| if random.chance(60) { 0 } else { random.pick(&[255, 1, 59, 60, 30]) }).collect()
        };
        let channel = Channel { downs, hosts, ups, noise: noise(random) };
        let told = say(s, random, l, &channel);
        // A run whose rounds would go on for long is ended by a host that answers: 40 rounds, then all is clean.
        assert!(!told.starts_with("quiet"));
    }
}

fn not_understood(s: &mut S) {
    s.remark("words that are none, or too long");
    assert_eq!(s.say("ends 01020304 0 0"), "open 16");
    let long = "0".repeat(2719);
    let longest = "0".repeat(2718);
    for text in [
        "lossy",
        "lossy 1 1 1 1 1 1 1",
        "lossy 1 1 1 1 1 1 1 - - -",
        "lossy 1 1 1 1 1 1 1 - - - - -",
        "lossy 1 1 1 1 1 1 1 2 - - -",
        "lossy 1 1 1 1 1 1 1 - 0 - -",
        "lossy 1 1 1 1 1 1 1 - 0G - -",
        "lossy 1 1 1 1 1 1 1 - - X -",
        "lossy 1 1 1 1 1 1 1 - - - 012",
        "lossy 5001 1 1 1 1 1 1 - - - -",
        "lossy 1 1 1 1 5001 1 1 - - - -",
        "lossy 1 1 1 1 1 4097 1 - - - -",
        &format!("lossy 1 1 1 1 1 1 1 {long} - - -"),
        &format!("lossy 1 1 1 1 1 1 1 - {long}0{long} - -"),
        &format!("lossy 1 1 1 1 1 1 1 - - {long} -"),
        &format!("lossy 1 1 1 1 1 1 1 - - - {long}"),
        "Lossy 1 1 1 1 1 1 1 - - - -",
    ] {
        expect(s.say(text), "line ");
    }
    s.remark("they change nothing; a word may have 2,718 elements");
    expect(s.say(&format!("lossy 1 1 1 1 5 1 1 {longest} {longest}{longest} {longest} {longest}")), "message 1 rounds 1 ");
}
