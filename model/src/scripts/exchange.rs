//! The script of `vectors_exchange`.

use crate::blocks::full_payload;
use crate::frames::size_of_index;
use crate::language::{show_hex, Script};
use crate::random::Random;
use crate::scripts::lossy;
use crate::vectors_exchange::VectorsExchange;

pub type S = Script<VectorsExchange>;

/// One exchange by its numbers.
#[derive(Clone, Copy)]
struct Line {
    message: usize,
    answer: usize,
    rounds: usize,
    down: usize,
    up: usize,
}

/// Messages of these lengths, buffers of just these bytes, and rounds enough.
fn line(message: usize, answer: usize) -> Line {
    Line { message, answer, rounds: 5000, down: message.min(4096), up: answer.min(4096) }
}

pub fn script(seed: u64) -> S {
    let mut s = Script::new(VectorsExchange::default());
    let mut random = Random::new(seed);
    s.remark("no ends yet");
    say(&mut s, &mut random, line(1, 1));
    sizes(&mut s, &mut random);
    long_messages(&mut s, &mut random);
    short_buffers(&mut s, &mut random);
    rounds(&mut s, &mut random);
    in_a_row(&mut s, &mut random);
    ends_refused(&mut s, &mut random);
    s.remark("random lines");
    random_lines(&mut s, &mut random, 100);
    lines_not_understood(&mut s);
    lossy::add(&mut s, seed);
    s
}

fn say(s: &mut S, random: &mut Random, l: Line) -> String {
    let (seed, back) = (random.below(256), random.below(256));
    s.say(&format!("exchange {} {seed} {} {back} {} {} {}", l.message, l.answer, l.rounds, l.down, l.up))
}

pub fn ends(s: &mut S, random: &mut Random, own: usize, index: usize) {
    let uid = random.uid();
    let opened = s.say(&format!("ends {} {own} {index}", show_hex(&uid)));
    assert_eq!(opened, format!("open {}", size_of_index(index as u8)));
}

pub fn expect(heard: String, begins: &str) {
    assert!(heard.starts_with(begins), "{heard} and not {begins}");
}

/// The fewest rounds of the ends that are there.
pub fn fewest(s: &S, message: usize, answer: usize) -> usize {
    s.program.ends.as_ref().expect("there are ends").fewest_rounds(message, answer)
}

pub fn payload(index: usize) -> usize {
    full_payload(size_of_index(index as u8))
}

fn sizes(s: &mut S, random: &mut Random) {
    s.remark("every size of the card with a reader of index 8");
    (0..9).for_each(|index| one_pair(s, random, 8, index));
    s.remark("every size of the reader with a card of index 8");
    (0..8).for_each(|own| one_pair(s, random, own, 8));
    s.remark("random sizes");
    for _ in 0..12 {
        let (own, index) = (random.below(9), random.below(9));
        one_pair(s, random, own, index);
    }
}

/// Nothing, one byte, a full block and one byte more, each way: in exactly the fewest rounds, with buffers that just hold them or more.
fn one_pair(s: &mut S, random: &mut Random, own: usize, index: usize) {
    ends(s, random, own, index);
    let (down, up) = (payload(index), payload(own));
    for (message, answer) in [(0, 0), (1, 1), (down, up), (down + 1, up + 1), (down, up + 1), (down + 1, up), (2 * down, 2 * up)]
    {
        let mut l = line(message, answer);
        l.rounds = fewest(s, message, answer);
        l.down += random.below(3);
        l.up += random.below(3);
        expect(say(s, random, l), &format!("message {answer} rounds {} messages 1 last {message} ", l.rounds));
    }
}

fn long_messages(s: &mut S, random: &mut Random) {
    s.remark("4,096 bytes both ways");
    for index in [0, 8] {
        ends(s, random, index, index);
        expect(say(s, random, line(4096, 4096)), "message 4096 ");
        expect(say(s, random, line(4095, 4096)), "message 4096 ");
        expect(say(s, random, line(4096, 0)), "message 0 ");
    }
    s.remark("one byte more: at the reader nothing changes, and the next message goes");
    for index in [0, 8] {
        ends(s, random, index, index);
        for length in [4097, 5000] {
            expect(say(s, random, line(length, 1)), "refused 10 rounds 0 messages 0 last 0 ");
        }
        expect(say(s, random, line(1, 1)), "message 1 rounds 1 ");
        s.remark("at the card its host's answer is refused each time that it is owed, and the reader hears nothing");
        for length in [4097, 5000] {
            expect(say(s, random, line(40, length)), "refused 12 ");
            expect(say(s, random, line(1, 1)), "refused 11 rounds 0 ");
            ends(s, random, index, index);
        }
        s.remark("both; and with no room, which makes no difference");
        expect(say(s, random, line(4097, 4097)), "refused 10 ");
        expect(say(s, random, Line { down: 0, up: 0, ..line(4097, 4097) }), "refused 10 ");
        expect(say(s, random, Line { up: 0, ..line(0, 4097) }), "refused 12 ");
    }
}

fn short_buffers(s: &mut S, random: &mut Random) {
    s.remark("the card's buffer is one byte too short: in the only block, the last one, one between, the first of several");
    for (own, index) in [(8, 0), (0, 1), (3, 8)] {
        let one = payload(index);
        for (message, down) in [(1, 0), (one, one - 1), (2 * one, 2 * one - 1), (3 * one, 2 * one - 1), (3 * one, one - 1)] {
            ends(s, random, own, index);
            expect(say(s, random, Line { down, ..line(message, 5) }), "refused 9 ");
            expect(say(s, random, line(message, 5)), "refused 11 rounds 0 ");
        }
        s.remark("too few rounds to come to that");
        for rounds in 1..6 {
            ends(s, random, own, index);
            expect(say(s, random, Line { down: one - 1, rounds, ..line(one, 5) }), "quiet ");
        }
    }
    s.remark("the reader's buffer is one byte too short, likewise");
    for (own, index) in [(0, 8), (1, 0), (8, 3)] {
        let one = payload(own);
        for (answer, up) in [(1, 0), (one, one - 1), (2 * one, 2 * one - 1), (3 * one, 2 * one - 1), (3 * one, one - 1)] {
            ends(s, random, own, index);
            expect(say(s, random, Line { up, ..line(5, answer) }), "refused 10 ");
            expect(say(s, random, line(5, answer)), "refused 11 rounds 0 ");
        }
    }
}

fn rounds(s: &mut S, random: &mut Random) {
    s.remark("rounds that run out, from none to one too few, then just enough; an exchange that did not end leaves the reader awaiting a block");
    for (own, index) in [(0, 0), (1, 2)] {
        let (message, answer) = (3 * payload(index), 3 * payload(own) - 1);
        for rounds in 0..=5 {
            ends(s, random, own, index);
            let all = fewest(s, message, answer);
            assert_eq!(all, 5);
            let begins = if rounds < all { format!("quiet rounds {rounds} ") } else { format!("message {answer} rounds {all} ") };
            expect(say(s, random, Line { rounds, ..line(message, answer) }), &begins);
            let next = if rounds < all { "refused 11 rounds 0 " } else { "message " };
            expect(say(s, random, line(message, answer)), next);
        }
    }
    s.remark("4,096 bytes each way in the fewest rounds, and in one less");
    ends(s, random, 0, 0);
    let all = fewest(s, 4096, 4096);
    expect(say(s, random, Line { rounds: all, ..line(4096, 4096) }), &format!("message 4096 rounds {all} "));
    expect(say(s, random, Line { rounds: all - 1, ..line(4096, 4096) }), &format!("quiet rounds {} ", all - 1));
}

fn in_a_row(s: &mut S, random: &mut Random) {
    s.remark("many on the same ends: the numbers go on, and the answer before is lent until the next");
    for (own, index) in [(0, 0), (2, 5), (8, 8)] {
        ends(s, random, own, index);
        for _ in 0..16 {
            let (message, answer) = (random.below(4 * payload(index)), random.below(4 * payload(own)));
            expect(say(s, random, line(message, answer)), &format!("message {answer} "));
        }
    }
}

fn ends_refused(s: &mut S, random: &mut Random) {
    s.remark("UIDs of each length; those that are not valid, and an index of 9 at either end, leave the ends that are there");
    for uid in ["01020304", "88112233445566", "88012345886789ABCDEF"] {
        assert_eq!(s.say(&format!("ends {uid} 4 6")), "open 96");
        expect(say(s, random, line(100, 50)), "message 50 ");
        for refused in [
            "88020304 4 6",
            "04112288445566 4 6",
            "01 4 6",
            "010203 4 6",
            "0102030405 4 6",
            "010203040506 4 6",
            "0102030405060708 4 6",
            "010203040506070809 4 6",
            "01020304 9 6",
            "01020304 4 9",
            "01020304 9 9",
            "01020304 255 255",
        ] {
            assert_eq!(s.say(&format!("ends {refused}")), "refused 6");
        }
        expect(say(s, random, line(100, 50)), "message 50 ");
    }
}

/// So many scripts of random lines, for larger comparisons.
pub fn random_scripts(count: usize, seed: u64) -> S {
    let mut s = Script::new(VectorsExchange::default());
    let mut random = Random::new(seed);
    for _ in 0..count {
        let (own, index) = (random.below(9), random.below(9));
        ends(&mut s, &mut random, own, index);
        random_lines(&mut s, &mut random, 20);
    }
    s
}

fn random_lines(s: &mut S, random: &mut Random, count: usize) {
    for _ in 0..count {
        let is_open = s.program.ends.as_ref().is_some_and(|ends| ends.reader.phase_name() == "open");
        if random.chance(if is_open { 10 } else { 60 }) {
            let (own, index) = (random.below(9), random.below(9));
            ends(s, random, own, index);
            continue;
        }
        let most = random.pick(&[30, 300, 1000, 5000]);
        let (message, answer) = (random.below(most + 1), random.below(most + 1));
        let mut l = line(message, answer);
        if random.chance(20) {
            l.down = random.below(most).min(4096);
        }
        if random.chance(20) {
            l.up = random.below(most).min(4096);
        }
        if random.chance(15) {
            l.rounds = random.below(20);
        }
        say(s, random, l);
    }
}

fn lines_not_understood(s: &mut S) {
    s.remark("the largest numbers, and lines that are not understood");
    assert_eq!(s.say("ends 01020304 0 0"), "open 16");
    expect(s.say("exchange 5000 99999 5000 99999 5000 4096 4096"), "refused 10 ");
    expect(s.say("exchange 00010 99999 010 00007 00005 04096 04096"), "message 10 ");
    for text in [
        "ends",
        "ends 01020304",
        "ends 01020304 0",
        "ends 01020304 0 0 0",
        "ends - 0 0",
        "ends 0102030 0 0",
        "ends 0102030G 0 0",
        "ends 0102030405060708090A0B 0 0",
        "ends 01020304 256 0",
        "ends 01020304 0 256",
        "ends 01020304 0 -",
        "Ends 01020304 0 0",
        "exchange",
        "exchange 1 1 1 1 1 1",
        "exchange 1 1 1 1 1 1 1 1",
        "exchange 5001 1 1 1 1 1 1",
        "exchange 1 100000 1 1 1 1 1",
        "exchange 1 1 5001 1 1 1 1",
        "exchange 1 1 1 100000 1 1 1",
        "exchange 1 1 1 1 5001 1 1",
        "exchange 1 1 1 1 1 4097 1",
        "exchange 1 1 1 1 1 1 4097",
        "exchange - 1 1 1 1 1 1",
        "exchange 1 A 1 1 1 1 1",
        "exchanged 1 1 1 1 1 1 1",
        "open",
    ] {
        expect(s.say(text), "line ");
    }
    s.remark("they change nothing; a carriage return and more spaces do not count");
    expect(s.say("exchange 20  1 20 2   5 20 20\r"), "message 20 rounds 3 ");
}
