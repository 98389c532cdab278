//! T-11: both ends over a channel that loses and damages frames. Every run checks itself by the two claims of the request.

use crate::blocks::{read_block, read_frame, Block, LONGEST_MESSAGE};
use crate::card::{Outcome, State};
use crate::coverage::note;
use crate::exchange::{Done, Ends, Told};
use crate::frames::{size_of_index, Row};
use crate::reader::Answer;

/// What becomes of a frame.
#[derive(Clone, Copy, PartialEq)]
enum Fate {
    Arrives,
    Lost,
    Damaged,
}

/// What becomes of the frames: a number for each round, 0 behind the end. Of a frame 0 arrives, 1 is lost, any other is damaged: noise is heard in
/// its place. The card's host answers with 0, waits with 255, and else asks for WTX with that value.
#[derive(Clone, Default)]
pub struct Channel {
    pub downs: Vec<u8>,
    pub hosts: Vec<u8>,
    pub ups: Vec<u8>,
    pub noise: Row,
}

/// What the claims count: frames lost in all, since the last toggle, and the most between two toggles; and whether a host that owed did not answer.
#[derive(Default)]
struct Count {
    all: usize,
    since: usize,
    most: usize,
    late: bool,
}

impl Count {
    fn lose(&mut self) {
        self.all += 1;
        self.since += 1;
        self.most = self.most.max(self.since);
    }
}

fn at(numbers: &[u8], round: usize) -> u8 {
    numbers.get(round).copied().unwrap_or(0)
}

fn fate(numbers: &[u8], round: usize) -> Fate {
    match at(numbers, round) {
        0 => Fate::Arrives,
        1 => Fate::Lost,
        _ => Fate::Damaged,
    }
}

fn fate_name(fate: Fate) -> &'static str {
    match fate {
        Fate::Arrives => "arrives",
        Fate::Lost => "lost",
        Fate::Damaged => "damaged",
    }
}

/// The frame by its block.
fn frame_name(whose: &str, frame: &[u8]) -> String {
    let block = match read_frame(frame, 256).map(|bytes| read_block(&bytes)) {
        Ok(Block::I { .. }) => "I",
        Ok(Block::Ack(_)) => "R(ACK)",
        Ok(Block::Nak(_)) => "R(NAK)",
        Ok(Block::Wtx(_)) => "WTX",
        other => panic!("{other:?}"),
    };
    format!("{whose} {block}")
}

impl Ends {
    /// One message over a channel that loses and damages frames, for at most so many rounds.
    pub fn lossy(&mut self, message: &[u8], answer: &[u8], rounds: usize, down: &mut [u8], up: &mut [u8], channel: &Channel) -> Done {
        self.lossy_counted(message, answer, rounds, down, up, channel).0
    }

    /// With it how many frames were lost or damaged in all, and the most between two toggles.
    pub fn lossy_counted(&mut self, message: &[u8], answer: &[u8], rounds: usize, down: &mut [u8], up: &mut [u8], channel: &Channel) -> (Done, usize, usize) {
        let start = self.is_between() && self.is_noticed(&channel.noise) && message.len().max(answer.len()) <= LONGEST_MESSAGE;
        let fits = message.len() <= down.len() && answer.len() <= up.len();
        let mut count = Count::default();
        let done = self.lossy_run(message, answer, rounds, (&mut *down, &mut *up), channel, &mut count);
        if !start {
            return (done, count.all, count.most);
        }
        // "the host behind the card gets the command at most once, and whole; and a reader that ends has that answer, or 12, 10 or 9"
        assert!(done.messages.is_empty() || done.messages == [message.to_vec()]);
        match &done.told {
            Told::Quiet => assert_eq!(done.rounds, rounds),
            Told::Refused(refusal) => assert!([12, 10, 9].contains(&refusal.number)),
            Told::Message(got) => {
                assert_eq!((&got[..], done.messages.len()), (answer, 1));
                assert_eq!((&down[..message.len()], &up[..answer.len()]), (message, answer));
                assert!(self.is_between());
            }
        }
        // "it ends with the answer whenever at most two frames .. are lost or damaged"; each costs two rounds at most
        let few = !count.late && fits && count.most <= 2;
        if few && self.fewest_rounds(message.len(), answer.len()) + 2 * count.all <= rounds {
            assert!(matches!(done.told, Told::Message(_)));
        }
        if fits && !count.late && done.told != Told::Quiet {
            let lost = if count.most <= 2 { "at most two lost" } else { "three or more lost" };
            let end = match &done.told {
                Told::Message(_) => "message".to_string(),
                Told::Refused(refusal) => format!("refused {refusal}"),
                Told::Quiet => unreachable!(),
            };
            note("exchange lossy claim", lost, &end);
        }
        (done, count.all, count.most)
    }

    /// No message or answer is under way, and the numbers differ.
    fn is_between(&self) -> bool {
        match &self.card.state {
            State::Protocol(link) => {
                self.reader.phase_name() == "open"
                    && link.mode_name() == "receiving"
                    && link.joined == 0
                    && self.reader.block_number() != Some(link.number)
            }
            _ => false,
        }
    }

    /// "damage always being noticed", at both ends.
    fn is_noticed(&self, noise: &[u8]) -> bool {
        [self.own, self.card.index].iter().all(|&index| read_frame(noise, size_of_index(index)).is_err())
    }

    fn lossy_run(&mut self, message: &[u8], answer: &[u8], rounds: usize, buffers: (&mut [u8], &mut [u8]), channel: &Channel, count: &mut Count) -> Done {
        let (down, up) = buffers;
        let mut done = Done { told: Told::Quiet, rounds: 0, messages: Vec::new() };
        let mut phase = self.reader.phase_name();
        let mut turn = self.reader.send(message);
        loop {
            let frame = match turn {
                Answer::Send(frame) => frame,
                Answer::Answered(got) => {
                    note("exchange lossy end", "message", phase);
                    done.told = Told::Message(got);
                    return done;
                }
                Answer::Refused(number) => {
                    note("exchange lossy end", &format!("refused {number}"), phase);
                    done.told = Told::Refused(number);
                    return done;
                }
                other => panic!("{other:?}"),
            };
            phase = self.reader.phase_name();
            if done.rounds == rounds {
                note("exchange lossy end", "quiet", phase);
                return done;
            }
            let round = done.rounds;
            done.rounds += 1;
            let number = self.reader.block_number();
            let reply = self.lossy_card(&frame, answer, down, &mut done.messages, (channel, round), count);
            let heard = self.passed("card's", reply, fate(&channel.ups, round), &channel.noise, count);
            turn = self.reader.hear(&heard, message, up);
            if self.reader.block_number() != number {
                count.since = 0;
            }
        }
    }

    /// What an end hears of a frame. Where none was sent, noise is no loss.
    fn passed(&self, whose: &str, frame: Row, fate: Fate, noise: &[u8], count: &mut Count) -> Row {
        let name = if frame.is_empty() { format!("{whose} silence") } else { frame_name(whose, &frame) };
        note("exchange lossy frame", &name, fate_name(fate));
        if fate != Fate::Arrives && !frame.is_empty() {
            count.lose();
        }
        match fate {
            Fate::Arrives => frame,
            Fate::Lost => Row::new(),
            Fate::Damaged => noise.to_vec(),
        }
    }

    /// The card, which is not called at all where the reader's frame is lost, and its host.
    fn lossy_card(&mut self, frame: &[u8], answer: &[u8], down: &mut [u8], messages: &mut Vec<Vec<u8>>, (channel, round): (&Channel, usize), count: &mut Count) -> Row {
        let heard = self.passed("reader's", frame.to_vec(), fate(&channel.downs, round), &channel.noise, count);
        let mut outcome = if heard.is_empty() { Outcome::Silent } else { self.card.take(&heard, &self.lent, down) };
        if let Outcome::Delivered(got) = &outcome {
            messages.push(got.clone());
        }
        if self.card.state_name() == "owing" {
            let act = at(&channel.hosts, round);
            count.late |= act != 0;
            outcome = match act {
                0 => {
                    note("exchange lossy host", "owing", "answers");
                    self.lent = answer.to_vec();
                    self.card.reply(answer)
                }
                255 => {
                    note("exchange lossy host", "owing", "waits");
                    Outcome::Silent
                }
                value => {
                    note("exchange lossy host", "owing", if (1..=59).contains(&value) { "asks" } else { "asks, refused 6" });
                    self.card.wtx(value)
                }
            };
        }
        match outcome {
            Outcome::Answer(row) => row,
            _ => Row::new(),
        }
    }
}
