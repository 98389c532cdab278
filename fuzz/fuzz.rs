//! `make fuzz`: the library for C against the independent model (model/), call by call. States that the rules can have are drawn at random, written
//! as the header's bytes by this program's own telling (states.rs, card_states.rs, b_states.rs), with anything in the bytes that the library does not
//! look at; rows, messages and lengths are drawn too. Number, rows, buffers, event and the state afterwards must be the model's, and what is not to
//! be written must stay. Then states of any bytes at all: a refusal that names no fault of a row writes nothing (any_states.rs, any_fields.rs), and
//! what they tell without a call (told.rs). Every lent row is an allocation of just its length, so that valgrind sees a byte read or written outside.
//!
//!     fuzz CALLS SEED
#![allow(dead_code)]

#[path = "../model/src/blocks.rs"]
mod blocks;
#[path = "../model/src/card.rs"]
mod card;
#[path = "../model/src/card_link.rs"]
mod card_link;
#[path = "../model/src/crc.rs"]
mod crc;
#[path = "../model/src/delay.rs"]
mod delay;
#[path = "../model/src/frames.rs"]
mod frames;
#[path = "../model/src/front.rs"]
mod front;
#[path = "../model/src/language.rs"]
mod language;
#[path = "../model/src/log.rs"]
mod log;
#[path = "../model/src/random.rs"]
mod random;
#[path = "../model/src/reader.rs"]
mod reader;
#[path = "../model/src/reader_link.rs"]
mod reader_link;
#[path = "../model/src/refusal.rs"]
mod refusal;
#[path = "../model/src/sweep.rs"]
mod sweep;
#[path = "../model/src/type_b.rs"]
mod type_b;
#[path = "../model/src/uid.rs"]
mod uid;

/// The model counts what its scripts reach; here nothing is counted.
mod coverage {
    pub fn note(_: &str, _: &str, _: &str) {}
}

mod any_fields;
mod any_states;
mod b_calls;
mod b_card_calls;
mod b_inquiries;
mod b_states;
mod c;
mod card_calls;
mod card_states;
mod delay_calls;
mod field;
mod frame_calls;
mod front_calls;
mod hold;
mod memory_calls;
mod reader_calls;
mod rows;
mod states;
mod sweep_calls;
mod tally;
mod told;
mod wake_calls;

use random::Random;

fn main() {
    let mut words = std::env::args().skip(1).map(|w| w.parse::<u64>().expect("fuzz CALLS SEED"));
    let (calls, seed) = (words.next().unwrap_or(20000), words.next().unwrap_or(1));
    let mut random = Random::new(seed);
    // Each with its share: one in so many of the calls asked for.
    let kinds: &[(&str, fn(&mut Random), u64)] = &[
        ("reader", reader_calls::reader_call, 2),
        ("card", card_calls::card_call, 2),
        ("new card", card_calls::new_card, 20),
        ("frames", frame_calls::frame_call, 8),
        ("sweeps", sweep_calls::sweep_call, 20),
        ("cards woken", wake_calls::wake_call, 4),
        ("sweeps that remember, stepped", memory_calls::memory_calls, 20),
        ("Type B reader and two cards", b_calls::type_b_calls, 4),
        ("Type B card", b_card_calls::b_card_call, 4),
        ("new Type B card", b_card_calls::new_b_card, 20),
        ("Type B requests over a row of cards", b_inquiries::inquiry, 4),
        ("front", front_calls::front_call, 2),
        ("delay", delay_calls::delay_call, 2),
        ("states of any bytes", any_states::any_state, 2),
        ("of other readers and cards", any_states::any_other_state, 2),
        ("of rows of cards, one woken", any_fields::any_wake, 4),
        ("of rows of cards, swept", any_fields::any_sweep, 20),
        ("of rows of Type B cards", any_fields::any_b_inquiry, 4),
        ("what states of any bytes tell", told::told_call, 4),
    ];
    for (name, call, share) in kinds {
        for _ in 0..calls / share {
            call(&mut random);
        }
        println!("{name}: {} without a difference; {}", calls / share, tally::told());
    }
}
