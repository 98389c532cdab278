//! The stored vectors: `write` puts them into a folder, `check` compares them with what would be written.

use crate::language::{Program, Script};
use crate::scripts;
use std::fs;
use std::path::Path;

/// The seed of all stored vectors.
const SEED: u64 = 14_443;

pub struct Stored {
    pub name: &'static str,
    pub input: Vec<u8>,
    pub output: String,
}

fn stored<P: Program>(name: &'static str, script: Script<P>) -> Stored {
    let (input, output) = script.finish();
    Stored { name, input: input.into_bytes(), output }
}

/// All stored vectors.
pub fn all() -> Vec<Stored> {
    let (card, reader) = benches();
    vec![
        stored("vectors_frame", scripts::frame::script(SEED + 1)),
        stored("vectors_sweep", fields()),
        stored("vectors_exchange", exchange()),
        stored("vectors_calls", scripts::calls::script()),
        stored("bench_card", card),
        stored("bench_reader", reader),
        stored("bench_sweep", scripts::field::locker()),
        stored("bench_front", scripts::front::script(SEED + 8)),
        stored("vectors_front", scripts::front::selections(SEED + 9)),
        stored("bench_type_b", scripts::type_b::script(SEED + 10)),
        stored("bench_vicinity", scripts::vicinity::script(SEED + 11)),
        stored("vectors_trace", scripts::trace::script(SEED + 11)),
        one_log(),
    ]
}

/// The one log that `trace_check` reads.
fn one_log() -> Stored {
    let input = scripts::trace::log_of_many();
    let lines = crate::vectors_trace::told(crate::trace::check(&input));
    Stored { name: "trace_check", input, output: lines.iter().map(|line| format!("{line}\n")).collect() }
}

/// The script of the fields.
fn fields() -> Script<crate::bench_sweep::VectorsSweep> {
    scripts::field::script(SEED + 2)
}

/// The script of both ends.
fn exchange() -> Script<crate::vectors_exchange::VectorsExchange> {
    scripts::exchange::script(SEED + 7)
}

/// The scripts of the card and of the reader: first the selection, then RATS and blocks.
fn benches() -> (scripts::card::S, scripts::reader::S) {
    let mut card = scripts::card::script(SEED + 3);
    let mut reader = scripts::reader::script(SEED + 4);
    scripts::card_blocks::add(&mut card, SEED + 5);
    scripts::reader_blocks::add(&mut reader, SEED + 6);
    (card, reader)
}

/// Plays the scripts of both benches again, for what they reach.
pub fn bench_scripts() {
    let (card, reader) = benches();
    let (card, reader) = (card.input, reader.input);
    crate::coverage::forget();
    let mut replayed = Script::new(crate::bench_card::BenchCard::new());
    card.lines().for_each(|line| drop(replayed.say(line)));
    let mut replayed = Script::new(crate::bench_reader::BenchReader::new());
    reader.lines().for_each(|line| drop(replayed.say(line)));
}

/// Plays the script of Type B again, for what it reaches.
pub fn type_b_script() {
    let input = scripts::type_b::script(SEED + 10).input;
    crate::coverage::forget();
    let mut replayed = Script::new(crate::bench_type_b::BenchTypeB::new());
    input.lines().for_each(|line| drop(replayed.say(line)));
}

/// Plays the script of the vicinity tags again, for what it reaches.
pub fn vicinity_script() {
    let input = scripts::vicinity::script(SEED + 11).input;
    crate::coverage::forget();
    let mut replayed = Script::new(crate::bench_vicinity::BenchVicinity::new());
    input.lines().for_each(|line| drop(replayed.say(line)));
}

/// Plays the script of the logs again, for what it reaches.
pub fn trace_script() {
    let input = scripts::trace::script(SEED + 11).input;
    crate::coverage::forget();
    let mut replayed = Script::new(crate::vectors_trace::VectorsTrace);
    input.lines().for_each(|line| drop(replayed.say(line)));
}

/// Plays the script of both ends again, for what it reaches.
pub fn exchange_script() {
    let input = exchange().input;
    crate::coverage::forget();
    let mut replayed = Script::new(crate::vectors_exchange::VectorsExchange::default());
    input.lines().for_each(|line| drop(replayed.say(line)));
}

/// Plays the script of the front end again, for what it reaches.
pub fn front_script() {
    let input = scripts::front::script(SEED + 8).input;
    crate::coverage::forget();
    let mut replayed = Script::new(crate::bench_front::BenchFront::new());
    input.lines().for_each(|line| drop(replayed.say(line)));
}

/// Plays the script of the calls again, for what it reaches.
pub fn calls_script() {
    let input = scripts::calls::script().input;
    crate::coverage::forget();
    let mut replayed = Script::new(crate::vectors_calls::VectorsCalls::new());
    input.lines().for_each(|line| drop(replayed.say(line)));
}

/// Plays the script of the fields again, for what it reaches.
pub fn field_script() {
    let input = fields().input;
    crate::coverage::forget();
    let mut replayed = Script::new(crate::bench_sweep::VectorsSweep::default());
    input.lines().for_each(|line| drop(replayed.say(line)));
}

/// Is there a program of this name below the folder? Those that are not there are left out, with a word.
fn has(folder: &str, name: &str) -> bool {
    let is_there = Path::new(folder).join(name).is_dir();
    if !is_there {
        println!("{name}: not there, left out");
    }
    is_there
}

pub fn write(folder: &str) -> Result<(), String> {
    for file in all().iter().filter(|f| has(folder, f.name)) {
        let place = Path::new(folder).join(file.name);
        for (name, text) in [("stdin", &file.input[..]), ("stdout", file.output.as_bytes())] {
            let path = place.join(name);
            fs::write(&path, text).map_err(|e| format!("{}: {e}", path.display()))?;
            println!("{}/{name} {} bytes, {} lines", file.name, text.len(), text.iter().filter(|&&b| b == b'\n').count());
        }
    }
    Ok(())
}

pub fn check(folder: &str) -> Result<(), String> {
    let mut wrong = Vec::new();
    for file in all().iter().filter(|f| has(folder, f.name)) {
        for (name, text) in [("stdin", &file.input[..]), ("stdout", file.output.as_bytes())] {
            let path = Path::new(folder).join(file.name).join(name);
            match fs::read(&path) {
                Ok(stored) if stored == text => {}
                Ok(stored) => wrong.push(format!("{}: {}", path.display(), first_difference(&stored, text))),
                Err(e) => wrong.push(format!("{}: {e}", path.display())),
            }
        }
    }
    if wrong.is_empty() {
        Ok(())
    } else {
        Err(wrong.join("\n"))
    }
}

fn first_difference(stored: &[u8], wanted: &[u8]) -> String {
    let same = stored.iter().zip(wanted).take_while(|(a, b)| a == b).count();
    let line = 1 + wanted[..same].iter().filter(|&&b| b == b'\n').count();
    format!("not what the model writes, from line {line} on")
}

#[cfg(test)]
mod tests {
    use super::*;

    /// The stored files stay small.
    #[test]
    fn sizes() {
        for file in all() {
            assert!(file.input.len() < 400_000 && file.output.len() < 450_000, "{}", file.name);
        }
    }

    #[test]
    fn the_same_each_time() {
        for (one, other) in all().iter().zip(all()) {
            assert_eq!(one.input, other.input);
            assert_eq!(one.output, other.output);
        }
    }
}
