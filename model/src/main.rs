//! The independent model of document 01. README.md says how to run it.

mod bench_card;
mod bench_front;
mod bench_reader;
mod bench_sweep;
mod bench_type_b;
mod bench_vicinity;
mod blocks;
mod card;
mod card_link;
mod coverage;
mod crc;
mod delay;
mod exchange;
mod frames;
mod front;
mod known;
mod language;
mod log;
mod lossy;
mod random;
mod reader;
mod reader_link;
mod refusal;
mod scripts;
mod sweep;
mod trace;
mod type_b;
mod uid;
mod vectors_calls;
mod vectors_exchange;
mod vectors_frame;
mod vectors_trace;
mod vicinity_field;
mod vicinity_reader;
mod vicinity_tag;
mod write;

const USAGE: &str = "\
model vectors_frame | vectors_front | vectors_sweep | vectors_exchange | vectors_calls | vectors_trace | trace_check | bench_sweep | bench_card | bench_reader | bench_front | bench_type_b | bench_vicinity
                                         play a script from standard input
model write DIR                          write the stored scripts and their answers
model check DIR                          compare the stored ones with what would be written
model coverage                           what the stored scripts reach
model scripts card|reader|field|exchange|lossy|front|type_b|vicinity|trace COUNT SEED   random scripts for larger comparisons";

fn report(outcome: Result<(), String>) {
    if let Err(what) = outcome {
        eprintln!("{what}");
        std::process::exit(1);
    }
}

fn random_scripts(kind: &str, count: &str, seed: &str) -> Result<(), String> {
    let count = count.parse().map_err(|_| "COUNT is a number")?;
    let seed = seed.parse().map_err(|_| "SEED is a number")?;
    let text = match kind {
        "card" => scripts::card::random_scripts(count, seed).input,
        "reader" => scripts::reader::random_scripts(count, seed).input,
        "field" => scripts::field::random_scripts(count, seed).input,
        "exchange" => scripts::exchange::random_scripts(count, seed).input,
        "lossy" => scripts::lossy::random_scripts(count, seed).input,
        "front" => scripts::front::random_scripts(count, seed).input,
        "type_b" => scripts::type_b::random_scripts(count, seed).input,
        "vicinity" => scripts::vicinity::random_scripts(count, seed).input,
        "trace" => scripts::trace::random_scripts(count, seed).input,
        _ => return Err("scripts for card, reader, field, exchange, lossy, front, type_b, vicinity or trace".to_string()),
    };
    print!("{text}");
    Ok(())
}

/// A filter without lines: all of standard input is one log.
fn trace_check() {
    let mut input = Vec::new();
    std::io::Read::read_to_end(&mut std::io::stdin(), &mut input).expect("standard input");
    vectors_trace::told(trace::check(&input)).iter().for_each(|line| println!("{line}"));
}

fn main() {
    let arguments: Vec<String> = std::env::args().skip(1).collect();
    let arguments: Vec<&str> = arguments.iter().map(|a| a.as_str()).collect();
    match arguments[..] {
        ["vectors_frame"] => language::play(vectors_frame::VectorsFrame),
        ["vectors_sweep"] => language::play(bench_sweep::VectorsSweep::default()),
        ["vectors_exchange"] => language::play(vectors_exchange::VectorsExchange::default()),
        ["vectors_calls"] => language::play(vectors_calls::VectorsCalls::new()),
        ["vectors_trace"] => language::play(vectors_trace::VectorsTrace),
        ["trace_check"] => trace_check(),
        ["bench_sweep"] => language::play(bench_sweep::BenchSweep::default()),
        ["bench_card"] => language::play(bench_card::BenchCard::new()),
        ["bench_front"] => language::play(bench_front::BenchFront::new()),
        ["vectors_front"] => language::play(bench_front::VectorsFront::new()),
        ["bench_reader"] => language::play(bench_reader::BenchReader::new()),
        ["bench_type_b"] => language::play(bench_type_b::BenchTypeB::new()),
        ["bench_vicinity"] => language::play(bench_vicinity::BenchVicinity::new()),
        ["write", folder] => report(write::write(folder)),
        ["check", folder] => report(write::check(folder)),
        ["coverage"] => report(coverage::report()),
        ["scripts", kind, count, seed] => report(random_scripts(kind, count, seed)),
        _ => {
            eprintln!("{USAGE}");
            std::process::exit(2);
        }
    }
}
