// CRC_A in plain Rust, and what T-08 asks of the core's: "Baseline: a bit-at-a-time Rust program that the team writes, optimised build, same
// machine, frames of 256 bytes; we want at least three times its rate." Here are two such programs, and two that take a byte at a time; all four
// are ours. A frame of n bytes means the CRC over n bytes of input, in a warm buffer. First all are held to one another.
use crate::lac::{crc_a as core_a, crc_b as core_b};
use crate::next;
use std::hint::black_box;
use std::time::Instant;

type Crc = fn(&[u8]) -> u16;

const SIZES: [usize; 4] = [256, 64, 16, 3];
const RUNS: usize = 1001;
const WANTED: f64 = 3.0;

// Bit at a time as the standard draws it: each data bit against the register's lowest bit. The compiler leaves it so.
#[inline(always)]
fn serial_from(start: u16, bytes: &[u8]) -> u16 {
    let mut c = start;
    for &b in bytes {
        for i in 0..8 {
            let turn = (c & 1) ^ ((b >> i) & 1) as u16;
            c >>= 1;
            if turn == 1 {
                c ^= 0x8408;
            }
        }
    }
    c
}

#[inline(never)]
fn serial(bytes: &[u8]) -> u16 {
    serial_from(0x6363, bytes)
}

fn serial_b(bytes: &[u8]) -> u16 {
    !serial_from(0xFFFF, bytes)
}

const fn byte_bits(c: u16) -> u16 {
    let mut x = c;
    let mut i = 0;
    while i < 8 {
        x = if x & 1 == 1 { (x >> 1) ^ 0x8408 } else { x >> 1 };
        i += 1;
    }
    x
}

// Bit at a time as it is mostly written: the byte goes in at once, then eight shifts. LLVM 22 knows this loop and makes a table of it.
#[inline(never)]
fn common(bytes: &[u8]) -> u16 {
    let mut c = 0x6363u16;
    for &b in bytes {
        c ^= b as u16;
        for _ in 0..8 {
            c = if c & 1 == 1 { (c >> 1) ^ 0x8408 } else { c >> 1 };
        }
    }
    c
}

const fn table() -> [u16; 256] {
    let mut t = [0; 256];
    let mut i = 0;
    while i < 256 {
        t[i] = byte_bits(i as u16);
        i += 1;
    }
    t
}

static TABLE: [u16; 256] = table();

// A byte at a time, by a table that stands in read-only memory.
#[inline(never)]
fn by_table(bytes: &[u8]) -> u16 {
    let mut c = 0x6363u16;
    for &b in bytes {
        c = (c >> 8) ^ TABLE[((c ^ b as u16) & 255) as usize];
    }
    c
}

// A byte at a time by shifts alone, libnfc's way: the polynomial has three powers below 16, so three shifts of the folded byte do. It is the
// quickest of the four, so the plain frames use it.
pub fn crc_a(bytes: &[u8]) -> u16 {
    let mut c = 0x6363u32;
    for &b in bytes {
        let low = (c as u8) ^ b;
        let x = (low ^ (low << 4)) as u32;
        c = (c >> 8) ^ (x << 8) ^ (x << 3) ^ (x >> 4);
    }
    c as u16
}

#[inline(never)]
fn by_shifts(bytes: &[u8]) -> u16 {
    crc_a(bytes)
}

const ALL: [(&str, Crc); 6] = [
    ("bit-serial", serial),
    ("common bit loop", common),
    ("table in Rust", by_table),
    ("libnfc's shifts", by_shifts),
    ("core, CRC_A", core_a),
    ("core, CRC_B", core_b),
];
const BASELINES: usize = 4;
const CORE: usize = 4;

// Every program on the same inputs, of 0 to 300 bytes, starting anywhere in a word.
fn compare(inputs: usize) {
    let mut x = 0x9370_8880_1228_3221;
    for _ in 0..inputs {
        let from = (next(&mut x) % 8) as usize;
        let count = (next(&mut x) % 301) as usize;
        let bytes: Vec<u8> = (0..from + count).map(|_| next(&mut x) as u8).collect();
        let frame = &bytes[from..];
        for (name, crc) in &ALL[..=CORE] {
            assert_eq!(crc(frame), serial(frame), "{name} on {frame:02X?}");
        }
        assert_eq!(core_b(frame), serial_b(frame), "CRC_B on {frame:02X?}");
    }
    println!("equal on {inputs} inputs of 0 to 300 bytes: every program, and the core's CRC_B to the bit-serial one");
}

// Nanoseconds for one call.
fn run(crc: Crc, frame: &[u8]) -> f64 {
    let calls = 16384 / frame.len();
    let began = Instant::now();
    for _ in 0..calls {
        black_box(crc(black_box(frame)));
    }
    began.elapsed().as_secs_f64() * 1e9 / calls as f64
}

// Best and median. The programs take turns, so that what else the machine does falls on all of them alike.
fn measure(frame: &[u8]) -> Vec<(f64, f64)> {
    let mut times = vec![Vec::new(); ALL.len()];
    for _ in 0..RUNS {
        for (i, (_, crc)) in ALL.iter().enumerate() {
            times[i].push(run(*crc, frame));
        }
    }
    for t in &mut times {
        t.sort_by(f64::total_cmp);
    }
    times.iter().map(|t| (t[0], t[RUNS / 2])).collect()
}

pub fn report() {
    compare(100_000);
    let bytes: Vec<u8> = (0..256u32).map(|i| (i * 7 + 3) as u8).collect();
    let by_size: Vec<Vec<(f64, f64)>> = SIZES.iter().map(|&n| measure(&bytes[..n])).collect();

    println!("\nns a call, best and median of {RUNS} runs, for frames of");
    print!("{:16}", "");
    SIZES.iter().for_each(|n| print!("{:>12} bytes", n));
    println!();
    for (i, (name, _)) in ALL.iter().enumerate() {
        print!("{name:16}");
        by_size.iter().for_each(|all| print!("{:9.1} {:8.1}", all[i].0, all[i].1));
        println!();
    }

    println!("\nhow many times the core's CRC_A has the rate of, by best and by median");
    for (i, (name, _)) in ALL[..BASELINES].iter().enumerate() {
        print!("{name:16}");
        by_size.iter().for_each(|all| print!("{:9.2} {:8.2}", all[i].0 / all[CORE].0, all[i].1 / all[CORE].1));
        println!();
    }

    print!("\nthree times the rate at 256 bytes, by the median, against");
    for (i, (name, _)) in ALL[..BASELINES].iter().enumerate() {
        let times = by_size[0][i].1 / by_size[0][CORE].1;
        let said = if times >= WANTED { "yes" } else { "no" };
        print!("{} {name}: {said} ({times:.2})", if i == 0 { "" } else { ";" });
    }
    println!();
}
