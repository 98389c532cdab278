// `make speed`: the core, as the archive that C programs link, against plain Rust of our own, in one run. The plain programs do the same job, with
// bounds checks and the same tests; first both are held to one another, on damaged input too. docs/SPEED.md has the figures of one run.
mod blocks;
mod cards;
mod crc;
mod frames;
mod lac;
mod stack;
mod sweep;

use cards::Card;
use frames::Refusal;
use std::hint::black_box;
use std::time::Instant;

const RUNS: usize = 501;
const MESSAGE: usize = 4096;
const FIELDS: [usize; 6] = [1, 2, 4, 8, 16, 32];

// A fixed row of numbers that look drawn at random.
pub fn next(x: &mut u64) -> u64 {
    *x ^= *x << 13;
    *x ^= *x >> 7;
    *x ^= *x << 17;
    *x
}

pub fn drawn(x: &mut u64, n: usize) -> Vec<u8> {
    (0..n).map(|_| next(x) as u8).collect()
}

// A plain answer in the numbers of the core's.
fn number(r: Result<usize, Refusal>) -> i64 {
    match r {
        Ok(n) => n as i64,
        Err(e) => -(e as i64 + 1),
    }
}

// Best and median, in ns a call, of two programs that take turns, so that what else the machine does falls on both alike.
fn measure(what: &str, calls: usize, core: &mut dyn FnMut(), plain: &mut dyn FnMut()) {
    let run = |f: &mut dyn FnMut()| {
        let began = Instant::now();
        (0..calls).for_each(|_| f());
        began.elapsed().as_secs_f64() * 1e9 / calls as f64
    };
    let mut times = [Vec::new(), Vec::new()];
    for _ in 0..RUNS {
        times[0].push(run(core));
        times[1].push(run(plain));
    }
    times.iter_mut().for_each(|t| t.sort_by(f64::total_cmp));
    let [(cb, cm), (pb, pm)] = [0, 1].map(|i| (times[i][0], times[i][RUNS / 2]));
    println!("{what:36}{cb:10.0} {cm:10.0}{pb:12.0} {pm:10.0}{:10.2} {:7.2}", pb / cb, pm / cm);
}

// ---- frames

fn same_frames(x: &mut u64) {
    for i in 0..20_000 {
        let n = (next(x) % 259) as usize;
        let bytes = drawn(x, n);
        let mut rows = [[0u8; 2400]; 2];
        let (c, p) = (lac::write(&bytes, &mut rows[0]), number(frames::write(&bytes, &mut rows[1])));
        assert!(c == p && rows[0] == rows[1], "write {bytes:02X?}");
        let (c, p) = (lac::write_crc(&bytes, &mut rows[0]), number(frames::write_crc(&bytes, &mut rows[1])));
        assert!(c == p && rows[0] == rows[1], "write_crc {bytes:02X?}");
        let mut row = rows[0][..p as usize].to_vec();
        let at = next(x) as usize % row.len();
        match i % 8 {
            0 | 4 => row[at] ^= 1,
            2 => row[at] = 2,
            6 => row.truncate(at),
            _ => (),
        }
        let room = if i % 100 == 0 { 255 } else { 256 };
        let mut out = [[7u8; 256]; 2];
        let (c, p) = (lac::read(&row, &mut out[0][..room]), number(frames::read(&row, &mut out[1][..room])));
        assert!(c == p && out[0] == out[1], "read: {c} {p} {row:?}");
        let (c, p) = (lac::read_crc(&row, &mut out[0][..room]), number(frames::read_crc(&row, &mut out[1][..room])));
        assert!(c == p && out[0] == out[1], "read_crc: {c} {p} {row:?}");
    }
    println!("equal on 20000 frames of 0 to 258 bytes, every second one damaged or cut: written and read, with CRC_A and without");
}

fn measure_frames() {
    let bytes: Vec<u8> = (0..256u32).map(|i| (i * 7 + 3) as u8).collect();
    let (mut row, mut with_crc, mut out, mut to) = ([0; 2304], [0; 2304], [0; 256], [0; 2304]);
    frames::write(&bytes, &mut row).unwrap();
    frames::write_crc(&bytes[..254], &mut with_crc).unwrap();
    let mut other = [0; 2304];
    let mut back = [0; 256];
    measure("frame of 256 bytes written", 20, &mut || _ = black_box(lac::write(black_box(&bytes), black_box(&mut to))), &mut || {
        _ = black_box(frames::write(black_box(&bytes), black_box(&mut other)))
    });
    measure("frame of 256 bytes read", 20, &mut || _ = black_box(lac::read(black_box(&row), black_box(&mut out))), &mut || {
        _ = black_box(frames::read(black_box(&row), black_box(&mut back)))
    });
    measure(".. its last two CRC_A, written", 20, &mut || _ = black_box(lac::write_crc(black_box(&bytes[..254]), black_box(&mut to))), &mut || {
        _ = black_box(frames::write_crc(black_box(&bytes[..254]), black_box(&mut other)))
    });
    measure(".. read", 20, &mut || _ = black_box(lac::read_crc(black_box(&with_crc), black_box(&mut out))), &mut || {
        _ = black_box(frames::read_crc(black_box(&with_crc), black_box(&mut back)))
    });
    measure("CRC_A of 256 bytes", 20, &mut || _ = black_box(lac::crc_a(black_box(&bytes))), &mut || _ = black_box(crc::crc_a(black_box(&bytes))));
}

// ---- sweeps

// Cards with UIDs of all three lengths, some of them near each other.
fn field(x: &mut u64, n: usize) -> Vec<Card> {
    let mut cards: Vec<Card> = Vec::new();
    while cards.len() < n {
        let mut uid = drawn(x, [4, 7, 10][cards.len() % 3]);
        if cards.len() % 4 == 3 {
            uid[..3].copy_from_slice(&cards[cards.len() - 3].uid[..3]);
        }
        let card = Card::new(&uid, next(x) % 2 == 0);
        cards.extend(card.filter(|c| cards.iter().all(|d| d.uid != c.uid)));
    }
    cards
}

fn core_cards(cards: &[Card]) -> Vec<[u8; lac::STATE]> {
    cards.iter().map(|c| lac::card(&c.uid[..c.length], c.blocks, 8)).collect()
}

fn same_sweeps(x: &mut u64) {
    for i in 0..500 {
        let mut cards = field(x, i % 33);
        let mut core = core_cards(&cards);
        let (mut log, mut list) = ([vec![0; sweep::LOG_ROOM], vec![0; sweep::LOG_ROOM]], [[0; sweep::LIST_ROOM]; 2]);
        let (found, logged) = lac::sweep(&mut core, i as u32, &mut log[0], &mut list[0]);
        let plain = sweep::sweep(&mut cards, i as u32, &mut log[1], &mut list[1]).expect("a good field");
        assert!(found == plain.found as i64 && logged == plain.logged && plain.found == cards.len(), "sweep {i}: {found}");
        assert!(log[0] == log[1] && list[0] == list[1], "sweep {i}");
    }
    println!("equal on 500 sweeps of 0 to 32 cards: how many are found, every byte of log and list");
}

fn measure_sweeps(x: &mut u64) {
    for n in FIELDS {
        let idle = field(x, n);
        let core_idle = core_cards(&idle);
        let (mut log, mut list) = ([vec![0; sweep::LOG_ROOM], vec![0; sweep::LOG_ROOM]], [[0; sweep::LIST_ROOM]; 2]);
        let [core_log, plain_log] = &mut log;
        let [core_list, plain_list] = &mut list;
        let frames = sweep::sweep(&mut idle.clone(), 0, plain_log, plain_list).unwrap().frames;
        let (mut cards, mut core) = (idle.clone(), core_idle.clone());
        let calls = 32 / n;
        measure(
            &format!("sweep of {n} card{}, {frames} frames", if n == 1 { "" } else { "s" }),
            calls,
            &mut || {
                core.copy_from_slice(black_box(&core_idle));
                black_box(lac::sweep(&mut core, 0, core_log, core_list));
            },
            &mut || {
                cards.copy_from_slice(black_box(&idle));
                _ = black_box(sweep::sweep(&mut cards, 0, plain_log, plain_list));
            },
        );
    }
}

// ---- an exchange

fn exchange(x: &mut u64) {
    let (message, answer) = (drawn(x, MESSAGE), drawn(x, MESSAGE));
    let (mut link, mut plain) = (lac::Link::open(&[1, 2, 3, 4], 8), blocks::Link::new());
    let mut bytes = vec![[0; MESSAGE]; 4];
    let [a, b, c, d] = &mut bytes[..] else { unreachable!() };
    let mut rows = 0;
    for n in [1, 253, 254, 506, 4000, MESSAGE, MESSAGE] {
        let (m, r) = (&message[..n], &answer[..n]);
        let (mut seen, mut plain_seen) = (Vec::new(), Vec::new());
        let got = link.exchange(m, r, a, b, &mut |row| seen.push(row.to_vec()));
        let plain_got = blocks::exchange(&mut plain, m, r, c, d, &mut |row| plain_seen.push(row.to_vec()));
        assert!(got == (n, n) && plain_got == Ok((n, n)) && seen == plain_seen, "exchange of {n} bytes: {got:?} {plain_got:?}");
        rows = seen.len();
        assert!([&a[..n], &c[..n]] == [m, m] && [&b[..n], &d[..n]] == [r, r], "exchange of {n} bytes");
    }
    measure(
        &format!("{MESSAGE} bytes each way, {rows} frames"),
        1,
        &mut || _ = black_box(link.exchange(black_box(&message), black_box(&answer), a, b, &mut |_| ())),
        &mut || _ = black_box(blocks::exchange(&mut plain, black_box(&message), black_box(&answer), c, d, &mut |_| ())),
    );
}

fn main() {
    let mut x = 0x9370_8880_1228_3221;
    crc::report();
    println!();
    same_frames(&mut x);
    same_sweeps(&mut x);
    println!("\n{:36}{:>21}{:>23}{:>18}", format!("ns a call, {RUNS} runs"), "core", "plain Rust", "plain / core");
    println!("{:36}{:>10} {:>10}{:>12} {:>10}{:>10} {:>7}", "", "best", "median", "best", "median", "best", "median");
    measure_frames();
    measure_sweeps(&mut x);
    exchange(&mut x);
    stack::report(x);
}
