// How deep a call goes, on a thread of its own: the stack below is painted, the call is made, and the deepest byte that is not as painted any more
// tells. A byte that the call does not write, or writes with the paint's value, is not seen.
use crate::{blocks, core_cards, drawn, field, frames, lac, sweep, MESSAGE};
use std::hint::black_box;

const DEPTH: usize = 1 << 18;
const NEAR: usize = 512;
const PAINT: u8 = 0xA7;

#[inline(never)]
fn paint(top: *mut u8) {
    (NEAR..DEPTH).for_each(|i| unsafe { top.sub(i).write_volatile(PAINT) });
}

#[inline(never)]
fn touched(top: *mut u8) -> usize {
    (NEAR..DEPTH).rev().find(|&i| unsafe { top.sub(i).read_volatile() } != PAINT).unwrap_or(NEAR)
}

#[inline(never)]
fn depth(call: &mut dyn FnMut()) -> usize {
    let mut here = 0u8;
    let top: *mut u8 = black_box(&mut here);
    paint(top);
    call();
    touched(top)
}

fn line(what: &str, core: usize, plain: usize) {
    println!("{what:36}{core:>21}{plain:>23}");
}

fn lines(mut x: u64) {
    println!("\n{:36}{:>21}{:>23}", "stack touched, bytes, 512 at least", "core", "plain Rust");
    let (bytes, mut row, mut out) = (drawn(&mut x, 254), [0; 2304], [0; 256]);
    let core = depth(&mut || _ = black_box(lac::write_crc(&bytes, &mut row)));
    line("frame of 256 bytes written", core, depth(&mut || _ = black_box(frames::write_crc(&bytes, &mut row))));
    let core = depth(&mut || _ = black_box(lac::read_crc(&row, &mut out)));
    line("frame of 256 bytes read", core, depth(&mut || _ = black_box(frames::read_crc(&row, &mut out))));

    let (mut cards, mut log, mut list) = (field(&mut x, 32), vec![0; sweep::LOG_ROOM], [0; sweep::LIST_ROOM]);
    let mut states = core_cards(&cards);
    let core = depth(&mut || _ = black_box(lac::sweep(&mut states, 0, &mut log, &mut list)));
    line("sweep of 32 cards", core, depth(&mut || _ = black_box(sweep::sweep(&mut cards, 0, &mut log, &mut list))));

    let (mut link, mut plain) = (lac::Link::open(&[1, 2, 3, 4], 8), blocks::Link::new());
    let (message, mut a, mut b) = (drawn(&mut x, MESSAGE), [0; MESSAGE], [0; MESSAGE]);
    let core = depth(&mut || _ = black_box(link.exchange(&message, &message, &mut a, &mut b, &mut |_| ())));
    line("4096 bytes each way", core, depth(&mut || _ = black_box(blocks::exchange(&mut plain, &message, &message, &mut a, &mut b, &mut |_| ()))));
}

pub fn report(x: u64) {
    std::thread::Builder::new().stack_size(4 * DEPTH).spawn(move || lines(x)).unwrap().join().unwrap();
}
