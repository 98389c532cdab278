//! Rows of cards of any bytes at all, of any length, played by one call: a refusal writes no card, and none but 7 writes the reader; what is written
//! is the front of each state.
use crate::c::*;
use crate::random::Random;
use crate::rows::bytes_of;
use crate::states::STATE;
use crate::tally;

/// Any bytes; mostly small ones, by which many states are ones that a call takes.
fn any_bytes(random: &mut Random, count: usize) -> Vec<u8> {
    let small = random.pick(&[2, 5, 12, 256]);
    (0..count).map(|_| if random.chance(10) { random.byte() } else { random.below(small) as u8 }).collect()
}

/// So many states, or nearly so many, and what lies behind them.
fn any_row(random: &mut Random, n: usize, idle_or_halt: [u8; 2]) -> Vec<u8> {
    let length = if random.chance(90) { STATE * n + random.below(70) } else { random.below(STATE * n + STATE) };
    let mut row = any_bytes(random, length);
    if random.chance(70) {
        for card in row.chunks_mut(STATE) {
            card[0] = random.pick(&idle_or_halt);
        }
    }
    row
}

/// Any reader, mostly one that is new.
fn any_reader(random: &mut Random) -> Vec<u8> {
    let length = random.pick(&[STATE, STATE, STATE, STATE, STATE + 1, 192, STATE - 1, 0]);
    let mut state = any_bytes(random, length);
    if length > 0 && random.chance(80) {
        state[0] = 0;
    }
    state
}

pub fn any_wake(random: &mut Random) {
    let n = random.pick(&[0, 1, 1, 1, 2, 2, 3, 5, 32, 33, 40]);
    let (before, cards) = (any_reader(random), any_row(random, n, [1, 4]));
    let mut uid = random.uid();
    if n > 0 && cards.len() >= STATE * n && random.chance(60) {
        // The UID that one of the cards says.
        let card = &cards[STATE * random.below(n)..];
        uid = card[10..][..[4, 7, 10][card[9].min(2) as usize]].to_vec();
    }
    let (mut state, mut row, uid) = (lent(&before), lent(&cards), lent(&uid));
    let told = if random.chance(3) { random.pick(&[1 << 58, usize::MAX]) } else { n };
    let got = unsafe { lac_wake(state.as_mut_ptr(), state.len(), uid.as_ptr(), uid.len(), row.as_mut_ptr(), row.len(), told) };
    tally::note(got);
    // WUPA, and a SELECT for each level: of UIDs of 4, 7 and 10 bytes.
    assert!([-1, -6, -7, -11, 1 + uid.len() as i64 / 3].contains(&got), "waking one of {n} gave {got}");
    if got < 0 {
        assert_eq!(row[..], cards[..], "{got} wrote a card");
    }
    if [-1, -6, -11].contains(&got) {
        assert_eq!(state[..], before[..], "{got} wrote the reader");
    }
    behind(&row, &cards, told, 20);
    behind(&state, &before, 1, 54);
}

pub fn any_sweep(random: &mut Random) {
    let n = random.pick(&[0, 1, 1, 2, 2, 3, 5, 32, 33, 40]);
    let (before, cards) = (any_reader(random), any_row(random, n, [1, 4]));
    let (log0, list0) = (bytes_of(random, &[40_960, 40_960, 40_960, 40_960, 40_961, 40_959]), bytes_of(random, &[352, 352, 352, 352, 353, 351]));
    let (mut state, mut row, mut log, mut list) = (lent(&before), lent(&cards), lent(&log0), lent(&list0));
    let call = if random.chance(50) { lac_sweep_remember } else { lac_sweep };
    let (s, c) = ((state.as_mut_ptr(), state.len()), (row.as_mut_ptr(), row.len()));
    let got = unsafe { call(s.0, s.1, c.0, c.1, n, random.word(), log.as_mut_ptr(), log.len(), list.as_mut_ptr(), list.len()) };
    tally::note(got);
    assert!([-1, -6, -11].contains(&got) || (0..=n as i64).contains(&got), "a sweep of {n} gave {got}");
    if got < 0 {
        assert!(state[..] == before[..] && row[..] == cards[..] && log[..] == log0[..] && list[..] == list0[..], "{got} wrote");
    } else {
        let logged = unsafe { lac_length(state.as_ptr(), state.len()) } as usize;
        assert_eq!(log[logged..], log0[logged..]);
        assert_eq!(list[11 * got as usize..], list0[11 * got as usize..]);
    }
    behind(&row, &cards, n, 20);
    behind(&state, &before, 1, 62);
}

pub fn any_b_inquiry(random: &mut Random) {
    let n = random.pick(&[0, 1, 1, 2, 2, 3, 5, 32, 33, 40]);
    let (slots, wake, afi) = (random.pick(&[1, 2, 4, 8, 16, 16, 3]), random.byte(), random.pick(&[0, 1, 0x10]));
    let (before, cards) = (any_reader(random), any_row(random, n, [1, 5]));
    let room = if random.chance(85) { 208 + random.below(9) } else { random.below(208) };
    let list0 = random.bytes(room);
    let numbers = lent(&(0..n).map(|_| if random.chance(98) { 1 + random.below(slots as usize) as u8 } else { random.byte() }).collect::<Vec<u8>>());
    let (mut state, mut row, mut list) = (lent(&before), lent(&cards), lent(&list0));
    let (s, c) = ((state.as_mut_ptr(), state.len()), (row.as_mut_ptr(), row.len()));
    let got = unsafe { lac_b_inquire(s.0, s.1, wake, slots, afi, c.0, c.1, numbers.as_ptr(), n, list.as_mut_ptr(), list.len()) };
    tally::note(got);
    assert!([-1, -6, -11, slots as i64].contains(&got), "a request of {slots} slots over {n} gave {got}");
    if got < 0 {
        assert!(state[..] == before[..] && row[..] == cards[..] && list[..] == list0[..], "{got} wrote");
    } else {
        assert_eq!(list[13 * slots as usize..], list0[13 * slots as usize..]);
        assert!(list[..13 * slots as usize].chunks(13).all(|slot| slot[0] < 3), "a slot holds none, one or more");
    }
    behind(&row, &cards, n, 15);
    behind(&state, &before, 1, 54);
}

/// Of each of the first n states only the front may be written, and of what lies behind them nothing.
fn behind(row: &[u8], before: &[u8], n: usize, front: usize) {
    for (i, (is, was)) in row.chunks(STATE).zip(before.chunks(STATE)).enumerate() {
        let from = if i < n { front.min(is.len()) } else { 0 };
        assert_eq!(is[from..], was[from..], "state {i} is written behind its front");
    }
}
