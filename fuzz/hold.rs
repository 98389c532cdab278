//! What a call of a reader or a card is to give, and whether it gave that.
use crate::c::{lac_event, lac_length};
use crate::frames::Row;
use crate::refusal::Refusal;
use crate::states::{KEPT, STATE};
use crate::tally;

/// What a call is to give: its number, the row, and what else a state tells.
pub struct Wanted {
    pub number: i64,
    pub row: Row,
    pub event: u8,
    pub length: u64,
}

pub fn wants(row: Row, event: u8, length: usize) -> Wanted {
    Wanted { number: row.len() as i64, row, event, length: length as u64 }
}

pub fn refused(r: Refusal) -> Wanted {
    Wanted { number: -(r.number as i64), row: Row::new(), event: 0, length: r.byte as u64 }
}

/// Holds what was written to what was wanted. `stays`: the state is to be just as it was.
#[allow(clippy::too_many_arguments)]
pub fn hold(what: &str, got: i64, wanted: &Wanted, before: &[u8], after: &[u8], stays: bool, kept: &[u8], out0: &[u8], out: &[u8]) {
    tally::note(got);
    assert_eq!(got, wanted.number, "{what}: number, state {before:02X?}");
    assert_eq!(out[..wanted.row.len()], wanted.row[..], "{what}: row");
    assert_eq!(out[wanted.row.len()..], out0[wanted.row.len()..], "{what}: behind the row");
    if stays {
        assert_eq!(before, after, "{what}: the state is not as it was");
        return;
    }
    assert_eq!(after[..KEPT], kept[..KEPT], "{what}: the state, from {before:02X?}");
    assert_eq!(after[STATE - 10..], before[STATE - 10..], "{what}: behind the state");
    unsafe {
        assert_eq!(lac_event(after.as_ptr(), after.len()), wanted.event, "{what}: event");
        assert_eq!(lac_length(after.as_ptr(), after.len()), wanted.length, "{what}: what came with it");
    }
}
