//! What the turned calls read of a session: a party's entry, and the units of rows.

use super::number;
use crate::ffi::in_place;
use crate::make::index_of;
use crate::model::layout::{party_at, MARKS_AT};
use crate::model::sheet::{HEADER, ROW};

/// Where a party's entry lies, and its first bytes.
pub struct Entry {
    pub at: usize,
    pub status: u8,
    pub place: u8,
    pub round: u8,
    pub k: u8,
}

/// The party's entry as it lies there, in a session of the right length.
pub fn entry_of(session: &[u8], party: u8) -> Entry {
    let at = party_at(party);
    Entry {
        at,
        status: session[at],
        place: session[at + 1],
        round: session[at + 2],
        k: session[at + 3],
    }
}

/// The party's entry, if a call with this session and party is not refused.
pub fn entry(session: &[u8], party: u32) -> Option<Entry> {
    let good = number(in_place::live(session)) == 0 && (1..=u32::from(session[5])).contains(&party);
    good.then(|| entry_of(session, party as u8))
}

/// Where the row of a party in a round lies.
pub fn row_at(round: u8, party: u8) -> usize {
    HEADER + ROW * index_of(usize::from(round), usize::from(party))
}

/// Where the mark of the unit lies that the two bytes there name, in a session that is well
/// formed.
pub fn mark_at(session: &[u8], unit: usize) -> usize {
    MARKS_AT + usize::from(u16::from_be_bytes([session[unit], session[unit + 1]]))
}

/// Where the mark of the pair unit of lower k lies, in a session that is well formed.
pub fn pair_mark(session: &[u8], round: u8, k: u8) -> usize {
    mark_at(session, row_at(round, k) + 12)
}

/// Where the mark past those of the sheet's units lies, if the sheet has fewer than 1,024.
pub fn first_unused_mark(session: &[u8]) -> Option<usize> {
    let units = usize::from(u16::from_be_bytes([session[6], session[7]]));
    (units < 1024).then_some(MARKS_AT + units)
}
