//! The step call with a rule turned.

use super::entry::{entry, first_unused_mark, mark_at, pair_mark, row_at};
use super::{number, turned, Call, Turned};
use crate::ffi::{in_place, Lent};
use crate::model::layout::{party_at, published_at, SESSION};
use crate::model::session::{HIGHER, LOWER, RUNNING, STOPPED};

pub const RULES: &[Turned] = &[
    turned(
        "step-pair-lower",
        "place 5 takes a lower mark for a higher one",
        Call::Step(pair_lower),
    ),
    turned(
        "step-own-empty",
        "at place 4 an empty own unit of the last lower means that the lowers win",
        Call::Step(own_empty),
    ),
    turned(
        "step-bit-63",
        "place 2 leaves out the unit of bit 63 of the mask",
        Call::Step(bit_63),
    ),
    turned(
        "step-publish-16",
        "place 1 publishes nothing in round 16",
        Call::Step(publish_16),
    ),
    turned(
        "step-top-wins",
        "a lower keeps its candidate where the top wins round 4 or a later one",
        Call::Step(top_wins),
    ),
    turned(
        "step-fetch-uncounted",
        "the act at place 6 is no own step",
        Call::Step(fetch_uncounted),
    ),
    turned(
        "step-1000",
        "1,000 own steps stay 1,000, in sessions that no run reaches",
        Call::Step(most_steps),
    ),
    turned(
        "step-stopped",
        "the step of a stopped party answers its place",
        Call::Step(stopped),
    ),
    turned(
        "step-free-bits",
        "bits 16 to 31 of the answer have the round",
        Call::Step(free_bits),
    ),
    turned(
        "step-party-257",
        "only the lowest byte of the party's number is read",
        Call::Step(lowest_byte),
    ),
    turned(
        "step-unused-mark",
        "place 2 also marks the unit past the sheet's last",
        Call::Step(unused_mark),
    ),
    turned(
        "step-mark-past-units",
        "a session is well formed too with a mark past the sheet's last unit",
        Call::Step(mark_past_units),
    ),
    turned(
        "step-refusal-changes",
        "refusal 10 counts an own step of party 1",
        Call::Step(changes),
    ),
];

/// The library's step, with one byte of the session changed as long as the call lasts.
fn with(session: &mut Lent, party: u32, at: usize, byte: u8) -> u64 {
    let before = std::mem::replace(&mut session.bytes_mut()[at], byte);
    let answer = in_place::step(session.bytes_mut(), party);
    session.bytes_mut()[at] = before;
    answer
}

fn pair_lower(session: &mut Lent, party: u32) -> u64 {
    if let Some(entry) = entry(session.bytes(), party).filter(|entry| entry.place == 5) {
        let mark = pair_mark(session.bytes(), entry.round, entry.k);
        if session.bytes()[mark] == LOWER {
            return with(session, party, mark, HIGHER);
        }
    }
    in_place::step(session.bytes_mut(), party)
}

fn own_empty(session: &mut Lent, party: u32) -> u64 {
    let before = session.bytes().to_vec();
    let answer = in_place::step(session.bytes_mut(), party);
    // Place 4 went on, but not to place 5, and k was the last: the own unit is empty.
    let Some(entry) = entry(&before, party) else {
        return answer;
    };
    let went = session.bytes()[entry.at + 1];
    if answer != 4 << 8 || went == 5 || entry.k + 1 != entry.round {
        return answer;
    }
    // What place 5 does with a higher mark.
    session.bytes_mut().copy_from_slice(&before);
    session.bytes_mut()[entry.at + 1] = 5;
    let mark = pair_mark(&before, entry.round, entry.k);
    with(session, party, mark, HIGHER);
    answer
}

fn bit_63(session: &mut Lent, party: u32) -> u64 {
    let before = session.bytes().to_vec();
    let answer = in_place::step(session.bytes_mut(), party);
    if answer == 2 << 8 {
        let round = before[party_at(party as u8) + 2];
        let row = row_at(round, party as u8);
        let last = mark_at(&before, row) + 63;
        // The mask's first byte has its highest bit.
        if before[row + 2] >> 7 == 1 {
            session.bytes_mut()[last] = before[last];
        }
    }
    answer
}

fn publish_16(session: &mut Lent, party: u32) -> u64 {
    let before = session.bytes().to_vec();
    let answer = in_place::step(session.bytes_mut(), party);
    if answer == 1 << 8 && before[party_at(party as u8) + 2] == 16 {
        let published = published_at(16, party as u8);
        session.bytes_mut()[published] = before[published];
    }
    answer
}

fn top_wins(session: &mut Lent, party: u32) -> u64 {
    let before = entry(session.bytes(), party);
    let candidate = before
        .as_ref()
        .map_or(0, |entry| session.bytes()[entry.at + 4]);
    let answer = in_place::step(session.bytes_mut(), party);
    if let Some(entry) = before {
        // Places 4 and 5 change a candidate where the top wins, and then only.
        let scans = answer == 4 << 8 || answer == 5 << 8;
        if scans && entry.round >= 4 && party < u32::from(entry.round) {
            session.bytes_mut()[entry.at + 4] = candidate;
        }
    }
    answer
}

fn fetch_uncounted(session: &mut Lent, party: u32) -> u64 {
    let answer = in_place::step(session.bytes_mut(), party);
    if answer == 6 << 8 {
        add_steps(session, party_at(party as u8), u16::MAX);
    }
    answer
}

fn most_steps(session: &mut Lent, party: u32) -> u64 {
    let answer = in_place::step(session.bytes_mut(), party);
    if number(answer) == 0 {
        let steps = party_at(party as u8) + 5;
        if session.bytes()[steps..steps + 2] == 1001u16.to_be_bytes() {
            session.bytes_mut()[steps..steps + 2].copy_from_slice(&1000u16.to_be_bytes());
        }
    }
    answer
}

fn stopped(session: &mut Lent, party: u32) -> u64 {
    let answer = in_place::step(session.bytes_mut(), party);
    match entry(session.bytes(), party) {
        Some(entry) if entry.status == STOPPED => u64::from(entry.place) << 8,
        _ => answer,
    }
}

fn free_bits(session: &mut Lent, party: u32) -> u64 {
    let answer = in_place::step(session.bytes_mut(), party);
    let round = match entry(session.bytes(), party) {
        Some(entry) if entry.status == RUNNING => entry.round,
        _ => 0,
    };
    answer | u64::from(round) << 16
}

fn lowest_byte(session: &mut Lent, party: u32) -> u64 {
    in_place::step(session.bytes_mut(), party & 255)
}

fn unused_mark(session: &mut Lent, party: u32) -> u64 {
    let answer = in_place::step(session.bytes_mut(), party);
    if answer == 2 << 8 {
        if let Some(mark) = first_unused_mark(session.bytes()) {
            session.bytes_mut()[mark] = LOWER;
        }
    }
    answer
}

fn mark_past_units(session: &mut Lent, party: u32) -> u64 {
    let answer = in_place::step(session.bytes_mut(), party);
    if number(answer) == 9 && session.bytes().len() == SESSION {
        if let Some(mark) = first_unused_mark(session.bytes()) {
            return with(session, party, mark, 0);
        }
    }
    answer
}

fn changes(session: &mut Lent, party: u32) -> u64 {
    let answer = in_place::step(session.bytes_mut(), party);
    if number(answer) == 10 {
        add_steps(session, party_at(1), 1);
    }
    answer
}

/// Adds to the own steps of the party whose entry lies there.
fn add_steps(session: &mut Lent, entry: usize, more: u16) {
    let bytes = &mut session.bytes_mut()[entry + 5..entry + 7];
    let steps = u16::from_be_bytes([bytes[0], bytes[1]]);
    bytes.copy_from_slice(&steps.wrapping_add(more).to_be_bytes());
}
