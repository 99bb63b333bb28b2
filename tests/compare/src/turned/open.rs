//! The open call with a rule turned.

use super::{number, refusal, turned, Call, Turned};
use crate::ffi::{in_place, Lent};
use crate::model::layout::{party_at, PUBLISHED_AT, SESSION};

pub const RULES: &[Turned] = &[
    turned(
        "open-candidate-16",
        "the candidate of party 16 starts as 0",
        Call::Open(candidate_16),
    ),
    turned(
        "open-unused-mark",
        "the last mark keeps what it held where the sheet has fewer units",
        Call::Open(unused_mark),
    ),
    turned(
        "open-proposals-rest",
        "up to 3 bytes past the proposals are let through",
        Call::Open(proposals_rest),
    ),
    turned(
        "open-row-128",
        "the position keeps 7 bits, so that rows 128 to 135 lose one",
        Call::Open(seven_bits),
    ),
    turned(
        "open-11-before-7",
        "11 is given before 7",
        Call::Open(eleven_first),
    ),
    turned(
        "open-changes-proposals",
        "the last proposal's last byte is changed where it is lent, and only there",
        Call::Open(changes_proposals),
    ),
    turned(
        "open-refusal-changes",
        "refusal 7 changes the first byte of the session",
        Call::Open(changes),
    ),
];

/// The library's call.
fn truly(sheet: &Lent, proposals: &Lent, session: &mut Lent) -> u64 {
    in_place::open(sheet.bytes(), proposals.bytes(), session.bytes_mut())
}

fn candidate_16(sheet: &mut Lent, proposals: &mut Lent, session: &mut Lent) -> u64 {
    let answer = truly(sheet, proposals, session);
    if number(answer) == 0 && sheet.bytes()[5] == 16 {
        session.bytes_mut()[party_at(16) + 4] = 0;
    }
    answer
}

fn unused_mark(sheet: &mut Lent, proposals: &mut Lent, session: &mut Lent) -> u64 {
    const LAST: usize = PUBLISHED_AT - 1;
    let before = session.bytes().get(LAST).copied().unwrap_or(0);
    let answer = truly(sheet, proposals, session);
    if number(answer) == 0 && sheet.bytes()[6..8] != [4, 0] {
        session.bytes_mut()[LAST] = before;
    }
    answer
}

fn proposals_rest(sheet: &mut Lent, proposals: &mut Lent, session: &mut Lent) -> u64 {
    let answer = truly(sheet, proposals, session);
    let given = proposals.bytes();
    if number(answer) == 7 {
        let whole = &given[..given.len() / 4 * 4];
        return in_place::open(sheet.bytes(), whole, session.bytes_mut());
    }
    answer
}

fn seven_bits(sheet: &mut Lent, proposals: &mut Lent, session: &mut Lent) -> u64 {
    let answer = truly(sheet, proposals, session);
    answer & !(1 << (32 + 7))
}

fn eleven_first(sheet: &mut Lent, proposals: &mut Lent, session: &mut Lent) -> u64 {
    let answer = truly(sheet, proposals, session);
    if number(answer) == 7 && session.bytes().len() != SESSION {
        refusal(11, 0)
    } else {
        answer
    }
}

fn changes_proposals(sheet: &mut Lent, proposals: &mut Lent, session: &mut Lent) -> u64 {
    let answer = truly(sheet, proposals, session);
    if number(answer) == 0 {
        *proposals.bytes_mut().last_mut().expect("N is at least 1") ^= 1;
    }
    answer
}

fn changes(sheet: &mut Lent, proposals: &mut Lent, session: &mut Lent) -> u64 {
    let answer = truly(sheet, proposals, session);
    if let (7, Some(first)) = (number(answer), session.bytes_mut().first_mut()) {
        *first ^= 1;
    }
    answer
}
