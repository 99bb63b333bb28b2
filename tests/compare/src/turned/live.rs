//! The live call with a rule turned.

use super::entry::entry_of;
use super::{number, turned, Call, Turned};
use crate::ffi::{in_place, Lent};
use crate::model::layout::{party_at, published_at, SESSION};
use crate::model::session::{DECIDED, RUNNING};

pub const RULES: &[Turned] = &[
    turned(
        "live-decided",
        "a party that has decided counts as live",
        Call::Live(decided),
    ),
    turned(
        "live-sixteen",
        "16 live parties are 15",
        Call::Live(sixteen),
    ),
    turned(
        "live-fetch-nothing",
        "a session is well formed too with a top at place 6 and no candidate to fetch",
        Call::Live(fetch_nothing),
    ),
    turned(
        "live-1001-steps",
        "a session is well formed too with 1,001 own steps",
        Call::Live(more_steps),
    ),
    turned(
        "live-last-byte",
        "the last byte of an unused entry need not be zero",
        Call::Live(last_byte),
    ),
    turned(
        "live-refusal-counts",
        "refusal 9 has a live number where the session has its length",
        Call::Live(refusal_counts),
    ),
    turned(
        "live-refusal-changes",
        "refusal 9 changes the first byte of the lent session",
        Call::Live(changes),
    ),
];

/// The library's answer, or where that is 9 the one to a session changed like this.
fn or_mended(session: &mut Lent, mend: fn(&mut [u8])) -> u64 {
    let answer = in_place::live(session.bytes());
    if number(answer) != 9 || session.bytes().len() != SESSION {
        return answer;
    }
    let mut mended = session.bytes().to_vec();
    mend(&mut mended);
    in_place::live(&mended)
}

/// The parties of a session, by its sheet's header, which may be wrong.
fn parties(session: &[u8]) -> std::ops::RangeInclusive<u8> {
    1..=session[5].min(16)
}

fn decided(session: &mut Lent) -> u64 {
    let answer = in_place::live(session.bytes());
    if number(answer) != 0 {
        return answer;
    }
    let bytes = session.bytes();
    let decided = parties(bytes).filter(|i| entry_of(bytes, *i).status == DECIDED);
    answer + ((decided.count() as u64) << 8)
}

fn sixteen(session: &mut Lent) -> u64 {
    let answer = in_place::live(session.bytes());
    if answer == 16 << 8 {
        15 << 8
    } else {
        answer
    }
}

fn fetch_nothing(session: &mut Lent) -> u64 {
    or_mended(session, |session| {
        for i in parties(session) {
            let entry = entry_of(session, i);
            if entry.place == 6 && entry.round == i && (1..i).contains(&entry.k) {
                let published = &mut session[published_at(entry.round, entry.k)];
                *published = 1.max(*published);
            }
        }
    })
}

fn more_steps(session: &mut Lent) -> u64 {
    or_mended(session, |session| {
        for i in parties(session) {
            let steps = party_at(i) + 5;
            if session[steps..steps + 2] == 1001u16.to_be_bytes() {
                session[steps + 1] -= 1;
            }
        }
    })
}

fn last_byte(session: &mut Lent) -> u64 {
    or_mended(session, |session| {
        if session[5] < 16 {
            session[SESSION - 1] = 0;
        }
    })
}

fn refusal_counts(session: &mut Lent) -> u64 {
    let answer = in_place::live(session.bytes());
    if number(answer) != 9 || session.bytes().len() != SESSION {
        return answer;
    }
    let bytes = session.bytes();
    let live = parties(bytes).filter(|i| entry_of(bytes, *i).status <= RUNNING);
    answer | (live.count() as u64) << 8
}

fn changes(session: &mut Lent) -> u64 {
    let answer = in_place::live(session.bytes());
    if let (9, Some(first)) = (number(answer), session.bytes_mut().first_mut()) {
        *first ^= 1;
    }
    answer
}
