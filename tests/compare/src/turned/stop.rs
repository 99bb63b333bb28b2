//! The stop call with a rule turned.

use super::entry::entry;
use super::{number, refusal, turned, Call, Turned};
use crate::ffi::{in_place, Lent};
use crate::model::layout::{party_at, SESSION};
use crate::model::session::{DECIDED, STOPPED};

pub const RULES: &[Turned] = &[
    turned(
        "stop-decided",
        "a party that has decided becomes stopped",
        Call::Stop(decided),
    ),
    turned(
        "stop-answer",
        "the answer is the party's status before",
        Call::Stop(status_before),
    ),
    turned(
        "stop-fetch",
        "the stop of a top at place 6 clears its k",
        Call::Stop(fetch),
    ),
    turned(
        "stop-10-before-9",
        "10 is given before 9",
        Call::Stop(ten_first),
    ),
    turned(
        "stop-unused-entry",
        "the stop of party N stops the unused entry after it too",
        Call::Stop(unused_entry),
    ),
    turned(
        "stop-refusal-changes",
        "refusal 9 makes the party stopped",
        Call::Stop(changes),
    ),
];

fn decided(session: &mut Lent, party: u32) -> u64 {
    let answer = in_place::stop(session.bytes_mut(), party);
    if answer == u64::from(DECIDED) << 8 {
        session.bytes_mut()[party_at(party as u8)] = STOPPED;
        return u64::from(STOPPED) << 8;
    }
    answer
}

fn status_before(session: &mut Lent, party: u32) -> u64 {
    let before = entry(session.bytes(), party);
    let answer = in_place::stop(session.bytes_mut(), party);
    before.map_or(answer, |entry| u64::from(entry.status) << 8)
}

fn fetch(session: &mut Lent, party: u32) -> u64 {
    let before = entry(session.bytes(), party);
    let answer = in_place::stop(session.bytes_mut(), party);
    if let Some(entry) = before.filter(|entry| entry.place == 6) {
        session.bytes_mut()[entry.at + 3] = 0;
    }
    answer
}

fn ten_first(session: &mut Lent, party: u32) -> u64 {
    let answer = in_place::stop(session.bytes_mut(), party);
    let bytes = session.bytes();
    if number(answer) == 9 && bytes.len() == SESSION && !(1..=u32::from(bytes[5])).contains(&party)
    {
        refusal(10, 0)
    } else {
        answer
    }
}

fn unused_entry(session: &mut Lent, party: u32) -> u64 {
    let answer = in_place::stop(session.bytes_mut(), party);
    if number(answer) == 0 && party < 16 && party == u32::from(session.bytes()[5]) {
        session.bytes_mut()[party_at(party as u8 + 1)] = STOPPED;
    }
    answer
}

fn changes(session: &mut Lent, party: u32) -> u64 {
    let answer = in_place::stop(session.bytes_mut(), party);
    if number(answer) == 9 && session.bytes().len() == SESSION && (1..=16).contains(&party) {
        session.bytes_mut()[party_at(party as u8)] = STOPPED;
    }
    answer
}
