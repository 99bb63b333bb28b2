//! Every worked case of document 01 as a unit test of the model: the sheet in hexadecimal, P1
//! to P10, the lister's example, and the errors that look right where they can be shown.

mod cases;
mod errors;
mod refusals;
mod sheets;

use super::run::{self, Entry};
use super::session::{self, Session};
use super::sheet::{self, Refusal};

pub const PROPOSALS: [u32; 3] = [500, 600, 700];

pub fn refusal(number: u8, position: u32) -> Refusal {
    Refusal { number, position }
}

pub fn hex(text: &str) -> Vec<u8> {
    text.split_whitespace()
        .filter(|word| *word != "|")
        .map(|word| u8::from_str_radix(word, 16).unwrap())
        .collect()
}

/// "builder sheets, kind 1, N = 2 with B = 3, N = 3 with B = 5"; P1 has N = 1, B = 3.
pub fn sheet_for(n: u32) -> Vec<u8> {
    sheet::built(1, if n == 3 { 5 } else { 3 }, n).unwrap()
}

pub fn open(n: u32) -> Session {
    session::open(&sheet_for(n), &PROPOSALS[..n as usize]).unwrap()
}

/// Obeys a schedule through the calls, and gives the places and statuses answered.
pub fn obey(session: &mut Session, schedule: &[u8]) -> Vec<u8> {
    schedule
        .iter()
        .map(|byte| match run::entry(16, *byte).unwrap() {
            Entry::Step(i) => session::step(session, u32::from(i)).unwrap(),
            Entry::Stop(i) => session::stop(session, u32::from(i)).unwrap(),
        })
        .collect()
}

/// Status, own steps and decision of a party.
pub fn state(session: &Session, i: u8) -> (u8, u16, u32) {
    let party = session.party(i);
    (party.status, party.steps, party.decision)
}

pub fn times(byte: u8, count: usize) -> Vec<u8> {
    vec![byte; count]
}
