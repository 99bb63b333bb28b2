//! What a host in C sees: the session as 3,418 bytes, proposals as 4 bytes each, and the
//! numbers of one answer packed into 64 bits (document 01, "The session and one step", and the
//! design's part "The host interface").

use super::run;
use super::session::{self, Party, Session};
use super::sheet::{self, Refusal, LARGEST_SHEET, MOST_PARTIES, MOST_UNITS};

/// The parts of the session, in their order, each after the one before without gaps.
pub const SHEET_AT: usize = 0;
pub const PROPOSALS_AT: usize = SHEET_AT + LARGEST_SHEET;
pub const MARKS_AT: usize = PROPOSALS_AT + 4 * MOST_PARTIES;
pub const PUBLISHED_AT: usize = MARKS_AT + MOST_UNITS;
pub const PARTIES_AT: usize = PUBLISHED_AT + MOST_PARTIES * MOST_PARTIES;
/// "parties 16 × 11 (status 1, place 1, round 1, k 1, candidate 1, steps 2, decision 4)".
pub const PARTY: usize = 11;
/// "A session is 3,418 bytes".
pub const SESSION: usize = PARTIES_AT + MOST_PARTIES * PARTY;

/// Where the published candidate of round r and lower i lies.
pub fn published_at(round: u8, i: u8) -> usize {
    PUBLISHED_AT + (usize::from(round) - 1) * MOST_PARTIES + usize::from(i) - 1
}

/// Where the entry of party i lies.
pub fn party_at(i: u8) -> usize {
    PARTIES_AT + (usize::from(i) - 1) * PARTY
}

/// The bytes of a party's entry.
fn encode_party(party: &Party) -> [u8; PARTY] {
    let mut bytes = [0; PARTY];
    bytes[0] = party.status;
    bytes[1] = party.place;
    bytes[2] = party.round;
    bytes[3] = party.k;
    bytes[4] = party.candidate;
    bytes[5..7].copy_from_slice(&party.steps.to_be_bytes());
    bytes[7..11].copy_from_slice(&party.decision.to_be_bytes());
    bytes
}

/// The entry that a party's bytes stand for.
fn decode_party(bytes: &[u8]) -> Party {
    Party {
        status: bytes[0],
        place: bytes[1],
        round: bytes[2],
        k: bytes[3],
        candidate: bytes[4],
        steps: u16::from_be_bytes([bytes[5], bytes[6]]),
        decision: u32::from_be_bytes([bytes[7], bytes[8], bytes[9], bytes[10]]),
    }
}

/// The bytes of a session.
pub fn encode(session: &Session) -> Vec<u8> {
    let mut bytes = Vec::with_capacity(SESSION);
    bytes.extend(session.sheet);
    bytes.extend(session.proposals.iter().flat_map(|p| p.to_be_bytes()));
    bytes.extend(session.marks);
    bytes.extend(session.published.iter().flatten());
    bytes.extend(session.parties.iter().flat_map(encode_party));
    bytes
}

/// The session that 3,418 bytes stand for.
pub fn decode(bytes: &[u8]) -> Session {
    let mut session = Session::zero();
    session
        .sheet
        .copy_from_slice(&bytes[SHEET_AT..PROPOSALS_AT]);
    let proposals = decode_proposals(&bytes[PROPOSALS_AT..MARKS_AT]);
    session.proposals.copy_from_slice(&proposals);
    session
        .marks
        .copy_from_slice(&bytes[MARKS_AT..PUBLISHED_AT]);
    for (row, part) in session
        .published
        .iter_mut()
        .zip(bytes[PUBLISHED_AT..PARTIES_AT].chunks(MOST_PARTIES))
    {
        row.copy_from_slice(part);
    }
    for (party, part) in session
        .parties
        .iter_mut()
        .zip(bytes[PARTIES_AT..].chunks(PARTY))
    {
        *party = decode_party(part);
    }
    session
}

/// "proposals are 4 bytes each, big-endian".
fn decode_proposals(bytes: &[u8]) -> Vec<u32> {
    bytes
        .chunks_exact(4)
        .map(|four| u32::from_be_bytes([four[0], four[1], four[2], four[3]]))
        .collect()
}

/// "bits 0 to 7 the refusal number; bits 8 to 31 the value; bits 32 to 63 the position".
pub fn pack(answer: Result<u8, Refusal>) -> u64 {
    match answer {
        Ok(value) => u64::from(value) << 8,
        Err(refusal) => u64::from(refusal.number) | u64::from(refusal.position) << 32,
    }
}

/// The number, value and position in a packed answer.
pub fn unpack(answer: u64) -> (u8, u32, u32) {
    (
        answer as u8,
        (answer >> 8) as u32 & 0xFF_FFFF,
        (answer >> 32) as u32,
    )
}

/// The host's sheet check.
pub fn host_check(sheet: &[u8]) -> u64 {
    pack(sheet::check(sheet).map(|()| 0))
}

/// The host's builder.
pub fn host_build(kind: u32, bound: u32, parties: u32, out: &mut [u8]) -> u64 {
    pack(sheet::build(kind, bound, parties, out).map(|()| 0))
}

/// The host's proposals for the sheet, if "the proposal slice" is "of 4 × N bytes"; otherwise a
/// list of a wrong number, so that the call gives 7 in its order.
fn host_proposals(proposals: &[u8]) -> Vec<u32> {
    if proposals.len().is_multiple_of(4) {
        decode_proposals(proposals)
    } else {
        Vec::new()
    }
}

/// The host's open call. "A session slice of another length gets ... from the open call 11, last
/// in its order".
pub fn host_open(sheet: &[u8], proposals: &[u8], session: &mut [u8]) -> u64 {
    let opened = match session::open(sheet, &host_proposals(proposals)) {
        Ok(opened) => opened,
        Err(refusal) => return pack(Err(refusal)),
    };
    if session.len() != SESSION {
        return pack(sheet::refuse(11));
    }
    session.copy_from_slice(&encode(&opened));
    0
}

/// The host's step call. "A session slice of another length gets 9".
pub fn host_step(session: &mut [u8], party: u32) -> u64 {
    host_change(session, |decoded| session::step(decoded, party))
}

/// The host's stop call.
pub fn host_stop(session: &mut [u8], party: u32) -> u64 {
    host_change(session, |decoded| session::stop(decoded, party))
}

/// A call that changes the lent session.
fn host_change(session: &mut [u8], call: impl FnOnce(&mut Session) -> Result<u8, Refusal>) -> u64 {
    if session.len() != SESSION {
        return pack(sheet::refuse(9));
    }
    let mut decoded = decode(session);
    let answer = call(&mut decoded);
    // "Nothing lent is changed" by a refusal.
    if answer.is_ok() {
        session.copy_from_slice(&encode(&decoded));
    }
    pack(answer)
}

/// The host's live call. "The live call only reads it."
pub fn host_live(session: &[u8]) -> u64 {
    if session.len() != SESSION {
        return pack(sheet::refuse(9));
    }
    pack(session::live(&decode(session)))
}

/// The host's run.
pub fn host_run(sheet: &[u8], proposals: &[u8], schedule: &[u8], out: &mut [u8]) -> u64 {
    pack(run::run(sheet, &host_proposals(proposals), schedule, out).map(|()| 0))
}
