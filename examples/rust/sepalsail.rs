//! The library's calls for Rust: sheets, sessions and runs as types, refusals as an enum.
//!
//! Only `core` is used and nothing is allocated. `unsafe` stands at the seven calls alone: each is
//! lent slices that Rust holds, so no pointer is null, and `&mut` keeps what is written apart from what is read.
#![allow(dead_code)] // a program need not make every call

mod calls {
    #[link(name = "sepalsail", kind = "static")]
    extern "C" {
        pub fn sepalsail_check(sheet: *const u8, sheet_len: usize) -> u64;
        pub fn sepalsail_build(
            kind: u32,
            bound: u32,
            parties: u32,
            out: *mut u8,
            out_len: usize,
        ) -> u64;
        pub fn sepalsail_open(
            sheet: *const u8,
            sheet_len: usize,
            proposals: *const u8,
            proposals_len: usize,
            session: *mut u8,
            session_len: usize,
        ) -> u64;
        pub fn sepalsail_step(session: *mut u8, session_len: usize, party: u32) -> u64;
        pub fn sepalsail_stop(session: *mut u8, session_len: usize, party: u32) -> u64;
        pub fn sepalsail_live(session: *const u8, session_len: usize) -> u64;
        pub fn sepalsail_run(
            sheet: *const u8,
            sheet_len: usize,
            proposals: *const u8,
            proposals_len: usize,
            schedule: *const u8,
            schedule_len: usize,
            out: *mut u8,
            out_len: usize,
        ) -> u64;
    }
}

const SHEET_MAX: usize = 1898;
const SESSION_SIZE: usize = 3418;
const RECORD_MAX: usize = 116;
const AT_PARTIES: usize = 3242;

/// Why a call refused. Rows are counted from 1, a schedule's bytes from 0.
#[derive(Clone, Copy, Debug, PartialEq, Eq)]
pub enum Refusal {
    Short,
    Version,
    Header,
    Length,
    Row(u32),
    Writer(u32),
    Proposals,
    Schedule(u32),
    Session,
    Party,
    Output,
    NoSheet,
}

/// What a call answers: a value, or why it refused.
pub type Answer<T> = Result<T, Refusal>;

/// The answer in a word: bits 0 to 7 the refusal, bits 8 to 31 the value, bits 32 to 63 the position.
fn answer(word: u64) -> Answer<u8> {
    let position = (word >> 32) as u32;
    Err(match word as u8 {
        0 => return Ok((word >> 8) as u8),
        1 => Refusal::Short,
        2 => Refusal::Version,
        3 => Refusal::Header,
        4 => Refusal::Length,
        5 => Refusal::Row(position),
        6 => Refusal::Writer(position),
        7 => Refusal::Proposals,
        8 => Refusal::Schedule(position),
        9 => Refusal::Session,
        10 => Refusal::Party,
        11 => Refusal::Output,
        12 => Refusal::NoSheet,
        number => unreachable!("refusal {number}"),
    })
}

/// What a step acted on.
#[derive(Clone, Copy, Debug, PartialEq, Eq)]
pub enum Place {
    Announce,
    Publish,
    Write,
    ReadTop,
    ReadOwn,
    ReadPair,
    Fetch,
    Decide,
    /// The party had decided or was stopped; nothing changed.
    Done,
}

#[derive(Clone, Copy, Debug, PartialEq, Eq)]
pub enum Status {
    Idle,
    Running,
    Decided,
    Stopped,
}

fn status(number: u8) -> Status {
    [
        Status::Idle,
        Status::Running,
        Status::Decided,
        Status::Stopped,
    ][usize::from(number)]
}

/// How a party stands.
#[derive(Clone, Copy, Debug, PartialEq, Eq)]
pub struct Standing {
    pub status: Status,
    pub steps: u16,
    /// The proposal that it has decided, if it has.
    pub decision: Option<u32>,
}

/// The standing in a status byte, and 2 and 4 bytes of own steps and decision.
fn standing(number: u8, rest: &[u8]) -> Standing {
    let status = status(number);
    Standing {
        status,
        steps: u16::from_be_bytes([rest[0], rest[1]]),
        decision: (status == Status::Decided)
            .then(|| u32::from_be_bytes([rest[2], rest[3], rest[4], rest[5]])),
    }
}

/// Where the entry of a party lies, if it is one of so many: entries of a size, from a start.
fn place(party: usize, parties: usize, start: usize, size: usize) -> Option<usize> {
    (1..=parties)
        .contains(&party)
        .then(|| start + size * (party - 1))
}

/// A sheet that the check has accepted.
#[derive(Clone, Debug)]
pub struct Sheet {
    bytes: [u8; SHEET_MAX],
    length: usize,
}

impl Sheet {
    /// Builds the sheet for a kind (1 or 2), a bound and a number of parties.
    pub fn build(kind: u32, bound: u32, parties: u32) -> Answer<Sheet> {
        let mut bytes = [0; SHEET_MAX];
        // SAFETY: the slice is `bytes`, and nothing else is lent.
        answer(unsafe {
            calls::sepalsail_build(kind, bound, parties, bytes.as_mut_ptr(), bytes.len())
        })?;
        let length = usize::from(u16::from_be_bytes([bytes[0], bytes[1]]));
        Ok(Sheet { bytes, length })
    }

    /// Takes a sheet that is accepted.
    pub fn accept(sheet: &[u8]) -> Answer<Sheet> {
        // SAFETY: the slice is `sheet`, which is only read.
        answer(unsafe { calls::sepalsail_check(sheet.as_ptr(), sheet.len()) })?;
        let mut bytes = [0; SHEET_MAX];
        bytes[..sheet.len()].copy_from_slice(sheet);
        Ok(Sheet {
            bytes,
            length: sheet.len(),
        })
    }

    pub fn bytes(&self) -> &[u8] {
        &self.bytes[..self.length]
    }

    pub fn parties(&self) -> usize {
        usize::from(self.bytes[5])
    }
}

/// Proposals as the calls take them, 4 bytes each, and their length. Of more than 16 the call is told 17, which no sheet has.
fn bytes_of(proposals: &[u32]) -> ([u8; 68], usize) {
    let mut bytes = [0; 68];
    for (four, proposal) in bytes.chunks_exact_mut(4).zip(proposals) {
        four.copy_from_slice(&proposal.to_be_bytes());
    }
    (bytes, 4 * proposals.len().min(17))
}

/// The state of one agreement.
#[derive(Clone, Debug)]
pub struct Session {
    bytes: [u8; SESSION_SIZE],
}

impl Session {
    /// Opens a session with a proposal for each party.
    pub fn open(sheet: &Sheet, proposals: &[u32]) -> Answer<Session> {
        let (proposals, count) = bytes_of(proposals);
        let mut bytes = [0; SESSION_SIZE];
        // SAFETY: the slices are `sheet`, `proposals` and `bytes`; the last is new, so it overlaps neither.
        answer(unsafe {
            calls::sepalsail_open(
                sheet.bytes.as_ptr(),
                sheet.length,
                proposals.as_ptr(),
                count,
                bytes.as_mut_ptr(),
                bytes.len(),
            )
        })?;
        Ok(Session { bytes })
    }

    /// One step of a party.
    pub fn step(&mut self, party: u32) -> Answer<Place> {
        use Place::*;
        // SAFETY: the slice is `self.bytes`, and nothing else is lent.
        let place =
            answer(unsafe { calls::sepalsail_step(self.bytes.as_mut_ptr(), SESSION_SIZE, party) })?;
        Ok([
            Announce, Publish, Write, ReadTop, ReadOwn, ReadPair, Fetch, Decide, Done,
        ][usize::from(place)])
    }

    /// Stops a party unless it has decided; answers its status afterwards.
    pub fn stop(&mut self, party: u32) -> Answer<Status> {
        // SAFETY: the slice is `self.bytes`, and nothing else is lent.
        answer(unsafe { calls::sepalsail_stop(self.bytes.as_mut_ptr(), SESSION_SIZE, party) })
            .map(status)
    }

    /// How many parties are idle or running.
    pub fn live(&self) -> Answer<u8> {
        // SAFETY: the slice is `self.bytes`, which is only read.
        answer(unsafe { calls::sepalsail_live(self.bytes.as_ptr(), SESSION_SIZE) })
    }

    /// How a party stands, counted from 1.
    pub fn party(&self, party: usize) -> Option<Standing> {
        let entry = place(party, usize::from(self.bytes[5]), AT_PARTIES, 11)?;
        Some(standing(
            self.bytes[entry],
            &self.bytes[entry + 5..entry + 11],
        ))
    }
}

/// The record of a run.
#[derive(Clone, Debug)]
pub struct Record {
    bytes: [u8; RECORD_MAX],
    length: usize,
}

impl Record {
    pub fn bytes(&self) -> &[u8] {
        &self.bytes[..self.length]
    }

    /// How a party stands, counted from 1.
    pub fn party(&self, party: usize) -> Option<Standing> {
        let entry = place(party, usize::from(self.bytes[3]), 4, 7)?;
        Some(standing(
            self.bytes[entry],
            &self.bytes[entry + 1..entry + 7],
        ))
    }
}

/// Runs a schedule: byte i is a step of party i, byte 128 + i its stop.
pub fn run(sheet: &Sheet, proposals: &[u32], schedule: &[u8]) -> Answer<Record> {
    let (proposals, count) = bytes_of(proposals);
    let mut bytes = [0; RECORD_MAX];
    // SAFETY: the slices are `sheet`, `proposals`, `schedule` and `bytes`; the last is new, so it overlaps none.
    answer(unsafe {
        calls::sepalsail_run(
            sheet.bytes.as_ptr(),
            sheet.length,
            proposals.as_ptr(),
            count,
            schedule.as_ptr(),
            schedule.len(),
            bytes.as_mut_ptr(),
            bytes.len(),
        )
    })?;
    let length = usize::from(u16::from_be_bytes([bytes[0], bytes[1]]));
    Ok(Record { bytes, length })
}
