//! The session: its data, the open, step, stop and live calls, and when a session is well formed
//! (document 01, "The session and one step").

use super::act::{act, halt};
use super::sheet::{self, refuse, Refusal, Row, Sheet, LARGEST_SHEET, MOST_PARTIES, MOST_UNITS};

/// "A unit holds a mark: empty 0, lower 1, higher 2."
pub const EMPTY: u8 = 0;
pub const LOWER: u8 = 1;
pub const HIGHER: u8 = 2;

/// "Statuses: 0 idle, 1 running, 2 decided, 3 stopped."
pub const IDLE: u8 = 0;
pub const RUNNING: u8 = 1;
pub const DECIDED: u8 = 2;
pub const STOPPED: u8 = 3;

/// "own steps are at most 1,000".
pub const MOST_STEPS: u16 = 1000;

/// "for each party: status, place, round, scan number k, candidate, own steps, decision".
#[derive(Clone, Copy, Debug, Default, PartialEq, Eq)]
pub struct Party {
    pub status: u8,
    pub place: u8,
    pub round: u8,
    pub k: u8,
    pub candidate: u8,
    pub steps: u16,
    pub decision: u32,
}

/// "A session keeps a copy of the sheet, N proposals, 1,024 marks, a published candidate for
/// each round and lower (0 = none), and for each party" its entry. The arrays have the largest
/// sizes; an entry for party i is at i − 1, the published candidate of round r and lower i at
/// [r − 1][i − 1].
#[derive(Clone, Debug, PartialEq, Eq)]
pub struct Session {
    pub sheet: [u8; LARGEST_SHEET],
    pub proposals: [u32; MOST_PARTIES],
    pub marks: [u8; MOST_UNITS],
    pub published: [[u8; MOST_PARTIES]; MOST_PARTIES],
    pub parties: [Party; MOST_PARTIES],
}

impl Session {
    /// Everything zero.
    pub fn zero() -> Session {
        Session {
            sheet: [0; LARGEST_SHEET],
            proposals: [0; MOST_PARTIES],
            marks: [0; MOST_UNITS],
            published: [[0; MOST_PARTIES]; MOST_PARTIES],
            parties: [Party::default(); MOST_PARTIES],
        }
    }

    /// The entry of party i.
    pub fn party(&self, i: u8) -> &Party {
        &self.parties[usize::from(i) - 1]
    }

    /// The entry of party i, to change.
    pub fn party_mut(&mut self, i: u8) -> &mut Party {
        &mut self.parties[usize::from(i) - 1]
    }

    /// The candidate that lower i published in round r.
    pub fn published(&self, round: u8, i: u8) -> u8 {
        self.published[usize::from(round) - 1][usize::from(i) - 1]
    }

    /// Stores the published candidate of round r and lower i.
    pub fn publish(&mut self, round: u8, i: u8, candidate: u8) {
        self.published[usize::from(round) - 1][usize::from(i) - 1] = candidate;
    }

    /// "one read step reads one unit".
    pub fn read(&self, unit: u32) -> u8 {
        self.marks[unit as usize]
    }

    /// "One write step stores one mark in all units of a write set at once".
    pub fn write(&mut self, row: &Row, mark: u8) {
        for unit in &row.set {
            self.marks[*unit as usize] = mark;
        }
    }
}

/// The open call. "Open: sheet, 7."
pub fn open(sheet_bytes: &[u8], proposals: &[u32]) -> Result<Session, Refusal> {
    let sheet = sheet::read(sheet_bytes)?;
    if proposals.len() != usize::from(sheet.parties()) {
        return refuse(7);
    }
    Ok(opened(&sheet, sheet_bytes, proposals))
}

/// "It is filled whole at opening, unused entries with zero; party i's candidate starts as i."
fn opened(sheet: &Sheet, sheet_bytes: &[u8], proposals: &[u32]) -> Session {
    let mut session = Session::zero();
    session.sheet[..sheet_bytes.len()].copy_from_slice(sheet_bytes);
    session.proposals[..proposals.len()].copy_from_slice(proposals);
    for i in 1..=sheet.parties() {
        session.party_mut(i).candidate = i;
    }
    session
}

/// The sheet that a session carries: as many bytes of the copy as its length field says.
fn carried(session: &Session) -> Option<Sheet> {
    let length = usize::from(u16::from_be_bytes([session.sheet[0], session.sheet[1]]));
    session
        .sheet
        .get(..length)
        .and_then(|bytes| sheet::read(bytes).ok())
}

/// "A session is well formed when: ..." Gives the carried sheet of a well-formed session.
pub fn well_formed(session: &Session) -> Option<Sheet> {
    // "the carried sheet is accepted".
    let sheet = carried(session)?;
    let good = marks_fit(session, &sheet)
        && published_fit(session, &sheet)
        && rest_is_zero(session, &sheet)
        && (1..=sheet.parties()).all(|i| party_fits(session, &sheet, i));
    good.then_some(sheet)
}

/// "marks 0 to 2".
fn marks_fit(session: &Session, sheet: &Sheet) -> bool {
    let units = usize::from(sheet.header.units);
    session.marks[..units].iter().all(|mark| *mark <= HIGHER)
}

/// Whether round r and lower i of the sheet have a published candidate.
fn is_published_entry(sheet: &Sheet, round: usize, i: usize) -> bool {
    (2..=usize::from(sheet.parties())).contains(&round) && (1..round).contains(&i)
}

/// "published candidates are 0 to N".
fn published_fit(session: &Session, sheet: &Sheet) -> bool {
    (2..=sheet.parties())
        .all(|round| (1..round).all(|i| session.published(round, i) <= sheet.parties()))
}

/// "entries beyond the sheet's counts are zero": bytes past the carried sheet, proposals and
/// parties past N, marks past the unit count, published candidates of no round and lower.
fn rest_is_zero(session: &Session, sheet: &Sheet) -> bool {
    let n = usize::from(sheet.parties());
    let units = usize::from(sheet.header.units);
    let length = usize::from(sheet.header.length);
    let published_rest = (1..=MOST_PARTIES).all(|round| {
        (1..=MOST_PARTIES).all(|i| {
            is_published_entry(sheet, round, i) || session.published[round - 1][i - 1] == 0
        })
    });
    session.sheet[length..].iter().all(|byte| *byte == 0)
        && session.proposals[n..].iter().all(|proposal| *proposal == 0)
        && session.marks[units..].iter().all(|mark| *mark == 0)
        && published_rest
        && session.parties[n..]
            .iter()
            .all(|party| *party == Party::default())
}

/// The rules for the entry of party i.
fn party_fits(session: &Session, sheet: &Sheet, i: u8) -> bool {
    let party = session.party(i);
    let n = sheet.parties();
    // "statuses are 0 to 3, places 0 to 8".
    party.status <= STOPPED
        && party.place <= 8
        // "candidates are 1 to N".
        && (1..=n).contains(&party.candidate)
        && round_fits(party, n, i)
        && k_fits(party)
        && place_fits(session, party, i)
        // "own steps are at most 1,000".
        && party.steps <= MOST_STEPS
        // "decided exactly at place 8".
        && (party.status == DECIDED) == (party.place == 8)
        // "idle exactly at place 0 unless stopped".
        && (party.status == STOPPED || (party.status == IDLE) == (party.place == 0))
        // "with no own steps at place 0".
        && (party.place != 0 || party.steps == 0)
        // "the decision is zero unless decided".
        && (party.status == DECIDED || party.decision == 0)
}

/// "round ... zero except that at places 1 to 6 the round is 2 to N and not below the party's
/// number".
fn round_fits(party: &Party, n: u8, i: u8) -> bool {
    if (1..=6).contains(&party.place) {
        (2..=n).contains(&party.round) && party.round >= i
    } else {
        party.round == 0
    }
}

/// "k ... zero except that ... at places 4 to 6 k is 1 to r − 1".
fn k_fits(party: &Party) -> bool {
    if (4..=6).contains(&party.place) {
        (1..party.round).contains(&party.k)
    } else {
        party.k == 0
    }
}

/// "places 1 and 3 are held only by lowers, place 6 only by the top with a published candidate
/// of k". Round and k are known to fit.
fn place_fits(session: &Session, party: &Party, i: u8) -> bool {
    match party.place {
        1 | 3 => i < party.round,
        6 => i == party.round && session.published(party.round, party.k) != 0,
        _ => true,
    }
}

/// The party number of a call (refusal 10: "party not 1 to N").
fn party_number(sheet: &Sheet, party: u32) -> Result<u8, Refusal> {
    if (1..=u32::from(sheet.parties())).contains(&party) {
        Ok(party as u8)
    } else {
        refuse(10)
    }
}

/// The step call. "Step and stop: 9, 10."
pub fn step(session: &mut Session, party: u32) -> Result<u8, Refusal> {
    let Some(sheet) = well_formed(session) else {
        return refuse(9);
    };
    let i = party_number(&sheet, party)?;
    Ok(act(session, &sheet, i))
}

/// The stop call. "Step and stop: 9, 10." It "answers the party's status afterwards".
pub fn stop(session: &mut Session, party: u32) -> Result<u8, Refusal> {
    let Some(sheet) = well_formed(session) else {
        return refuse(9);
    };
    let i = party_number(&sheet, party)?;
    Ok(halt(session, i))
}

/// The live call. "Live: 9." "The number of live parties (status 0 or 1) is worked out when
/// asked."
pub fn live(session: &Session) -> Result<u8, Refusal> {
    let Some(sheet) = well_formed(session) else {
        return refuse(9);
    };
    let alive = (1..=sheet.parties())
        .filter(|i| session.party(*i).status <= RUNNING)
        .count();
    Ok(alive as u8)
}
