//! The run and its record, and what the lister prints (document 01, "The run and its
//! record" and the lister's part of "Sessions worked through").

use super::act;
use super::session::{self, Party, Session, DECIDED, IDLE, RUNNING};
use super::sheet::{self, refuse, refuse_at, Refusal, Sheet};

/// An entry of a schedule.
#[derive(Clone, Copy, Debug, PartialEq, Eq)]
pub enum Entry {
    Step(u8),
    Stop(u8),
}

/// "byte i (1 to N) is a step of party i, byte 128 + i its stop".
pub fn entry(parties: u8, byte: u8) -> Option<Entry> {
    if (1..=parties).contains(&byte) {
        Some(Entry::Step(byte))
    } else if byte > 128 && (1..=parties).contains(&(byte - 128)) {
        Some(Entry::Stop(byte - 128))
    } else {
        None
    }
}

/// The length of a record: length (2), version (1), N (1), then 7 bytes for each party.
pub fn record_length(parties: usize) -> usize {
    4 + 7 * parties
}

/// "It opens a session and obeys each byte in turn." "Run: sheet, 7, 8, 11" (here without 11):
/// the sheet and the session at the end of the schedule.
pub fn play(
    sheet_bytes: &[u8],
    proposals: &[u32],
    schedule: &[u8],
) -> Result<(Sheet, Session), Refusal> {
    let sheet = sheet::read(sheet_bytes)?;
    let mut session = session::open(sheet_bytes, proposals)?;
    if let Some(index) = first_bad(sheet.parties(), schedule) {
        return refuse_at(8, index as u32);
    }
    for byte in schedule {
        match entry(sheet.parties(), *byte) {
            Some(Entry::Step(i)) => {
                act::act(&mut session, &sheet, i);
            }
            Some(Entry::Stop(i)) => {
                act::halt(&mut session, i);
            }
            None => unreachable!("bad bytes were refused"),
        }
    }
    Ok((sheet, session))
}

/// The index of the first bad byte. "In the host's run the byte at index 2^32 − 1 of a schedule,
/// if there is one, counts as a bad byte".
fn first_bad(parties: u8, schedule: &[u8]) -> Option<usize> {
    const LAST: usize = u32::MAX as usize;
    schedule
        .iter()
        .enumerate()
        .position(|(index, byte)| index == LAST || entry(parties, *byte).is_none())
}

/// "status (1), own steps (2), decision (4, zero unless decided)".
fn part(party: &Party) -> [u8; 7] {
    let decision = if party.status == DECIDED {
        party.decision
    } else {
        0
    };
    let mut bytes = [0; 7];
    bytes[0] = party.status;
    bytes[1..3].copy_from_slice(&party.steps.to_be_bytes());
    bytes[3..7].copy_from_slice(&decision.to_be_bytes());
    bytes
}

/// "Record: length (2), version 1 (1), N (1), then each party in 7 bytes".
pub fn record(sheet: &Sheet, session: &Session) -> Vec<u8> {
    let n = sheet.parties();
    let mut bytes = Vec::new();
    bytes.extend((record_length(usize::from(n)) as u16).to_be_bytes());
    bytes.extend([1, n]);
    for i in 1..=n {
        bytes.extend(part(session.party(i)));
    }
    bytes
}

/// The run. "Run: sheet, 7, 8, 11." "Bytes past the record keep their content."
pub fn run(
    sheet_bytes: &[u8],
    proposals: &[u32],
    schedule: &[u8],
    out: &mut [u8],
) -> Result<(), Refusal> {
    let (sheet, session) = play(sheet_bytes, proposals, schedule)?;
    let record = record(&sheet, &session);
    if out.len() < record.len() {
        return refuse(11);
    }
    out[..record.len()].copy_from_slice(&record);
    Ok(())
}

/// The lister: "reads at most 4,096 schedule bytes ..., ignores the rest, and runs them with
/// N = 2, B = 3, proposals 500 and 600".
pub fn lister(input: &[u8]) -> String {
    let schedule = &input[..input.len().min(4096)];
    let sheet = sheet::built(1, 3, 2).expect("P2's sheet is given");
    match play(&sheet, &[500, 600], schedule) {
        Ok((_, session)) => listing(2, schedule.len(), &session),
        // "A refused schedule prints one line, `refused 8 at ` and the index."
        Err(refusal) => format!("refused {} at {}\n", refusal.number, refusal.position),
    }
}

/// "The first line gives N and the schedule's length. Each other line gives party, status
/// (idle, running, decided, stopped), own steps, and decision or `-`."
fn listing(parties: u8, entries: usize, session: &Session) -> String {
    let mut text = format!("parties {parties} entries {entries}\n");
    for i in 1..=parties {
        let party = session.party(i);
        let status = match party.status {
            IDLE => "idle",
            RUNNING => "running",
            DECIDED => "decided",
            _ => "stopped",
        };
        let decision = if party.status == DECIDED {
            party.decision.to_string()
        } else {
            "-".to_string()
        };
        text += &format!("{i} {status} {} {decision}\n", party.steps);
    }
    text
}
