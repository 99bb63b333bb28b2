//! Sessions in the host's layout: opened ones, well-formed ones that no run needs to reach, and
//! damaged ones.

use crate::model::layout::{self, party_at, published_at, SESSION};
use crate::model::session::{self, Party, Session, DECIDED, IDLE, RUNNING, STOPPED};
use crate::model::sheet;
use crate::rng::Rng;

/// A session opened by the model.
pub fn opened(sheet: &[u8], proposals: &[u8]) -> Vec<u8> {
    let mut bytes = vec![0; SESSION];
    assert_eq!(layout::host_open(sheet, proposals, &mut bytes), 0);
    bytes
}

/// The session after one entry of a schedule, by the model.
pub fn after(session: &[u8], byte: u8) -> Vec<u8> {
    let mut next = session.to_vec();
    if byte < 128 {
        layout::host_step(&mut next, u32::from(byte));
    } else {
        layout::host_stop(&mut next, u32::from(byte - 128));
    }
    next
}

/// A well-formed session with random entries; most of them no run reaches.
pub fn odd(rng: &mut Rng, sheet_bytes: &[u8], proposals: &[u8]) -> Vec<u8> {
    let sheet = sheet::read(sheet_bytes).expect("the sheet is good");
    let n = sheet.parties();
    let mut session = layout::decode(&opened(sheet_bytes, proposals));
    let marks = rng.below(4);
    for unit in 0..usize::from(sheet.header.units) {
        session.marks[unit] = match marks {
            0 => rng.below(3) as u8,
            1 => rng.below(2) as u8 * 2,
            2 => u8::from(rng.once_in(3)),
            _ => rng.pick(&[0, 0, 0, 1, 2]),
        };
    }
    let empty = rng.from_to(1, 4);
    for round in 2..=n {
        for i in 1..round {
            let candidate = if rng.once_in(empty) {
                0
            } else {
                rng.below(usize::from(n) + 1) as u8
            };
            session.publish(round, i, candidate);
        }
    }
    for i in 1..=n {
        *session.party_mut(i) = odd_party(rng, &session, n, i);
    }
    debug_assert!(session::well_formed(&session).is_some());
    layout::encode(&session)
}

/// A well-formed entry of party i.
fn odd_party(rng: &mut Rng, session: &Session, n: u8, i: u8) -> Party {
    let mut party = Party {
        candidate: rng.from_to(1, usize::from(n)) as u8,
        ..Party::default()
    };
    let place = rng.below(9) as u8;
    let lowest = usize::from(i.max(2));
    // Places 1 and 3 need a round above i, place 6 a published candidate in round i.
    let published: Vec<u8> = (1..i).filter(|k| session.published(i, *k) != 0).collect();
    let possible = match place {
        1 | 3 => i < n,
        2 | 4 | 5 => n >= 2,
        6 => !published.is_empty(),
        _ => true,
    };
    party.place = if possible { place } else { 7 };
    match party.place {
        1 | 3 => party.round = rng.from_to(usize::from(i + 1).max(2), usize::from(n)) as u8,
        2 | 4 | 5 => party.round = rng.from_to(lowest, usize::from(n)) as u8,
        6 => {
            party.round = i;
            party.k = rng.pick(&published);
        }
        _ => {}
    }
    if party.place == 4 || party.place == 5 {
        // The last k of a round is where most happens.
        let last = usize::from(party.round) - 1;
        party.k = if rng.once_in(2) {
            last
        } else {
            rng.from_to(1, last)
        } as u8;
    }
    let stopped = rng.once_in(6);
    party.status = match party.place {
        8 => DECIDED,
        _ if stopped => STOPPED,
        0 => IDLE,
        _ => RUNNING,
    };
    if party.place != 0 {
        party.steps = match rng.below(8) {
            0 => 1000,
            1 => 999,
            2 => rng.pick(&[0, 255, 256]),
            _ => rng.below(1001) as u16,
        };
    }
    if party.place == 8 {
        party.decision = rng.bits() as u32;
    }
    party
}

/// The parts of a session that are damaged one by one.
pub const FIELDS: [&str; 18] = [
    "session damaged in sheet header",
    "session damaged in sheet rows",
    "session damaged in bytes past the sheet",
    "session damaged in proposals of N",
    "session damaged in proposals past N",
    "session damaged in marks of the units",
    "session damaged in marks past the units",
    "session damaged in published candidates",
    "session damaged in published entries of no round and lower",
    "session damaged in status",
    "session damaged in place",
    "session damaged in round",
    "session damaged in k",
    "session damaged in candidate",
    "session damaged in steps",
    "session damaged in decision",
    "session damaged in entries past N",
    "session damaged in any byte",
];

/// Changes one field of a session; false if this session has no such field.
pub fn damage(rng: &mut Rng, bytes: &mut [u8], field: usize) -> bool {
    let n = usize::from(bytes[5]);
    let units = usize::from(u16::from_be_bytes([bytes[6], bytes[7]]));
    let length = usize::from(u16::from_be_bytes([bytes[0], bytes[1]]));
    let small = |rng: &mut Rng| -> u8 {
        match rng.below(6) {
            0 => n as u8,
            1 => n as u8 + 1,
            2 => rng.pick(&[1, 2, 3, 4, 255]),
            3 => rng.byte(),
            _ => rng.below(18) as u8,
        }
    };
    let party = rng.from_to(1, n) as u8;
    let within =
        |rng: &mut Rng, from: usize, to: usize| (from < to).then(|| from + rng.below(to - from));
    let entry = party_at(party);
    let at = match field {
        0 => Some(rng.below(8)),
        1 => within(rng, 8, length),
        2 => within(rng, length, layout::PROPOSALS_AT),
        3 => within(rng, layout::PROPOSALS_AT, layout::PROPOSALS_AT + 4 * n),
        4 => within(rng, layout::PROPOSALS_AT + 4 * n, layout::MARKS_AT),
        5 => within(rng, layout::MARKS_AT, layout::MARKS_AT + units),
        6 => {
            // The first unit past the count is the one most easily forgotten.
            let first = layout::MARKS_AT + units;
            if rng.once_in(3) && units < 1024 {
                Some(first)
            } else {
                within(rng, first, layout::PUBLISHED_AT)
            }
        }
        7 => {
            let round = rng.from_to(2, n.max(2)) as u8;
            (n >= 2).then(|| published_at(round, rng.from_to(1, usize::from(round) - 1) as u8))
        }
        8 => {
            let (round, i) = loop {
                let round = rng.from_to(1, 16);
                let i = rng.from_to(1, 16);
                if round > n || round < 2 || i >= round {
                    break (round as u8, i as u8);
                }
            };
            Some(published_at(round, i))
        }
        9..=13 => Some(entry + field - 9),
        14 => {
            let steps: u16 = match rng.below(4) {
                0 => 1000,
                1 => 1001,
                2 => rng.below(1100) as u16,
                _ => rng.bits() as u16,
            };
            bytes[entry + 5..entry + 7].copy_from_slice(&steps.to_be_bytes());
            return true;
        }
        15 => Some(entry + 7 + rng.below(4)),
        16 => within(rng, party_at(n as u8) + layout::PARTY, SESSION),
        _ => Some(rng.below(SESSION)),
    };
    let Some(at) = at else {
        return false;
    };
    bytes[at] = match rng.below(5) {
        0 => bytes[at] ^ 1 << rng.below(8),
        1 => bytes[at].wrapping_add(1),
        2 => bytes[at].wrapping_sub(1),
        _ => small(rng),
    };
    true
}

/// Several fields of one party's entry set together, so that rules that hang together are met.
pub fn rewrite_party(rng: &mut Rng, bytes: &mut [u8]) {
    let n = usize::from(bytes[5]);
    let at = party_at(rng.from_to(1, n) as u8);
    bytes[at] = rng.below(5) as u8;
    bytes[at + 1] = rng.below(10) as u8;
    bytes[at + 2] = rng.below(n + 2) as u8;
    bytes[at + 3] = rng.below(n + 2) as u8;
    if rng.once_in(4) {
        bytes[at + 4] = rng.below(n + 2) as u8;
    }
    if rng.once_in(2) {
        let steps = rng.pick(&[0u16, 0, 1, 7, 1000, 1001]);
        bytes[at + 5..at + 7].copy_from_slice(&steps.to_be_bytes());
    }
    if rng.once_in(2) {
        let decision = rng.pick(&[0u32, 0, 1, 500, u32::MAX]);
        bytes[at + 7..at + 11].copy_from_slice(&decision.to_be_bytes());
    }
}

/// A party number of a call that is not 1 to N.
pub fn wrong_party(rng: &mut Rng, parties: usize) -> u32 {
    let n = parties as u32;
    match rng.below(8) {
        0 => 0,
        1 => n + 1,
        2 => 256 + 1,
        3 => 256 + n,
        4 => u32::MAX,
        5 => 0x8000_0000 + 1,
        6 => 65_536 + 1,
        _ => n + 1 + rng.below(300) as u32,
    }
}
