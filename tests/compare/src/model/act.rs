//! One act: what a step does at each place, and what a stop does, in a session that is well
//! formed (document 01, "The session and one step").

use super::session::{Party, Session, DECIDED, EMPTY, HIGHER, LOWER, RUNNING, STOPPED};
use super::sheet::Sheet;

/// "A stop makes a party stopped unless it has decided; stopping it twice changes nothing."
pub fn halt(session: &mut Session, i: u8) -> u8 {
    let party = session.party_mut(i);
    if party.status != DECIDED {
        party.status = STOPPED;
    }
    party.status
}

/// One step of party i in a session that is well formed with this sheet. "The step call answers
/// the place acted on (0 to 7), or 8 if the party had decided or stopped, when nothing changes."
pub fn act(session: &mut Session, sheet: &Sheet, i: u8) -> u8 {
    let before = *session.party(i);
    if before.status == DECIDED || before.status == STOPPED {
        return 8;
    }
    match before.place {
        0 => announce(session, sheet, i),
        1 => publish(session, i),
        2 => write(session, sheet, i),
        3 => read_top(session, sheet, i),
        4 => read_own(session, sheet, i),
        5 => read_pair(session, sheet, i),
        6 => fetch(session, sheet, i),
        _ => decide(session, i),
    }
    // "Each such act is one own step."
    session.party_mut(i).steps += 1;
    before.place
}

/// Sends party i to a place. "Round and k become zero where the new place has none."
fn go(session: &mut Session, i: u8, place: u8, round: u8, k: u8) {
    let party = session.party_mut(i);
    party.place = place;
    party.round = round;
    party.k = k;
}

/// Entering a round: "(Lowers enter a round here [at 1], the top at 2.)"
fn enter(session: &mut Session, i: u8, round: u8) {
    go(session, i, if i == round { 2 } else { 1 }, round, 0);
}

/// Place 0. "Announce: status 1. Then enter round 2 (party 1) or round i (party i from 2 up);
/// if N = 1 go to 7."
fn announce(session: &mut Session, sheet: &Sheet, i: u8) {
    session.party_mut(i).status = RUNNING;
    if sheet.parties() == 1 {
        go(session, i, 7, 0, 0);
    } else {
        enter(session, i, i.max(2));
    }
}

/// Place 1. "Publish: store the candidate for this round and party. Go to 2."
fn publish(session: &mut Session, i: u8) {
    let Party {
        round, candidate, ..
    } = *session.party(i);
    session.publish(round, i, candidate);
    go(session, i, 2, round, 0);
}

/// Place 2. "Write the row's set: higher for the top, lower for others. Top goes to 4 with
/// k = 1, lowers to 3."
fn write(session: &mut Session, sheet: &Sheet, i: u8) {
    let round = session.party(i).round;
    if i == round {
        session.write(sheet.row(round, i), HIGHER);
        go(session, i, 4, round, 1);
    } else {
        session.write(sheet.row(round, i), LOWER);
        go(session, i, 3, round, 0);
    }
}

/// Place 3. "Read the top's own unit. Empty: the lowers win. Marked: go to 4 with k = 1."
fn read_top(session: &mut Session, sheet: &Sheet, i: u8) {
    let round = session.party(i).round;
    if session.read(sheet.top(round).own) == EMPTY {
        lowers_win(session, sheet, i);
    } else {
        go(session, i, 4, round, 1);
    }
}

/// Place 4. "Read the own unit of lower k. Empty: next k. Marked: go to 5."
fn read_own(session: &mut Session, sheet: &Sheet, i: u8) {
    let Party { round, k, .. } = *session.party(i);
    if session.read(sheet.row(round, k).own) == EMPTY {
        next_k(session, sheet, i);
    } else {
        go(session, i, 5, round, k);
    }
}

/// Place 5. "Read the pair unit of lower k. Higher: the lowers win, k is the witness.
/// Otherwise next k."
fn read_pair(session: &mut Session, sheet: &Sheet, i: u8) {
    let Party { round, k, .. } = *session.party(i);
    if session.read(sheet.row(round, k).pair) == HIGHER {
        lowers_win(session, sheet, i);
    } else {
        next_k(session, sheet, i);
    }
}

/// Place 6. "Fetch: the candidate becomes the one published in this round by k."
fn fetch(session: &mut Session, sheet: &Sheet, i: u8) {
    let Party { round, k, .. } = *session.party(i);
    session.party_mut(i).candidate = session.published(round, k);
    leave(session, sheet, i);
}

/// Place 7. "Read the candidate's proposal: decide it, status 2, go to 8."
fn decide(session: &mut Session, i: u8) {
    let candidate = usize::from(session.party(i).candidate);
    let decision = session.proposals[candidate - 1];
    let party = session.party_mut(i);
    party.decision = decision;
    party.status = DECIDED;
    go(session, i, 8, 0, 0);
}

/// "'Next k' means place 4 with k one more; after k = r − 1 it means that the top wins, and the
/// acting party's candidate becomes r".
fn next_k(session: &mut Session, sheet: &Sheet, i: u8) {
    let Party { round, k, .. } = *session.party(i);
    if k < round - 1 {
        go(session, i, 4, round, k + 1);
    } else {
        session.party_mut(i).candidate = round;
        leave(session, sheet, i);
    }
}

/// "If the lowers win, a lower keeps its candidate and a top goes to 6 first."
fn lowers_win(session: &mut Session, sheet: &Sheet, i: u8) {
    let Party { round, k, .. } = *session.party(i);
    if i == round {
        go(session, i, 6, round, k);
    } else {
        leave(session, sheet, i);
    }
}

/// "A round won either way leads to the next round, or after round N to 7."
fn leave(session: &mut Session, sheet: &Sheet, i: u8) {
    let round = session.party(i).round;
    if round < sheet.parties() {
        enter(session, i, round + 1);
    } else {
        go(session, i, 7, 0, 0);
    }
}
