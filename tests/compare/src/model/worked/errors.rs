//! The errors that look right.

use super::{obey, open, refusal, sheet_for, state, times};
use crate::model::session::{self, DECIDED, EMPTY, HIGHER, LOWER, STOPPED};
use crate::model::sheet;

/// "Reading the pair unit before the own unit": with the right order the top never takes lower 1
/// for a witness; with the other order it does, and party 1 itself finds that the top won.
#[test]
fn error_pair_unit_read_before_own_unit() {
    let mut session = open(2);
    let sheet = sheet::read(&sheet_for(2)).unwrap();
    let lower = sheet.row(2, 1);
    obey(&mut session, &[1, 1, 2, 2]);
    let pair_first = session.read(lower.pair);
    obey(&mut session, &[1]);
    let own_then = session.read(lower.own);
    // The wrong order sees "marked" and "higher": a witness, although the top came first.
    assert_eq!((own_then, pair_first), (LOWER, HIGHER));
    // The right order, from here on, reads the pair unit after the own unit.
    obey(&mut session, &[2, 2, 2]);
    assert_eq!(state(&session, 2), (DECIDED, 5, 600));
    obey(&mut session, &times(1, 4));
    assert_eq!(state(&session, 1), (DECIDED, 7, 600));
}

/// "The mark that remains is the later writer's."
#[test]
fn error_last_mark_taken_for_the_winner() {
    let pair = sheet::read(&sheet_for(2)).unwrap().row(2, 1).pair;
    let mut session = open(2);
    obey(&mut session, &[1, 1, 1, 2, 2]);
    assert_eq!(session.read(pair), HIGHER);
    obey(&mut session, &[1, 1, 1, 1, 2, 2, 2, 2]);
    assert_eq!(session.party(1).decision, 500);
    assert_eq!(session.party(2).decision, 500);
    let mut session = open(2);
    obey(&mut session, &[2, 2, 1, 1, 1]);
    assert_eq!(session.read(pair), LOWER);
    obey(&mut session, &[1, 1, 1, 1, 2, 2, 2]);
    assert_eq!(session.party(1).decision, 600);
    assert_eq!(session.party(2).decision, 600);
}

/// "A lower that publishes after its write: a top can fetch nothing."
#[test]
fn error_publishing_after_the_write() {
    let mut session = open(2);
    obey(&mut session, &[1]);
    session.party_mut(1).place = 2;
    assert_eq!(obey(&mut session, &[1, 2, 2, 2, 2]), [2, 0, 2, 4, 5]);
    assert_eq!(session.party(2).place, 6);
    assert_eq!(session.published(2, 1), 0);
    assert_eq!(session::step(&mut session, 2), Err(refusal(9, 0)));
}

/// "A sheet whose top covers a lower's own unit: legal sets, no order left."
#[test]
fn error_top_covers_a_lowers_own_unit() {
    let mut bytes = sheet::built(2, 3, 2).unwrap();
    // The top writes all three units of the word, unit 0 (own unit of party 1) among them.
    bytes[8 + 14 + 9] = 7;
    assert_eq!(sheet::check(&bytes), Err(refusal(6, 1)));
    // Lower first or top first, the marks are the same where the top wrote last.
    let rows: Vec<Vec<usize>> = vec![vec![0, 2], vec![0, 1, 2]];
    let write = |marks: &mut [u8; 3], row: usize, mark: u8| {
        rows[row].iter().for_each(|unit| marks[*unit] = mark);
    };
    let mut lower_first = [EMPTY; 3];
    write(&mut lower_first, 0, LOWER);
    write(&mut lower_first, 1, HIGHER);
    let mut top_alone = [EMPTY; 3];
    write(&mut top_alone, 1, HIGHER);
    assert_eq!(lower_first, top_alone);
}

/// "Counting entries given to a decided or stopped party as own steps."
#[test]
fn error_counting_entries_of_a_finished_party() {
    let mut session = open(2);
    obey(&mut session, &times(2, 4));
    let before = session.clone();
    assert_eq!(obey(&mut session, &times(2, 3)), [8, 8, 8]);
    assert_eq!(session, before);
    assert_eq!(
        obey(&mut session, &[1, 129, 1, 1, 129, 130]),
        [0, 3, 8, 8, 3, 2]
    );
    assert_eq!(state(&session, 1), (STOPPED, 1, 0));
    assert_eq!(state(&session, 2), (DECIDED, 4, 600));
}
