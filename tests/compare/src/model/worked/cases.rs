//! P1 to P9, the lister's example, stop and live.

use super::{hex, obey, open, refusal, sheet_for, state, times, PROPOSALS};
use crate::model::run::{self, record};
use crate::model::session::{self, DECIDED, IDLE, RUNNING, STOPPED};

#[test]
fn p1_one_party_decides_at_step_2() {
    let mut session = open(1);
    assert_eq!(obey(&mut session, &times(1, 1)), [0]);
    assert_eq!(state(&session, 1), (RUNNING, 1, 0));
    assert_eq!(obey(&mut session, &times(1, 1)), [7]);
    assert_eq!(state(&session, 1), (DECIDED, 2, 500));
}

#[test]
fn p2_party_1_alone_and_the_record() {
    let mut session = open(2);
    assert_eq!(obey(&mut session, &times(1, 5)), [0, 1, 2, 3, 7]);
    assert_eq!(state(&session, 1), (DECIDED, 5, 500));
    let expected = hex("00 12 01 02 02 00 05 00 00 01 F4 00 00 00 00 00 00 00");
    let mut out = [0xEE; 20];
    let answer = run::run(&sheet_for(2), &PROPOSALS[..2], &times(1, 5), &mut out);
    assert_eq!(answer, Ok(()));
    assert_eq!(out[..18], expected[..]);
    assert_eq!(out[18..], [0xEE, 0xEE]);
    let (sheet, session) = run::play(&sheet_for(2), &PROPOSALS[..2], &times(1, 5)).unwrap();
    assert_eq!(record(&sheet, &session), expected);
}

#[test]
fn p3_party_2_alone() {
    let mut session = open(2);
    assert_eq!(obey(&mut session, &times(2, 4)), [0, 2, 4, 7]);
    assert_eq!(state(&session, 2), (DECIDED, 4, 600));
}

#[test]
fn p4_the_top_writes_first() {
    let mut session = open(2);
    obey(&mut session, &[2, 2]);
    assert_eq!(obey(&mut session, &times(1, 7)), [0, 1, 2, 3, 4, 5, 7]);
    assert_eq!(state(&session, 1), (DECIDED, 7, 600));
    obey(&mut session, &times(2, 3));
    assert_eq!(state(&session, 2), (DECIDED, 5, 600));
}

#[test]
fn p5_the_lower_writes_first() {
    let mut session = open(2);
    obey(&mut session, &times(1, 3));
    assert_eq!(obey(&mut session, &times(2, 6)), [0, 2, 4, 5, 6, 7]);
    assert_eq!(state(&session, 2), (DECIDED, 6, 500));
    obey(&mut session, &times(1, 4));
    assert_eq!(state(&session, 1), (DECIDED, 7, 500));
}

#[test]
fn p6_a_party_stopped_before_its_write() {
    let mut session = open(2);
    assert_eq!(
        obey(&mut session, &[1, 1, 129, 2, 2, 2, 2]),
        [0, 1, 3, 0, 2, 4, 7]
    );
    assert_eq!(state(&session, 2), (DECIDED, 4, 600));
}

#[test]
fn p7_a_party_stopped_after_its_write() {
    let mut session = open(2);
    obey(&mut session, &[1, 1, 1, 129]);
    obey(&mut session, &times(2, 6));
    assert_eq!(state(&session, 2), (DECIDED, 6, 500));
    assert_eq!(state(&session, 1), (STOPPED, 3, 0));
}

#[test]
fn p8_three_parties_one_after_the_other() {
    let mut session = open(3);
    for (i, steps) in [(1, 8), (2, 9), (3, 6)] {
        let answers = obey(&mut session, &times(i, usize::from(steps)));
        assert!(answers.iter().all(|place| *place != 8));
        assert_eq!(state(&session, i), (DECIDED, steps, 500));
    }
}

#[test]
fn p9_party_3_alone() {
    let mut session = open(3);
    obey(&mut session, &times(3, 5));
    assert_eq!(state(&session, 3), (DECIDED, 5, 700));
}

#[test]
fn the_lister_prints_exactly() {
    let mut input = vec![2, 2];
    input.extend(times(1, 7));
    assert_eq!(
        run::lister(&input),
        "parties 2 entries 9\n1 decided 7 600\n2 running 2 -\n"
    );
    assert_eq!(
        run::lister(&[]),
        "parties 2 entries 0\n1 idle 0 -\n2 idle 0 -\n"
    );
    assert_eq!(run::lister(&[1, 129, 3]), "refused 8 at 2\n");
    // "reads at most 4,096 schedule bytes ..., ignores the rest".
    let mut long = times(1, 4096);
    long.push(3);
    assert_eq!(
        run::lister(&long),
        "parties 2 entries 4096\n1 decided 5 500\n2 idle 0 -\n"
    );
}

#[test]
fn stop_and_live() {
    let mut session = open(3);
    assert_eq!(session::live(&session), Ok(3));
    assert_eq!(session::stop(&mut session, 2), Ok(STOPPED));
    assert_eq!(session::stop(&mut session, 2), Ok(STOPPED));
    assert_eq!(session::live(&session), Ok(2));
    obey(&mut session, &times(3, 5));
    assert_eq!(session::stop(&mut session, 3), Ok(DECIDED));
    assert_eq!(session::live(&session), Ok(1));
    for party in [0, 4, 257, u32::MAX] {
        assert_eq!(session::step(&mut session, party), Err(refusal(10, 0)));
        assert_eq!(session::stop(&mut session, party), Err(refusal(10, 0)));
    }
}

/// A stop before the first step leaves no own steps and place 0.
#[test]
fn a_party_stopped_while_idle() {
    let mut session = open(2);
    assert_eq!(session.party(1).status, IDLE);
    assert_eq!(obey(&mut session, &[129, 1, 1]), [3, 8, 8]);
    assert_eq!(state(&session, 1), (STOPPED, 0, 0));
    assert_eq!(session.party(1).place, 0);
    assert_eq!(session::live(&session), Ok(1));
}
