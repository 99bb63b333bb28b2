//! The refusals of each call in their order, and the host's layout.

use super::{obey, open, refusal, sheet_for, PROPOSALS};
use crate::model::layout::{self, SESSION};
use crate::model::{run, session, sheet};

#[test]
fn refusals_of_the_sheet_in_their_order() {
    let good = sheet_for(2);
    let with = |at: usize, byte: u8| {
        let mut bytes = good.clone();
        bytes[at] = byte;
        bytes
    };
    assert_eq!(sheet::check(&good[..7]), Err(refusal(1, 0)));
    assert_eq!(sheet::check(&with(2, 0)), Err(refusal(2, 0)));
    for (at, byte) in [(3, 0), (3, 3), (4, 0), (4, 65), (5, 0), (5, 17), (6, 5)] {
        assert_eq!(sheet::check(&with(at, byte)), Err(refusal(3, 0)));
    }
    assert_eq!(sheet::check(&with(7, 0)), Err(refusal(3, 0)));
    assert_eq!(sheet::check(&with(1, 0x23)), Err(refusal(4, 0)));
    assert_eq!(sheet::check(&good[..35]), Err(refusal(4, 0)));
    assert_eq!(sheet::check(&with(7, 5)), Err(refusal(5, 2)));
    // Row 1: start 3 is no multiple of 2. Row 2: a top's pair field is not zero.
    assert_eq!(sheet::check(&with(9, 3)), Err(refusal(5, 1)));
    assert_eq!(sheet::check(&with(35, 3)), Err(refusal(5, 2)));
    // Own units that another row writes: unit 3 is in both sets.
    assert_eq!(sheet::check(&with(19, 3)), Err(refusal(6, 1)));
    assert_eq!(sheet::check(&with(33, 3)), Err(refusal(6, 2)));
    // A pair unit that the top does not write.
    assert_eq!(sheet::check(&with(21, 2)), Err(refusal(6, 1)));
    // Row rule for all rows before the writer rule.
    let mut both = with(19, 3);
    both[35] = 3;
    assert_eq!(sheet::check(&both), Err(refusal(5, 2)));
}

#[test]
fn builder_refusals_in_their_order() {
    let mut out = [7; 35];
    assert_eq!(sheet::build(0, 3, 2, &mut out), Err(refusal(3, 0)));
    assert_eq!(sheet::build(257, 3, 2, &mut out), Err(refusal(3, 0)));
    assert_eq!(sheet::build(1, 2, 2, &mut []), Err(refusal(12, 0)));
    assert_eq!(sheet::build(1, 3, 2, &mut out), Err(refusal(11, 0)));
    assert_eq!(out, [7; 35]);
    let mut out = [7; 38];
    assert_eq!(sheet::build(1, 3, 2, &mut out), Ok(()));
    assert_eq!(out[..36], sheet_for(2)[..]);
    assert_eq!(out[36..], [7, 7]);
}

#[test]
fn run_refusals_in_their_order() {
    let good = sheet_for(2);
    let two = &PROPOSALS[..2];
    let mut out = [9; 17];
    let mut run = |sheet: &[u8], proposals: &[u32], schedule: &[u8]| {
        run::run(sheet, proposals, schedule, &mut out)
    };
    assert_eq!(run(&good[..7], &PROPOSALS, &[0]), Err(refusal(1, 0)));
    assert_eq!(run(&good, &PROPOSALS, &[0]), Err(refusal(7, 0)));
    for bad in [0, 3, 127, 128, 131, 255] {
        assert_eq!(run(&good, two, &[1, 130, bad, 0]), Err(refusal(8, 2)));
    }
    assert_eq!(run(&good, two, &[1, 2, 129, 130]), Err(refusal(11, 0)));
    assert_eq!(out, [9; 17]);
}

#[test]
fn host_open_in_its_order() {
    let good = sheet_for(2);
    let mut bytes = vec![1; SESSION];
    assert_eq!(layout::host_open(&good[..3], &[0; 8], &mut []), 1);
    assert_eq!(layout::host_open(&good, &[0; 9], &mut []), 7);
    assert_eq!(layout::host_open(&good, &[0; 12], &mut []), 7);
    assert_eq!(layout::host_open(&good, &[0; 8], &mut bytes[1..]), 11);
    assert_eq!(bytes, vec![1; SESSION]);
    assert_eq!(layout::host_open(&good, &[0; 8], &mut bytes), 0);
    assert_eq!(layout::host_live(&bytes), 2 << 8);
}

#[test]
fn sessions_and_bytes_are_inverse() {
    let mut bytes: Vec<u8> = (0..SESSION).map(|at| (at * 31 % 251) as u8).collect();
    assert_eq!(layout::encode(&layout::decode(&bytes)), bytes);
    let session = open(3);
    assert_eq!(layout::decode(&layout::encode(&session)), session);
    assert_eq!(layout::host_step(&mut bytes, 1), 9);
    assert_eq!(layout::host_live(&bytes[1..]), 9);
}

#[test]
fn a_step_that_breaks_the_session_is_answered_and_the_next_call_gives_9() {
    let mut session = open(1);
    obey(&mut session, &[1]);
    session.party_mut(1).steps = session::MOST_STEPS;
    assert_eq!(session::step(&mut session, 1), Ok(7));
    assert_eq!(session.party(1).steps, 1001);
    assert_eq!(session::step(&mut session, 1), Err(refusal(9, 0)));
    assert_eq!(session::live(&session), Err(refusal(9, 0)));
}
