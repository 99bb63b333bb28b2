//! The host interface, answered by the model.

#![allow(dead_code)]
#![allow(clippy::missing_safety_doc)]

use super::{Linked, LINKED};
use crate::model::layout;
use std::slice::{from_raw_parts, from_raw_parts_mut};

/// Without an archive only `model-only` may answer.
fn stand_in<T>(answer: T) -> T {
    assert!(LINKED == Linked::Model, "no library is linked");
    answer
}

pub unsafe fn sepalsail_check(sheet: *const u8, sheet_len: usize) -> u64 {
    stand_in(layout::host_check(from_raw_parts(sheet, sheet_len)))
}

pub unsafe fn sepalsail_build(
    kind: u32,
    bound: u32,
    parties: u32,
    out: *mut u8,
    out_len: usize,
) -> u64 {
    let out = from_raw_parts_mut(out, out_len);
    stand_in(layout::host_build(kind, bound, parties, out))
}

pub unsafe fn sepalsail_open(
    sheet: *const u8,
    sheet_len: usize,
    proposals: *const u8,
    proposals_len: usize,
    session: *mut u8,
    session_len: usize,
) -> u64 {
    stand_in(layout::host_open(
        from_raw_parts(sheet, sheet_len),
        from_raw_parts(proposals, proposals_len),
        from_raw_parts_mut(session, session_len),
    ))
}

pub unsafe fn sepalsail_step(session: *mut u8, session_len: usize, party: u32) -> u64 {
    let session = from_raw_parts_mut(session, session_len);
    stand_in(layout::host_step(session, party))
}

pub unsafe fn sepalsail_stop(session: *mut u8, session_len: usize, party: u32) -> u64 {
    let session = from_raw_parts_mut(session, session_len);
    stand_in(layout::host_stop(session, party))
}

pub unsafe fn sepalsail_live(session: *const u8, session_len: usize) -> u64 {
    stand_in(layout::host_live(from_raw_parts(session, session_len)))
}

#[allow(clippy::too_many_arguments)]
pub unsafe fn sepalsail_run(
    sheet: *const u8,
    sheet_len: usize,
    proposals: *const u8,
    proposals_len: usize,
    schedule: *const u8,
    schedule_len: usize,
    out: *mut u8,
    out_len: usize,
) -> u64 {
    stand_in(layout::host_run(
        from_raw_parts(sheet, sheet_len),
        from_raw_parts(proposals, proposals_len),
        from_raw_parts(schedule, schedule_len),
        from_raw_parts_mut(out, out_len),
    ))
}
