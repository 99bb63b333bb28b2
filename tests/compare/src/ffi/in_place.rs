//! The calls on slices as they lie, without guards. Nothing else calls the library.

use super::raw;

/// The run.
#[cfg(feature = "runs")]
#[inline]
pub fn run(sheet: &[u8], proposals: &[u8], schedule: &[u8], out: &mut [u8]) -> u64 {
    // SAFETY: in all of these calls each pointer and length describe a slice.
    unsafe {
        raw::sepalsail_run(
            sheet.as_ptr(),
            sheet.len(),
            proposals.as_ptr(),
            proposals.len(),
            schedule.as_ptr(),
            schedule.len(),
            out.as_mut_ptr(),
            out.len(),
        )
    }
}

/// The sheet check.
#[cfg(feature = "sheets")]
#[inline]
pub fn check(sheet: &[u8]) -> u64 {
    unsafe { raw::sepalsail_check(sheet.as_ptr(), sheet.len()) }
}

/// The builder.
#[cfg(feature = "sheets")]
#[inline]
pub fn build([kind, bound, parties]: [u32; 3], out: &mut [u8]) -> u64 {
    unsafe { raw::sepalsail_build(kind, bound, parties, out.as_mut_ptr(), out.len()) }
}

/// The open call.
#[cfg(feature = "sessions")]
#[inline]
pub fn open(sheet: &[u8], proposals: &[u8], session: &mut [u8]) -> u64 {
    unsafe {
        raw::sepalsail_open(
            sheet.as_ptr(),
            sheet.len(),
            proposals.as_ptr(),
            proposals.len(),
            session.as_mut_ptr(),
            session.len(),
        )
    }
}

/// The step call.
#[cfg(feature = "sessions")]
#[inline]
pub fn step(session: &mut [u8], party: u32) -> u64 {
    unsafe { raw::sepalsail_step(session.as_mut_ptr(), session.len(), party) }
}

/// The stop call.
#[cfg(feature = "sessions")]
#[inline]
pub fn stop(session: &mut [u8], party: u32) -> u64 {
    unsafe { raw::sepalsail_stop(session.as_mut_ptr(), session.len(), party) }
}

/// The live call.
#[cfg(feature = "sessions")]
#[inline]
pub fn live(session: &[u8]) -> u64 {
    unsafe { raw::sepalsail_live(session.as_ptr(), session.len()) }
}
