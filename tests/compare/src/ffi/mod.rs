//! The seven calls of the host interface behind safe wrappers. Every buffer that is lent lies
//! between guard bytes, at a changing alignment; after the call the guards and everything lent
//! only for reading must be unchanged.
//!
//! This is where a turned library stands in front of the true one, if one was chosen.
//!
//! The library side is the archive of SEPALSAIL_LIB; with the feature `model-only` it is the
//! model itself; with neither it is missing, and `LINKED` says so. It is missing too in this
//! crate's own tests, which are of the model alone.

// Without any of the calls there is nothing to guard.
#![cfg_attr(
    not(any(feature = "sheets", feature = "sessions", feature = "runs")),
    allow(dead_code, unused_imports)
)]

mod guard;
pub mod in_place;
#[cfg(all(archive, not(test)))]
#[path = "archive.rs"]
mod raw;
#[cfg(any(not(archive), test))]
#[path = "stand_in.rs"]
mod raw;

use crate::crash;
use crate::turned::{chosen, Call};
use guard::Guarded;

pub use guard::Lent;

/// What stands on the library side.
#[derive(Clone, Copy, Debug, PartialEq, Eq)]
pub enum Linked {
    Archive(&'static str),
    Model,
    Nothing,
}

#[cfg(all(archive, not(test)))]
pub const LINKED: Linked = Linked::Archive(env!("SEPALSAIL_ARCHIVE"));
#[cfg(feature = "model-only")]
pub const LINKED: Linked = Linked::Model;
#[cfg(all(any(not(archive), test), not(feature = "model-only")))]
pub const LINKED: Linked = Linked::Nothing;

/// The library's answer, and what it did to memory that it should have left alone.
#[derive(Clone, Debug, PartialEq, Eq)]
pub struct Reply {
    pub answer: u64,
    pub fault: Option<String>,
}

/// A buffer lent to a call under a name.
type Named<T> = (&'static str, T);

/// Makes a call with guards around what it is lent: parts for reading, and one for writing
/// (without a name, if there is none), which is given what the call wrote.
fn guarded<const READ: usize>(
    name: &'static str,
    numbers: [u32; 3],
    read: [Named<&[u8]>; READ],
    (written_name, written): Named<&mut [u8]>,
    call: impl FnOnce([Lent; READ], Lent) -> u64,
) -> Reply {
    let mut lent_read = read.map(|(name, part)| Guarded::new(name, part));
    let mut lent = Guarded::new(written_name, written);
    let mut parts = [crash::lent("", &[]); 4];
    for (noted, (name, part)) in parts.iter_mut().zip(read) {
        *noted = crash::lent(name, part);
    }
    parts[READ] = crash::lent(written_name, written);
    crash::enter(name, numbers, parts);
    let answer = call(lent_read.each_mut().map(Guarded::lend), lent.lend());
    crash::leave();
    written.copy_from_slice(lent.content());
    let fault = lent_read
        .iter()
        .zip(read)
        .find_map(|(lent, (_, before))| lent.fault(Some(before)))
        .or(lent.fault(None));
    Reply { answer, fault }
}

/// The sheet check.
#[cfg(feature = "sheets")]
pub fn check(sheet: &[u8]) -> Reply {
    let nothing = ("", &mut [][..]);
    guarded(
        "sepalsail_check",
        [0; 3],
        [("sheet", sheet)],
        nothing,
        |[mut sheet], _| match chosen() {
            Some(Call::Check(turned)) => turned(&mut sheet),
            _ => in_place::check(sheet.bytes()),
        },
    )
}

/// The builder; `out` is given the library's output.
#[cfg(feature = "sheets")]
pub fn build(kind: u32, bound: u32, parties: u32, out: &mut [u8]) -> Reply {
    guarded(
        "sepalsail_build",
        [kind, bound, parties],
        [],
        ("out", out),
        |[], mut out| match chosen() {
            Some(Call::Build(turned)) => turned([kind, bound, parties], &mut out),
            _ => in_place::build([kind, bound, parties], out.bytes_mut()),
        },
    )
}

/// The open call; `session` is given the library's session.
#[cfg(feature = "sessions")]
pub fn open(sheet: &[u8], proposals: &[u8], session: &mut [u8]) -> Reply {
    guarded(
        "sepalsail_open",
        [0; 3],
        [("sheet", sheet), ("proposals", proposals)],
        ("session", session),
        |[mut sheet, mut proposals], mut session| match chosen() {
            Some(Call::Open(turned)) => turned(&mut sheet, &mut proposals, &mut session),
            _ => in_place::open(sheet.bytes(), proposals.bytes(), session.bytes_mut()),
        },
    )
}

/// The step call; `session` is given the library's session.
#[cfg(feature = "sessions")]
pub fn step(session: &mut [u8], party: u32) -> Reply {
    guarded(
        "sepalsail_step",
        [party, 0, 0],
        [],
        ("session", session),
        |[], mut session| match chosen() {
            Some(Call::Step(turned)) => turned(&mut session, party),
            _ => in_place::step(session.bytes_mut(), party),
        },
    )
}

/// The stop call; `session` is given the library's session.
#[cfg(feature = "sessions")]
pub fn stop(session: &mut [u8], party: u32) -> Reply {
    guarded(
        "sepalsail_stop",
        [party, 0, 0],
        [],
        ("session", session),
        |[], mut session| match chosen() {
            Some(Call::Stop(turned)) => turned(&mut session, party),
            _ => in_place::stop(session.bytes_mut(), party),
        },
    )
}

/// The live call.
#[cfg(feature = "sessions")]
pub fn live(session: &[u8]) -> Reply {
    let nothing = ("", &mut [][..]);
    guarded(
        "sepalsail_live",
        [0; 3],
        [("session", session)],
        nothing,
        |[mut session], _| match chosen() {
            Some(Call::Live(turned)) => turned(&mut session),
            _ => in_place::live(session.bytes()),
        },
    )
}

/// The run; `out` is given the library's output.
#[cfg(feature = "runs")]
pub fn run(sheet: &[u8], proposals: &[u8], schedule: &[u8], out: &mut [u8]) -> Reply {
    guarded(
        "sepalsail_run",
        [0; 3],
        [
            ("sheet", sheet),
            ("proposals", proposals),
            ("schedule", schedule),
        ],
        ("out", out),
        |[sheet, proposals, schedule], out| run_lent(sheet, proposals, schedule.bytes(), out),
    )
}

/// The run with a schedule that is lent as it lies (for one too large to copy).
#[cfg(feature = "runs")]
pub fn run_uncopied(sheet: &[u8], proposals: &[u8], schedule: &[u8], out: &mut [u8]) -> Reply {
    guarded(
        "sepalsail_run with a schedule too large to print",
        [0; 3],
        [("sheet", sheet), ("proposals", proposals)],
        ("out", out),
        |[sheet, proposals], out| run_lent(sheet, proposals, schedule, out),
    )
}

/// The run on what lies between guards, and a schedule.
#[cfg(feature = "runs")]
fn run_lent(mut sheet: Lent, mut proposals: Lent, schedule: &[u8], mut out: Lent) -> u64 {
    match chosen() {
        Some(Call::Run(turned)) => turned(&mut sheet, &mut proposals, schedule, &mut out),
        _ => in_place::run(sheet.bytes(), proposals.bytes(), schedule, out.bytes_mut()),
    }
}
