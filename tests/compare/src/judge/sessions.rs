//! The open, step, stop and live calls on both sides.

use super::{Going, Group, Judge};
use crate::ffi::{self, Reply};
use crate::model::layout;

/// A call that changes the session by a party, on the model's side and on the library's.
type Sides = (fn(&mut [u8], u32) -> u64, fn(&mut [u8], u32) -> Reply);

impl Judge {
    /// Compares the open call; gives the number and leaves the session in `session`.
    pub fn open(
        &mut self,
        group: Group,
        sheet: &[u8],
        proposals: &[u8],
        session: &mut [u8],
    ) -> Going<u8> {
        let (number, _, _) = self.both(
            group,
            ("sepalsail_open", &[]),
            &[("sheet", sheet), ("proposals", proposals)],
            session,
            |session| layout::host_open(sheet, proposals, session),
            |session| ffi::open(sheet, proposals, session),
        )?;
        Ok(number)
    }

    /// Compares the step call; gives number and place, and changes `session`.
    pub fn step(&mut self, group: Group, session: &mut [u8], party: u32) -> Going<(u8, u32)> {
        let sides: Sides = (layout::host_step, ffi::step);
        self.change(group, "sepalsail_step party", session, party, sides)
    }

    /// Compares the stop call; gives number and status, and changes `session`.
    pub fn stop(&mut self, group: Group, session: &mut [u8], party: u32) -> Going<(u8, u32)> {
        let sides: Sides = (layout::host_stop, ffi::stop);
        self.change(group, "sepalsail_stop party", session, party, sides)
    }

    /// Compares a call that changes the session by a party.
    fn change(
        &mut self,
        group: Group,
        call: &str,
        session: &mut [u8],
        party: u32,
        (model, library): Sides,
    ) -> Going<(u8, u32)> {
        let (number, value, _) = self.both(
            group,
            (call, &[party]),
            &[],
            session,
            |session| model(session, party),
            |session| library(session, party),
        )?;
        Ok((number, value))
    }

    /// Compares the live call; gives number and live number.
    pub fn live(&mut self, group: Group, session: &[u8]) -> Going<(u8, u32)> {
        let (number, live, _) = self.both(
            group,
            ("sepalsail_live", &[]),
            &[("session", session)],
            &mut [],
            |_| layout::host_live(session),
            |_| ffi::live(session),
        )?;
        Ok((number, live))
    }
}
