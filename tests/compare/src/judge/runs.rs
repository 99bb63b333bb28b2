//! The run on both sides.

use super::{Going, Group, Judge};
use crate::crash;
use crate::ffi;
use crate::model::layout;

impl Judge {
    /// Compares the run with an output of some length; gives number and position.
    pub fn run(
        &mut self,
        group: Group,
        sheet: &[u8],
        proposals: &[u8],
        schedule: &[u8],
        length: usize,
    ) -> Going<(u8, u32)> {
        let mut out = self.rng.bytes(length);
        let (number, _, position) = self.both(
            group,
            ("sepalsail_run", &[]),
            &[
                ("sheet", sheet),
                ("proposals", proposals),
                ("schedule", schedule),
            ],
            &mut out,
            |out| layout::host_run(sheet, proposals, schedule, out),
            |out| ffi::run(sheet, proposals, schedule, out),
        )?;
        Ok((number, position))
    }

    /// Compares the run with a schedule too large to copy or to print; gives number, position
    /// and the output.
    pub fn run_huge(
        &mut self,
        group: Group,
        sheet: &[u8],
        proposals: &[u8],
        schedule: &[u8],
        length: usize,
    ) -> Going<(u8, u32, Vec<u8>)> {
        let mut out = self.rng.bytes(length);
        let (number, _, position) = self.both(
            group,
            ("sepalsail_run, a schedule too large to print", &[]),
            &[("sheet", sheet), ("proposals", proposals)],
            &mut out,
            |out| {
                crash::still_alive();
                layout::host_run(sheet, proposals, schedule, out)
            },
            |out| {
                crash::still_alive();
                ffi::run_uncopied(sheet, proposals, schedule, out)
            },
        )?;
        crash::still_alive();
        Ok((number, position, out))
    }
}
