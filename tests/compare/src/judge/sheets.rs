//! The sheet check and the builder on both sides.

use super::{Going, Group, Judge};
use crate::ffi;
use crate::model::{layout, sheet};

impl Judge {
    /// Compares the check of a sheet; gives number and position.
    pub fn check(&mut self, group: Group, bytes: &[u8]) -> Going<(u8, u32)> {
        let (number, _, position) = self.both(
            group,
            ("sepalsail_check", &[]),
            &[("sheet", bytes)],
            &mut [],
            |_| layout::host_check(bytes),
            |_| ffi::check(bytes),
        )?;
        match number {
            0 => {
                let [kind, bound, parties] = [bytes[3], bytes[4], bytes[5]].map(u32::from);
                let is_built = sheet::built(kind, bound, parties).as_deref() == Ok(bytes);
                self.tally.accepted(bytes[3], is_built);
            }
            5 | 6 => self.tally.row(bytes, number, position),
            _ => {}
        }
        Ok((number, position))
    }

    /// Compares the check of a sheet that was made to get this answer.
    pub fn check_is(&mut self, group: Group, bytes: &[u8], made: (u8, u32)) -> Going<()> {
        let given = self.check(group, bytes)?;
        if given == made {
            return Ok(());
        }
        let what = format!("a sheet made for {made:?}; the model gives {given:?}");
        self.expect(false, group, &what, &[("sheet", bytes)])
    }

    /// Compares the builder with an output of some length; gives the number.
    pub fn build(&mut self, group: Group, numbers: [u32; 3], length: usize) -> Going<u8> {
        let [kind, bound, parties] = numbers;
        let mut out = self.rng.bytes(length);
        let (number, _, _) = self.both(
            group,
            ("sepalsail_build kind, bound, parties", &numbers),
            &[],
            &mut out,
            |out| layout::host_build(kind, bound, parties, out),
            |out| ffi::build(kind, bound, parties, out),
        )?;
        Ok(number)
    }
}
