//! The cases of schedules of 2^32 bytes, one less and some more. "In the host's run the byte at
//! index 2^32 − 1 of a schedule, if there is one, counts as a bad byte (refusal 8)".

use crate::huge::{self, LENGTH};
use crate::judge::{Going, Judge, Stop};
use crate::model::sheet;
use crate::tally::{Group, Kind};

/// A case: what it is, how many bytes 1 its schedule has, which other bytes where, how long the
/// output is, and the number and position that it was made for.
struct Case {
    what: &'static str,
    length: usize,
    others: &'static [(usize, u8)],
    output: usize,
    made: (u8, u32),
}

/// The record of two parties.
const RECORD: usize = 18;
/// The last index that can be obeyed.
const LAST: usize = LENGTH - 2;

const CASES: [Case; 11] = [
    case("2^32 good bytes", LENGTH, &[], RECORD, (8, u32::MAX)),
    case(
        "2^32 good bytes, output empty",
        LENGTH,
        &[],
        0,
        (8, u32::MAX),
    ),
    case(
        "2^32 + 5 good bytes",
        LENGTH + 5,
        &[],
        RECORD + 2,
        (8, u32::MAX),
    ),
    case(
        "2^32 bytes, the last one bad",
        LENGTH,
        &[(LENGTH - 1, 3)],
        RECORD,
        (8, u32::MAX),
    ),
    case(
        "2^32 bytes, the last but one bad",
        LENGTH,
        &[(LAST, 0)],
        RECORD,
        (8, u32::MAX - 1),
    ),
    case(
        "2^32 bytes, those at 2^31 and 2^31 + 9 bad",
        LENGTH,
        &[(1 << 31, 128), (1 << 31 | 9, 3)],
        RECORD,
        (8, 1 << 31),
    ),
    case(
        "2^32 - 1 bytes, the last one bad",
        LENGTH - 1,
        &[(LAST, 131)],
        RECORD,
        (8, u32::MAX - 1),
    ),
    case(
        "2^32 - 1 good bytes, output too short by one",
        LENGTH - 1,
        &[],
        RECORD - 1,
        (11, 0),
    ),
    case("2^32 - 1 good bytes", LENGTH - 1, &[], RECORD, (0, 0)),
    case(
        "2^32 - 1 good bytes, the last one a step of party 2",
        LENGTH - 1,
        &[(LAST, 2)],
        RECORD + 2,
        (0, 0),
    ),
    case(
        "2^32 - 1 good bytes, a step of party 2 at 2^31, its stop last",
        LENGTH - 1,
        &[(1 << 31, 2), (LAST, 130)],
        RECORD,
        (0, 0),
    ),
];

const fn case(
    what: &'static str,
    length: usize,
    others: &'static [(usize, u8)],
    output: usize,
    made: (u8, u32),
) -> Case {
    Case {
        what,
        length,
        others,
        output,
        made,
    }
}

/// The group of this kind.
pub struct Huge {
    group: Group,
}

impl Huge {
    pub fn new(judge: &mut Judge) -> Huge {
        Huge {
            group: judge.group(Kind::Huge, "run, schedules of about 2^32 bytes"),
        }
    }

    /// All cases.
    pub fn fixed(&self, judge: &mut Judge) -> Going<()> {
        let sheet = sheet::built(1, 3, 2).expect("the document's sheet");
        let proposals: Vec<u8> = [500u32, 600].iter().flat_map(|p| p.to_be_bytes()).collect();
        for (index, case) in CASES.iter().enumerate() {
            eprintln!("{} of {}: {}", index + 1, CASES.len(), case.what);
            let schedule = huge::Huge::new(case.length, 1, case.others).map_err(|why| {
                println!("no memory for a schedule of {} bytes: {why}", case.length);
                Stop
            })?;
            let given = judge.run_huge(
                self.group,
                &sheet,
                &proposals,
                schedule.bytes(),
                case.output,
            )?;
            judge.expect((given.0, given.1) == case.made, self.group, case.what, &[])?;
            let line = format!("{}: number {}, position {}", case.what, given.0, given.1);
            judge.tally.note(Kind::Huge, line);
            if given.0 == 0 {
                let record = format!("record {}", crate::crash::hex(&given.2[..RECORD]));
                judge.tally.note(Kind::Huge, record);
            }
        }
        Ok(())
    }

    /// There are no random cases.
    pub fn random(&self, _: &mut Judge) -> Going<()> {
        Ok(())
    }
}
