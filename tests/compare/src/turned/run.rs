//! The run with a rule turned.

use super::{number, position, refusal, turned, Call, Turned};
use crate::ffi::{in_place, Lent};
use crate::model::run::record_length;
use crate::model::session::{DECIDED, IDLE, STOPPED};

pub const RULES: &[Turned] = &[
    turned(
        "run-decided-steps",
        "entries given to a party that has decided are own steps",
        Call::Run(decided_steps),
    ),
    turned(
        "run-stop-decided",
        "a party that has decided becomes stopped",
        Call::Run(stop_decided),
    ),
    turned(
        "run-stop-idle",
        "a party stopped before its first step is idle in the record",
        Call::Run(stop_idle),
    ),
    turned(
        "run-steps-above-255",
        "the record has the lowest byte of own steps only",
        Call::Run(steps_above_255),
    ),
    turned(
        "run-first-65536",
        "bytes past 65,536 of a schedule are not obeyed",
        Call::Run(first_65536),
    ),
    turned(
        "run-index-16-bits",
        "the position of 8 keeps 16 bits",
        Call::Run(index_16_bits),
    ),
    turned(
        "run-row-128",
        "the position of 5 and 6 keeps 7 bits, so that rows 128 to 135 lose one",
        Call::Run(seven_bits),
    ),
    turned(
        "run-11-before-8",
        "11 is given before 8",
        Call::Run(eleven_first),
    ),
    turned(
        "run-past-record",
        "the byte past the record is changed",
        Call::Run(past_record),
    ),
    turned(
        "run-changes-proposals",
        "refusal 8 changes the last byte of the lent proposals",
        Call::Run(changes_proposals),
    ),
    turned(
        "run-refusal-changes",
        "an output too short gets the record's length field all the same",
        Call::Run(changes),
    ),
];

/// The library's call.
fn truly(sheet: &Lent, proposals: &Lent, schedule: &[u8], out: &mut Lent) -> u64 {
    in_place::run(sheet.bytes(), proposals.bytes(), schedule, out.bytes_mut())
}

/// The library's call, and then this for each party of its record: the party's number, its 7
/// bytes, and the schedule.
fn each_party(
    (sheet, proposals): (&Lent, &Lent),
    schedule: &[u8],
    out: &mut Lent,
    change: fn(u8, &mut [u8], &[u8]),
) -> u64 {
    let answer = truly(sheet, proposals, schedule, out);
    if number(answer) == 0 {
        let parties = sheet.bytes()[5];
        let parts = out.bytes_mut()[4..].chunks_mut(7);
        for (i, part) in (1..=parties).zip(parts) {
            change(i, part, schedule);
        }
    }
    answer
}

fn decided_steps(sheet: &mut Lent, proposals: &mut Lent, schedule: &[u8], out: &mut Lent) -> u64 {
    each_party((sheet, proposals), schedule, out, |i, part, schedule| {
        if part[0] == DECIDED {
            let entries = schedule.iter().filter(|byte| **byte == i).count();
            part[1..3].copy_from_slice(&(entries as u16).to_be_bytes());
        }
    })
}

fn stop_decided(sheet: &mut Lent, proposals: &mut Lent, schedule: &[u8], out: &mut Lent) -> u64 {
    each_party((sheet, proposals), schedule, out, |i, part, schedule| {
        if part[0] == DECIDED && schedule.contains(&(128 + i)) {
            part[0] = STOPPED;
            part[3..].fill(0);
        }
    })
}

fn stop_idle(sheet: &mut Lent, proposals: &mut Lent, schedule: &[u8], out: &mut Lent) -> u64 {
    each_party((sheet, proposals), schedule, out, |_, part, _| {
        if part[..3] == [STOPPED, 0, 0] {
            part[0] = IDLE;
        }
    })
}

fn steps_above_255(sheet: &mut Lent, proposals: &mut Lent, schedule: &[u8], out: &mut Lent) -> u64 {
    each_party((sheet, proposals), schedule, out, |_, part, _| part[1] = 0)
}

fn first_65536(sheet: &mut Lent, proposals: &mut Lent, schedule: &[u8], out: &mut Lent) -> u64 {
    let answer = truly(sheet, proposals, schedule, out);
    if number(answer) == 0 {
        truly(
            sheet,
            proposals,
            &schedule[..schedule.len().min(65_536)],
            out,
        );
    }
    answer
}

fn index_16_bits(sheet: &mut Lent, proposals: &mut Lent, schedule: &[u8], out: &mut Lent) -> u64 {
    let answer = truly(sheet, proposals, schedule, out);
    match number(answer) {
        8 => refusal(8, position(answer) & 0xFFFF),
        _ => answer,
    }
}

fn seven_bits(sheet: &mut Lent, proposals: &mut Lent, schedule: &[u8], out: &mut Lent) -> u64 {
    let answer = truly(sheet, proposals, schedule, out);
    match number(answer) {
        5 | 6 => refusal(number(answer), position(answer) & 127),
        _ => answer,
    }
}

fn eleven_first(sheet: &mut Lent, proposals: &mut Lent, schedule: &[u8], out: &mut Lent) -> u64 {
    let answer = truly(sheet, proposals, schedule, out);
    if number(answer) == 8 && out.bytes().len() < record_length(usize::from(sheet.bytes()[5])) {
        refusal(11, 0)
    } else {
        answer
    }
}

fn past_record(sheet: &mut Lent, proposals: &mut Lent, schedule: &[u8], out: &mut Lent) -> u64 {
    let answer = truly(sheet, proposals, schedule, out);
    if number(answer) == 0 {
        let length = record_length(usize::from(sheet.bytes()[5]));
        if let Some(past) = out.bytes_mut().get_mut(length) {
            *past ^= 1;
        }
    }
    answer
}

fn changes_proposals(
    sheet: &mut Lent,
    proposals: &mut Lent,
    schedule: &[u8],
    out: &mut Lent,
) -> u64 {
    let answer = truly(sheet, proposals, schedule, out);
    if number(answer) == 8 {
        *proposals.bytes_mut().last_mut().expect("N is at least 1") ^= 1;
    }
    answer
}

fn changes(sheet: &mut Lent, proposals: &mut Lent, schedule: &[u8], out: &mut Lent) -> u64 {
    let answer = truly(sheet, proposals, schedule, out);
    if number(answer) == 11 && out.bytes().len() >= 2 {
        let length = record_length(usize::from(sheet.bytes()[5])) as u16;
        out.bytes_mut()[..2].copy_from_slice(&length.to_be_bytes());
    }
    answer
}
