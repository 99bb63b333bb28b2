//! The builder with a rule turned.

use super::{number, refusal, turned, Call, Turned};
use crate::ffi::{in_place, Lent};
use crate::make::index_of;
use crate::model::sheet::{sheet_length, HEADER, LARGEST_SHEET, ROW};

pub const RULES: &[Turned] = &[
    turned(
        "build-last-pair",
        "the top of round 16 does not write its last pair unit, where A is 64",
        Call::Build(last_pair),
    ),
    turned(
        "build-one-party",
        "kind 2 has A units for N = 1, as it would for N = 2",
        Call::Build(one_party),
    ),
    turned(
        "build-bound",
        "kind 2 has no sheet where 2N - 1 is A",
        Call::Build(bound),
    ),
    turned(
        "build-11-before-12",
        "an output too short for N parties gets 11 where there is no sheet",
        Call::Build(eleven_first),
    ),
    turned(
        "build-past-sheet",
        "the byte past the sheet is changed",
        Call::Build(past_sheet),
    ),
    turned(
        "build-past-output",
        "the byte past an output of exact length is changed",
        Call::Build(past_output),
    ),
    turned(
        "build-refusal-changes",
        "an output too short gets the length field all the same",
        Call::Build(changes),
    ),
];

fn last_pair(numbers: [u32; 3], out: &mut Lent) -> u64 {
    let answer = in_place::build(numbers, out.bytes_mut());
    if number(answer) == 0 && numbers == [2, 64, 16] {
        // Unit w + 30 is bit 30, in the fourth byte from the end of the mask.
        let mask = HEADER + ROW * index_of(16, 16) + 2;
        out.bytes_mut()[mask + 4] &= !(1 << 6);
    }
    answer
}

fn one_party(numbers: [u32; 3], out: &mut Lent) -> u64 {
    let answer = in_place::build(numbers, out.bytes_mut());
    if let (0, [2, bound, 1]) = (number(answer), numbers) {
        out.bytes_mut()[7] = bound as u8;
    }
    answer
}

fn bound(numbers: [u32; 3], out: &mut Lent) -> u64 {
    match numbers {
        [2, bound, parties] if (1..=16).contains(&parties) && 2 * parties - 1 == bound => {
            refusal(12, 0)
        }
        _ => in_place::build(numbers, out.bytes_mut()),
    }
}

fn eleven_first(numbers: [u32; 3], out: &mut Lent) -> u64 {
    let answer = in_place::build(numbers, out.bytes_mut());
    if number(answer) == 12 && out.bytes().len() < sheet_length(numbers[2] as usize) {
        refusal(11, 0)
    } else {
        answer
    }
}

fn past_sheet(numbers: [u32; 3], out: &mut Lent) -> u64 {
    let answer = in_place::build(numbers, out.bytes_mut());
    if number(answer) == 0 {
        let length = sheet_length(numbers[2] as usize);
        if let Some(past) = out.bytes_mut().get_mut(length) {
            *past ^= 1;
        }
    }
    answer
}

fn past_output(numbers: [u32; 3], out: &mut Lent) -> u64 {
    let answer = in_place::build(numbers, out.bytes_mut());
    if number(answer) == 0 && out.bytes().len() == sheet_length(numbers[2] as usize) {
        *out.past_end() ^= 1;
    }
    answer
}

fn changes(numbers: [u32; 3], out: &mut Lent) -> u64 {
    let answer = in_place::build(numbers, out.bytes_mut());
    if number(answer) == 11 && out.bytes().len() >= 2 {
        let mut whole = [0; LARGEST_SHEET];
        in_place::build(numbers, &mut whole);
        out.bytes_mut()[..2].copy_from_slice(&whole[..2]);
    }
    answer
}
