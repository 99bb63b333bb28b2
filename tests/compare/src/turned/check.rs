//! The sheet check with a rule turned.

use super::{number, position, refusal, turned, Call, Turned};
use crate::ffi::{in_place, Lent};
use crate::make::{index_of, place_of, Draft};
use crate::model::sheet::{number_of_rows, rounds_and_parties};

pub const RULES: &[Turned] = &[
    turned(
        "check-pair-in-third",
        "a lower's pair unit may be in a third row's set (kind 2)",
        Call::Check(pair_in_third),
    ),
    turned(
        "check-top-covers-own",
        "the top may write a lower's own unit (kind 2)",
        Call::Check(top_covers_own),
    ),
    turned(
        "check-rounds-apart",
        "rows of rounds that do not follow each other may share units (kind 2)",
        Call::Check(rounds_apart),
    ),
    turned(
        "check-64-units",
        "64 units are no size-varying word",
        Call::Check(units_64),
    ),
    turned(
        "check-last-pair-field",
        "the pair field of the last top need not be zero",
        Call::Check(last_pair_field),
    ),
    turned(
        "check-6-before-5",
        "6 of a whole earlier round is given before 5",
        Call::Check(six_first),
    ),
    turned(
        "check-rows-from-0",
        "the position of 6 is counted from 0",
        Call::Check(rows_from_0),
    ),
    turned(
        "check-row-128",
        "the position of 6 keeps 7 bits, so that rows 128 to 135 lose one",
        Call::Check(seven_bits),
    ),
    turned(
        "check-1024-units",
        "1,024 units are out of range",
        Call::Check(units_1024),
    ),
    turned(
        "check-refusal-changes",
        "refusal 5 changes the last byte of the lent sheet",
        Call::Check(changes),
    ),
];

/// The check of a sheet of kind 2 that gets 6, once these units are taken out of these rows: each
/// entry names the row that loses a unit, and the unit. A row keeps its own and pair unit.
fn without(sheet: &mut Lent, taken: fn(&Draft, usize, usize) -> Vec<(usize, u16)>) -> u64 {
    let answer = in_place::check(sheet.bytes());
    if number(answer) != 6 || sheet.bytes()[3] != 2 {
        return answer;
    }
    let mut draft = Draft::read(sheet.bytes());
    for (round, party) in rounds_and_parties(draft.parties) {
        for (index, unit) in taken(&draft, usize::from(round), usize::from(party)) {
            let line = &mut draft.lines[index];
            if line.own != unit && line.pair != unit {
                line.take(usize::from(unit));
            }
        }
    }
    in_place::check(&draft.bytes())
}

fn pair_in_third(sheet: &mut Lent) -> u64 {
    without(sheet, |draft, round, party| {
        let pair = draft.lines[index_of(round, party)].pair;
        (1..round)
            .filter(|third| party < round && *third != party)
            .map(|third| (index_of(round, third), pair))
            .collect()
    })
}

fn top_covers_own(sheet: &mut Lent) -> u64 {
    without(sheet, |draft, round, party| {
        let own = draft.lines[index_of(round, party)].own;
        vec![(index_of(round, round), own)]
    })
}

fn rounds_apart(sheet: &mut Lent) -> u64 {
    without(sheet, |draft, round, party| {
        let index = index_of(round, party);
        let units = draft.lines[index].units();
        let far = draft.lines.get(index_of(round + 2, 1)..).unwrap_or(&[]);
        let shared = far.iter().flat_map(|line| line.units());
        shared
            .filter(|unit| units.contains(unit))
            .map(|unit| (index, unit as u16))
            .collect()
    })
}

fn units_64(sheet: &mut Lent) -> u64 {
    let answer = in_place::check(sheet.bytes());
    if !matches!(number(answer), 0 | 5 | 6) || sheet.bytes()[3] != 1 {
        return answer;
    }
    let lines = Draft::read(sheet.bytes()).lines;
    match lines.iter().position(|line| line.mask == u64::MAX) {
        Some(index) if number(answer) != 5 || position(answer) as usize > index => {
            refusal(5, index as u32 + 1)
        }
        _ => answer,
    }
}

fn last_pair_field(sheet: &mut Lent) -> u64 {
    let answer = in_place::check(sheet.bytes());
    if number(answer) != 5 {
        return answer;
    }
    let mut mended = Draft::read(sheet.bytes());
    mended.lines.last_mut().expect("a row failed").pair = 0;
    in_place::check(&mended.bytes())
}

fn six_first(sheet: &mut Lent) -> u64 {
    let answer = in_place::check(sheet.bytes());
    if number(answer) != 5 {
        return answer;
    }
    // The rounds before that of the failing row, as a sheet of their own.
    let mut draft = Draft::read(sheet.bytes());
    let (round, _) = place_of(position(answer) as usize - 1);
    draft.lines.truncate(number_of_rows(round - 1));
    draft.parties = round as u8 - 1;
    draft.length = (8 + 14 * draft.lines.len()) as u16;
    let earlier = in_place::check(&draft.bytes());
    if number(earlier) == 6 {
        earlier
    } else {
        answer
    }
}

fn rows_from_0(sheet: &mut Lent) -> u64 {
    let answer = in_place::check(sheet.bytes());
    match number(answer) {
        6 => refusal(6, position(answer) - 1),
        _ => answer,
    }
}

fn seven_bits(sheet: &mut Lent) -> u64 {
    let answer = in_place::check(sheet.bytes());
    match number(answer) {
        6 => refusal(6, position(answer) & 127),
        _ => answer,
    }
}

fn units_1024(sheet: &mut Lent) -> u64 {
    let answer = in_place::check(sheet.bytes());
    let bytes = sheet.bytes();
    if !matches!(number(answer), 1 | 2) && bytes[6..8] == [4, 0] {
        refusal(3, 0)
    } else {
        answer
    }
}

fn changes(sheet: &mut Lent) -> u64 {
    let answer = in_place::check(sheet.bytes());
    if number(answer) == 5 {
        *sheet.bytes_mut().last_mut().expect("a row has bytes") ^= 1;
    }
    answer
}
