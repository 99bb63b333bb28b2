//! The builder: the sheet for a kind, a bound and a number of parties (document 01, "The layout
//! sheet").

use super::sheet::{numbers_in_range, refuse, rounds_and_parties, sheet_length, Refusal};

/// A row as the builder makes it: its units, own unit and pair field.
struct Made {
    start: u32,
    units: Vec<u32>,
    own: u32,
    pair: u32,
}

/// The bytes of a made row.
fn row_bytes(made: &Made) -> Vec<u8> {
    let mask = made
        .units
        .iter()
        .fold(0u64, |mask, unit| mask | 1 << (unit - made.start));
    let mut bytes = Vec::new();
    bytes.extend((made.start as u16).to_be_bytes());
    bytes.extend(mask.to_be_bytes());
    bytes.extend((made.own as u16).to_be_bytes());
    bytes.extend((made.pair as u16).to_be_bytes());
    bytes
}

/// The builder's row of kind 2.
fn made_kind_2(bound: u32, round: u32, party: u32) -> Made {
    // "Round r uses the word at w = (r − 2) × A."
    let w = (round - 2) * bound;
    // "Own unit of party i: w + i − 1."
    let own = w + party - 1;
    // "Pair unit of lower k: w + r + k − 1."
    let pair_of = |k: u32| w + round + k - 1;
    // "Each lower writes its own and pair unit only; the top its own and all r − 1 pair units."
    let (units, pair) = if party < round {
        (vec![own, pair_of(party)], pair_of(party))
    } else {
        (
            std::iter::once(own)
                .chain((1..round).map(pair_of))
                .collect(),
            0,
        )
    };
    // "Every row's start is w."
    Made {
        start: w,
        units,
        own,
        pair,
    }
}

/// The builder's row of kind 1, from the table.
fn made_kind_1(round: u32, party: u32) -> Made {
    let (units, own, pair) = match (round, party) {
        (2, 1) => (vec![2, 3], 2, 3),
        (2, 2) => (vec![3, 4, 5], 4, 0),
        (3, 1) => (vec![14, 15], 14, 15),
        (3, 2) => (vec![18, 19, 20], 20, 19),
        (3, 3) => (vec![15, 16, 17, 18, 19], 16, 0),
        _ => unreachable!("kind 1 is built for N up to 3"),
    };
    // "each start is the lowest unit written".
    Made {
        start: units[0],
        units,
        own,
        pair,
    }
}

/// The unit count of the builder's sheet, or none if there is no sheet for these numbers.
fn built_units(kind: u32, bound: u32, parties: u32) -> Option<u32> {
    match (kind, parties) {
        // "Kind 2: given exactly if 2N − 1 ≤ A."
        (2, _) if 2 * parties - 1 > bound => None,
        // "Units: (N − 1) × A, or 1 for N = 1."
        (2, 1) => Some(1),
        (2, _) => Some((parties - 1) * bound),
        // "N = 1 always (units 1); N = 2 if B ≥ 3 (units 6); N = 3 if B ≥ 5 (units 21)".
        (_, 1) => Some(1),
        (_, 2) if bound >= 3 => Some(6),
        (_, 3) if bound >= 5 => Some(21),
        _ => None,
    }
}

/// The sheet that the builder makes, whatever the output. "Builder: 3 (kind, bound, N), 12, 11."
pub fn built(kind: u32, bound: u32, parties: u32) -> Result<Vec<u8>, Refusal> {
    if !numbers_in_range(kind, bound, parties) {
        return refuse(3);
    }
    let Some(units) = built_units(kind, bound, parties) else {
        return refuse(12);
    };
    let length = sheet_length(parties as usize);
    let mut sheet = Vec::new();
    sheet.extend((length as u16).to_be_bytes());
    sheet.extend([1, kind as u8, bound as u8, parties as u8]);
    sheet.extend((units as u16).to_be_bytes());
    for (round, party) in rounds_and_parties(parties as u8) {
        let (round, party) = (u32::from(round), u32::from(party));
        let made = match kind {
            1 => made_kind_1(round, party),
            _ => made_kind_2(bound, round, party),
        };
        sheet.extend(row_bytes(&made));
    }
    Ok(sheet)
}

/// The builder: "takes kind, bound, N and an output; bytes past the sheet keep their content".
pub fn build(kind: u32, bound: u32, parties: u32, out: &mut [u8]) -> Result<(), Refusal> {
    let sheet = built(kind, bound, parties)?;
    if out.len() < sheet.len() {
        return refuse(11);
    }
    out[..sheet.len()].copy_from_slice(&sheet);
    Ok(())
}
