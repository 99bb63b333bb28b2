//! The layout sheet: write sets, rows, the row rule, the writer rule and the check
//! with its (number, position) (document 01, "Memory, marks and write sets", "The
//! layout sheet" and "Numbers given back").

pub use super::builder::{build, built};

/// "Header, 8 bytes".
pub const HEADER: usize = 8;
/// "a row of 14 bytes".
pub const ROW: usize = 14;
/// "N 1 to 16".
pub const MOST_PARTIES: usize = 16;
/// "units 1 to 1,024".
pub const MOST_UNITS: usize = 1024;
/// "The largest sheet (N = 16) has 135 rows and 1,898 bytes."
pub const LARGEST_SHEET: usize = 1898;

/// "Every refusal gives its number and a position".
#[derive(Clone, Copy, Debug, PartialEq, Eq)]
pub struct Refusal {
    pub number: u8,
    pub position: u32,
}

/// A refusal whose position is 0.
pub fn refuse<T>(number: u8) -> Result<T, Refusal> {
    refuse_at(number, 0)
}

/// A refusal with a position.
pub fn refuse_at<T>(number: u8, position: u32) -> Result<T, Refusal> {
    Err(Refusal { number, position })
}

/// What the header of a sheet says.
#[derive(Clone, Copy, Debug, PartialEq, Eq)]
pub struct Header {
    pub length: u16,
    pub version: u8,
    pub kind: u8,
    pub bound: u8,
    pub parties: u8,
    pub units: u16,
}

/// One row of a sheet, with the round and party that it belongs to.
#[derive(Clone, Debug, PartialEq, Eq)]
pub struct Row {
    pub round: u8,
    pub party: u8,
    pub start: u32,
    pub mask: u64,
    pub own: u32,
    pub pair: u32,
    /// The addresses of the write set: "bit j set means unit start + j".
    pub set: Vec<u32>,
}

impl Row {
    /// "Party r is the top of round r, the others are its lowers."
    pub fn is_top(&self) -> bool {
        self.party == self.round
    }

    /// Whether the unit is in the row's set.
    pub fn writes(&self, unit: u32) -> bool {
        self.set.contains(&unit)
    }
}

/// An accepted sheet.
#[derive(Clone, Debug, PartialEq, Eq)]
pub struct Sheet {
    pub header: Header,
    pub rows: Vec<Row>,
}

impl Sheet {
    /// The number of parties N.
    pub fn parties(&self) -> u8 {
        self.header.parties
    }

    /// The row of a party in a round.
    pub fn row(&self, round: u8, party: u8) -> &Row {
        self.rows
            .iter()
            .find(|row| row.round == round && row.party == party)
            .expect("every party up to r has a row in round r")
    }

    /// The row of the top of a round.
    pub fn top(&self, round: u8) -> &Row {
        self.row(round, round)
    }
}

/// "The number of rows is N(N+1)/2 − 1."
pub fn number_of_rows(parties: usize) -> usize {
    parties * (parties + 1) / 2 - 1
}

/// The length of a sheet for N parties: 8 + 14 × rows.
pub fn sheet_length(parties: usize) -> usize {
    HEADER + ROW * number_of_rows(parties)
}

/// "for each round r from 2 to N, and in it each party i from 1 to r".
pub fn rounds_and_parties(parties: u8) -> Vec<(u8, u8)> {
    (2..=parties)
        .flat_map(|round| (1..=round).map(move |party| (round, party)))
        .collect()
}

/// "All numbers are big-endian."
fn number(bytes: &[u8]) -> u64 {
    bytes
        .iter()
        .fold(0, |value, byte| value * 256 + u64::from(*byte))
}

/// "length (2), version (1), kind (1), bound (1), parties N (1), units (2)".
fn header_of(sheet: &[u8]) -> Header {
    Header {
        length: number(&sheet[0..2]) as u16,
        version: sheet[2],
        kind: sheet[3],
        bound: sheet[4],
        parties: sheet[5],
        units: number(&sheet[6..8]) as u16,
    }
}

/// "start (2), mask (8), own unit (2), pair unit (2)".
fn row_of(round: u8, party: u8, bytes: &[u8]) -> Row {
    let start = number(&bytes[0..2]) as u32;
    let mask = number(&bytes[2..10]);
    Row {
        round,
        party,
        start,
        mask,
        own: number(&bytes[10..12]) as u32,
        pair: number(&bytes[12..14]) as u32,
        set: units_of(start, mask),
    }
}

/// "A write set is a start address and a 64-bit mask: bit j set means unit start + j."
fn units_of(start: u32, mask: u64) -> Vec<u32> {
    (0..64)
        .filter(|j| has_bit(mask, *j))
        .map(|j| start + j)
        .collect()
}

/// Whether bit j of the mask is set.
fn has_bit(mask: u64, j: u32) -> bool {
    (mask >> j) & 1 == 1
}

/// "Ranges: bound 1 to 64, N 1 to 16, units 1 to 1,024", and kind 1 or 2 (refusal 3).
fn in_range(header: &Header) -> bool {
    numbers_in_range(
        u32::from(header.kind),
        u32::from(header.bound),
        u32::from(header.parties),
    ) && (1..=1024).contains(&header.units)
}

/// The part of refusal 3 that the builder shares: kind, bound, N.
pub fn numbers_in_range(kind: u32, bound: u32, parties: u32) -> bool {
    (kind == 1 || kind == 2) && (1..=64).contains(&bound) && (1..=16).contains(&parties)
}

/// Kind 1: "the mask is 2^b − 1 for some b from 1 to B, and the start is a multiple of b".
fn legal_kind_1(bound: u32, row: &Row) -> bool {
    (1..=bound).any(|b| u128::from(row.mask) == (1u128 << b) - 1 && row.start.is_multiple_of(b))
}

/// Kind 2: "the mask is not zero, has no bit at or above A, and the start is a multiple of A".
fn legal_kind_2(bound: u32, row: &Row) -> bool {
    row.mask != 0
        && (0..64).all(|j| !has_bit(row.mask, j) || j < bound)
        && row.start.is_multiple_of(bound)
}

/// "the set is legal for the kind", with "every unit of the set has an address below the
/// sheet's unit count".
fn legal_set(header: &Header, row: &Row) -> bool {
    let bound = u32::from(header.bound);
    let legal = match header.kind {
        1 => legal_kind_1(bound, row),
        _ => legal_kind_2(bound, row),
    };
    legal && row.set.iter().all(|unit| *unit < u32::from(header.units))
}

/// Row rule (refusal 5): "the set is legal for the kind; the own unit is in it; for a lower
/// the pair unit is in it too; for a top the pair field is zero".
fn row_rule(header: &Header, row: &Row) -> bool {
    let pair_fits = if row.is_top() {
        row.pair == 0
    } else {
        row.writes(row.pair)
    };
    legal_set(header, row) && row.writes(row.own) && pair_fits
}

/// For each unit of the sheet, the rows whose set it is in.
fn writers_of(header: &Header, rows: &[Row]) -> Vec<Vec<usize>> {
    let mut writers = vec![Vec::new(); usize::from(header.units)];
    for (index, row) in rows.iter().enumerate() {
        for unit in &row.set {
            writers[*unit as usize].push(index);
        }
    }
    writers
}

/// Writer rule (refusal 6) for the row at an index, once all rows keep the row rule.
fn writer_rule(rows: &[Row], writers: &[Vec<usize>], index: usize) -> bool {
    own_is_alone(rows, writers, index)
        && rounds_apart(rows, writers, index)
        && pair_is_shared(rows, writers, index)
}

/// "its own unit is in no other row's set".
fn own_is_alone(rows: &[Row], writers: &[Vec<usize>], index: usize) -> bool {
    let own = rows[index].own as usize;
    writers[own].iter().all(|other| *other == index)
}

/// "no unit of its set is in a row of another round".
fn rounds_apart(rows: &[Row], writers: &[Vec<usize>], index: usize) -> bool {
    let this = &rows[index];
    this.set
        .iter()
        .flat_map(|unit| &writers[*unit as usize])
        .all(|other| rows[*other].round == this.round)
}

/// "for a lower, its pair unit is in the top's set of round r and in no third row's set".
fn pair_is_shared(rows: &[Row], writers: &[Vec<usize>], index: usize) -> bool {
    let this = &rows[index];
    if this.is_top() {
        return true;
    }
    let is_its_top = |other: usize| rows[other].is_top() && rows[other].round == this.round;
    let writers = &writers[this.pair as usize];
    writers.iter().any(|other| is_its_top(*other))
        && writers
            .iter()
            .all(|other| *other == index || is_its_top(*other))
}

/// The first row (counted from 1) that fails a rule.
fn first_failing(rows: &[Row], holds: impl Fn(usize) -> bool) -> Option<u32> {
    (0..rows.len())
        .find(|index| !holds(*index))
        .map(|index| index as u32 + 1)
}

/// The check, giving the accepted sheet. "Sheet: 1, 2, 3, 4, 5 for all rows, 6."
pub fn read(sheet: &[u8]) -> Result<Sheet, Refusal> {
    if sheet.len() < HEADER {
        return refuse(1);
    }
    let header = header_of(sheet);
    if header.version != 1 {
        return refuse(2);
    }
    if !in_range(&header) {
        return refuse(3);
    }
    let length = sheet_length(usize::from(header.parties));
    if usize::from(header.length) != length || sheet.len() != length {
        return refuse(4);
    }
    let rows: Vec<Row> = rounds_and_parties(header.parties)
        .into_iter()
        .zip(sheet[HEADER..].chunks(ROW))
        .map(|((round, party), bytes)| row_of(round, party, bytes))
        .collect();
    if let Some(row) = first_failing(&rows, |index| row_rule(&header, &rows[index])) {
        return refuse_at(5, row);
    }
    let writers = writers_of(&header, &rows);
    if let Some(row) = first_failing(&rows, |index| writer_rule(&rows, &writers, index)) {
        return refuse_at(6, row);
    }
    Ok(Sheet { header, rows })
}

/// The check.
pub fn check(sheet: &[u8]) -> Result<(), Refusal> {
    read(sheet).map(|_| ())
}
