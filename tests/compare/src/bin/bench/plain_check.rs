//! The plain fast check: rows are decoded into an array first, sets are compared as masks with
//! one shift and one `&`, and every rule leaves at its first failure.

/// The rows of the largest sheet.
pub type Rows = [Row; 135];

/// A decoded row.
#[derive(Clone, Copy)]
pub struct Row {
    pub mask: u64,
    pub start: u32,
    pub own: u32,
    pub pair: u32,
}

impl Row {
    pub const EMPTY: Row = Row {
        mask: 0,
        start: 0,
        own: 0,
        pair: 0,
    };

    #[inline]
    fn has(&self, unit: u32) -> bool {
        let j = unit.wrapping_sub(self.start);
        j < 64 && (self.mask >> j) & 1 != 0
    }

    /// One shift and one `&`. (Measured: the branch on the order of the starts is faster
    /// here than forms without it.)
    #[inline]
    fn meets(&self, other: &Row) -> bool {
        let (low, high) = if self.start <= other.start {
            (self, other)
        } else {
            (other, self)
        };
        let distance = high.start - low.start;
        distance < 64 && (low.mask >> distance) & high.mask != 0
    }
}

#[inline]
fn two(bytes: &[u8], at: usize) -> u32 {
    u32::from(u16::from_be_bytes([bytes[at], bytes[at + 1]]))
}

#[inline]
fn decode(bytes: &[u8; 14]) -> Row {
    Row {
        start: two(bytes, 0),
        mask: u64::from_be_bytes(bytes[2..10].try_into().expect("8 bytes")),
        own: two(bytes, 10),
        pair: two(bytes, 12),
    }
}

#[inline]
fn row_rule(kind: u8, bound: u32, units: u32, row: &Row, is_top: bool) -> bool {
    let legal = if kind == 1 {
        let size = row.mask.trailing_ones();
        size != 0
            && size <= bound
            && (size == 64 || row.mask >> size == 0)
            && row.start.is_multiple_of(size)
    } else {
        row.mask != 0 && (bound == 64 || row.mask >> bound == 0) && row.start.is_multiple_of(bound)
    };
    legal
        && row.start + 63 - row.mask.leading_zeros() < units
        && row.has(row.own)
        && if is_top {
            row.pair == 0
        } else {
            row.has(row.pair)
        }
}

/// The check.
pub fn check<const ALL: bool>(sheet: &[u8]) -> u64 {
    read::<ALL>(sheet, &mut [Row::EMPTY; 135])
}

/// The check, which leaves the decoded rows in `rows`. The answer is packed as the library packs
/// it. With `ALL`, each row is compared with every other row; without, rows of different rounds
/// are compared once, from the earlier one, which is the one that would be named.
#[inline]
pub fn read<const ALL: bool>(sheet: &[u8], rows: &mut Rows) -> u64 {
    if sheet.len() < 8 {
        return 1;
    }
    let [version, kind, bound, parties] = [sheet[2], sheet[3], sheet[4], sheet[5]];
    if version != 1 {
        return 2;
    }
    let units = two(sheet, 6);
    if !(1..=2).contains(&kind)
        || !(1..=64).contains(&bound)
        || !(1..=16).contains(&parties)
        || !(1..=1024).contains(&units)
    {
        return 3;
    }
    let parties = usize::from(parties);
    let count = parties * (parties + 1) / 2 - 1;
    if two(sheet, 0) as usize != 8 + 14 * count || sheet.len() != 8 + 14 * count {
        return 4;
    }
    let rows = &mut rows[..count];
    for (row, bytes) in rows.iter_mut().zip(sheet[8..].as_chunks::<14>().0) {
        *row = decode(bytes);
    }
    let bound = u32::from(bound);
    let mut first = 0;
    for round in 2..=parties {
        for (index, row) in rows[first..first + round].iter().enumerate() {
            if !row_rule(kind, bound, units, row, index + 1 == round) {
                return 5 | ((first + index + 1) as u64) << 32;
            }
        }
        first += round;
    }
    let mut first = 0;
    for round in 2..=parties {
        let (before, rest) = rows.split_at(first);
        let (these, after) = rest.split_at(round);
        for (index, row) in these.iter().enumerate() {
            let clash = round_clash(these, index)
                || after.iter().any(|other| row.meets(other))
                || (ALL && before.iter().any(|other| row.meets(other)));
            if clash {
                return 6 | ((first + index + 1) as u64) << 32;
            }
        }
        first += round;
    }
    0
}

/// Whether a row breaks the writer rule inside its round.
#[inline]
fn round_clash(these: &[Row], index: usize) -> bool {
    let row = &these[index];
    let top = these.len() - 1;
    if index == top {
        return these[..top].iter().any(|other| other.has(row.own));
    }
    // The two units of a lower, tested together.
    these[top].has(row.own)
        || !these[top].has(row.pair)
        || these[..top]
            .iter()
            .enumerate()
            .any(|(at, other)| at != index && (other.has(row.own) || other.has(row.pair)))
}

/// Checks that the plain check gives the model's answers, on many sheets.
pub fn verify(sheets: u32) {
    use compare::make::{damage, sheets as make};
    use compare::model::layout::host_check;
    use compare::rng::Rng;
    let mut rng = Rng::new(1);
    for _ in 0..sheets {
        let draft = make::any_good(&mut rng);
        let good = draft.bytes();
        let bad = [
            damage::row_field(&mut rng, draft.clone()),
            damage::legal_row(&mut rng, draft.clone()),
            damage::one_byte(&mut rng, draft.clone()),
            damage::length(&mut rng, draft),
            damage::random_small_rows(&mut rng),
        ];
        for bytes in bad.iter().chain([&good]) {
            let model = host_check(bytes);
            assert_eq!(check::<false>(bytes), model, "{bytes:02X?}");
            assert_eq!(check::<true>(bytes), model, "{bytes:02X?}");
        }
    }
}
