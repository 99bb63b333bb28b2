//! Sheets that should be accepted: the builder's, and many that the builder does not make.

use super::{Draft, Line};
use crate::model::sheet;
use crate::rng::Rng;

/// A number of parties from 1 up to a limit: small ones often, the limit now and then.
pub fn some_parties(rng: &mut Rng, limit: usize) -> usize {
    let number = match rng.below(10) {
        0 => 1,
        1..=4 => rng.from_to(2, 4),
        5..=7 => rng.from_to(4, 9),
        8 => rng.from_to(9, 16),
        _ => limit,
    };
    number.min(limit)
}

/// The builder's sheet for numbers that have one.
pub fn built(rng: &mut Rng) -> Draft {
    loop {
        let kind = rng.from_to(1, 2);
        let parties = some_parties(rng, if kind == 1 { 3 } else { 16 });
        let bound = rng.from_to(1, 64);
        if let Ok(bytes) = sheet::built(kind as u32, bound as u32, parties as u32) {
            return Draft::read(&bytes);
        }
    }
}

/// The order in memory of the words of a kind 2 sheet's rounds.
#[derive(Clone, Copy, Debug, PartialEq, Eq)]
pub enum Order {
    Ascending,
    Descending,
    Mixed,
    /// Several rounds in one word where there is room.
    Shared,
}

/// How a kind 2 sheet is laid out.
#[derive(Clone, Copy, Debug)]
pub struct Style {
    pub parties: usize,
    pub bound: usize,
    pub order: Order,
    /// Units inside a word in any order.
    pub permuted: bool,
    /// Further units in the rows of a round.
    pub fat: bool,
}

/// Some way to lay out a kind 2 sheet.
pub fn some_style(rng: &mut Rng, fat: bool) -> Style {
    let parties = some_parties(rng, 16);
    // A fat round needs at least one unit more than 2r − 1.
    let least = 2 * parties - 1 + usize::from(fat);
    let bound = match rng.below(4) {
        0 => least,
        1 => 64,
        _ => rng.from_to(least, 64),
    };
    Style {
        parties,
        bound,
        order: rng.pick(&[
            Order::Ascending,
            Order::Descending,
            Order::Mixed,
            Order::Shared,
        ]),
        permuted: rng.once_in(2),
        fat,
    }
}

/// The free units of each word of a memory of 1,024 units.
fn free_words(bound: usize) -> Vec<Vec<usize>> {
    (0..1024)
        .step_by(bound)
        .map(|start| (start..(start + bound).min(1024)).collect())
        .collect()
}

/// The word of each round from 2 up, in the order asked for.
fn words_of_rounds(rng: &mut Rng, style: Style, free: &[Vec<usize>]) -> Vec<usize> {
    let rounds = style.parties - 1;
    let whole = free
        .iter()
        .filter(|units| units.len() == style.bound)
        .count();
    // Close together or spaced apart.
    let span = if rng.once_in(2) {
        rounds
    } else {
        rng.from_to(rounds, whole)
    };
    let mut words: Vec<usize> = (0..span).collect();
    rng.shuffle(&mut words);
    words.truncate(rounds);
    match style.order {
        Order::Ascending => words.sort(),
        Order::Descending => {
            words.sort();
            words.reverse();
        }
        _ => {}
    }
    words
}

/// The rows of a round of kind 2, on units that it takes out of a word.
fn round_of_kind_2(
    rng: &mut Rng,
    style: Style,
    round: usize,
    word: usize,
    free: &mut Vec<usize>,
) -> Vec<Line> {
    if style.permuted {
        rng.shuffle(free);
    }
    let needed: Vec<usize> = free.drain(..2 * round - 1).collect();
    let (own, pair) = needed.split_at(round);
    let mut sets: Vec<Vec<usize>> = (0..round - 1).map(|i| vec![own[i], pair[i]]).collect();
    sets.push(
        std::iter::once(own[round - 1])
            .chain(pair.iter().copied())
            .collect(),
    );
    if style.fat && !free.is_empty() {
        // Each further unit goes to some of the rows of this round.
        let further = rng.from_to(1, free.len().min(8));
        for unit in free.drain(..further) {
            let sure = rng.below(round);
            for (index, set) in sets.iter_mut().enumerate() {
                if index == sure || rng.once_in(2) {
                    set.push(unit);
                }
            }
        }
    }
    let start = word * style.bound;
    (0..round)
        .map(|i| {
            let pair = pair.get(i).copied().unwrap_or(0);
            Line::of(start, &sets[i], own[i], pair)
        })
        .collect()
}

/// A good kind 2 sheet in some style.
pub fn kind_2(rng: &mut Rng, style: Style) -> Draft {
    let mut free = free_words(style.bound);
    let mut rounds: Vec<Vec<Line>> = vec![Vec::new(); style.parties + 1];
    if style.order == Order::Shared {
        let mut order: Vec<usize> = (2..=style.parties).collect();
        rng.shuffle(&mut order);
        // Few words, so that rounds meet in them; the last ones always have room.
        for round in order {
            let room = |word: &usize| free[*word].len() >= 2 * round - 1;
            let fitting: Vec<usize> = (0..free.len()).filter(room).collect();
            let word = if rng.once_in(8) {
                rng.pick(&fitting)
            } else {
                fitting[0]
            };
            rounds[round] = round_of_kind_2(rng, style, round, word, &mut free[word]);
        }
    } else {
        let words = words_of_rounds(rng, style, &free);
        for round in 2..=style.parties {
            let word = words[round - 2];
            rounds[round] = round_of_kind_2(rng, style, round, word, &mut free[word]);
        }
    }
    let lines: Vec<Line> = rounds.into_iter().flatten().collect();
    let units = some_unit_count(rng, &lines);
    Draft::of(2, style.bound, style.parties, units, lines)
}

/// A unit count that covers all units written: as small as can be, or larger.
fn some_unit_count(rng: &mut Rng, lines: &[Line]) -> usize {
    let least = lines
        .iter()
        .flat_map(Line::units)
        .max()
        .map_or(1, |unit| unit + 1);
    match rng.below(4) {
        0 | 1 => least,
        2 => 1024,
        _ => rng.from_to(least, 1024),
    }
}

/// The builder's kind 1 sheet with its rounds shifted: round 2 by a multiple of 6 = lcm(2, 3),
/// round 3 by a multiple of 30 = lcm(2, 3, 5), so that every start stays a multiple of its b.
pub fn shifted_kind_1(rng: &mut Rng) -> Draft {
    loop {
        let parties = rng.from_to(2, 3);
        let bound = rng.from_to(2 * parties - 1, 64);
        let bytes = sheet::built(1, bound as u32, parties as u32).expect("B is large enough");
        let mut draft = Draft::read(&bytes);
        let far = rng.pick(&[1, 4, 10, 33]);
        let shift_2 = 6 * rng.below(far * 5);
        let shift_3 = 30 * rng.below(far);
        for (index, line) in draft.lines.iter_mut().enumerate() {
            let shift = if index < 2 { shift_2 } else { shift_3 } as u16;
            line.start += shift;
            line.own += shift;
            // Tops have no pair unit.
            if line.pair != 0 {
                line.pair += shift;
            }
        }
        if fits_and_apart(&draft.lines) {
            draft.units = some_unit_count(rng, &draft.lines) as u16;
            return draft;
        }
    }
}

/// Whether all units are below 1,024 and rounds 2 and 3 share none.
fn fits_and_apart(lines: &[Line]) -> bool {
    let (second, third) = lines.split_at(2.min(lines.len()));
    let units: Vec<usize> = second.iter().flat_map(Line::units).collect();
    let others: Vec<usize> = third.iter().flat_map(Line::units).collect();
    units.iter().chain(&others).all(|unit| *unit < 1024)
        && !units.iter().any(|unit| others.contains(unit))
}

/// An interval of units: a kind 1 write set.
type Interval = std::ops::Range<usize>;

/// A good kind 1 sheet for N = 1 to 3, found by a randomised search; `large` asks for words that
/// are larger than needed.
pub fn searched_kind_1(rng: &mut Rng, large: bool) -> Draft {
    let parties = if large { 2 } else { 1 } + rng.below(if large { 2 } else { 3 });
    let least = if large { 10 } else { [1, 3, 5][parties - 1] };
    loop {
        let bound = rng.from_to(least, 64);
        // Search in a small memory or a large one; a large word needs room.
        let limit = rng.pick(&[40, 130, 400, 1024]);
        if let Some(lines) = search(rng, parties, bound, limit, large) {
            let units = some_unit_count(rng, &lines);
            return Draft::of(1, bound, parties, units, lines);
        }
    }
}

/// Tries to find rounds 2 to N apart from each other.
fn search(
    rng: &mut Rng,
    parties: usize,
    bound: usize,
    limit: usize,
    large: bool,
) -> Option<Vec<Line>> {
    let mut rounds: Vec<Vec<Line>> = vec![Vec::new(); parties + 1];
    let mut used: Vec<usize> = Vec::new();
    let mut order: Vec<usize> = (2..=parties).collect();
    rng.shuffle(&mut order);
    for round in order {
        let found = (0..300).find_map(|_| {
            let lines = try_round_of_kind_1(rng, round, bound, limit)?;
            let apart = lines
                .iter()
                .all(|line| line.units().iter().all(|unit| !used.contains(unit)));
            let sizes = lines.iter().map(|line| line.units().len()).max();
            (apart && (!large || sizes >= Some(8))).then_some(lines)
        })?;
        used.extend(found.iter().flat_map(Line::units));
        rounds[round] = found;
    }
    Some(rounds.into_iter().flatten().collect())
}

/// One try for a round of kind 1: a top, and lowers that reach over its two ends.
fn try_round_of_kind_1(
    rng: &mut Rng,
    round: usize,
    bound: usize,
    limit: usize,
) -> Option<Vec<Line>> {
    let size = rng.from_to(1, bound.min(limit));
    let start = size * rng.below(limit / size);
    let top = start..start + size;
    let low_first = rng.once_in(2);
    let mut sets: Vec<Interval> = Vec::new();
    for i in 1..round {
        let size = rng.from_to(1, bound);
        // The word of this size that holds the unit at the top's end, or before its beginning.
        let over_the_low_end = (i == 1) == low_first;
        let inside = if over_the_low_end {
            top.start.checked_sub(1)?
        } else {
            top.end
        };
        let start = inside - inside % size;
        sets.push(start..start + size);
    }
    sets.push(top);
    if sets.iter().any(|set| set.end > limit) {
        return None;
    }
    lines_of(rng, &sets)
}

/// The rows on these sets with some fitting own and pair units, if there are any.
fn lines_of(rng: &mut Rng, sets: &[Interval]) -> Option<Vec<Line>> {
    let top = sets.len() - 1;
    // The units of set i that exactly the sets in `with` have.
    let only = |i: usize, with: &[usize]| -> Vec<usize> {
        sets[i]
            .clone()
            .filter(|unit| (0..sets.len()).all(|j| sets[j].contains(unit) == with.contains(&j)))
            .collect()
    };
    let mut lines = Vec::new();
    for (i, set) in sets.iter().enumerate() {
        let own = only(i, &[i]);
        let pair = if i == top {
            vec![0]
        } else {
            only(i, &[i, top])
        };
        if own.is_empty() || pair.is_empty() {
            return None;
        }
        let units: Vec<usize> = set.clone().collect();
        lines.push(Line::of(set.start, &units, rng.pick(&own), rng.pick(&pair)));
    }
    Some(lines)
}

/// Any sheet that should be accepted, of any kind and style.
pub fn any_good(rng: &mut Rng) -> Draft {
    match rng.below(8) {
        0 | 1 => built(rng),
        2 => {
            let large = rng.once_in(3);
            searched_kind_1(rng, large)
        }
        3 => shifted_kind_1(rng),
        _ => {
            let fat = rng.once_in(2);
            let style = some_style(rng, fat);
            kind_2(rng, style)
        }
    }
}

/// Any sheet that should be accepted, with this many parties.
pub fn good_from_to(rng: &mut Rng, least: u8, most: u8) -> Draft {
    loop {
        let draft = any_good(rng);
        if (least..=most).contains(&draft.parties) {
            return draft;
        }
    }
}

#[cfg(test)]
mod tests {
    use super::*;

    #[test]
    fn made_sheets_are_accepted() {
        let mut rng = Rng::new(7);
        for _ in 0..200 {
            let draft = any_good(&mut rng);
            assert_eq!(sheet::check(&draft.bytes()), Ok(()), "{draft:?}");
        }
    }

    /// No kind 1 sheet for N = 3 is found with B = 3 or 4 (nor for N = 2 with B = 2).
    #[test]
    fn small_bounds_have_no_kind_1_sheet() {
        let mut rng = Rng::new(8);
        for (parties, bound) in [(2, 1), (2, 2), (3, 3), (3, 4)] {
            for _ in 0..200 {
                assert_eq!(search(&mut rng, parties, bound, 130, false), None);
            }
        }
    }
}
