//! Counting: which groups of cases were compared, how many cases each had, how often each
//! refusal number and each value occurred, and at which rows refusals 5 and 6 were seen.

use crate::model::sheet::number_of_rows;

/// The kinds of cases.
#[derive(Clone, Copy, Debug, PartialEq, Eq)]
pub enum Kind {
    Sheets,
    Sessions,
    Runs,
    Lister,
    Huge,
}

impl Kind {
    pub const ALL: [Kind; 5] = [
        Kind::Sheets,
        Kind::Sessions,
        Kind::Runs,
        Kind::Lister,
        Kind::Huge,
    ];

    pub fn name(self) -> &'static str {
        match self {
            Kind::Sheets => "sheets",
            Kind::Sessions => "sessions",
            Kind::Runs => "runs",
            Kind::Lister => "lister",
            Kind::Huge => "huge",
        }
    }
}

/// A group of cases, by its index in the tally.
#[derive(Clone, Copy, Debug, PartialEq, Eq)]
pub struct Group(usize);

/// The largest refusal number.
const NUMBERS: usize = 13;
/// Values of done answers: places, statuses and live numbers are all at most 16.
const VALUES: usize = 17;

/// What is counted for a group.
struct Entry {
    kind: Kind,
    name: &'static str,
    cases: u64,
    numbers: [u64; NUMBERS],
    values: [u64; VALUES],
    different: bool,
}

/// The rows at which a refusal was seen, for a kind and a number of parties.
#[derive(Clone)]
struct Seen {
    kind: u8,
    parties: u8,
    rows_5: Vec<u64>,
    rows_6: Vec<u64>,
}

/// All that is counted.
pub struct Tally {
    entries: Vec<Entry>,
    seen: Vec<Seen>,
    accepted_built: u64,
    accepted_other: [u64; 3],
    notes: Vec<(Kind, String)>,
}

impl Default for Tally {
    fn default() -> Tally {
        Tally::new()
    }
}

impl Tally {
    pub fn new() -> Tally {
        // Refusals 5 and 6 must be seen at every row of these sheets.
        let numbers = (2..=3)
            .map(|parties| (1, parties))
            .chain((2..=16).map(|parties| (2, parties)));
        let seen = numbers
            .map(|(kind, parties)| {
                let none = vec![0; number_of_rows(usize::from(parties))];
                Seen {
                    kind,
                    parties,
                    rows_5: none.clone(),
                    rows_6: none,
                }
            })
            .collect();
        Tally {
            entries: Vec::new(),
            seen,
            accepted_built: 0,
            accepted_other: [0; 3],
            notes: Vec::new(),
        }
    }

    /// A line to be printed with the cases of a kind.
    pub fn note(&mut self, kind: Kind, line: String) {
        self.notes.push((kind, line));
    }

    /// A new group, which fails if it stays without a case.
    pub fn group(&mut self, kind: Kind, name: &'static str) -> Group {
        self.entries.push(Entry {
            kind,
            name,
            cases: 0,
            numbers: [0; NUMBERS],
            values: [0; VALUES],
            different: false,
        });
        Group(self.entries.len() - 1)
    }

    pub fn name(&self, group: Group) -> &'static str {
        self.entries[group.0].name
    }

    /// Counts a case with its refusal number and value.
    pub fn count(&mut self, group: Group, number: u8, value: u32) {
        let entry = &mut self.entries[group.0];
        entry.cases += 1;
        entry.numbers[usize::from(number)] += 1;
        if number == 0 {
            entry.values[(value as usize).min(VALUES - 1)] += 1;
        }
    }

    /// A difference was found in the group.
    pub fn different(&mut self, group: Group) {
        self.entries[group.0].different = true;
    }

    /// Notes at which row of which sheet a refusal 5 or 6 was given.
    pub fn row(&mut self, sheet: &[u8], number: u8, position: u32) {
        let (kind, parties) = (sheet[3], sheet[5]);
        let found = self
            .seen
            .iter_mut()
            .find(|seen| seen.kind == kind && seen.parties == parties);
        if let Some(seen) = found {
            let rows = if number == 5 {
                &mut seen.rows_5
            } else {
                &mut seen.rows_6
            };
            rows[position as usize - 1] += 1;
        }
    }

    /// Notes an accepted sheet, the builder's or another.
    pub fn accepted(&mut self, kind: u8, is_built: bool) {
        if is_built {
            self.accepted_built += 1;
        } else {
            self.accepted_other[usize::from(kind)] += 1;
        }
    }

    pub fn cases(&self, kind: Kind) -> u64 {
        self.entries
            .iter()
            .filter(|entry| entry.kind == kind)
            .map(|entry| entry.cases)
            .sum()
    }

    pub fn has(&self, kind: Kind) -> bool {
        self.entries.iter().any(|entry| entry.kind == kind)
    }

    /// How many of the listed rows were seen, of how many.
    fn rows_seen(&self, rows: impl Fn(&Seen) -> &Vec<u64>) -> (usize, usize) {
        let all: Vec<u64> = self
            .seen
            .iter()
            .flat_map(|seen| rows(seen).clone())
            .collect();
        (all.iter().filter(|count| **count > 0).count(), all.len())
    }

    /// Prints everything; the last line is `N passed, M failed`. Gives M.
    pub fn print(&self) -> usize {
        let mut passed = 0;
        let mut failed = 0;
        let mut judge = |good: bool| {
            if good {
                passed += 1;
                "pass"
            } else {
                failed += 1;
                "FAIL"
            }
        };
        for kind in Kind::ALL {
            if !self.has(kind) {
                continue;
            }
            println!("{}: {} cases", kind.name(), self.cases(kind));
            let mut numbers = [0; NUMBERS];
            for entry in self.entries.iter().filter(|entry| entry.kind == kind) {
                let verdict = judge(entry.cases > 0 && !entry.different);
                println!(
                    "  {verdict} {:<52} {:>10}  {}",
                    entry.name,
                    entry.cases,
                    counted(&entry.numbers)
                );
                if entry.values[1..].iter().any(|count| *count > 0) {
                    println!("       values {}", counted(&entry.values));
                }
                for (sum, count) in numbers.iter_mut().zip(entry.numbers) {
                    *sum += count;
                }
            }
            println!("  by number: {}", counted(&numbers));
            if kind == Kind::Sheets {
                self.print_sheets(&mut judge);
            }
            for (_, line) in self.notes.iter().filter(|(of, _)| *of == kind) {
                println!("       {line}");
            }
        }
        println!("{passed} passed, {failed} failed");
        failed
    }

    /// The rows at which 5 and 6 were seen, and the accepted sheets that are not the builder's.
    fn print_sheets(&self, judge: &mut impl FnMut(bool) -> &'static str) {
        for (number, (seen, all)) in [
            (5, self.rows_seen(|seen| &seen.rows_5)),
            (6, self.rows_seen(|seen| &seen.rows_6)),
        ] {
            let verdict = judge(seen == all);
            println!(
                "  {verdict} refusal {number} seen at {seen} of {all} rows \
                 (kind 1, N = 2 and 3; kind 2, N = 2 to 16)"
            );
        }
        if let Some(last) = self.seen.last() {
            let least = |rows: &Vec<u64>| rows.iter().min().copied().unwrap_or(0);
            println!(
                "       fewest at one row of kind 2, N = 16: refusal 5 {}, refusal 6 {}",
                least(&last.rows_5),
                least(&last.rows_6)
            );
        }
        let [_, kind_1, kind_2] = self.accepted_other;
        let verdict = judge(kind_1 > 0 && kind_2 > 0);
        println!(
            "  {verdict} accepted sheets that are not the builder's: kind 1 {kind_1}, \
             kind 2 {kind_2} (the builder's: {})",
            self.accepted_built
        );
    }
}

/// The counts that are not zero, as `index:count`.
fn counted(counts: &[u64]) -> String {
    counts
        .iter()
        .enumerate()
        .filter(|(_, count)| **count > 0)
        .map(|(index, count)| format!("{index}:{count}"))
        .collect::<Vec<_>>()
        .join(" ")
}
