//! The judge: makes one call on both sides, compares the packed answers and everything lent,
//! counts the case, and stops with a full report at the first difference.

use crate::crash::{self, hex};
use crate::ffi::Reply;
use crate::model::layout::unpack;
use crate::rng::Rng;
use crate::tally::{Group, Kind, Tally};
use std::time::{Duration, Instant};

#[cfg(feature = "runs")]
mod runs;
#[cfg(feature = "sessions")]
mod sessions;
#[cfg(feature = "sheets")]
mod sheets;

/// A difference was found and reported; nothing more is compared.
#[derive(Debug)]
pub struct Stop;

/// Where a difference was found: in which call, by which case, and in which group.
#[derive(Clone, Debug)]
pub struct Found {
    pub call: String,
    pub case: u64,
    pub group: &'static str,
}

/// What goes on until a difference.
pub type Going<T> = Result<T, Stop>;

/// How often the progress line is printed.
const PROGRESS: Duration = Duration::from_secs(3);

/// Keeps the count, the time and the source of random numbers.
pub struct Judge {
    pub tally: Tally,
    pub rng: Rng,
    seed: u64,
    started: Instant,
    seconds: f64,
    cases: u64,
    shown: Instant,
    shown_cases: u64,
    found: Option<Found>,
}

/// A part of a case, for its report.
pub type Part<'a> = (&'static str, &'a [u8]);

impl Judge {
    pub fn new(seed: u64, seconds: f64) -> Judge {
        let now = Instant::now();
        Judge {
            tally: Tally::new(),
            rng: Rng::new(seed),
            seed,
            started: now,
            seconds,
            cases: 0,
            shown: now,
            shown_cases: 0,
            found: None,
        }
    }

    /// Where the library, or the lister, was found to differ from the model.
    pub fn found(&self) -> Option<&Found> {
        self.found.as_ref()
    }

    pub fn group(&mut self, kind: Kind, name: &'static str) -> Group {
        self.tally.group(kind, name)
    }

    /// Whether the time is over.
    pub fn over(&self) -> bool {
        self.started.elapsed().as_secs_f64() >= self.seconds
    }

    /// Counts a case towards the progress line.
    fn tick(&mut self) {
        self.cases += 1;
        if self.cases.is_multiple_of(64) && self.shown.elapsed() >= PROGRESS {
            let rate = (self.cases - self.shown_cases) as f64 / self.shown.elapsed().as_secs_f64();
            let kinds: Vec<String> = Kind::ALL
                .iter()
                .filter(|kind| self.tally.has(**kind))
                .map(|kind| format!("{} {}", kind.name(), self.tally.cases(*kind)))
                .collect();
            eprintln!(
                "{:.0} s: {}; {rate:.0} cases/s",
                self.started.elapsed().as_secs_f64(),
                kinds.join(", ")
            );
            self.shown = Instant::now();
            self.shown_cases = self.cases;
            crash::still_alive();
        }
    }

    /// Makes one call on both sides. `lent` is lent for writing to each side (empty, if the call
    /// writes nothing) and is given what the model wrote. The packed answers, what was written
    /// and the guards must agree; gives number, value and position.
    pub fn both(
        &mut self,
        group: Group,
        (call, numbers): (&str, &[u32]),
        read: &[Part],
        lent: &mut [u8],
        model: impl FnOnce(&mut [u8]) -> u64,
        library: impl FnOnce(&mut [u8]) -> Reply,
    ) -> Going<(u8, u32, u32)> {
        let before = lent.to_vec();
        let mut by_library = before.clone();
        let by_model = lent;
        let model = model(by_model);
        let library = library(&mut by_library);
        let (number, value, position) = unpack(model);
        self.tally.count(group, number, value);
        self.tick();
        if model == library.answer && *by_model == by_library[..] && library.fault.is_none() {
            return Ok((number, value, position));
        }
        self.differs(group, call);
        self.report(group, &format!("{call} {numbers:?}"), read);
        println!("lent for writing, before: {}", hex(&before));
        println!("model   {}", told(model));
        println!("library {}", told(library.answer));
        if let Some(fault) = &library.fault {
            println!("library {fault}");
        }
        if *by_model != by_library[..] {
            let first = by_model.iter().zip(&by_library).position(|(a, b)| a != b);
            println!("lent for writing, first different at index {first:?}, afterwards");
            println!("model   {}", hex(by_model));
            println!("library {}", hex(&by_library));
        }
        Err(Stop)
    }

    /// Compares what a program printed with what it should print.
    pub fn printed(
        &mut self,
        group: Group,
        input: &[u8],
        expected: &str,
        printed: &[u8],
    ) -> Going<()> {
        // The only refusal that the lister prints is 8.
        let number = if expected.starts_with("refused") {
            8
        } else {
            0
        };
        self.tally.count(group, number, 0);
        self.tick();
        if printed == expected.as_bytes() {
            return Ok(());
        }
        self.differs(group, "lister");
        self.report(group, "lister", &[("input", input)]);
        println!("model   {expected:?}");
        println!("program {:?}", String::from_utf8_lossy(printed));
        Err(Stop)
    }

    /// The model itself does not do what a case was made for.
    pub fn expect(&mut self, good: bool, group: Group, what: &str, inputs: &[Part]) -> Going<()> {
        if good {
            return Ok(());
        }
        self.report(group, what, inputs);
        println!("the model does not give what this case was made for");
        Err(Stop)
    }

    /// Notes where a difference was found; the call is the first word of what it is reported as.
    fn differs(&mut self, group: Group, call: &str) {
        let name = call.split([' ', ',']).next().unwrap_or(call);
        self.found = Some(Found {
            call: name.to_string(),
            case: self.cases,
            group: self.tally.name(group),
        });
    }

    /// The head of a report.
    fn report(&mut self, group: Group, call: &str, inputs: &[Part]) {
        self.tally.different(group);
        println!("DIFFERENCE");
        println!("group   {}", self.tally.name(group));
        println!("seed    {}, case {}", self.seed, self.cases);
        println!("call    {call}");
        for (name, bytes) in inputs {
            println!("{name} ({} bytes) {}", bytes.len(), hex(bytes));
        }
    }
}

/// A packed answer in words.
fn told(answer: u64) -> String {
    let (number, value, position) = unpack(answer);
    format!("number {number}, value {value}, position {position} (packed {answer:#018X})")
}
