//! The bench: in one process, the library beside plain fast Rust of the same rules. Each time is
//! the smallest seen over interleaved repetitions, each ratio is library/Rust.
//!
//!     bench [--seconds N] [--only check|run|calls]
//!
//! N is the time spent on each line (default 2).

use compare::ffi::{Linked, LINKED};
use std::process::ExitCode;
use std::time::Duration;

// Cargo links this program anew where the archive is newer.
#[cfg(archive)]
const _: &[u8] = include_bytes!(env!("SEPALSAIL_ARCHIVE"));

mod calls;
mod check;
mod plain_check;
mod plain_run;
mod run;
mod timing;

/// A part of the bench prints its lines.
type Lines = fn(&mut timing::Bench);

const PARTS: [(&str, Lines); 3] = [
    ("check", check::lines),
    ("run", run::lines),
    ("calls", calls::lines),
];

/// The time for each line and the only part to be run, from the command line.
fn wanted() -> Option<(Duration, Option<String>)> {
    let mut time = Duration::from_secs(2);
    let mut only = None;
    let mut words = std::env::args().skip(1);
    while let Some(word) = words.next() {
        let value = words.next()?;
        match word.as_str() {
            "--seconds" => time = Duration::try_from_secs_f64(value.parse().ok()?).ok()?,
            "--only" if PARTS.iter().any(|(name, _)| *name == value) => only = Some(value),
            _ => return None,
        }
    }
    Some((time, only))
}

fn main() -> ExitCode {
    if LINKED == Linked::Nothing {
        println!("no library: build with SEPALSAIL_LIB or with the feature model-only");
        return ExitCode::from(2);
    }
    let Some((time, only)) = wanted() else {
        eprintln!("bench [--seconds N] [--only check|run|calls]");
        return ExitCode::from(2);
    };
    println!("library side: {LINKED:?}");
    // The baselines must follow the rules too.
    plain_check::verify(500);
    plain_run::verify(500);
    let mut bench = timing::Bench::new(time);
    for (name, lines) in PARTS {
        if only.as_deref().is_none_or(|only| only == name) {
            lines(&mut bench);
        }
    }
    ExitCode::SUCCESS
}

#[cfg(test)]
mod tests {
    #[test]
    fn the_plain_check_gives_the_models_answers() {
        super::plain_check::verify(300);
    }

    #[test]
    fn the_plain_run_gives_the_models_answers() {
        super::plain_run::verify(300);
    }
}
