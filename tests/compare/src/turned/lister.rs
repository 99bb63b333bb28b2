//! The lister with a rule turned.

use super::{turned, Call, Lists, Turned};
use std::io::Error;

/// "The lister reads at most 4,096 schedule bytes".
const MOST: usize = 4096;

pub const RULES: &[Turned] = &[
    turned(
        "lister-running",
        "a running party has a decision of 0",
        Call::Lister(running),
    ),
    turned(
        "lister-idle",
        "a party stopped before its first step is idle",
        Call::Lister(idle),
    ),
    turned(
        "lister-entries",
        "the first line counts the bytes past 4,096 too",
        Call::Lister(entries),
    ),
    turned(
        "lister-last-entry",
        "the last of 4,096 bytes is counted and not obeyed",
        Call::Lister(last_entry),
    ),
    turned(
        "lister-past-limit",
        "a bad byte past 4,096 is refused",
        Call::Lister(past_limit),
    ),
    turned(
        "lister-newline",
        "the line of a refusal is not ended",
        Call::Lister(newline),
    ),
];

/// What a lister prints.
type Printed = Result<Vec<u8>, Error>;

/// What the lister prints, changed like this.
fn changed(input: &[u8], lister: &Lists, change: impl FnOnce(String) -> String) -> Printed {
    let printed = String::from_utf8_lossy(&lister(input)?).into_owned();
    Ok(change(printed).into_bytes())
}

fn running(input: &[u8], lister: &Lists) -> Printed {
    changed(input, lister, |printed| {
        let line = |line: &str| match line.strip_suffix('-') {
            Some(rest) if rest.contains(" running ") => format!("{rest}0\n"),
            _ => format!("{line}\n"),
        };
        printed.lines().map(line).collect()
    })
}

fn idle(input: &[u8], lister: &Lists) -> Printed {
    changed(input, lister, |printed| {
        printed.replace(" stopped 0 ", " idle 0 ")
    })
}

fn entries(input: &[u8], lister: &Lists) -> Printed {
    changed(input, lister, |printed| {
        let whole = format!("entries {}\n", input.len());
        printed.replace(&format!("entries {MOST}\n"), &whole)
    })
}

fn last_entry(input: &[u8], lister: &Lists) -> Printed {
    let whole = lister(input)?;
    if input.len() < MOST || whole.starts_with(b"refused") {
        return Ok(whole);
    }
    changed(&input[..MOST - 1], lister, |printed| {
        printed.replace("entries 4095\n", "entries 4096\n")
    })
}

fn past_limit(input: &[u8], lister: &Lists) -> Printed {
    let is_bad = |byte: &u8| !matches!(byte, 1 | 2 | 129 | 130);
    let rest = input.get(MOST..).unwrap_or_default();
    changed(input, lister, |printed| {
        match rest.iter().position(is_bad) {
            Some(index) if printed.starts_with("parties") => {
                format!("refused 8 at {}\n", MOST + index)
            }
            _ => printed,
        }
    })
}

fn newline(input: &[u8], lister: &Lists) -> Printed {
    changed(input, lister, |printed| match printed.strip_suffix('\n') {
        Some(line) if line.starts_with("refused") => line.to_string(),
        _ => printed,
    })
}
