//! Libraries with one rule of document 01 turned, to see that the comparison can fail. Each stands
//! in front of the linked library and answers as that does except where its one rule is turned:
//! it lends the library other bytes, or changes what came back. What is made and how it is judged
//! knows nothing of this.

// Without all of the calls not every helper is used.
#![cfg_attr(
    not(all(feature = "sheets", feature = "sessions", feature = "runs")),
    allow(dead_code, unused_imports)
)]

#[cfg(feature = "sheets")]
mod build;
#[cfg(feature = "sheets")]
mod check;
#[cfg(feature = "sessions")]
mod entry;
mod lister;
#[cfg(feature = "sessions")]
mod live;
#[cfg(feature = "sessions")]
mod open;
#[cfg(feature = "runs")]
mod run;
#[cfg(feature = "sessions")]
mod step;
#[cfg(feature = "sessions")]
mod stop;

use crate::ffi::Lent;
use crate::tally::Kind;
use std::io::Error;
use std::sync::OnceLock;

/// A library with one rule turned: its name, what it does, and the call that does it.
#[derive(Clone, Copy)]
pub struct Turned {
    pub name: &'static str,
    pub what: &'static str,
    pub call: Call,
}

/// A call that stands in front of the library's.
#[derive(Clone, Copy)]
pub enum Call {
    #[cfg(feature = "sheets")]
    Check(fn(&mut Lent) -> u64),
    #[cfg(feature = "sheets")]
    Build(fn([u32; 3], &mut Lent) -> u64),
    #[cfg(feature = "sessions")]
    Open(fn(&mut Lent, &mut Lent, &mut Lent) -> u64),
    #[cfg(feature = "sessions")]
    Step(fn(&mut Lent, u32) -> u64),
    #[cfg(feature = "sessions")]
    Stop(fn(&mut Lent, u32) -> u64),
    #[cfg(feature = "sessions")]
    Live(fn(&mut Lent) -> u64),
    #[cfg(feature = "runs")]
    Run(fn(&mut Lent, &mut Lent, &[u8], &mut Lent) -> u64),
    /// What is printed for an input; the second argument has the lister print for one.
    Lister(fn(&[u8], &Lists) -> Result<Vec<u8>, Error>),
}

/// The lister: what it prints for an input.
pub type Lists<'a> = dyn Fn(&[u8]) -> Result<Vec<u8>, Error> + 'a;

impl Call {
    /// The call's name in the host interface.
    pub fn name(self) -> &'static str {
        match self {
            #[cfg(feature = "sheets")]
            Call::Check(_) => "sepalsail_check",
            #[cfg(feature = "sheets")]
            Call::Build(_) => "sepalsail_build",
            #[cfg(feature = "sessions")]
            Call::Open(_) => "sepalsail_open",
            #[cfg(feature = "sessions")]
            Call::Step(_) => "sepalsail_step",
            #[cfg(feature = "sessions")]
            Call::Stop(_) => "sepalsail_stop",
            #[cfg(feature = "sessions")]
            Call::Live(_) => "sepalsail_live",
            #[cfg(feature = "runs")]
            Call::Run(_) => "sepalsail_run",
            Call::Lister(_) => "lister",
        }
    }

    /// The kind of cases that make this call.
    pub fn kind(self) -> Kind {
        match self {
            #[cfg(feature = "sheets")]
            Call::Check(_) | Call::Build(_) => Kind::Sheets,
            #[cfg(feature = "sessions")]
            Call::Open(_) | Call::Step(_) | Call::Stop(_) | Call::Live(_) => Kind::Sessions,
            #[cfg(feature = "runs")]
            Call::Run(_) => Kind::Runs,
            Call::Lister(_) => Kind::Lister,
        }
    }
}

/// A turned rule as the tables of the modules have it.
const fn turned(name: &'static str, what: &'static str, call: Call) -> Turned {
    Turned { name, what, call }
}

/// All turned rules.
pub fn all() -> Vec<Turned> {
    let tables: &[&[Turned]] = &[
        #[cfg(feature = "sheets")]
        check::RULES,
        #[cfg(feature = "sheets")]
        build::RULES,
        #[cfg(feature = "sessions")]
        open::RULES,
        #[cfg(feature = "sessions")]
        step::RULES,
        #[cfg(feature = "sessions")]
        stop::RULES,
        #[cfg(feature = "sessions")]
        live::RULES,
        #[cfg(feature = "runs")]
        run::RULES,
        lister::RULES,
    ];
    tables.concat()
}

/// The call in front of the library, if there is one.
static CHOSEN: OnceLock<Call> = OnceLock::new();

/// Puts this rule in front of the library, for good.
pub fn choose(turned: Turned) {
    assert!(CHOSEN.set(turned.call).is_ok(), "one rule is turned");
}

/// The call in front of the library, if there is one.
pub fn chosen() -> Option<Call> {
    CHOSEN.get().copied()
}

/// The refusal number in an answer.
fn number(answer: u64) -> u8 {
    answer as u8
}

/// The position in an answer.
fn position(answer: u64) -> u32 {
    (answer >> 32) as u32
}

/// A refusal's answer.
fn refusal(number: u8, position: u32) -> u64 {
    u64::from(number) | u64::from(position) << 32
}

#[cfg(test)]
mod tests {
    use super::*;

    #[test]
    fn names_begin_with_their_call_and_are_not_given_twice() {
        let all = all();
        for (index, turned) in all.iter().enumerate() {
            let call = turned.call.name().trim_start_matches("sepalsail_");
            assert!(turned.name.starts_with(&format!("{call}-")));
            assert!(all[..index].iter().all(|other| other.name != turned.name));
        }
    }
}
