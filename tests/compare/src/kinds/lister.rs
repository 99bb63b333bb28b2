//! The cases of the lister program, if its path is given: what it prints for some input.

use crate::judge::{Going, Judge, Stop};
use crate::make::schedules;
use crate::model::run::lister;
use crate::tally::{Group, Kind};
use crate::turned::{chosen, Call};
use std::io::Write;
use std::path::PathBuf;
use std::process::{Command, Stdio};

/// The groups of this kind.
pub struct Lister {
    path: PathBuf,
    fixed: Group,
    good: Group,
    refused: Group,
    long: Group,
    limit: Group,
}

impl Lister {
    pub fn new(judge: &mut Judge, path: PathBuf) -> Lister {
        let mut group = |name| judge.group(Kind::Lister, name);
        Lister {
            path,
            fixed: group("lister, the example and each single byte"),
            good: group("lister, good schedules"),
            refused: group("lister, schedules with a bad byte"),
            long: group("lister, schedules of about 4,096 bytes"),
            limit: group("lister, last byte acts before and past 4,096"),
        }
    }

    /// The document's example, no input, each single byte, and the only entry of a party just
    /// before and just past the limit.
    pub fn fixed(&self, judge: &mut Judge) -> Going<()> {
        self.print(judge, self.fixed, &[2, 2, 1, 1, 1, 1, 1, 1, 1])?;
        self.print(judge, self.fixed, &[])?;
        for byte in 0..=255 {
            self.print(judge, self.fixed, &[byte])?;
        }
        for length in [4094, 4095, 4096, 4097] {
            for last in [2, 130] {
                let input = [vec![1; length], vec![last]].concat();
                self.print(judge, self.limit, &input)?;
            }
        }
        Ok(())
    }

    /// One case of each group.
    pub fn random(&self, judge: &mut Judge) -> Going<()> {
        let length = judge.rng.below(40);
        let good = schedules::schedule(&mut judge.rng, 2, length);
        self.print(judge, self.good, &good)?;
        let mut bad = good;
        let at = judge.rng.below(bad.len() + 1);
        bad.insert(at, schedules::bad_byte(&mut judge.rng, 2));
        self.print(judge, self.refused, &bad)?;
        // Lengths around the limit; a bad byte just before it, at it, or nowhere.
        let length = judge.rng.pick(&[4095, 4096, 4097, 4200, 9000]);
        let mut long = schedules::schedule(&mut judge.rng, 2, length);
        let at = judge.rng.pick(&[4094, 4095, 4096, 4097]);
        if at < length && judge.rng.once_in(2) {
            long[at] = schedules::bad_byte(&mut judge.rng, 2);
        }
        self.print(judge, self.long, &long)
    }

    /// Compares what the program, or a turned one in front of it, prints with what it should
    /// print.
    fn print(&self, judge: &mut Judge, group: Group, input: &[u8]) -> Going<()> {
        let printed = match chosen() {
            Some(Call::Lister(turned)) => turned(input, &|input| self.output(input)),
            _ => self.output(input),
        };
        let printed = printed.map_err(|why| {
            println!("{}: {why}", self.path.display());
            Stop
        })?;
        let expected = lister(input);
        judge.printed(group, input, &expected, &printed)
    }

    /// Runs the program on this input.
    fn output(&self, input: &[u8]) -> std::io::Result<Vec<u8>> {
        let mut child = Command::new(&self.path)
            .stdin(Stdio::piped())
            .stdout(Stdio::piped())
            .spawn()?;
        let mut to = child.stdin.take().expect("it was piped");
        // The program need not read all of it.
        let _ = to.write_all(input);
        drop(to);
        Ok(child.wait_with_output()?.stdout)
    }
}
