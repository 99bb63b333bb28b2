//! The lines of the run: 16 parties, kind 2, A = 31.

use crate::timing::{minima, ratio, Bench};
use crate::{plain_check, plain_run};
use compare::ffi::in_place;
use compare::make::schedules;
use compare::model::layout::host_run;
use compare::model::run::record_length;
use compare::model::sheet::built;
use compare::rng::Rng;
use std::hint::black_box;

pub const PARTIES: usize = 16;
/// The bytes of a long schedule.
const LONG: usize = 1_000_000;

/// The sheet and proposals of all lines here.
pub fn inputs() -> (Vec<u8>, Vec<u8>) {
    let sheet = built(2, 31, PARTIES as u32).expect("P10 gives it");
    let proposals = schedules::proposals(&mut Rng::new(3), PARTIES);
    (sheet, proposals)
}

/// The record that the model gives.
fn record(sheet: &[u8], proposals: &[u8], schedule: &[u8]) -> Vec<u8> {
    let mut out = vec![0; record_length(PARTIES)];
    assert_eq!(host_run(sheet, proposals, schedule, &mut out), 0);
    out
}

/// How many bytes of a schedule act: the own steps of all parties, by the model's record.
fn acts(record: &[u8]) -> usize {
    record[4..]
        .chunks(7)
        .map(|part| usize::from(u16::from_be_bytes([part[1], part[2]])))
        .sum()
}

/// The status of a party after a schedule, by the model's record.
fn status(record: &[u8], party: usize) -> u8 {
    record[4 + 7 * (party - 1)]
}

/// A schedule in which every byte acts, until all have decided: `next` chooses from the parties
/// that have not.
pub fn acting(next: &mut dyn FnMut(&[u8]) -> u8) -> Vec<u8> {
    let (sheet, proposals) = inputs();
    let mut session = compare::make::sessions::opened(&sheet, &proposals);
    let mut left: Vec<u8> = (1..=PARTIES as u8).collect();
    let mut schedule = Vec::new();
    while !left.is_empty() {
        let party = next(&left);
        let place = compare::model::layout::host_step(&mut session, u32::from(party)) >> 8;
        assert!(place < 8);
        schedule.push(party);
        if place == 7 {
            left.retain(|other| *other != party);
        }
    }
    schedule
}

/// The round robin of `acting`.
pub fn in_turn() -> Vec<u8> {
    let mut last = 0;
    acting(&mut |left| {
        let after = left.iter().find(|party| **party > last);
        last = *after.unwrap_or(&left[0]);
        last
    })
}

/// The times of one run by the library and by Rust, and how many of its bytes act.
fn times(bench: &Bench, schedule: &[u8]) -> (f64, f64, usize) {
    let (sheet, proposals) = inputs();
    let expected = record(&sheet, &proposals, schedule);
    let mut out = vec![0; expected.len()];
    assert_eq!(in_place::run(&sheet, &proposals, schedule, &mut out), 0);
    assert_eq!(out, expected, "library");
    let mut out = vec![0; expected.len()];
    assert_eq!(plain_run::run(&sheet, &proposals, schedule, &mut out), 0);
    assert_eq!(out, expected, "Rust");
    let mut by_library = out.clone();
    let [library, rust] = minima(
        [
            &mut || in_place::run(&sheet, &proposals, black_box(schedule), &mut by_library),
            &mut || plain_run::run(&sheet, &proposals, black_box(schedule), &mut out),
        ],
        bench.time,
    );
    (library, rust, acts(&expected))
}

/// A long schedule: most of its bytes meet parties that have decided or stopped.
fn long_line(bench: &mut Bench, name: &str, schedule: &[u8]) {
    bench.progress(name);
    let (library, rust, acts) = times(bench, schedule);
    let bytes = schedule.len() as f64;
    println!(
        "{name:<44} {:>9.3} {:>9.3} {:>7} {:>8.3} %",
        library / bytes,
        rust / bytes,
        ratio(library, rust),
        100.0 * acts as f64 / bytes
    );
}

/// A short schedule whose bytes act, with the time of the check on both sides.
fn acting_line(bench: &mut Bench, name: &str, schedule: &[u8], (check, rust_check): (f64, f64)) {
    bench.progress(name);
    let (library, rust, acts) = times(bench, schedule);
    let count = acts as f64;
    println!(
        "{name:<24} {:>6} {:>6.1} % {:>8.2} {:>8.2} {:>6} {:>8.2} {:>8.2} {:>6}",
        schedule.len(),
        100.0 * count / schedule.len() as f64,
        library / count,
        rust / count,
        ratio(library, rust),
        (library - check) / count,
        (rust - rust_check) / count,
        ratio(library - check, rust - rust_check)
    );
}

/// The long schedules: random steps, random steps and stops, one party after the other.
fn long_lines(bench: &mut Bench) {
    println!("\nRun of {LONG} bytes, N = 16, kind 2, A = 31, ns a byte. The sheet check is in it.");
    println!(
        "{:<44} {:>9} {:>9} {:>7} {:>10}",
        "", "library", "Rust", "ratio", "acting"
    );
    let mut rng = Rng::new(4);
    let party = |rng: &mut Rng| rng.from_to(1, PARTIES) as u8;
    let steps: Vec<u8> = (0..LONG).map(|_| party(&mut rng)).collect();
    long_line(bench, "random steps", &steps);
    let stops: Vec<u8> = (0..LONG)
        .map(|_| party(&mut rng) + if rng.once_in(2) { 128 } else { 0 })
        .collect();
    long_line(bench, "random steps and stops, half of each", &stops);
    let mut sorted = stops;
    sorted.sort_by_key(|byte| *byte >= 128);
    long_line(bench, "the same, all steps before all stops", &sorted);
    let (sheet, proposals) = inputs();
    let after: Vec<u8> = (0..LONG)
        .map(|index| (index * PARTIES / LONG) as u8 + 1)
        .collect();
    let decided = record(&sheet, &proposals, &after);
    assert!((1..=PARTIES).all(|i| status(&decided, i) == 2));
    long_line(bench, "one party after the other", &after);
}

/// The schedules whose bytes act.
fn acting_lines(bench: &mut Bench) {
    let (sheet, _) = inputs();
    bench.progress("the check alone");
    let [check, rust_check] = minima(
        [&mut || in_place::check(black_box(&sheet)), &mut || {
            plain_check::check::<false>(black_box(&sheet))
        }],
        bench.time,
    );
    println!("\nRuns of schedules until all have decided, N = 16, kind 2, A = 31, ns an act.");
    println!("First with the sheet check in it, then with the check's time taken off both sides:");
    println!("the check alone takes {check:.0} ns in the library, {rust_check:.0} ns in Rust;");
    let (library, rust, _) = times(bench, &[]);
    println!("a run of no bytes {library:.0} ns in the library, {rust:.0} ns in Rust (check, opening, record).");
    println!(
        "{:<24} {:>6} {:>8} {:>8} {:>8} {:>6} {:>8} {:>8} {:>6}",
        "", "bytes", "acting", "library", "Rust", "ratio", "library", "Rust", "ratio"
    );
    let checks = (check, rust_check);
    acting_line(bench, "in turn", &in_turn(), checks);
    let mut rng = Rng::new(5);
    let random = acting(&mut |left| rng.pick(left));
    acting_line(bench, "random", &random, checks);
    let after = acting(&mut |left| left[0]);
    acting_line(bench, "one after the other", &after, checks);
    let backwards = acting(&mut |left| left[left.len() - 1]);
    acting_line(bench, "the same from the last", &backwards, checks);
}

pub fn lines(bench: &mut Bench) {
    long_lines(bench);
    acting_lines(bench);
}
