//! The lines of the calls on a session: 16 parties, kind 2, A = 31, through the C interface.

use crate::plain_check;
use crate::run::{in_turn, inputs, PARTIES};
use crate::timing::{minima, ratio, Bench};
use compare::ffi::in_place;
use compare::make::sessions::opened;
use std::hint::black_box;

pub fn lines(bench: &mut Bench) {
    bench.progress("calls on a session");
    let (sheet, proposals) = inputs();
    let first = opened(&sheet, &proposals);
    let schedule = in_turn();
    let mut last = first.clone();
    for party in &schedule {
        assert!(
            in_place::step(&mut last, u32::from(*party)) < 8 << 8,
            "every byte acts"
        );
    }
    let mut decided = last.clone();
    assert_eq!(in_place::step(&mut decided, 1), 8 << 8);
    assert_eq!(in_place::stop(&mut decided, 1), 2 << 8);
    assert_eq!(in_place::live(&first), (PARTIES as u64) << 8);
    assert_eq!(decided, last);
    let mut acting = first.clone();
    let mut copied = first.clone();
    let mut stopping = last.clone();
    // One call of this function is all steps of the schedule.
    let mut all_steps = || {
        acting.copy_from_slice(&first);
        let answers = schedule
            .iter()
            .map(|party| in_place::step(&mut acting, u32::from(*party)));
        answers.sum()
    };
    let [check, rust, live, finished, stop, copy, steps] = minima(
        [
            &mut || in_place::check(black_box(&sheet)),
            &mut || plain_check::check::<false>(black_box(&sheet)),
            &mut || in_place::live(black_box(&last)),
            &mut || in_place::step(&mut decided, black_box(1)),
            &mut || in_place::stop(&mut stopping, black_box(1)),
            &mut || {
                copied.copy_from_slice(black_box(&last));
                u64::from(copied[0])
            },
            &mut all_steps,
        ],
        4 * bench.time,
    );
    let acts = steps / schedule.len() as f64;
    println!("\nCalls through the C interface, N = 16, kind 2, A = 31, ns a call.");
    println!(
        "{:<44} {:>9} {:>13} {:>13}",
        "", "ns", "/ Rust check", "/ own check"
    );
    for (name, time) in [
        ("the library's sheet check", check),
        ("Rust's sheet check", rust),
        ("a copy of a session's 3,418 bytes", copy),
        ("live", live),
        ("step that answers 8", finished),
        ("stop of a party that has decided", stop),
        (
            &format!("step that acts (mean of {} in turn)", schedule.len()),
            acts,
        ),
    ] {
        println!(
            "{name:<44} {time:>9.0} {:>13} {:>13}",
            ratio(time, rust),
            ratio(time, check)
        );
    }
}
