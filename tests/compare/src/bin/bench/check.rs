//! The lines of the sheet check.

use crate::plain_check;
use crate::timing::{minima, ratio, Bench};
use compare::ffi::in_place;
use compare::make::sheets::{kind_2, Order, Style};
use compare::make::{index_of, Draft};
use compare::model::sheet::built;
use compare::rng::Rng;
use std::hint::black_box;

/// One line: a sheet and the answer that it must get.
fn line(bench: &mut Bench, name: &str, sheet: &[u8], expected: (u64, u64)) {
    bench.progress(name);
    let answer = expected.0 | expected.1 << 32;
    assert_eq!(in_place::check(sheet), answer, "library: {name}");
    assert_eq!(plain_check::check::<false>(sheet), answer, "Rust: {name}");
    assert_eq!(plain_check::check::<true>(sheet), answer, "Rust: {name}");
    let [library, rust, rust_all] = minima(
        [
            &mut || in_place::check(black_box(sheet)),
            &mut || plain_check::check::<false>(black_box(sheet)),
            &mut || plain_check::check::<true>(black_box(sheet)),
        ],
        bench.time,
    );
    println!(
        "{name:<44} {library:>9.0} {rust:>9.0} {:>7} {rust_all:>9.0} {:>7}",
        ratio(library, rust),
        ratio(library, rust_all)
    );
}

/// All lines.
pub fn lines(bench: &mut Bench) {
    println!("\nSheet check, ns a call. Rust looks at each pair of rounds once; then at every pair of rows.");
    println!(
        "{:<44} {:>9} {:>9} {:>7} {:>9} {:>7}",
        "", "library", "Rust", "ratio", "Rust all", "ratio"
    );
    let largest = built(2, 31, 16).expect("P10 gives it");
    line(bench, "built, kind 2, N = 16, A = 31", &largest, (0, 0));
    let style = Style {
        parties: 16,
        bound: 31,
        order: Order::Descending,
        permuted: false,
        fat: false,
    };
    let descending = kind_2(&mut Rng::new(1), style).bytes();
    let name = "rounds in descending order, N = 16, A = 31";
    line(bench, name, &descending, (0, 0));
    // A lower of round 16 also writes the top's own unit: only the last row fails.
    let mut damaged = Draft::read(&largest);
    let own = usize::from(damaged.lines[index_of(16, 16)].own);
    damaged.lines[index_of(16, 1)].add(own);
    let name = "refusal 6 in the last row, N = 16, A = 31";
    line(bench, name, &damaged.bytes(), (6, 135));
    let wide = built(2, 64, 16).expect("31 is at most 64");
    line(bench, "built, kind 2, N = 16, A = 64", &wide, (0, 0));
    let small = built(1, 5, 3).expect("P10 gives it");
    line(bench, "built, kind 1, N = 3, B = 5", &small, (0, 0));
}
