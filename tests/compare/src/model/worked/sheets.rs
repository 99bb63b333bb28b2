//! The sheets of document 01: the one given in hexadecimal, the builder's, P10.

use super::{hex, refusal};
use crate::model::layout::SESSION;
use crate::model::sheet;

#[test]
fn the_whole_sheet_in_hexadecimal() {
    let expected = hex(
        "00 24 01 01 03 02 00 06 | 00 02 00 00 00 00 00 00 00 03 00 02 00 03 \
         | 00 03 00 00 00 00 00 00 00 07 00 04 00 00",
    );
    assert_eq!(sheet::built(1, 3, 2), Ok(expected.clone()));
    assert_eq!(sheet::check(&expected), Ok(()));
}

#[test]
fn sizes_named_in_the_document() {
    assert_eq!(sheet::number_of_rows(16), 135);
    assert_eq!(sheet::sheet_length(16), 1898);
    assert_eq!(sheet::sheet_length(1), 8);
    assert_eq!(SESSION, 3418);
}

#[test]
fn every_built_sheet_is_accepted() {
    for kind in 1..=2 {
        for bound in 1..=64 {
            for parties in 1..=16 {
                if let Ok(bytes) = sheet::built(kind, bound, parties) {
                    assert_eq!(sheet::check(&bytes), Ok(()), "{kind} {bound} {parties}");
                }
            }
        }
    }
}

#[test]
fn builder_of_kind_2_in_full() {
    // A = 3, N = 2: own units 0 and 1, pair unit 2, one word of 3 units.
    let expected = hex(
        "00 24 01 02 03 02 00 03 | 00 00 00 00 00 00 00 00 00 05 00 00 00 02 \
         | 00 00 00 00 00 00 00 00 00 06 00 01 00 00",
    );
    assert_eq!(sheet::built(2, 3, 2), Ok(expected));
}

#[test]
fn p10_what_the_builder_gives() {
    assert!(sheet::built(2, 31, 16).is_ok());
    assert_eq!(sheet::built(2, 30, 16), Err(refusal(12, 0)));
    assert!(sheet::built(1, 5, 3).is_ok());
    assert_eq!(sheet::built(1, 4, 3), Err(refusal(12, 0)));
    assert_eq!(sheet::built(1, 64, 4), Err(refusal(12, 0)));
}
