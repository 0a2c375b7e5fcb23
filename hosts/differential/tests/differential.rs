//! The fixed run: the library against the reference, every listed outcome drawn, and no other.

use differential::{run_halves, INPUTS, SEED};

/// How often each outcome has to be drawn.
const LEAST: u64 = 10;

#[test]
fn library_does_what_document_01_says() {
    let report = run_halves(SEED, INPUTS);
    println!("{report}");
    assert!(report.inputs >= 2_000_000);
    assert_eq!(report.coverage.missing(LEAST), Vec::<String>::new());
    assert_eq!(report.coverage.unlisted(), Vec::<String>::new());
}
