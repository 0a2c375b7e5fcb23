//! The generators without the archive: the reference stands in for the library.

use differential::run_with;
use differential::stand_in::StandIn;

/// 240,000 inputs of another seed already draw every outcome there is, and no other.
#[test]
fn every_outcome_is_drawn() {
    let report = run_with(&mut StandIn, 1, 240_000);
    println!("{report}");
    assert_eq!(report.coverage.missing(3), Vec::<String>::new());
    assert_eq!(report.coverage.unlisted(), Vec::<String>::new());
}
