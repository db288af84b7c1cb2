//! Stand-ins for the estimating call, each with one fault: the comparisons of what is unknown must
//! find each of them, and all those of the estimator none where there is no fault (plain.rs).

mod columns;
mod failing;
mod numbers;
mod plain;
mod readings;

use super::unknown;
use crate::Tally;
use plain::Parts;

/// A stand-in by the name of its fault.
type Fault = (String, Parts);

/// The differences that are found, by subject in words; after the first part that finds any, no
/// other is tried.
fn found(begin: fn() -> Tally, parts: Parts, compare: &[fn(&mut Tally)]) -> (u64, String) {
    let mut tally = begin();
    tally.gathered.quiet = true;
    tally.gathered.begin();
    tally.estimates.library = Box::new(move |first, second| parts.estimate(first, second));
    for compare in compare {
        compare(&mut tally);
        if tally.gathered.total() > 0 {
            break;
        }
    }
    (tally.gathered.total(), tally.gathered.by_kind())
}

/// Whether each stand-in with a fault is found, and none without.
pub fn are_caught(begin: fn() -> Tally) -> bool {
    let (differences, kinds) = found(begin, Parts::plain(), &[super::compare]);
    println!("estimates without a fault: {differences} differences: {kinds}");
    let mut caught = differences == 0;
    let lists = [
        failing::faults(),
        numbers::faults(),
        columns::faults(),
        readings::faults(),
    ];
    let mut number = 0;
    for (name, parts) in lists.into_iter().flatten() {
        let (differences, kinds) = found(begin, parts, &unknown::PARTS);
        println!("{name}: {differences} differences: {kinds}");
        caught &= differences > 0;
        number += 1;
    }
    println!("{number} stand-ins with a fault");
    caught
}
