//! Comparisons of what an estimate says where it knows nothing (document 02, Req 02): a stratum is
//! not complete, and nothing is listed above it. Beside them stand those that are close to it:
//! something is listed above, nothing differs at all, or the call is refused.

mod failing;
mod first;
mod honest;
mod one_bucket;
mod refused;

use super::{estimate, with_difference, with_little, Whole};
use crate::estimator::{Estimate, Estimator, Outcome, PLACES};
use crate::filters::End;
use crate::random::Random;
use crate::Tally;
use std::collections::BTreeMap;
use std::ops::Range;

/// The comparisons, those that take little time first.
pub const PARTS: [fn(&mut Tally); 8] = [
    one_bucket::equal,
    one_bucket::one_element,
    refused::compare,
    one_bucket::one_bucket,
    honest::little_in_common,
    honest::highest_fails,
    first::compare,
    honest::by_chance,
];

pub fn compare(tally: &mut Tally) {
    for part in PARTS {
        part(tally);
    }
}

/// The sorts of answers where a stratum fails.
const UNKNOWN: [&str; 3] = [
    "unknown by stuck",
    "unknown by repeated",
    "unknown by too many",
];
const KNOWN: [&str; 3] = ["known by stuck", "known by repeated", "known by too many"];

/// And those where none does.
const ZERO: &str = "known 0";
const LISTED: &str = "known by all";

/// The sort of an answer; there are no others.
fn sort_of(answer: (Estimate, Outcome)) -> &'static str {
    let by = |end| match end {
        End::Stuck => 0,
        End::Repeated => 1,
        End::TooMany => 2,
        _ => panic!("{answer:?}: no stratum ends so"),
    };
    match answer {
        (Estimate::Known(0), Outcome::Complete) => ZERO,
        (Estimate::Known(1..), Outcome::Complete) => LISTED,
        (Estimate::Known(1..), Outcome::Failing(_, end)) => KNOWN[by(end)],
        (Estimate::Unknown, Outcome::Failing(_, end)) => UNKNOWN[by(end)],
        _ => panic!("{answer:?}: the model itself is wrong"),
    }
}

/// How often each sort of answer came up where a stratum was made to bring it.
#[derive(Default)]
struct Met(BTreeMap<(&'static str, usize), u64>);

impl Met {
    fn count(&mut self, sort: &'static str, stratum: usize) {
        *self.0.entry((sort, stratum)).or_default() += 1;
    }

    /// Each of these came up so often, at least, with each of these strata.
    fn must_have(&self, sorts: &[&'static str], strata: Range<usize>, least: u64) {
        for &sort in sorts {
            for stratum in strata.clone() {
                let n = self.0.get(&(sort, stratum)).copied().unwrap_or(0);
                assert!(n >= least, "{sort} with stratum {stratum}: {n} of {least}");
            }
        }
    }
}

/// Room behind an estimator in a column.
const BEHIND: [usize; 5] = [0, 0, 1, 79, 1_500];

/// The estimator in columns that may go on behind it.
fn laid(random: &mut Random, estimator: &Estimator) -> Whole {
    let lens = [0; 3].map(|_| PLACES + random.pick(&BEHIND));
    let mut whole = Whole::of_lengths(random, lens);
    whole.lay(estimator);
    whole
}

/// One comparison that is not refused: 0 is said exactly of two that are equal.
fn one(tally: &mut Tally, random: &mut Random, pair: &[Estimator; 2]) -> (Estimate, Outcome) {
    let [first, second] = [0, 1].map(|side| laid(random, &pair[side]));
    let answer = estimate(tally, &first, &second).expect("not refused");
    let are_equal = pair[0] == pair[1];
    assert!((answer.0 == Estimate::Known(0)) == are_equal);
    assert!((sort_of(answer) == ZERO) == are_equal);
    answer
}

/// Two estimators whose difference is this one: what is on one side alone stands there, or is
/// hidden behind anything.
fn pair_of(random: &mut Random, difference: &Estimator) -> [Estimator; 2] {
    match random.below(3) {
        0 => with_difference(random, difference),
        1 => with_little(difference),
        _ => {
            // The sums stand with the second.
            let [mut first, mut second] = with_little(difference);
            for (ours, theirs) in first.strata.iter_mut().zip(&mut second.strata) {
                std::mem::swap(&mut ours.ids, &mut theirs.ids);
                std::mem::swap(&mut ours.hashes, &mut theirs.hashes);
            }
            [first, second]
        }
    }
}
