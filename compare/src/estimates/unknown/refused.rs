//! Calls that are refused, each where without that it would be known or unknown: the answer says
//! neither.

use super::failing::KINDS;
use super::{pair_of, sort_of, Met, BEHIND, KNOWN, LISTED, UNKNOWN, ZERO};
use crate::estimates::malicious::some_key;
use crate::estimates::{estimate, Whole};
use crate::estimator::{self, Estimator, PLACES, STRATA};
use crate::random::Random;
use crate::refused::BAD_COUNTS;
use crate::Tally;

/// The ways to be refused: one of six columns is short, a count of either is bad, or both.
const WAYS: usize = 10;

/// The two in columns that are refused in this way, and the number of that.
fn refused_by(random: &mut Random, pair: &[Estimator; 2], way: usize) -> ([Whole; 2], u32) {
    let mut lens = [0; 6].map(|_| PLACES + random.pick(&BEHIND));
    let side = way % 2;
    let short = match way {
        0..6 => Some(way),
        6 | 7 => None,
        // The other side's counts.
        _ => Some(5 - 3 * side),
    };
    if let Some(short) = short {
        lens[short] = random.pick(&[PLACES - 1, PLACES - 79, 79, 0]);
    }
    let mut columns = [[lens[0], lens[1], lens[2]], [lens[3], lens[4], lens[5]]]
        .map(|lens| Whole::of_lengths(random, lens));
    for (columns, estimator) in columns.iter_mut().zip(pair) {
        columns.lay(estimator);
    }
    if way < 6 {
        return (columns, 2);
    }
    let any = random.below(PLACES as u64) as usize;
    let place = random.pick(&[0, any, PLACES - 1]);
    columns[side].lent().counts[place] = random.pick(&BAD_COUNTS);
    (columns, 1)
}

/// Nothing differs; this stratum lists one; it fails in each way, with nothing and one above.
fn differences(random: &mut Random, i: usize) -> Vec<Estimator> {
    let mut all = vec![Estimator::empty(); 2];
    all[1].strata[i].put(some_key(random), 1);
    for kind in &KINDS {
        let mut difference = Estimator::empty();
        difference.strata[i] = kind.some(random);
        all.push(difference.clone());
        if i + 1 < STRATA {
            let above = random.between(i as u64 + 1, STRATA as u64 - 1) as usize;
            difference.strata[above].put(some_key(random), random.pick(&[1, -1]));
            all.push(difference);
        }
    }
    all
}

pub fn compare(tally: &mut Tally) {
    let mut random = tally.subject("estimates, neither known nor unknown", 0x1A2);
    let random = &mut random;
    let mut met = [Met::default(), Met::default()];
    for i in 0..STRATA {
        for (k, difference) in differences(random, i).iter().enumerate() {
            let sort = sort_of(estimator::read(&mut difference.clone()));
            let pair = pair_of(random, difference);
            for way in [k, k + 3, k + 6, k + 8] {
                let (columns, wanted) = refused_by(random, &pair, way % WAYS);
                let answer = estimate(tally, &columns[0], &columns[1]);
                assert!(answer == Err(wanted));
                met[wanted as usize - 1].count(sort, i);
            }
        }
    }
    for met in met {
        met.must_have(&[ZERO, LISTED], 0..STRATA, 1);
        met.must_have(&UNKNOWN, 0..STRATA, 1);
        met.must_have(&KNOWN, 0..STRATA - 1, 1);
    }
}
