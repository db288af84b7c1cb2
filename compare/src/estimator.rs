//! The papers' estimator (document 01; document 02, Req 02) in plain Rust, written from the papers
//! alone: each stratum is a filter of its own, and its reading is that of filters.rs without the
//! table's test.

use crate::filters::{self, End, Filter, MOST_COUNT};
use crate::model::{self, Columns};

pub const STRATA: usize = 32;

/// The buckets of a stratum.
pub const BUCKETS: u32 = 79;

/// The places of an estimator's columns.
pub const PLACES: usize = 2528;

/// Stratum 0 first. As a difference its counts may be negative.
#[derive(Clone, Debug, PartialEq)]
pub struct Estimator {
    pub strata: Vec<Filter>,
}

impl Estimator {
    pub fn empty() -> Estimator {
        Estimator {
            strata: vec![Filter::empty(BUCKETS); STRATA],
        }
    }

    /// The estimator of these IDs.
    pub fn of(ids: &[u64]) -> Estimator {
        let mut estimator = Estimator::empty();
        for &id in ids {
            let stratum = model::stratum(id) as usize;
            estimator.strata[stratum].put(model::salt(id, 0), 1);
        }
        estimator
    }

    /// What stands in the columns, which are long enough.
    pub fn standing_in(columns: &Columns) -> Estimator {
        let mut estimator = Estimator::empty();
        for place in 0..PLACES {
            let (stratum, bucket) = (place / BUCKETS as usize, place % BUCKETS as usize);
            let stratum = &mut estimator.strata[stratum];
            stratum.ids[bucket] = columns.ids[place];
            stratum.hashes[bucket] = columns.hashes[place];
            stratum.counts[bucket] = columns.counts[place];
        }
        estimator
    }

    /// This less the other, in all strata.
    pub fn less(&self, other: &Estimator) -> Estimator {
        let pairs = self.strata.iter().zip(&other.strata);
        Estimator {
            strata: pairs.map(|(stratum, other)| stratum.less(other)).collect(),
        }
    }

    /// The strata one behind the other.
    pub fn whole(&self) -> Filter {
        let mut whole = Filter::empty(0);
        for stratum in &self.strata {
            whole.ids.extend(&stratum.ids);
            whole.hashes.extend(&stratum.hashes);
            whole.counts.extend(&stratum.counts);
        }
        whole
    }
}

/// Builds the table's estimator in the columns and answers the refusal number.
pub fn build(table: &[u8], columns: Columns) -> u32 {
    if !filters::is_table(table) {
        return 1;
    }
    if filters::a_column_is_shorter(&columns, PLACES as u32) {
        return 2;
    }
    Estimator::of(&filters::ids(table)).whole().lay(columns);
    0
}

/// How many IDs are in only one of the two: so many, or nothing says how many.
#[derive(Clone, Copy, Debug, PartialEq)]
pub enum Estimate {
    Known(u64),
    Unknown,
}

/// How the strata were read: all complete, or the first that is not and its end.
#[derive(Clone, Copy, Debug, PartialEq)]
pub enum Outcome {
    Complete,
    Failing(usize, End),
}

/// What is answered: an estimate and how the strata were read, or the number of a refusal.
pub type Answer = Result<(Estimate, Outcome), u32>;

/// An answer in C's numbers.
#[derive(Clone, Copy, Debug, PartialEq)]
pub struct Estimation {
    pub refusal: u32,
    pub known: u32,
    pub estimate: u64,
}

impl Estimation {
    pub fn of(answer: Answer) -> Estimation {
        let (refusal, known, estimate) = match answer {
            Ok((Estimate::Known(estimate), _)) => (0, 1, estimate),
            Ok((Estimate::Unknown, _)) => (0, 0, 0),
            Err(refusal) => (refusal, 0, 0),
        };
        Estimation {
            refusal,
            known,
            estimate,
        }
    }
}

/// Where stratum i is the first that is not complete, and so many were listed above it.
fn by_those_above(total: u128, i: usize) -> Estimate {
    if total == 0 {
        return Estimate::Unknown;
    }
    let estimate = total * 2u128.pow(i as u32 + 1);
    Estimate::Known(u64::try_from(estimate).expect("below 2^64"))
}

/// Reads the difference from stratum 31 downwards and leaves what the readings leave.
pub fn read(difference: &mut Estimator) -> (Estimate, Outcome) {
    let mut total: u128 = 0;
    for i in (0..STRATA).rev() {
        let stratum = &mut difference.strata[i];
        let (end, listed) = filters::peel_by(stratum, 0, BUCKETS as usize, false);
        if end != End::Complete && end != End::Stuck {
            *stratum = Filter::empty(BUCKETS);
        }
        if end != End::Complete {
            return (by_those_above(total, i), Outcome::Failing(i, end));
        }
        total += listed.len() as u128;
    }
    (Estimate::Known(total as u64), Outcome::Complete)
}

/// The refusal that these two columns call for.
pub fn refusal(first: &Columns, second: &Columns) -> Option<u32> {
    let judged = |columns: &Columns| {
        let mut judged = columns.counts.iter().take(PLACES);
        judged.all(|count| (0..=MOST_COUNT).contains(count))
    };
    let is_shorter = |columns| filters::a_column_is_shorter(columns, PLACES as u32);
    if !judged(first) || !judged(second) {
        return Some(1);
    }
    (is_shorter(first) || is_shorter(second)).then_some(2)
}

/// Estimates in the first's columns.
pub fn estimate(first: Columns, second: Columns) -> Answer {
    if let Some(refusal) = refusal(&first, &second) {
        return Err(refusal);
    }
    let (ours, theirs) = (
        Estimator::standing_in(&first),
        Estimator::standing_in(&second),
    );
    let mut difference = ours.less(&theirs);
    let read = read(&mut difference);
    difference.whole().lay(first);
    Ok(read)
}
