//! Comparisons of the estimator: one building and one estimate by the model and the library, with
//! all that is lent; counts.rs has how many there must be.

mod building;
mod chains;
mod counts;
mod honest;
mod known;
mod malicious;
mod refused;
pub mod stand_ins;
mod unknown;

pub use counts::Counts;
pub use known::check_model;

use crate::estimator::{self, Answer, Estimate, Estimation, Estimator, Outcome, PLACES};
use crate::filters::MOST_COUNT;
use crate::library::estimator as library;
use crate::model::Columns;
use crate::random::Random;
use crate::{lent, Tally, GUARD};

pub fn compare(tally: &mut Tally) {
    known::compare(tally);
    building::compare(tally);
    refused::compare(tally);
    honest::compare(tally);
    malicious::compare(tally);
    chains::compare(tally);
    unknown::compare(tally);
}

/// The three columns, each with what stands before and behind it.
#[derive(Clone, Debug, PartialEq)]
pub struct Whole {
    ids: Vec<u64>,
    hashes: Vec<u32>,
    counts: Vec<i64>,
}

impl Whole {
    /// Columns of these lengths that hold anything.
    fn of_lengths(random: &mut Random, lens: [usize; 3]) -> Whole {
        Whole {
            ids: random.numbers(lens[0] + 2 * GUARD),
            hashes: random.words(lens[1] + 2 * GUARD),
            counts: random.signed(lens[2] + 2 * GUARD),
        }
    }

    /// Columns with room for an estimator. Each may go on behind it.
    fn with_room(random: &mut Random) -> Whole {
        let lens = [0; 3].map(|_| PLACES + random.pick(&[0, 0, 0, 1, 2, 9, 79]));
        Whole::of_lengths(random, lens)
    }

    /// Columns with this estimator.
    fn of(random: &mut Random, estimator: &Estimator) -> Whole {
        let mut whole = Whole::with_room(random);
        whole.lay(estimator);
        whole
    }

    fn lent(&mut self) -> Columns<'_> {
        Columns {
            ids: lent(&mut self.ids),
            hashes: lent(&mut self.hashes),
            counts: lent(&mut self.counts),
        }
    }

    /// Lays the estimator in the columns, as far as they go.
    fn lay(&mut self, estimator: &Estimator) {
        let (all, columns) = (estimator.whole(), self.lent());
        for (place, id) in columns.ids.iter_mut().zip(all.ids) {
            *place = id;
        }
        for (place, hash) in columns.hashes.iter_mut().zip(all.hashes) {
            *place = hash;
        }
        for (place, count) in columns.counts.iter_mut().zip(all.counts) {
            *place = count;
        }
    }
}

/// One comparison of building, with all that is lent; hands back what it left.
fn build(tally: &mut Tally, table: &[u8], columns: Whole) -> (u32, Whole) {
    let (mut by_model, mut by_library) = (columns.clone(), columns.clone());
    let mut lent_table = table.to_vec();
    let model = estimator::build(table, by_model.lent());
    let library = library::build(&mut lent_table, by_library.lent());
    let call = || format!("estimator_build {table:02x?} {columns:x?}");
    tally.same(
        call,
        (model, table, &by_model),
        (library, &lent_table[..], &by_library),
    );
    (model, by_library)
}

/// One comparison of an estimate, with all that is lent.
fn estimate(tally: &mut Tally, first: &Whole, second: &Whole) -> Answer {
    let pair = [first.clone(), second.clone()];
    let (mut by_model, mut by_library) = (pair.clone(), pair.clone());
    let [ours, theirs] = &mut by_model;
    let answer = estimator::estimate(ours.lent(), theirs.lent());
    let [ours, theirs] = &mut by_library;
    let library = (tally.estimates.library)(ours.lent(), theirs.lent());
    if let Ok((estimate, outcome)) = answer {
        tally.estimates.made(estimate, outcome);
    }
    let subject = tally.subject_name();
    let call = || format!("estimate {pair:x?}");
    let model = Estimation::of(answer);
    tally.same_of_kind(
        || String::from(subject),
        call,
        (model, by_model),
        (library, by_library),
    );
    answer
}

/// Two estimators whose difference is this one, with anything in both besides; the counts of
/// each lie anywhere in their range, most often at its ends.
fn with_difference(random: &mut Random, difference: &Estimator) -> [Estimator; 2] {
    let (mut first, mut second) = (difference.clone(), Estimator::empty());
    for (ours, theirs) in first.strata.iter_mut().zip(&mut second.strata) {
        for i in 0..ours.ids.len() {
            let (id, hash) = (random.next(), random.word());
            ours.ids[i] ^= id;
            theirs.ids[i] = id;
            ours.hashes[i] ^= hash;
            theirs.hashes[i] = hash;
            let count = ours.counts[i];
            let most = MOST_COUNT - count.abs();
            let any = random.below(most as u64 + 1) as i64;
            let lower = random.pick(&[0, 0, most, any, any & 1]);
            theirs.counts[i] = lower + (-count).max(0);
            ours.counts[i] = lower + count.max(0);
        }
    }
    [first, second]
}

/// Likewise with nothing in both: each side has what only it has.
fn with_little(difference: &Estimator) -> [Estimator; 2] {
    let (mut first, mut second) = (difference.clone(), Estimator::empty());
    for (ours, theirs) in first.strata.iter_mut().zip(&mut second.strata) {
        for (ours, theirs) in ours.counts.iter_mut().zip(&mut theirs.counts) {
            (*ours, *theirs) = ((*ours).max(0), (-*ours).max(0));
        }
    }
    [first, second]
}

/// One comparison of an estimate whose difference is this one.
fn estimate_of(
    tally: &mut Tally,
    random: &mut Random,
    difference: &Estimator,
) -> (Estimate, Outcome) {
    let pair = match random.below(3) {
        0 => with_difference(random, difference),
        _ => with_little(difference),
    };
    let [first, second] = pair.map(|estimator| Whole::of(random, &estimator));
    estimate(tally, &first, &second).expect("not refused")
}

/// An ID of this stratum; in the highest one also IDs with more zeros, and 0.
fn id_in(random: &mut Random, stratum: usize) -> u64 {
    let id = match random.below(8) {
        0 => random.any_length(),
        _ => random.next(),
    };
    match stratum {
        31 => match random.below(40) {
            0 => 0,
            1 => 1 << random.between(31, 63),
            _ => id >> 31 << 31,
        },
        _ => (id | 1) << stratum,
    }
}

/// So many different IDs of this stratum.
fn ids_in(random: &mut Random, stratum: usize, n: usize) -> Vec<u64> {
    let mut ids = std::collections::BTreeSet::new();
    while ids.len() < n {
        ids.insert(id_in(random, stratum));
    }
    ids.into_iter().collect()
}
