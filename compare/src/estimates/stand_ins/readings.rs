//! Faults in the reading of a stratum, by which what is unknown becomes known, or the other way round.

use super::plain::{peel, Parts, Peeled};
use super::Fault;
use crate::estimator::BUCKETS;
use crate::filters::{self, End, Filter};

pub fn faults() -> Vec<Fault> {
    vec![
        complete_if("count 0 taken as empty", |left, _| is_zero(&left.counts)),
        complete_if("IDSUM alone taken as empty", |left, _| is_zero(&left.ids)),
        complete_if("HASHSUM alone taken as empty", |left, _| {
            is_zero(&left.hashes)
        }),
        complete_if("stuck with a list taken as complete", |_, listed| {
            listed > 0
        }),
        complete_if("stuck without a list taken as complete", |_, listed| {
            listed == 0
        }),
        (
            String::from("a repeat overlooked"),
            Parts::peeling(|stratum| filters::peel_by(stratum, 0, BUCKETS as usize, true)),
        ),
        (
            String::from("one peel more than buckets"),
            Parts::peeling(|stratum| filters::peel_by(stratum, 0, BUCKETS as usize + 1, false)),
        ),
        (
            String::from("one peel less than buckets"),
            Parts::peeling(|stratum| filters::peel_by(stratum, 0, BUCKETS as usize - 1, false)),
        ),
        (
            String::from("false taken as complete"),
            Parts::peeling(|stratum| match peel(stratum) {
                (End::Stuck, listed) => (End::Stuck, listed),
                (_, listed) => (End::Complete, listed),
            }),
        ),
        (
            String::from("the last bucket not looked at"),
            Parts::peeling(without_last),
        ),
    ]
}

fn is_zero<T: Default + PartialEq>(column: &[T]) -> bool {
    column.iter().all(|entry| *entry == T::default())
}

/// A stuck stratum is taken as complete if this holds of what is left and of how many are listed.
fn complete_if(name: &str, holds: fn(&Filter, usize) -> bool) -> Fault {
    let peel = move |stratum: &mut Filter| match peel(stratum) {
        (End::Stuck, listed) if holds(stratum, listed.len()) => (End::Complete, listed),
        peeled => peeled,
    };
    (String::from(name), Parts::peeling(peel))
}

/// Something that stands in the last bucket alone does not count.
fn without_last(stratum: &mut Filter) -> Peeled {
    let (end, listed) = peel(stratum);
    let last = BUCKETS as usize - 1;
    let rest = [
        is_zero(&stratum.ids[..last]),
        is_zero(&stratum.hashes[..last]),
        is_zero(&stratum.counts[..last]),
    ];
    match end {
        End::Stuck if rest == [true; 3] => (End::Complete, listed),
        _ => (end, listed),
    }
}
