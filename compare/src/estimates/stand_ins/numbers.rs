//! Faults in the numbers of an answer: where all strata are complete, in what says known, and in a
//! refused call.

use super::plain::{known, refused, right, Parts, Seen, UNKNOWN};
use super::Fault;
use crate::estimator::{self, Estimation, PLACES, STRATA};
use crate::filters::{self, MOST_COUNT};
use crate::model::Columns;
use std::cell::Cell;

pub fn faults() -> Vec<Fault> {
    let lists = [all_complete(), says_known(), where_refused()];
    lists.into_iter().flatten().collect()
}

/// Where all are complete and this holds, another answer.
fn complete_as(name: &str, holds: fn(&Seen) -> bool, answer: Estimation) -> Fault {
    let says = move |seen: &Seen| match seen.failing {
        None if holds(seen) => answer,
        _ => right(seen),
    };
    (String::from(name), Parts::answering(says))
}

fn all_complete() -> Vec<Fault> {
    vec![
        complete_as("known 0 as unknown", |seen| seen.above() == 0, UNKNOWN),
        complete_as("known 0 as known 1", |seen| seen.above() == 0, known(1)),
        complete_as("one listed as unknown", |seen| seen.above() == 1, UNKNOWN),
        complete_as("one listed as known 0", |seen| seen.above() == 1, known(0)),
        complete_as(
            "unknown with none in the highest, all complete",
            |seen| seen.listed_in(STRATA - 1) == 0,
            UNKNOWN,
        ),
        complete_as(
            "unknown with none in the lowest, all complete",
            |seen| seen.listed_in(0) == 0,
            UNKNOWN,
        ),
    ]
}

/// Another number for known, given the right answer.
fn known_number(name: &str, number: impl Fn(Estimation) -> u32 + 'static) -> Fault {
    let says = move |seen: &Seen| {
        let answer = right(seen);
        Estimation {
            known: number(answer),
            ..answer
        }
    };
    (String::from(name), Parts::answering(says))
}

fn says_known() -> Vec<Fault> {
    let before = Cell::new(1);
    vec![
        known_number("known is 2", |answer| 2 * answer.known),
        known_number("known is 2^32 - 1", |answer| {
            0u32.wrapping_sub(answer.known)
        }),
        known_number("known is 256", |answer| answer.known << 8),
        known_number("known is 2^31", |answer| answer.known << 31),
        known_number("known the other way round", |answer| 1 - answer.known),
        known_number("always known", |_| 1),
        known_number("never known", |_| 0),
        known_number("known where the estimate is not 0", |answer| {
            u32::from(answer.estimate != 0)
        }),
        known_number("known is the low half of the estimate", |answer| {
            answer.estimate as u32
        }),
        known_number("known as it was in the call before", move |answer| {
            before.replace(answer.known)
        }),
    ]
}

/// Other numbers where the call is refused with one of these.
fn refused_as(
    name: &str,
    numbers: &'static [u32],
    answer: impl Fn(u32) -> Estimation + 'static,
) -> Fault {
    let refuse = move |first: &Columns, second: &Columns| {
        let number = estimator::refusal(first, second)?;
        match numbers.contains(&number) {
            true => Some(answer(number)),
            false => Some(refused(number)),
        }
    };
    (String::from(name), Parts::refusing(refuse))
}

fn where_refused() -> Vec<Fault> {
    let with_known = |refusal| Estimation {
        known: 1,
        ..refused(refusal)
    };
    let with = |estimate| {
        move |refusal| Estimation {
            estimate,
            ..refused(refusal)
        }
    };
    let rooms_first = |first: &Columns, second: &Columns| {
        let is_short = |columns| filters::a_column_is_shorter(columns, PLACES as u32);
        match is_short(first) || is_short(second) {
            true => Some(refused(2)),
            false => estimator::refusal(first, second).map(refused),
        }
    };
    let all_judged = |first: &Columns, second: &Columns| {
        let mut counts = first.counts.iter().chain(&*second.counts);
        match counts.all(|count| (0..=MOST_COUNT).contains(count)) {
            true => estimator::refusal(first, second).map(refused),
            false => Some(refused(1)),
        }
    };
    vec![
        refused_as("refused and known", &[1, 2], with_known),
        refused_as("refused with 1 and known", &[1], with_known),
        refused_as("refused with 2 and known", &[2], with_known),
        refused_as("refused with 1 and an estimate", &[1], with(1)),
        refused_as("refused with 2 and an estimate", &[2], with(1)),
        refused_as("refused with 2^64 - 1", &[1, 2], with(u64::MAX)),
        refused_as("refused with 1 as unknown", &[1], |_| UNKNOWN),
        refused_as("refused with 2 as unknown", &[2], |_| UNKNOWN),
        refused_as("refused with 2 as known 0", &[2], |_| known(0)),
        (
            String::from("2 tried before 1"),
            Parts::refusing(rooms_first),
        ),
        (
            String::from("what lies behind is judged"),
            Parts::refusing(all_judged),
        ),
    ]
}
