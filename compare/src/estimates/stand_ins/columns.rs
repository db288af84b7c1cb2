//! Faults in what is left in the columns, most of them where the answer is "unknown".

use super::plain::{peel, Parts, Seen};
use super::Fault;
use crate::estimator::{Estimator, BUCKETS, PLACES};
use crate::filters::{End, Filter};
use crate::model::Columns;

pub fn faults() -> Vec<Fault> {
    let lists = [other_strata(), other_columns()];
    lists.into_iter().flatten().collect()
}

/// Where it is unknown, this is left otherwise, given the stratum that fails and its end.
fn left(name: &str, change: fn(&Seen, usize, End, &mut Estimator)) -> Fault {
    let leave = move |seen: &Seen, first: Columns, _: Columns| {
        let mut left = seen.left.clone();
        if let (true, Some((i, end))) = (seen.is_unknown(), seen.failing) {
            change(seen, i, end, &mut left);
        }
        left.whole().lay(first);
    };
    (String::from(name), Parts::leaving(leave))
}

fn clear(strata: &mut [Filter]) {
    strata.fill(Filter::empty(BUCKETS));
}

fn other_strata() -> Vec<Fault> {
    vec![
        left("unknown leaves zeros", |_, _, _, left| {
            clear(&mut left.strata)
        }),
        left(
            "unknown leaves the columns as they were",
            |seen, _, _, left| *left = seen.first.clone(),
        ),
        left(
            "unknown leaves the difference unread",
            |seen, _, _, left| *left = seen.difference.clone(),
        ),
        left("unknown leaves the second's", |seen, _, _, left| {
            *left = seen.second.clone()
        }),
        left("unknown leaves the counts turned round", |_, _, _, left| {
            *left = Estimator::empty().less(left)
        }),
        left("unknown leaves a stuck stratum zero", |_, i, _, left| {
            clear(&mut left.strata[i..=i])
        }),
        left(
            "unknown leaves a false stratum unread",
            |seen, i, end, left| {
                if end != End::Stuck {
                    left.strata[i] = seen.difference.strata[i].clone();
                }
            },
        ),
        left(
            "unknown leaves a false stratum half read",
            |seen, i, end, left| {
                if end != End::Stuck {
                    left.strata[i] = seen.difference.strata[i].clone();
                    peel(&mut left.strata[i]);
                }
            },
        ),
        left("unknown leaves zeros below", |_, i, _, left| {
            clear(&mut left.strata[..i])
        }),
        left(
            "unknown leaves those below as they were",
            |seen, i, _, left| left.strata[..i].clone_from_slice(&seen.first.strata[..i]),
        ),
        left(
            "unknown leaves those above as they were",
            |seen, i, _, left| left.strata[i + 1..].clone_from_slice(&seen.first.strata[i + 1..]),
        ),
        left("unknown reads those below", |_, i, _, left| {
            for stratum in &mut left.strata[..i] {
                peel(stratum);
            }
        }),
    ]
}

/// Where this holds, the columns are written to once more.
fn writes(name: &str, holds: fn(&Seen) -> bool, write: fn(&Seen, Columns, Columns)) -> Fault {
    let leave = move |seen: &Seen, first: Columns, second: Columns| {
        let (ids, hashes, counts) = (&mut *first.ids, &mut *first.hashes, &mut *first.counts);
        seen.left.whole().lay(Columns {
            ids,
            hashes,
            counts,
        });
        if holds(seen) {
            write(seen, first, second);
        }
    };
    (String::from(name), Parts::leaving(leave))
}

/// Single columns, those of the second, and what lies behind; and all where it is known.
fn other_columns() -> Vec<Fault> {
    let unknown = Seen::is_unknown;
    let equal = |seen: &Seen| seen.failing.is_none() && seen.above() == 0;
    let known = |seen: &Seen| seen.failing.is_some() && seen.above() > 0;
    vec![
        writes(
            "unknown leaves IDSUM unwritten",
            unknown,
            |seen, first, _| first.ids[..PLACES].copy_from_slice(&seen.first.whole().ids),
        ),
        writes(
            "unknown leaves HASHSUM unwritten",
            unknown,
            |seen, first, _| first.hashes[..PLACES].copy_from_slice(&seen.first.whole().hashes),
        ),
        writes(
            "unknown leaves COUNT unwritten",
            unknown,
            |seen, first, _| first.counts[..PLACES].copy_from_slice(&seen.first.whole().counts),
        ),
        writes("unknown writes the second's", unknown, |seen, _, second| {
            seen.left.whole().lay(second)
        }),
        writes("unknown clears the second's", unknown, |_, _, second| {
            Estimator::empty().whole().lay(second)
        }),
        writes("unknown clears what lies behind", unknown, |_, first, _| {
            first.ids[PLACES..].fill(0)
        }),
        writes(
            "unknown clears what lies behind the second's",
            unknown,
            |_, _, second| second.counts[PLACES..].fill(0),
        ),
        writes(
            "known 0 leaves the columns as they were",
            equal,
            |seen, first, _| seen.first.whole().lay(first),
        ),
        writes(
            "known, one failing, leaves the columns as they were",
            known,
            |seen, first, _| seen.first.whole().lay(first),
        ),
        writes("known, one failing, leaves zeros", known, |_, first, _| {
            Estimator::empty().whole().lay(first)
        }),
    ]
}
