//! Faults in what is said where a stratum fails.

use super::plain::{known, peel, refused, right, times, Parts, Seen, UNKNOWN};
use super::Fault;
use crate::estimator::{Estimation, STRATA};
use crate::filters::{End, Filter};

pub fn faults() -> Vec<Fault> {
    let lists = [
        known_instead(),
        at_a_stratum(),
        by_its_own_list(),
        by_others(),
        other_numbers(),
        unknown_instead(),
        other_totals(),
    ];
    lists.into_iter().flatten().collect()
}

/// Where it is unknown, and this holds of the stratum that fails and its end, another answer.
fn unknown_as(
    name: impl Into<String>,
    holds: impl Fn(&Seen, usize, End) -> bool + 'static,
    answer: impl Fn(&Seen, usize) -> Estimation + 'static,
) -> Fault {
    let says = move |seen: &Seen| match seen.failing {
        Some((i, end)) if seen.above() == 0 && holds(seen, i, end) => answer(seen, i),
        _ => right(seen),
    };
    (name.into(), Parts::answering(says))
}

/// Where a stratum fails and something is listed above, and this holds, another answer.
fn known_as(
    name: impl Into<String>,
    holds: impl Fn(&Seen, usize, End) -> bool + 'static,
    answer: impl Fn(&Seen, usize) -> Estimation + 'static,
) -> Fault {
    let says = move |seen: &Seen| match seen.failing {
        Some((i, end)) if seen.above() > 0 && holds(seen, i, end) => answer(seen, i),
        _ => right(seen),
    };
    (name.into(), Parts::answering(says))
}

/// Likewise "unknown".
fn also_unknown(
    name: impl Into<String>,
    holds: impl Fn(&Seen, usize, End) -> bool + 'static,
) -> Fault {
    known_as(name, holds, |_, _| UNKNOWN)
}

fn always(_: &Seen, _: usize, _: End) -> bool {
    true
}

fn is_stuck(_: &Seen, _: usize, end: End) -> bool {
    end == End::Stuck
}

fn is_false(_: &Seen, _: usize, end: End) -> bool {
    end != End::Stuck
}

/// What each of these says.
fn zero(_: &Seen, _: usize) -> Estimation {
    known(0)
}

fn as_if_one(_: &Seen, i: usize) -> Estimation {
    known(times(1, i))
}

fn refusal_6(_: &Seen, _: usize) -> Estimation {
    refused(6)
}

fn known_instead() -> Vec<Fault> {
    let repeats = |_: &Seen, _, end| end == End::Repeated;
    let has_too_many = |_: &Seen, _, end| end == End::TooMany;
    vec![
        unknown_as("unknown as known 0", always, zero),
        unknown_as("a false stratum as known 0", is_false, zero),
        unknown_as("a stuck stratum as known 0", is_stuck, zero),
        unknown_as("a repeat as known 0", repeats, zero),
        unknown_as("too many as known 0", has_too_many, zero),
        unknown_as("unknown as known 1", always, |_, _| known(1)),
        unknown_as("unknown as known 2^(i+1)", always, as_if_one),
        unknown_as("unknown as known 2^64 - 1", always, |_, _| known(u64::MAX)),
        unknown_as("unknown as refusal 6", always, refusal_6),
        unknown_as("a false stratum as refusal 6", is_false, refusal_6),
        unknown_as("unknown as refusal 15", always, |_, _| refused(15)),
    ]
}

/// One stratum is treated otherwise than all others.
fn at_a_stratum() -> Vec<Fault> {
    let mut faults = Vec::new();
    for n in 0..STRATA {
        let name = format!("stratum {n} failing as known 0");
        faults.push(unknown_as(name, move |_, i, _| i == n, zero));
    }
    for n in [0, 31] {
        let stuck = move |seen: &Seen, i, end| i == n && is_stuck(seen, i, end);
        let falsely = move |seen: &Seen, i, end| i == n && is_false(seen, i, end);
        faults.push(unknown_as(
            format!("stratum {n} stuck as known 0"),
            stuck,
            zero,
        ));
        faults.push(unknown_as(
            format!("stratum {n} false as known 0"),
            falsely,
            zero,
        ));
    }
    for n in [0, 1, 15, 29, 30] {
        let name = format!("stratum {n} failing always unknown");
        faults.push(also_unknown(name, move |_, i, _| i == n));
    }
    faults
}

/// What the failing stratum listed counts as listed above.
fn by_its_own_list() -> Vec<Fault> {
    let listed = |seen: &Seen, i, _| seen.listed_in(i) > 0;
    let stuck = move |seen: &Seen, i, end| listed(seen, i, end) && is_stuck(seen, i, end);
    let falsely = move |seen: &Seen, i, end| listed(seen, i, end) && is_false(seen, i, end);
    let counted = |seen: &Seen, i| known(times(seen.listed_in(i), i));
    let added = |seen: &Seen, i| known(times(seen.above() + seen.listed_in(i), i));
    let alone = |seen: &Seen, i| known(seen.listed_in(i));
    vec![
        unknown_as("its own list counted as above", listed, counted),
        unknown_as("its own list makes it known 0", listed, zero),
        unknown_as("its own list counted where stuck", stuck, counted),
        unknown_as("its own list counted where false", falsely, counted),
        unknown_as("its own list alone, not multiplied", listed, alone),
        known_as("its own list added to those above", listed, added),
    ]
}

fn hold_something(strata: &[Filter]) -> bool {
    let mut strata = strata.iter();
    strata.any(|stratum| *stratum != Filter::empty(stratum.size()))
}

fn next_below_fails(seen: &Seen, i: usize, _: End) -> bool {
    let next = seen.difference.strata[..i].last();
    next.is_some_and(|next| peel(&mut next.clone()).0 != End::Complete)
}

/// Reads on below a stratum that fails with nothing above, until one fails with something above.
fn reads_on(seen: &Seen, i: usize) -> Estimation {
    let mut total = 0;
    for below in (0..i).rev() {
        let (end, listed) = peel(&mut seen.difference.strata[below].clone());
        match end {
            End::Complete => total += listed.len() as u64,
            _ if total > 0 => return known(times(total, below)),
            _ => {}
        }
    }
    match total {
        0 => UNKNOWN,
        _ => known(total),
    }
}

/// What lies in other strata decides.
fn by_others() -> Vec<Fault> {
    let below = |seen: &Seen, i: usize, _| hold_something(&seen.difference.strata[..i]);
    let none_below = move |seen: &Seen, i, end| !below(seen, i, end);
    let ours = |seen: &Seen, i: usize, _| hold_something(&seen.first.strata[i + 1..]);
    let theirs = |seen: &Seen, i: usize, _| hold_something(&seen.second.strata[i + 1..]);
    vec![
        unknown_as("something below makes it known 0", below, zero),
        unknown_as("nothing below makes it known 0", none_below, zero),
        unknown_as("what both hold above makes it known 0: ours", ours, zero),
        unknown_as(
            "what both hold above makes it known 0: theirs",
            theirs,
            zero,
        ),
        unknown_as(
            "another that fails makes it known 0",
            next_below_fails,
            zero,
        ),
        unknown_as("reads on below", always, reads_on),
    ]
}

/// Unknown, with a number all the same.
fn other_numbers() -> Vec<Fault> {
    let with = |estimate| Estimation {
        estimate,
        ..UNKNOWN
    };
    let third = Estimation {
        known: 2,
        ..UNKNOWN
    };
    let list = move |seen: &Seen, i| with(seen.listed_in(i));
    vec![
        unknown_as("unknown with 2^64 - 1", always, move |_, _| with(u64::MAX)),
        unknown_as("unknown with 1", always, move |_, _| with(1)),
        unknown_as("unknown with 2^(i+1)", always, move |_, i| with(2 << i)),
        unknown_as("unknown with its own list", always, list),
        unknown_as("unknown with i", always, move |_, i| with(i as u64)),
        unknown_as("unknown is 2", always, move |_, _| third),
    ]
}

/// Unknown where something is listed above.
fn unknown_instead() -> Vec<Fault> {
    let ours = |seen: &Seen, _, _| seen.sides()[0] == 0;
    let theirs = |seen: &Seen, _, _| seen.sides()[1] == 0;
    let level = |seen: &Seen, _, _| seen.sides()[0] == seen.sides()[1];
    let next = |seen: &Seen, i, _| seen.listed_in(i + 1) == 0;
    let highest = |seen: &Seen, _, _| seen.listed_in(STRATA - 1) == 0;
    let any = |seen: &Seen, i, _| (i + 1..STRATA).any(|above| seen.listed_in(above) == 0);
    let fewer = |seen: &Seen, i, _| seen.above() < seen.listed_in(i);
    let low_half = |seen: &Seen, i, _| times(seen.above(), i) as u32 == 0;
    vec![
        also_unknown("unknown whatever is above", always),
        also_unknown("unknown whatever is above a stuck one", is_stuck),
        also_unknown("unknown whatever is above a false one", is_false),
        also_unknown("unknown with one above", |seen, _, _| seen.above() == 1),
        also_unknown("unknown with none next above", next),
        also_unknown("unknown with none in the highest", highest),
        also_unknown("unknown with none in any above", any),
        also_unknown("unknown with none of ours above", ours),
        also_unknown("unknown with none of theirs above", theirs),
        also_unknown("unknown with as many of each above", level),
        also_unknown("unknown with fewer above than in itself", fewer),
        also_unknown("unknown where the low 32 bits are 0", low_half),
    ]
}

/// Something is listed above, and the estimate is another.
fn other_totals() -> Vec<Fault> {
    let low_half = |seen: &Seen, i| known(u64::from(times(seen.above(), i) as u32));
    let next = |seen: &Seen, i| known(times(seen.listed_in(i + 1), i));
    let highest = |seen: &Seen, i| known(times(seen.listed_in(STRATA - 1), i));
    let ours = |seen: &Seen, i| known(times(seen.sides()[0], i));
    let theirs = |seen: &Seen, i| known(times(seen.sides()[1], i));
    let less = |seen: &Seen, i| known(times(seen.sides()[0].abs_diff(seen.sides()[1]), i));
    vec![
        known_as("times 2^i", always, |seen, i| known(seen.above() << i)),
        known_as("times 2^(i+2)", always, |seen, i| {
            known(seen.above() << (i + 2))
        }),
        known_as("not multiplied", always, |seen, _| known(seen.above())),
        known_as("the low 32 bits", always, low_half),
        known_as("the next above alone counted", always, next),
        known_as("the highest alone counted", always, highest),
        known_as("ours alone counted", always, ours),
        known_as("theirs alone counted", always, theirs),
        known_as("ours less theirs counted", always, less),
    ]
}
