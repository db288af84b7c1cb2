//! Faults in how looks are counted.

use super::{Fault, Seen};
use crate::filters::{End, Peeled};
use std::cell::Cell;

pub fn faults() -> Vec<Fault> {
    let lists = [
        each(),
        last(),
        last_lengths(),
        repeats(),
        too_many(),
        by_table(),
        otherwise(),
    ];
    lists.into_iter().flatten().collect()
}

/// Where there is a reading, another number.
fn counted(name: &str, number: impl Fn(&Seen, &Peeled) -> usize + 'static) -> Fault {
    let number = move |seen: &Seen| match &seen.peeled {
        Some(peeled) => number(seen, peeled),
        None => seen.right.looked,
    };
    (String::from(name), Box::new(number))
}

/// Where it ends so, another number.
fn ending(
    name: &str,
    ends: &'static [End],
    number: impl Fn(&Seen, &Peeled) -> usize + 'static,
) -> Fault {
    counted(name, move |seen, peeled| match ends.contains(&peeled.end) {
        true => number(seen, peeled),
        false => seen.right.looked,
    })
}

/// The looks that find a bucket: all but a last one that finds none.
fn finding(peeled: &Peeled) -> &[usize] {
    match peeled.end {
        End::Repeated | End::TooMany => &peeled.looks,
        _ => &peeled.looks[..peeled.looks.len() - 1],
    }
}

fn last_look(peeled: &Peeled) -> usize {
    peeled.looks.last().copied().unwrap_or(0)
}

fn without_last(_: &Seen, peeled: &Peeled) -> usize {
    peeled.looked() - last_look(peeled)
}

fn with_size(seen: &Seen, peeled: &Peeled) -> usize {
    peeled.looked() + seen.size
}

/// The last look as if it took every bucket.
fn last_as_size(seen: &Seen, peeled: &Peeled) -> usize {
    without_last(seen, peeled) + seen.size
}

/// The last look by its position alone.
fn last_less_one(_: &Seen, peeled: &Peeled) -> usize {
    peeled.looked() - 1
}

/// In every look.
fn each() -> Vec<Fault> {
    vec![
        counted("a position without plus one", |_, peeled| {
            peeled.looked() - finding(peeled).len()
        }),
        counted("a position plus two", |_, peeled| {
            peeled.looked() + finding(peeled).len()
        }),
        counted("looks from bucket 1", |_, peeled| {
            peeled.looked() - peeled.looks.len()
        }),
        counted("looks counted from 1", |_, peeled| peeled.looked() + 1),
        counted("the first look not counted", |_, peeled| {
            peeled.looked() - peeled.looks[0]
        }),
        counted("each look taken as the size", |seen, peeled| {
            peeled.looks.len() * seen.size
        }),
        counted(
            "looks that go on where the last one found",
            |seen, peeled| {
                let mut from = 0;
                let mut looked = 0;
                for &look in finding(peeled) {
                    looked += look.abs_diff(from).max(1);
                    from = look;
                }
                looked + seen.size - from
            },
        ),
        counted("the longest look alone", |_, peeled| {
            peeled.looks.iter().copied().max().unwrap_or(0)
        }),
        counted("the last look alone", |_, peeled| last_look(peeled)),
    ]
}

/// The ends with columns that are zero, and all with a look that finds none.
const ZERO: &[End] = &[End::Complete, End::Contradicted];
const NONE_FOUND: &[End] = &[End::Complete, End::Contradicted, End::Stuck];

/// In the last look, which finds none.
fn last() -> Vec<Fault> {
    let none_listed = |seen: &Seen, peeled: &Peeled| match peeled.listed.is_empty() {
        true => 0,
        false => with_size(seen, peeled) - seen.size,
    };
    vec![
        ending("no last look where columns are zero", ZERO, without_last),
        ending(
            "no last look where complete",
            &[End::Complete],
            without_last,
        ),
        ending("no last look where stuck", &[End::Stuck], without_last),
        ending("no last look", NONE_FOUND, without_last),
        ending("no look where nothing is found", NONE_FOUND, none_listed),
        ending("no look in equal tables", &[End::Complete], none_listed),
        ending("no look where stuck at once", &[End::Stuck], none_listed),
        ending("the last look counted twice", NONE_FOUND, with_size),
        ending("the last look twice where zero", ZERO, with_size),
        ending("the last look twice where stuck", &[End::Stuck], with_size),
    ]
}

/// In the length of that look, and where it comes after as many peels as buckets.
fn last_lengths() -> Vec<Fault> {
    vec![
        ending("the last look one short", NONE_FOUND, last_less_one),
        ending("the last look one more", NONE_FOUND, |_, peeled| {
            peeled.looked() + 1
        }),
        ending(
            "the last look goes as far as is lent",
            NONE_FOUND,
            |seen, peeled| peeled.looked() - seen.size + seen.lent,
        ),
        ending(
            "after as many peels as buckets no last look",
            &[End::Stuck],
            |seen, peeled| match peeled.listed.len() == seen.size {
                true => without_last(seen, peeled),
                false => peeled.looked(),
            },
        ),
    ]
}

/// Where an ID comes again.
fn repeats() -> Vec<Fault> {
    const REPEATED: &[End] = &[End::Repeated];
    vec![
        ending("the repeat's look not counted", REPEATED, without_last),
        ending("a last look after a repeat", REPEATED, with_size),
        ending("the repeat's look as the size", REPEATED, last_as_size),
        ending(
            "the repeat's look without plus one",
            REPEATED,
            last_less_one,
        ),
        ending("the repeat's look counted twice", REPEATED, |_, peeled| {
            peeled.looked() + last_look(peeled)
        }),
        ending(
            "a repeat counted as one bucket",
            REPEATED,
            |seen, peeled| without_last(seen, peeled) + 1,
        ),
    ]
}

/// Where one peel too many would be made.
fn too_many() -> Vec<Fault> {
    const TOO_MANY: &[End] = &[End::TooMany];
    vec![
        ending(
            "the look for one too many not counted",
            TOO_MANY,
            without_last,
        ),
        ending("a last look after one too many", TOO_MANY, with_size),
        ending(
            "the look for one too many as the size",
            TOO_MANY,
            last_as_size,
        ),
        ending("that look without plus one", TOO_MANY, last_less_one),
        ending("one too many as the bound", TOO_MANY, |seen, _| {
            seen.size * (seen.size + 1)
        }),
    ]
}

/// Where the table speaks against the list.
fn by_table() -> Vec<Fault> {
    const BY_TABLE: &[End] = &[End::Contradicted];
    vec![
        ending(
            "no last look where false by the table",
            BY_TABLE,
            without_last,
        ),
        ending("another look where false by the table", BY_TABLE, with_size),
        ending("looks at the table counted", BY_TABLE, |_, peeled| {
            peeled.looked() + peeled.listed.len()
        }),
    ]
}

/// Other numbers altogether.
fn otherwise() -> Vec<Fault> {
    let before = Cell::new(0);
    let sum = Cell::new(0);
    vec![
        counted("the number modulo 2^8", |_, peeled| peeled.looked() & 0xFF),
        counted("the number modulo 2^16", |_, peeled| {
            peeled.looked() & 0xFFFF
        }),
        counted("the number modulo 2^23", |_, peeled| {
            peeled.looked() & 0x7F_FFFF
        }),
        counted("the number at most 2^16 - 1", |_, peeled| {
            peeled.looked().min(0xFFFF)
        }),
        counted("the number of peels", |_, peeled| peeled.listed.len()),
        counted("the number of looks", |_, peeled| peeled.looks.len()),
        counted("three for each peel, and the size", |seen, peeled| {
            3 * peeled.listed.len() + seen.size
        }),
        counted("the bound", |seen, _| seen.size * (seen.size + 1)),
        counted("half the bound", |seen, _| seen.size * (seen.size + 1) / 2),
        counted("at most half the bound", |seen, peeled| {
            peeled.looked().min(seen.size * (seen.size + 1) / 2)
        }),
        counted("at most size x size / 2", |seen, peeled| {
            peeled.looked().min(seen.size * seen.size / 2)
        }),
        counted("the number of the call before", move |_, peeled| {
            before.replace(peeled.looked())
        }),
        counted("the numbers of all calls added", move |_, peeled| {
            sum.set(sum.get() + peeled.looked());
            sum.get()
        }),
        counted("always 0", |_, _| 0),
    ]
}
