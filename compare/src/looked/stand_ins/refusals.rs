//! Faults in the number where a reading is refused.

use super::{Fault, Seen};
use crate::filters::End;
use std::cell::Cell;

pub fn faults() -> Vec<Fault> {
    let mut faults = cleared();
    for refusal in 1..=3 {
        let name = |what: &str| format!("refused with {refusal}, {what}");
        faults.push(stopped(name("the size"), refusal, |seen| seen.size));
        faults.push(stopped(name("1"), refusal, |_| 1));
        faults.push(stopped(name("as long as is lent"), refusal, |seen| {
            seen.lent
        }));
        faults.push(stopped(name("2^64 - 1"), refusal, |_| usize::MAX));
        faults.push(kept(name("the number of the call before"), refusal));
    }
    faults
}

/// With this refusal, which stops a reading, another number.
fn stopped(name: String, refusal: u32, number: fn(&Seen) -> usize) -> Fault {
    let number = move |seen: &Seen| match seen.right.refusal == refusal {
        true => number(seen),
        false => seen.right.looked,
    };
    (name, Box::new(number))
}

fn kept(name: String, refusal: u32) -> Fault {
    let before = Cell::new(0);
    let number = move |seen: &Seen| match seen.right.refusal == refusal {
        true => before.get(),
        false => {
            before.set(seen.right.looked);
            seen.right.looked
        }
    };
    (name, Box::new(number))
}

/// With refusal 6 the number is 0: always, or with one of its three reasons.
fn cleared() -> Vec<Fault> {
    const REASONS: [(&str, &[End]); 4] = [
        (
            "refused with 6, 0",
            &[End::Repeated, End::TooMany, End::Contradicted],
        ),
        ("a repeat, 0", &[End::Repeated]),
        ("one too many, 0", &[End::TooMany]),
        ("false by the table, 0", &[End::Contradicted]),
    ];
    let fault = |(name, ends): (&str, &'static [End])| -> Fault {
        let number = move |seen: &Seen| match &seen.peeled {
            Some(peeled) if ends.contains(&peeled.end) => 0,
            _ => seen.right.looked,
        };
        (String::from(name), Box::new(number))
    };
    REASONS.into_iter().map(fault).collect()
}
