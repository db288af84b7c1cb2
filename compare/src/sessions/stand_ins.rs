//! Stand-ins for the library, each with one fault: the comparison must find each of them, and none
//! where there is no fault.
//!
//! Those here have it where a part of a ledger is lent; where the ledger has its room they are the
//! library itself. states.rs has the others.

mod states;

use super::form::breaches_in;
use super::ledger::There;
use super::memory::{Lent, Numbers, Step, DEMANDED_MARKS};
use super::step::refused;
use super::{rooms, short};
use crate::filters::HASH;
use crate::library::session as library;
use crate::Tally;

type Breaches = Vec<&'static str>;

/// How a stand-in judges a part of a ledger, given how much of it is there.
type Judge = fn(&Numbers, &Lent, There) -> Breaches;

/// The step of a stand-in.
type StandIn = for<'a> fn(Numbers, Lent<'a>) -> Step;

/// Refusal 1 or 2, as this one judges.
fn stepped(numbers: Numbers, lent: Lent, judge: Judge) -> Step {
    if !lent.has_short_ledger() {
        return library::step(numbers, lent);
    }
    let there = There::of(&numbers, &lent);
    match judge(&numbers, &lent, there).is_empty() {
        true => refused(2, numbers),
        false => refused(1, numbers),
    }
}

/// As the model judges, but for these clauses.
fn without(numbers: &Numbers, lent: &Lent, there: There, clauses: &[&str]) -> Breaches {
    let mut breaches = breaches_in(numbers, lent, &there);
    breaches.retain(|name| !clauses.contains(name));
    breaches
}

/// As the model would if so much were there.
macro_rules! there {
    (|$numbers:ident, $lent:ident, $there:ident| $change:expr) => {
        |numbers, lent| {
            stepped(numbers, lent, |$numbers, $lent, mut $there| {
                let _ = ($numbers, $lent);
                $change;
                breaches_in($numbers, $lent, &$there)
            })
        }
    };
}

/// As the model does but for these clauses.
macro_rules! without {
    ($($clause:literal),+) => {
        |numbers, lent| {
            stepped(numbers, lent, |numbers, lent, there| {
                without(numbers, lent, there, &[$($clause),+])
            })
        }
    };
}

/// The hashes that the records hold, and the marks behind the table's.
fn hashes(lent: &Lent) -> usize {
    lent.records.len() / HASH
}

fn marks(lent: &Lent) -> usize {
    lent.marks.len().saturating_sub(DEMANDED_MARKS)
}

/// So many at most.
fn most(number: u32, there: usize) -> usize {
    there.min(number as usize)
}

/// The numbers are judged as if they counted what is there.
fn by_what_is_there(numbers: &Numbers, lent: &Lent, mut there: There) -> Breaches {
    let numbers = Numbers {
        demanded: there.demanded as u32,
        inquired: there.inquired as u32,
        ..*numbers
    };
    there.whole = true;
    breaches_in(&numbers, lent, &there)
}

/// Nothing of the ledger is judged, and no idle number.
fn not_judged(numbers: &Numbers, lent: &Lent, mut there: There) -> Breaches {
    (there.table_marks, there.demanded, there.inquired) = (0, 0, 0);
    there.whole = false;
    let idle = [
        "nothing is inquired",
        "nothing is demanded",
        "DONE has not gone",
    ];
    without(numbers, lent, there, &idle)
}

/// What is cut off is counted as well: the numbers say how much it is.
fn counts_what_is_cut_off(numbers: &Numbers, lent: &Lent, there: There) -> Breaches {
    let mut breaches = breaches_in(numbers, lent, &there);
    if lent.table.len() / HASH + numbers.demanded as usize > DEMANDED_MARKS {
        breaches.push("at most 4,096");
    }
    breaches
}

/// In 3 before its first message nothing is idle.
fn three_is_never_idle(numbers: &Numbers, lent: &Lent, there: There) -> Breaches {
    match numbers.state {
        3 => breaches_in(
            &Numbers {
                first: 0,
                ..*numbers
            },
            lent,
            &there,
        ),
        _ => breaches_in(numbers, lent, &there),
    }
}

/// In 3 after its first message something still is.
fn three_is_always_idle(numbers: &Numbers, lent: &Lent, there: There) -> Breaches {
    match numbers.state {
        3 => breaches_in(
            &Numbers {
                first: 1,
                ..*numbers
            },
            lent,
            &there,
        ),
        _ => breaches_in(numbers, lent, &there),
    }
}

/// A refusal ends the session.
fn aborts(numbers: Numbers, lent: Lent) -> Step {
    let is_short = lent.has_short_ledger();
    let mut step = stepped(numbers, lent, |n, l, t| breaches_in(n, l, &t));
    if is_short && step.refusal == 2 {
        step.next.state = 7;
    }
    step
}

/// The marks that are lent are made zero.
fn clears_marks(numbers: Numbers, lent: Lent) -> Step {
    let is_short = lent.has_short_ledger();
    let there = There::of(&numbers, &lent);
    if is_short && breaches_in(&numbers, &lent, &there).is_empty() {
        lent.marks[..there.table_marks].fill(0);
        return refused(2, numbers);
    }
    stepped(numbers, lent, |n, l, t| breaches_in(n, l, &t))
}

const NO_FAULT: StandIn = |numbers, lent| stepped(numbers, lent, |n, l, t| breaches_in(n, l, &t));

const FAULTS: &[(&str, StandIn)] = &[
    // What is judged at all.
    ("a short ledger is not judged", |n, l| {
        stepped(n, l, not_judged)
    }),
    (
        "numbers are judged as if they counted what is there",
        |n, l| stepped(n, l, by_what_is_there),
    ),
    (
        "idle numbers are not judged",
        without!(
            "nothing is inquired",
            "nothing is demanded",
            "DONE has not gone"
        ),
    ),
    (
        "idle: inquired is not judged",
        without!("nothing is inquired"),
    ),
    (
        "idle: demanded is not judged",
        without!("nothing is demanded"),
    ),
    ("idle: DONE is not judged", without!("DONE has not gone")),
    ("idle: 3 before its first message is not", |n, l| {
        stepped(n, l, three_is_never_idle)
    }),
    ("idle: 3 after its first message is too", |n, l| {
        stepped(n, l, three_is_always_idle)
    }),
    // How much is there.
    (
        "demanded hashes are not cut by the marks",
        there!(|n, l, t| t.demanded = most(n.demanded, hashes(l))),
    ),
    (
        "demanded hashes are not cut by the records",
        there!(|n, l, t| t.demanded = most(n.demanded, marks(l))),
    ),
    (
        "half a hash is there",
        there!(
            |n, l, t| t.demanded = most(n.demanded, marks(l).min(l.records.len().div_ceil(HASH)))
        ),
    ),
    (
        "the last demanded hash that is there is not judged",
        there!(|n, l, t| t.demanded = t.demanded.saturating_sub(usize::from(!t.whole))),
    ),
    (
        "records are not judged where they are short",
        there!(|n, l, t| if l.records.len() < 262_208 {
            t.demanded = 0
        }),
    ),
    (
        "records are not judged where marks are short",
        there!(|n, l, t| if l.marks.len() < 8_192 {
            t.demanded = 0
        }),
    ),
    (
        "records are not judged where some are cut off",
        there!(|n, l, t| if t.demanded < n.demanded as usize {
            t.demanded = 0
        }),
    ),
    (
        "the table's marks are not judged where marks are short",
        there!(|n, l, t| if l.marks.len() < 8_192 {
            t.table_marks = 0
        }),
    ),
    (
        "the table's marks are not judged where some are cut off",
        there!(|n, l, t| if l.marks.len() < l.table.len() / HASH {
            t.table_marks = 0
        }),
    ),
    (
        "the table's marks are not judged below 4,096 of them",
        there!(|n, l, t| if l.marks.len() < DEMANDED_MARKS {
            t.table_marks = 0
        }),
    ),
    (
        "the last of the table's marks is not judged",
        there!(|n, l, t| t.table_marks = t.table_marks.saturating_sub(1)),
    ),
    (
        "marks behind the table's are judged with them",
        there!(|n, l, t| t.table_marks = l.marks.len().min(DEMANDED_MARKS)),
    ),
    (
        "inquired IDs are not judged where they are short",
        there!(|n, l, t| if l.inquired.len() < 4_096 {
            t.inquired = 0
        }),
    ),
    (
        "inquired IDs are not judged where some are cut off",
        there!(|n, l, t| if t.inquired < n.inquired as usize {
            t.inquired = 0
        }),
    ),
    (
        "the last inquired ID that is there is not judged",
        there!(|n, l, t| t.inquired = t.inquired.saturating_sub(usize::from(!t.whole))),
    ),
    // The clauses of state 2.
    (
        "the clauses of state 2 are judged on a part",
        there!(|n, l, t| t.whole = true),
    ),
    (
        "the clauses of state 2 are never judged",
        there!(|n, l, t| t.whole = false),
    ),
    (
        "the clauses of state 2 do not ask for the inquired IDs",
        there!(|n, l, t| t.whole = t.demanded == n.demanded as usize),
    ),
    (
        "the clauses of state 2 do not ask for the demands",
        there!(|n, l, t| t.whole = t.inquired == n.inquired as usize),
    ),
    (
        "the clauses of state 2 do not ask for the marks",
        there!(|n, l, t| t.whole |=
            n.demanded as usize <= hashes(l) && t.inquired == n.inquired as usize),
    ),
    (
        "the clauses of state 2 do not ask for whole hashes",
        there!(|n, l, t| t.whole |=
            n.demanded as usize <= marks(l) && t.inquired == n.inquired as usize),
    ),
    (
        "the clauses of state 2 ask for the table's marks",
        there!(|n, l, t| t.whole &= l.marks.len() >= l.table.len() / HASH),
    ),
    // The other clauses on a part, and what a refusal leaves.
    (
        "the range of the table's marks is not judged",
        without!("a table's mark"),
    ),
    (
        "the range of the records' marks is not judged",
        without!("a record's mark"),
    ),
    (
        "the order of the records is not judged",
        without!("records ascend"),
    ),
    (
        "the order of the inquired IDs is not judged",
        without!("inquired ascend"),
    ),
    (
        "offered and asked need not be held",
        without!("offered are held", "asked are held"),
    ),
    (
        "served ones need not be offered",
        without!("served were offered"),
    ),
    ("IDs may be shared", without!("no ID is shared")),
    ("there may be more than 4,096", without!("at most 4,096")),
    ("what is cut off is counted to the 4,096", |n, l| {
        stepped(n, l, counts_what_is_cut_off)
    }),
    ("idle: asked ones may be", without!("nothing is asked")),
    ("idle: offered ones may be", without!("nothing is offered")),
    ("refusal 2 aborts", aborts),
    ("refusal 2 clears marks", clears_marks),
];

/// The comparisons that must find these faults.
fn inputs(tally: &mut Tally) {
    short::compare(tally);
    rooms::compare(tally);
}

/// Stand-ins whose faults are of one sort: one without, those with one, and what must find them.
type Sort = (StandIn, &'static [(&'static str, StandIn)], fn(&mut Tally));

const SORTS: [Sort; 2] = [
    (NO_FAULT, FAULTS, inputs),
    (states::NO_FAULT, states::FAULTS, states::inputs),
];

/// The differences that are found with this one in the place of the library.
fn found(mut tally: Tally, stand_in: StandIn, inputs: fn(&mut Tally)) -> u64 {
    tally.gathered.quiet = true;
    tally.gathered.begin();
    tally.sessions.library = stand_in;
    inputs(&mut tally);
    tally.gathered.total()
}

/// Whether each stand-in with a fault is found, and none without.
pub fn are_caught(begin: fn() -> Tally) -> bool {
    let mut caught = true;
    for (no_fault, faults, inputs) in SORTS {
        let without_fault = found(begin(), no_fault, inputs);
        println!("no fault: {without_fault} differences");
        caught &= without_fault == 0;
        for &(name, stand_in) in faults {
            let differences = found(begin(), stand_in, inputs);
            println!("{name}: {differences} differences");
            caught &= differences > 0;
        }
        println!("{} stand-ins with a fault", faults.len());
    }
    caught
}
