//! Stand-ins with one fault each in what is a state, in the rows of the grid, and in how a session
//! ends. But for its fault each is the library itself.

use super::super::ledger::{hashes_of, Ledger, MET};
use super::super::memory::{Lent, Numbers, Step, DEMANDED_MARKS, FAR};
use super::super::step::{is_state, refused};
use super::super::{ends, no_states};
use super::StandIn;
use crate::filters::HASH;
use crate::library::session as library;
use crate::messages::layout::{self, framed, DONE, ELEMENT};
use crate::Tally;

/// The comparisons that must find these faults.
pub fn inputs(tally: &mut Tally) {
    no_states::compare(tally);
    ends::compare(tally);
}

pub const NO_FAULT: StandIn = library::step;

fn in_state(state: u32, numbers: Numbers) -> Numbers {
    Numbers { state, ..numbers }
}

/// Finished, with nothing sent.
fn finished(numbers: Numbers) -> Step {
    refused(
        0,
        in_state(
            6,
            Numbers {
                first: 0,
                ..numbers
            },
        ),
    )
}

fn kind_of(lent: &Lent) -> u32 {
    layout::read(lent.message).kind
}

fn has_room(lent: &Lent) -> bool {
    lent.rooms().iter().all(|(_, there, asked)| there >= asked)
}

/// The step of another state; where that stays, so does the number given.
fn read_as(other: u32, numbers: Numbers, lent: Lent) -> Step {
    let mut step = library::step(in_state(other, numbers), lent);
    if step.next.state == other {
        step.next.state = numbers.state;
    }
    step
}

/// In this number this is the answer.
macro_rules! answers {
    ($number:pat, |$numbers:ident, $lent:ident| $answer:expr) => {
        |$numbers, $lent| match $numbers.state {
            $number => $answer,
            _ => library::step($numbers, $lent),
        }
    };
}

/// What stood there before the step, and what comes.
struct Before {
    numbers: Numbers,
    out: Vec<u8>,
    far: Vec<u8>,
    kind: u32,
}

impl Before {
    fn of(numbers: Numbers, lent: &Lent) -> Before {
        let part = |bytes: &[u8], from: usize, len: usize| {
            let behind = bytes.iter().skip(from);
            behind.take(len).copied().collect()
        };
        Before {
            numbers,
            out: part(lent.out, 0, 4 + HASH),
            far: part(lent.records, FAR, HASH),
            kind: kind_of(lent),
        }
    }
}

/// Refusal, state before and state after.
type When = [u32; 3];

fn after(
    numbers: Numbers,
    mut lent: Lent,
    when: When,
    change: fn(&Before, &mut Step, Lent),
) -> Step {
    let before = Before::of(numbers, &lent);
    let mut step = library::step(numbers, lent.again());
    if [step.refusal, numbers.state, step.next.state] == when {
        change(&before, &mut step, lent);
    }
    step
}

/// What the library answers and leaves then is changed.
macro_rules! after {
    ($when:expr, $change:expr) => {
        |numbers, lent| after(numbers, lent, $when, $change)
    };
}

/// The checksum in a DONE is compared with that of what is held, whatever is missing.
fn compares(before: &Before, step: &mut Step, lent: Lent) {
    let ledger = Ledger::decode(&before.numbers, &lent);
    *step = match lent.message[4..] == ledger.checksum() {
        true => finished(before.numbers),
        false => refused(8, in_state(7, before.numbers)),
    };
}

fn takes_early_done(before: &Before, step: &mut Step, lent: Lent) {
    if before.kind == DONE {
        compares(before, step, lent);
    }
}

fn is_taken(before: &Before, step: &mut Step, _: Lent) {
    *step = finished(before.numbers);
}

fn is_ignored(before: &Before, step: &mut Step, _: Lent) {
    *step = refused(0, before.numbers);
}

fn loses_far(before: &Before, _: &mut Step, lent: Lent) {
    lent.records[FAR..FAR + HASH].copy_from_slice(&before.far);
}

fn clears_far(_: &Before, _: &mut Step, lent: Lent) {
    lent.records[FAR..FAR + HASH].fill(0);
}

fn keeps_far(_: &Before, _: &mut Step, lent: Lent) {
    lent.records[FAR..FAR + HASH].copy_from_slice(&lent.message[4..]);
}

fn does_not_wait(before: &Before, step: &mut Step, mut lent: Lent) {
    loses_far(before, step, lent.again());
    compares(before, step, lent);
}

fn answers_done(before: &Before, step: &mut Step, lent: Lent) {
    let ours = framed(DONE, &Ledger::decode(&before.numbers, &lent).checksum());
    lent.out[..ours.len()].copy_from_slice(&ours);
    step.sent = ours.len();
}

fn sends_no_done(before: &Before, step: &mut Step, lent: Lent) {
    lent.out[..before.out.len()].copy_from_slice(&before.out);
    step.sent = 0;
    step.next.done = before.numbers.done;
}

fn keeps_done_in_five(before: &Before, step: &mut Step, mut lent: Lent) {
    if before.kind == DONE {
        keeps_far(before, step, lent.again());
        is_ignored(before, step, lent);
    }
}

/// The ELEMENT that is refused with 8 is marked as met.
fn gains_refused(_: &Before, step: &mut Step, lent: Lent) {
    let records = hashes_of(&lent.records[..HASH * step.next.demanded as usize]);
    let at = records
        .iter()
        .position(|hash| hash[..] == lent.hash[..HASH]);
    lent.marks[DEMANDED_MARKS + at.expect("it is demanded")] |= MET;
}

/// Where there is room, as in a state in which nothing may come.
fn has_row_of_noes(numbers: Numbers, lent: Lent) -> Step {
    match kind_of(&lent) {
        _ if !has_room(&lent) => refused(1, numbers),
        layout::MALFORMED => refused(4, in_state(7, numbers)),
        _ => refused(5, in_state(7, numbers)),
    }
}

/// In no state, 1 comes after this refusal.
fn no_state_after(refusal: Option<Step>, numbers: Numbers, lent: Lent) -> Step {
    match refusal {
        Some(step) if !is_state(numbers.state) => step,
        _ => library::step(numbers, lent),
    }
}

fn malformed_before_no_state(numbers: Numbers, lent: Lent) -> Step {
    let is = kind_of(&lent) == layout::MALFORMED;
    let aborted = refused(4, in_state(7, numbers));
    no_state_after(is.then_some(aborted), numbers, lent)
}

fn out_before_no_state(numbers: Numbers, lent: Lent) -> Step {
    let [.., (_, there, asked)] = lent.rooms();
    let short = (there < asked).then_some(refused(2, numbers));
    no_state_after(short, numbers, lent)
}

fn clears_out(numbers: Numbers, lent: Lent) -> Step {
    lent.out.fill(0);
    refused(1, numbers)
}

fn element_in_six(numbers: Numbers, lent: Lent) -> Step {
    match kind_of(&lent) {
        ELEMENT => read_as(5, numbers, lent),
        _ => library::step(numbers, lent),
    }
}

fn no_element_in_five(numbers: Numbers, lent: Lent) -> Step {
    if kind_of(&lent) != ELEMENT {
        return library::step(numbers, lent);
    }
    let mut step = read_as(6, numbers, lent);
    if step.refusal == 5 {
        step.next.state = 7;
    }
    step
}

pub const FAULTS: &[(&str, StandIn)] = &[
    // What is a state.
    ("4 is a state", answers!(4, |n, l| read_as(5, n, l))),
    (
        "4 is a state in 2's place",
        answers!(4, |n, l| read_as(2, n, l)),
    ),
    (
        "4 is a state that has ended",
        answers!(4, |n, l| read_as(7, n, l)),
    ),
    (
        "4 has a row of noes",
        answers!(4, |n, l| has_row_of_noes(n, l)),
    ),
    ("8 is a state", answers!(8, |n, l| read_as(3, n, l))),
    ("9 is a state", answers!(9, |n, l| read_as(2, n, l))),
    ("10 is a state", answers!(10, |n, l| read_as(0, n, l))),
    (
        "2^32 - 1 is a state",
        answers!(u32::MAX, |n, l| read_as(7, n, l)),
    ),
    (
        "numbers above 7 are taken modulo 8",
        answers!(8.., |n, l| read_as(n.state % 8, n, l)),
    ),
    (
        "4 is refused with 1 and answered as 7",
        answers!(4, |n, _l| refused(1, in_state(7, n))),
    ),
    (
        "8 is refused with 1 and answered as 7",
        answers!(8, |n, _l| refused(1, in_state(7, n))),
    ),
    (
        "4 is refused with 2 where there is no room",
        answers!(4, |n, l| refused(if has_room(&l) { 1 } else { 2 }, n)),
    ),
    ("no state is told after a short out", out_before_no_state),
    (
        "no state is told after no message",
        malformed_before_no_state,
    ),
    ("4 clears out", answers!(4, |n, l| clears_out(n, l))),
    // The rows of 5 and 6.
    (
        "the row of 5 is read for 6",
        answers!(6, |n, l| element_in_six(n, l)),
    ),
    (
        "the row of 6 is read for 5",
        answers!(5, |n, l| no_element_in_five(n, l)),
    ),
    // DONE.
    (
        "DONE in 2 before ours is taken",
        after!([5, 2, 7], takes_early_done),
    ),
    (
        "DONE in 2 with a different checksum is taken",
        after!([8, 2, 7], is_taken),
    ),
    (
        "DONE in 2 leads to 5",
        after!([0, 2, 6], |_, step, _| step.next.state = 5),
    ),
    (
        "DONE in 2 is answered with ours",
        after!([0, 2, 6], answers_done),
    ),
    (
        "DONE in 3 with a demand unmet leads to 6",
        after!([0, 3, 5], |_, step, _| step.next.state = 6),
    ),
    (
        "DONE in 3 with a demand unmet is compared",
        after!([0, 3, 5], does_not_wait),
    ),
    (
        "DONE in 3 with a different checksum is taken",
        after!([8, 3, 7], is_taken),
    ),
    (
        "the far checksum is not kept by DONE in 3",
        after!([0, 3, 5], loses_far),
    ),
    (
        "the far checksum is kept by DONE in 2",
        after!([0, 2, 6], keeps_far),
    ),
    (
        "the far checksum is kept by DONE in 3 with nothing unmet",
        after!([0, 3, 6], keeps_far),
    ),
    (
        "DONE in 5 is taken and its checksum kept",
        after!([5, 5, 7], keeps_done_in_five),
    ),
    // ELEMENTs in 5.
    (
        "the last ELEMENT in 5 sends no DONE",
        after!([0, 5, 6], sends_no_done),
    ),
    (
        "the last ELEMENT in 5 stays in 5",
        after!([0, 5, 6], |_, step, _| step.next.state = 5),
    ),
    (
        "the last ELEMENT in 5 with a different checksum is taken",
        after!([8, 5, 7], is_taken),
    ),
    (
        "the last ELEMENT in 5 is gained though refused with 8",
        after!([8, 5, 7], gains_refused),
    ),
    (
        "an ELEMENT in 5 that is not the last ends the session",
        after!([0, 5, 5], |_, step, _| step.next.state = 6),
    ),
    (
        "the far checksum is lost with an ELEMENT in 5",
        after!([0, 5, 5], clears_far),
    ),
    (
        "an ELEMENT in 5 that is not demanded is ignored",
        after!([7, 5, 7], is_ignored),
    ),
];
