//! A step of a session (document 01, and 02 Req 04) in plain Rust: the grid, the refusals in their
//! order, and the messages that carry a filter. Beside each answer stands why it was given, to be
//! counted.

use super::exchange;
use super::form;
use super::ledger::{Hash, Ledger};
use super::memory::{Lent, Numbers, Step, FAR};
use crate::filters::{self, id_of, End, Filter, HASH, MOST_HASHES};
use crate::messages::layout::{
    self, Message, Slice, DEMAND, DONE, ELEMENT, IBF, IBF_LAST, INQUIRY, OFFER,
};
use crate::messages::writers;
use crate::model::Columns;

pub type Why = &'static str;

/// The states in which a session has ended.
pub const FINISHED: u32 = 6;
const ABORTED: u32 = 7;

/// The states, and what may come in each; in 3 IBF and IBF LAST only as the first message since
/// entry.
const GRID: [(u32, &[u32]); 7] = [
    (0, &[IBF, IBF_LAST]),
    (1, &[IBF, IBF_LAST]),
    (2, &[OFFER, DEMAND, ELEMENT, DONE]),
    (3, &[INQUIRY, OFFER, DEMAND, ELEMENT, DONE, IBF, IBF_LAST]),
    (5, &[ELEMENT]),
    (FINISHED, &[]),
    (ABORTED, &[]),
];

/// A peer swaps at most so often.
const MOST_SWAPS: u32 = 16;

pub fn is_state(number: u32) -> bool {
    GRID.iter().any(|&(state, _)| state == number)
}

pub fn has_ended(numbers: &Numbers) -> bool {
    matches!(numbers.state, FINISHED | ABORTED)
}

pub fn may_come(numbers: &Numbers, kind: u32) -> bool {
    let mut rows = GRID.iter().filter(|&&(state, _)| state == numbers.state);
    let (_, row) = rows.next().expect("a state has a row");
    let later = numbers.state == 3 && numbers.first == 0;
    let carries_filter = kind == IBF || kind == IBF_LAST;
    row.contains(&kind) && !(later && carries_filter)
}

/// Not in the grid, by type.
fn out_of_turn(kind: u32) -> Why {
    match kind {
        DEMAND => "DEMAND out of turn",
        INQUIRY => "INQUIRY out of turn",
        OFFER => "OFFER out of turn",
        IBF => "IBF out of turn",
        ELEMENT => "ELEMENT out of turn",
        IBF_LAST => "IBF LAST out of turn",
        _ => "DONE out of turn",
    }
}

pub fn refused(refusal: u32, next: Numbers) -> Step {
    Step {
        refusal,
        sent: 0,
        due: 0,
        next,
    }
}

/// A refusal that ends the session.
fn aborted(refusal: u32, numbers: Numbers) -> Step {
    refused(
        refusal,
        Numbers {
            state: ABORTED,
            ..numbers
        },
    )
}

pub fn step(numbers: Numbers, mut lent: Lent) -> (Step, Why) {
    match &form::breaches(&numbers, &lent)[..] {
        [] => {}
        [alone] => return (refused(1, numbers), alone),
        _ => return (refused(1, numbers), "several clauses"),
    }
    let rooms = lent.rooms().into_iter();
    let mut short = rooms.filter(|(_, there, asked)| there < asked);
    match (short.next(), short.next()) {
        (None, _) => {}
        (Some((name, ..)), None) => return (refused(2, numbers), name),
        _ => return (refused(2, numbers), "several slices"),
    }
    if has_ended(&numbers) {
        return (refused(5, numbers), "ended");
    }
    let Some(message) = layout::parse(lent.message) else {
        return (aborted(4, numbers), "malformed");
    };
    if !may_come(&numbers, message.kind()) {
        return (aborted(5, numbers), out_of_turn(message.kind()));
    }
    if let Message::Slice(slice) = message {
        return of_slice(numbers, slice, lent);
    }
    let far: Hash = lent.records[FAR..FAR + HASH].try_into().expect("64 bytes");
    let mut session = exchange::Session {
        ledger: Ledger::decode(&numbers, &lent),
        numbers: Numbers {
            first: 0,
            ..numbers
        },
        far,
    };
    let hash: Hash = lent.hash[..HASH].try_into().expect("64 bytes");
    match session.take(message, hash) {
        Err((refusal, why)) => (aborted(refusal, numbers), why),
        Ok(due) => {
            lent.records[FAR..FAR + HASH].copy_from_slice(&session.far);
            session.ledger.encode(&mut lent);
            session.numbers.demanded = session.ledger.demanded.len() as u32;
            (
                put(&mut lent, &due.messages, &due.bare, session.numbers),
                due.why,
            )
        }
    }
}

/// Writes what is to be sent, or the bare hashes, from the start of the outgoing buffer.
fn put(lent: &mut Lent, messages: &[Message], bare: &[Hash], next: Numbers) -> Step {
    let bytes: Vec<u8> = messages.iter().flat_map(Message::bytes).collect();
    let hashes: Vec<u8> = bare.concat();
    assert!(bytes.is_empty() || hashes.is_empty());
    lent.out[..bytes.len()].copy_from_slice(&bytes);
    lent.out[..hashes.len()].copy_from_slice(&hashes);
    Step {
        refusal: 0,
        sent: bytes.len(),
        due: bare.len(),
        next,
    }
}

/// Slices come in offset order without a gap, with one size, salt and width.
fn breach_of_order(numbers: &Numbers, slice: &Slice) -> Option<Why> {
    if numbers.state != 1 {
        return (slice.offset != 0).then_some("a gap before the slice");
    }
    // Of slices at most two fit a filter: behind the first comes the one at 2,520.
    if slice.offset != 2520 {
        return Some("the first slice again");
    }
    let same = |a, b, why| if a == b { None } else { Some(why) };
    same(numbers.size, slice.size, "another size")
        .or(same(numbers.salt, slice.salt, "another salt in a slice"))
        .or(same(numbers.width, slice.width, "another width"))
}

fn of_slice(numbers: Numbers, slice: Slice, lent: Lent) -> (Step, Why) {
    if let Some(why) = breach_of_order(&numbers, &slice) {
        return (aborted(4, numbers), why);
    }
    let from = slice.offset as usize;
    let end = from + slice.ids.len();
    lent.ids[from..end].copy_from_slice(&slice.ids);
    lent.hashes[from..end].copy_from_slice(&slice.hashes);
    lent.counts[from..end].copy_from_slice(&slice.counts);
    let next = Numbers {
        state: 1,
        first: 0,
        size: slice.size,
        salt: slice.salt,
        width: slice.width,
        ..numbers
    };
    match slice.is_last() {
        false => (put_nothing(next), "a slice laid"),
        true => reading(numbers, slice.size, slice.salt, lent),
    }
}

fn put_nothing(next: Numbers) -> Step {
    refused(0, next)
}

/// Reads the filter laid in the columns.
fn reading(numbers: Numbers, size: u32, salt: u32, lent: Lent) -> (Step, Why) {
    let columns = Columns {
        ids: &mut *lent.ids,
        hashes: &mut *lent.hashes,
        counts: &mut *lent.counts,
    };
    let (reading, end) = filters::read(lent.table, columns, lent.ours, lent.theirs, size, salt);
    let end = end.expect("columns of good form, enough room");
    let is_false = end != End::Complete && end != End::Stuck;
    if end == End::Complete {
        if lent.table.len() / HASH + reading.theirs > MOST_HASHES {
            return (cleared(10, numbers, size, lent), "too many read");
        }
        return complete(numbers, [reading.ours, reading.theirs], size, salt, lent);
    }
    if numbers.swaps == MOST_SWAPS {
        let why = if is_false {
            "a 17th swap, false"
        } else {
            "a 17th swap, stuck"
        };
        return (cleared(9, numbers, size, lent), why);
    }
    let step = swap(numbers, size, salt, lent);
    match end {
        End::Stuck => (step, "stuck"),
        End::Repeated => (Step { refusal: 6, ..step }, "repeated"),
        End::TooMany => (Step { refusal: 6, ..step }, "too many peels"),
        _ => (Step { refusal: 6, ..step }, "contradicted"),
    }
}

/// A refusal after the reading: state 7, columns and lists zero as far as they were read.
fn cleared(refusal: u32, numbers: Numbers, size: u32, lent: Lent) -> Step {
    let all = size as usize;
    lent.ids[..all].fill(0);
    lent.hashes[..all].fill(0);
    lent.counts[..all].fill(0);
    lent.ours[..all].fill(0);
    lent.theirs[..all].fill(0);
    aborted(refusal, numbers)
}

/// The own filter is due, of twice the size and at the next salt.
fn swap(numbers: Numbers, size: u32, salt: u32, mut lent: Lent) -> Step {
    let next = Numbers {
        state: 3,
        first: 1,
        size: (2 * size).min(4096),
        salt: (salt + 1) % 64,
        width: 0,
        swaps: numbers.swaps + 1,
        ..numbers
    };
    let own = filter_messages(lent.table, next.size, next.salt);
    put(&mut lent, &own, &[], next)
}

/// The messages of the table's filter.
pub fn filter_messages(table: &[u8], size: u32, salt: u32) -> Vec<Message> {
    let own = Filter::of(&filters::ids(table), size, salt);
    writers::slices(&own.ids, &own.hashes, &own.counts, salt)
}

/// INQUIRY for theirs, OFFER for ours, and DONE if theirs is empty.
fn complete(
    numbers: Numbers,
    [ours, theirs]: [usize; 2],
    size: u32,
    salt: u32,
    mut lent: Lent,
) -> (Step, Why) {
    let theirs = lent.theirs[..theirs].to_vec();
    let mut ledger = Ledger::decode(&numbers, &lent);
    let held = ledger.held();
    let ours: Vec<Hash> = lent.ours[..ours].iter().map(|id| held[id]).collect();
    assert!(ours
        .iter()
        .zip(lent.ours.iter())
        .all(|(h, id)| id_of(h) == *id));

    ledger.inquired.clone_from(&theirs);
    ledger.inquired.sort_unstable();
    ledger.offered = ours.iter().copied().collect();
    ledger.encode(&mut lent);

    let mut messages = writers::inquiries(&theirs, salt);
    messages.extend(writers::listed(&ours.concat(), Message::Offer));
    if theirs.is_empty() {
        messages.push(Message::Done(ledger.checksum().to_vec()));
    }
    let next = Numbers {
        state: 2,
        first: 0,
        size,
        salt,
        width: 0,
        done: u32::from(theirs.is_empty()),
        inquired: theirs.len() as u32,
        ..numbers
    };
    let why = match (ours.is_empty(), theirs.is_empty()) {
        (true, true) => "complete, nothing listed",
        (false, true) => "complete, ours alone",
        (true, false) => "complete, theirs alone",
        (false, false) => "complete, both",
    };
    (put(&mut lent, &messages, &[], next), why)
}
