//! The starts of a session, in plain Rust.

use super::memory::{Lent, Numbers, Step, MARKS, OUT};
use super::step::{filter_messages, refused, Why};
use crate::filters::{is_table, range_is_good, HASH};
use crate::messages::layout::Message;

/// A refused start leaves no session.
fn no_session(refusal: u32) -> Step {
    let aborted = Numbers {
        state: 7,
        ..Numbers::default()
    };
    refused(refusal, aborted)
}

fn clear_marks(lent: &mut Lent) {
    let n = lent.table.len() / HASH;
    lent.marks[..n].fill(0);
}

pub fn receiver(mut lent: Lent) -> (Step, Why) {
    if !is_table(lent.table) {
        return (no_session(1), "table");
    }
    if lent.marks.len() < MARKS {
        return (no_session(2), "marks");
    }
    clear_marks(&mut lent);
    let next = Numbers {
        size: 37,
        ..Numbers::default()
    };
    (refused(0, next), "started")
}

pub fn sender(size: u32, salt: u32, mut lent: Lent) -> (Step, Why) {
    if !is_table(lent.table) {
        return (no_session(1), "table");
    }
    if !range_is_good(size, salt) {
        return (no_session(3), "size or salt");
    }
    if lent.marks.len() < MARKS {
        return (no_session(2), "marks");
    }
    if lent.out.len() < OUT {
        return (no_session(2), "out");
    }
    clear_marks(&mut lent);
    let own = filter_messages(lent.table, size, salt);
    let bytes: Vec<u8> = own.iter().flat_map(Message::bytes).collect();
    lent.out[..bytes.len()].copy_from_slice(&bytes);
    let next = Numbers {
        state: 3,
        first: 1,
        size,
        salt,
        ..Numbers::default()
    };
    let step = Step {
        refusal: 0,
        sent: bytes.len(),
        due: 0,
        next,
    };
    (step, "started")
}
