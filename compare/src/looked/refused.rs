//! Readings that are refused: with 1, 2 and 3 the number is 0 and everything is unchanged; with 6 it
//! stands beside zeros, and columns and lists are zero as far as the size goes.

use super::keys::with_one;
use super::sent_to_none;
use crate::filters::{self, Filter, Reading};
use crate::random::Random;
use crate::refused::BAD_COUNTS;
use crate::sets::{some_salt, some_table, Call};
use crate::{lent, model, quick, Tally};

const NOTHING: Reading = Reading {
    refusal: 0,
    complete: 0,
    ours: 0,
    theirs: 0,
    looked: 0,
};

pub fn compare(tally: &mut Tally) {
    let mut random = tally.subject("buckets looked at, refused", 0x8C);
    let random = &mut random;
    for _ in 0..300 {
        for refusal in [1, 3, 2] {
            // Between readings that look at something: nothing of theirs may be left.
            false_one(tally, random);
            let call = some_call(random, refusal);
            let reading = Reading { refusal, ..NOTHING };
            must_leave(tally, call.clone(), reading, call);
        }
    }
}

/// The library against the answer and all that is lent, as the paper has them.
fn must_leave(tally: &mut Tally, call: Call, reading: Reading, left: Call) {
    let mut by_library = call.clone();
    let library = by_library.read_by_library(&tally.looked.library);
    let subject = tally.subject_name();
    tally.same_of_kind(
        || String::from(subject),
        || format!("read {call:x?}"),
        (reading, left),
        (library, by_library),
    );
    let (model, _) = call.compare(tally);
    assert!(model == reading, "{model:?} for {reading:?}");
    tally.looked.worked_out += 1;
}

fn some_good_size(random: &mut Random) -> u32 {
    let any = random.between(37, 4096) as u32;
    random.pick(&[37, 37, 38, 38, 101, 101, 4096, any])
}

/// A call that is refused so, and at times also with what is tried later.
fn some_call(random: &mut Random, refusal: u32) -> Call {
    let (mut size, mut salt) = (some_good_size(random), some_salt(random));
    let n = random.between(2, 9) as usize;
    let table = some_table(random, n);
    // What a filter could be: an element lies in it that would be found.
    let mut received = Filter::empty(size);
    received.put(random.next(), 1);
    let also = random.once_in(3);
    if refusal == 3 || (refusal == 1 && also) {
        match random.below(2) {
            0 => size = random.pick(&[0, 1, 36, 4097, u32::MAX]),
            _ => salt = random.pick(&[64, 65, u32::MAX]),
        }
    }
    let len = size.min(4097) as usize;
    let mut lens = [0; 5].map(|_| len + random.pick(&[0, 0, 1, 7]));
    if (refusal == 2 || also) && len > 0 {
        lens[random.below(5) as usize] = random.pick(&[len - 1, len - 1, len / 2, 0]);
    }
    let mut call = Call::of_lengths(random, &table, (size, salt), lens);
    lent(&mut call.counts).fill(0);
    call.lay(&received);
    if refusal == 1 {
        break_form(random, &mut call);
    }
    call
}

/// A count that no filter has, bytes left over, or a hash twice.
fn break_form(random: &mut Random, call: &mut Call) {
    let counts = lent(&mut call.counts);
    let judged = counts.len().min(call.size as usize) as u64;
    match random.below(3) {
        0 if judged > 0 => counts[random.below(judged) as usize] = random.pick(&BAD_COUNTS),
        1 => call.table.push(0),
        _ => call.table.copy_within(..64, 64),
    }
}

/// A false reading: what is sent against a table, and how many buckets are looked at.
struct False {
    table: Vec<u8>,
    received: Filter,
    looked: usize,
}

/// One of our table is sent twice.
fn by_table(random: &mut Random, size: u32, salt: u32) -> False {
    let table = some_table(random, 1);
    let id = filters::id_of(&table);
    let lowest = quick::places(model::salt(id, salt), size).into_iter().min();
    False {
        table,
        received: Filter::of(&[id; 2], size, salt),
        looked: (lowest.expect("three") + 1 + size) as usize,
    }
}

/// An element at one of its places comes back.
fn by_repeat(random: &mut Random, size: u32) -> False {
    let stands = random.below(u64::from(size)) as u32;
    let key = with_one(random, size, stands);
    let mut difference = Filter::empty(size);
    difference.put_at(stands, key, -1);
    let others = quick::places(key, size).into_iter();
    let back = others.filter(|&place| place != stands).min();
    False {
        table: Vec::new(),
        received: sent_to_none(&difference),
        looked: (stands + 1 + back.expect("two") + 1) as usize,
    }
}

fn false_one(tally: &mut Tally, random: &mut Random) {
    let (size, salt) = (some_good_size(random), some_salt(random));
    let one = match random.below(2) {
        0 => by_table(random, size, salt),
        _ => by_repeat(random, size),
    };
    let call = Call::of_filter(random, &one.table, &one.received, salt);
    let mut left = call.clone();
    left.lay(&Filter::empty(size));
    lent(&mut left.ours)[..size as usize].fill(0);
    lent(&mut left.theirs)[..size as usize].fill(0);
    let reading = Reading {
        refusal: 6,
        looked: one.looked,
        ..NOTHING
    };
    must_leave(tally, call, reading, left);
}
