//! Mutations of the numbers and of the ledger in the memory.

use super::super::memory::{Numbers, DEMANDED_MARKS, FAR};
use super::fixture::{Fixture, Part};
use crate::filters::{id_of, HASH};
use crate::random::Random;
use std::ops::Range;

/// Mutates the memory for one call, or the numbers; none where nothing is changed.
pub type Mutation = fn(&mut Random, &mut Fixture, &mut Numbers) -> Option<()>;

pub const ALL: [(&str, Mutation); 16] = [
    ("ledger: a number one off", number_near),
    ("ledger: a number at a limit", number_at_limit),
    ("ledger: any number", number_any),
    ("ledger: no state", no_state),
    ("ledger: bytes of the table", table_bytes),
    ("ledger: order of the table", table_order),
    ("ledger: a mark of the table", table_mark),
    ("ledger: bytes of the records", records_bytes),
    ("ledger: order of the records", records_order),
    ("ledger: an ID of a record", record_id),
    ("ledger: a mark of a record", record_mark),
    ("ledger: the far checksum", far),
    ("ledger: an inquired ID", inquired),
    ("ledger: a count of the columns", count),
    ("ledger: a sum of the columns", sum),
    ("ledger: behind what is used", behind),
];

/// One of so many, if there are any.
fn one(random: &mut Random, n: usize) -> Option<usize> {
    match n {
        0 => None,
        _ => Some(random.below(n as u64) as usize),
    }
}

fn any_number<'a>(random: &mut Random, numbers: &'a mut Numbers) -> &'a mut u32 {
    match random.below(9) {
        0 => &mut numbers.state,
        1 => &mut numbers.first,
        2 => &mut numbers.size,
        3 => &mut numbers.salt,
        4 => &mut numbers.width,
        5 => &mut numbers.swaps,
        6 => &mut numbers.done,
        7 => &mut numbers.demanded,
        _ => &mut numbers.inquired,
    }
}

/// Puts this instead of any of the numbers; none if it is there already.
fn put_number(random: &mut Random, numbers: &mut Numbers, other: u32) -> Option<()> {
    let number = any_number(random, numbers);
    (std::mem::replace(number, other) != other).then_some(())
}

fn number_near(random: &mut Random, _: &mut Fixture, numbers: &mut Numbers) -> Option<()> {
    let number = any_number(random, numbers);
    *number = number.wrapping_add(random.pick(&[1, u32::MAX]));
    Some(())
}

fn number_at_limit(random: &mut Random, _: &mut Fixture, numbers: &mut Numbers) -> Option<()> {
    let limit = random.pick(&[
        0,
        1,
        2,
        3,
        4,
        5,
        7,
        8,
        15,
        16,
        17,
        36,
        37,
        63,
        64,
        2520,
        2521,
        4096,
        4097,
        65_536,
        1 << 31,
        u32::MAX,
    ]);
    put_number(random, numbers, limit)
}

fn number_any(random: &mut Random, _: &mut Fixture, numbers: &mut Numbers) -> Option<()> {
    let any = random.any_length() as u32;
    put_number(random, numbers, any)
}

fn no_state(random: &mut Random, _: &mut Fixture, numbers: &mut Numbers) -> Option<()> {
    let above = random.any_length() as u32;
    numbers.state = random.pick(&[4, 4, 8, 9, 10, u32::MAX, above.max(11)]);
    Some(())
}

/// A byte with one bit changed, or another one.
fn other_byte(random: &mut Random, byte: u8) -> u8 {
    let any = random.next() as u8;
    let near = byte ^ 1 << random.below(8);
    random.pick(&[near, near, any, 0, 255])
}

/// A place in a hash, often of its ID or its last.
fn in_hash(random: &mut Random) -> usize {
    let any = random.below(64) as usize;
    random.pick(&[any, any, 0, 7, 8, 63])
}

fn hash_at(i: usize) -> Range<usize> {
    HASH * i..HASH * (i + 1)
}

fn table_bytes(random: &mut Random, fixture: &mut Fixture, _: &mut Numbers) -> Option<()> {
    let mut changed = None;
    for _ in 0..random.pick(&[1, 1, 1, 3]) {
        let at = HASH * one(random, fixture.elements())? + in_hash(random);
        let byte = other_byte(random, fixture.kept().table[at]);
        let now = fixture.change(Part::Table, at..at + 1, |lent| lent.table[at] = byte);
        changed = now.or(changed);
    }
    changed
}

/// Two elements change their places, or one gets the other's ID or all of it.
fn table_order(random: &mut Random, fixture: &mut Fixture, _: &mut Numbers) -> Option<()> {
    let i = one(random, fixture.elements().checked_sub(1)?)?;
    let bytes = HASH * i..HASH * (i + 2);
    let how = random.below(3);
    fixture.change(Part::Table, bytes.clone(), |lent| {
        let two = &mut lent.table[bytes.clone()];
        match how {
            0 => two.rotate_left(HASH),
            1 => two.copy_within(..HASH, HASH),
            _ => two.copy_within(..8, HASH),
        }
    })
}

fn put_mark(random: &mut Random, fixture: &mut Fixture, at: usize) -> Option<()> {
    let now = fixture.kept().marks[at];
    let any = other_byte(random, now);
    let mark = random.pick(&[any, now ^ 1, now ^ 2, now ^ 4, now ^ 8, now ^ 16, any & 15]);
    fixture.change(Part::Marks, at..at + 1, |lent| lent.marks[at] = mark)
}

fn table_mark(random: &mut Random, fixture: &mut Fixture, _: &mut Numbers) -> Option<()> {
    let i = one(random, fixture.elements())?;
    put_mark(random, fixture, i)
}

fn demanded(fixture: &Fixture) -> usize {
    fixture.numbers.demanded as usize
}

fn record_mark(random: &mut Random, fixture: &mut Fixture, _: &mut Numbers) -> Option<()> {
    let j = one(random, demanded(fixture))?;
    put_mark(random, fixture, DEMANDED_MARKS + j)
}

fn put_record_byte(random: &mut Random, fixture: &mut Fixture, at: usize) -> Option<()> {
    let byte = other_byte(random, fixture.kept().records[at]);
    fixture.change(Part::Records, at..at + 1, |lent| lent.records[at] = byte)
}

fn records_bytes(random: &mut Random, fixture: &mut Fixture, _: &mut Numbers) -> Option<()> {
    let mut changed = None;
    for _ in 0..random.pick(&[1, 1, 1, 3]) {
        let at = HASH * one(random, demanded(fixture))? + in_hash(random);
        changed = put_record_byte(random, fixture, at).or(changed);
    }
    changed
}

/// Likewise as in the table.
fn records_order(random: &mut Random, fixture: &mut Fixture, _: &mut Numbers) -> Option<()> {
    let j = one(random, demanded(fixture).checked_sub(1)?)?;
    let bytes = HASH * j..HASH * (j + 2);
    let how = random.below(3);
    fixture.change(Part::Records, bytes.clone(), |lent| {
        let two = &mut lent.records[bytes.clone()];
        match how {
            0 => two.rotate_left(HASH),
            1 => two.copy_within(..HASH, HASH),
            _ => two.copy_within(..8, HASH),
        }
    })
}

/// A record gets the ID of an element of the table, or becomes that element.
fn record_id(random: &mut Random, fixture: &mut Fixture, _: &mut Numbers) -> Option<()> {
    let j = one(random, demanded(fixture))?;
    let i = one(random, fixture.elements())?;
    let len = random.pick(&[8, HASH]);
    let bytes = fixture.kept().table[hash_at(i)][..len].to_vec();
    let at = HASH * j..HASH * j + len;
    fixture.change(Part::Records, at.clone(), |lent| {
        lent.records[at.clone()].copy_from_slice(&bytes);
    })
}

fn far(random: &mut Random, fixture: &mut Fixture, _: &mut Numbers) -> Option<()> {
    let at = FAR + in_hash(random);
    put_record_byte(random, fixture, at)
}

/// One gets near to what it was, or is its neighbour, or the ID of an element or of a record.
fn inquired(random: &mut Random, fixture: &mut Fixture, _: &mut Numbers) -> Option<()> {
    let n = fixture.numbers.inquired as usize;
    let i = one(random, n)?;
    let now = fixture.kept().inquired[i];
    let id = match random.below(6) {
        0 => now.wrapping_add(random.pick(&[1, u64::MAX])),
        1 => now ^ 1 << random.below(64),
        2 => random.any_length(),
        3 => {
            let other = one(random, n)?;
            fixture.kept().inquired[other]
        }
        4 => {
            let other = one(random, fixture.elements())?;
            id_of(&fixture.kept().table[hash_at(other)])
        }
        _ => {
            let other = one(random, demanded(fixture))?;
            id_of(&fixture.kept().records[hash_at(other)])
        }
    };
    fixture.change(Part::Inquired, i..i + 1, |lent| lent.inquired[i] = id)
}

/// A place in the columns, often at the limit of what is judged.
fn in_columns(random: &mut Random) -> usize {
    let any = random.below(4096) as usize;
    random.pick(&[any, any % 60, any % 2520, 0, 2519, 2520, 4095])
}

/// They count in state 1; elsewhere nothing should come of it.
fn count(random: &mut Random, fixture: &mut Fixture, numbers: &mut Numbers) -> Option<()> {
    if numbers.state != 1 && !random.once_in(8) {
        return None;
    }
    let at = in_columns(random);
    let any = random.any_length() as i64;
    let bad = random.pick(&[-1, 1 << 32, i64::MIN, i64::MAX, any]);
    let good = random.pick(&[0, 1, 2, (1 << 32) - 1]);
    let count = random.pick(&[bad, good]);
    fixture.change(Part::Counts, at..at + 1, |lent| lent.counts[at] = count)
}

fn sum(random: &mut Random, fixture: &mut Fixture, numbers: &mut Numbers) -> Option<()> {
    if numbers.state != 1 && !random.once_in(8) {
        return None;
    }
    let at = in_columns(random);
    let bit = random.below(64);
    match random.below(2) {
        0 => fixture.change(Part::Ids, at..at + 1, |lent| lent.ids[at] ^= 1 << bit),
        _ => fixture.change(Part::Hashes, at..at + 1, |lent| {
            lent.hashes[at] ^= 1 << (bit % 32);
        }),
    }
}

/// What stands behind the last mark, record or inquired ID is not looked at.
fn behind(random: &mut Random, fixture: &mut Fixture, numbers: &mut Numbers) -> Option<()> {
    let more = random.pick(&[0, 0, 1, 2]);
    let of_table = fixture.elements() + more;
    let of_records = DEMANDED_MARKS + demanded(fixture) + more;
    let inquired = numbers.inquired as usize + more;
    match random.below(4) {
        0 if of_table < DEMANDED_MARKS => put_mark(random, fixture, of_table),
        1 if of_records < 2 * DEMANDED_MARKS => put_mark(random, fixture, of_records),
        2 if demanded(fixture) < DEMANDED_MARKS => {
            let at = HASH * demanded(fixture) + in_hash(random);
            put_record_byte(random, fixture, at)
        }
        3 if inquired < 4096 => {
            let id = random.any_length();
            fixture.change(Part::Inquired, inquired..inquired + 1, |lent| {
                lent.inquired[inquired] = id;
            })
        }
        _ => None,
    }
}
