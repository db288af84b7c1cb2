//! Messages that carry a filter, made up for a peer whose table is known.

use super::calls::Delivery;
use super::craft::{one_of, some_of, Known, Trick};
use crate::filters::{id_of, Filter};
use crate::messages::layout::{Message, Slice};
use crate::messages::writers;
use crate::model;
use crate::quick;
use crate::random::Random;
use crate::sets::{some_ids, some_salt, some_size};

/// The messages of a filter, all of one width that holds its counters, the smallest or more.
pub fn messages_of(random: &mut Random, filter: &Filter, salt: u32) -> Vec<Delivery> {
    let more = random.pick(&[0, 0, 0, 1, 7, 32]);
    let slices = writers::slices(&filter.ids, &filter.hashes, &filter.counts, salt);
    let wider = |message| match message {
        Message::Slice(slice) => Message::Slice(Slice {
            width: (slice.width + more).min(32),
            ..slice
        }),
        other => other,
    };
    let messages = slices.into_iter().map(wider);
    messages
        .map(|message| Delivery::new(random, message.bytes()))
        .collect()
}

/// A small size, seldom one of two slices.
pub fn size_of_any(random: &mut Random) -> u32 {
    match random.below(24) {
        0 => random.pick(&[2521, 2522, 2600, 4095, 4096]),
        1 => random.pick(&[2519, 2520, 1260, 2048]),
        _ => some_size(random, 90),
    }
}

/// The filter of a set like the table: some of it is left out, and others are added.
fn near_filter(random: &mut Random, known: &Known, size: u32, salt: u32) -> Filter {
    let table = &known.ledger.table;
    let most = random.pick(&[0, 0, 1, 4, 12, 30]);
    let without = match most {
        0 => Vec::new(),
        _ => some_of(random, table, most),
    };
    let kept = table.iter().filter(|hash| !without.contains(hash));
    let mut ids: Vec<u64> = kept.map(|hash| id_of(hash)).collect();
    let most = random.pick(&[0, 0, 1, 4, 12, 30]);
    let added = random.below(most + 1) as usize;
    ids.extend(some_ids(random, added));
    Filter::of(&ids, size, salt)
}

fn first_of(random: &mut Random, filter: &Filter, salt: u32) -> Option<Delivery> {
    messages_of(random, filter, salt).into_iter().next()
}

fn near(random: &mut Random, known: &Known) -> Option<Delivery> {
    let (size, salt) = (size_of_any(random), some_salt(random));
    let filter = near_filter(random, known, size, salt);
    first_of(random, &filter, salt)
}

/// Keys at some of their places only, or at all although the table holds them.
fn planted(random: &mut Random, known: &Known) -> Option<Delivery> {
    let (size, salt) = (some_size(random, 90), some_salt(random));
    let mut filter = near_filter(random, known, size, salt);
    for _ in 0..random.between(1, 3) {
        let any = random.next();
        let held = one_of(random, &known.ledger.table).map_or(any, |hash| id_of(&hash));
        let id = random.pick(&[any, held]);
        let key = model::salt(id, salt);
        let which = random.pick(&[1, 2, 4, 3, 7, 7, 7]);
        for (i, place) in quick::places(key, size).into_iter().enumerate() {
            if which >> i & 1 == 1 {
                filter.put_at(place, key, 1);
            }
        }
    }
    first_of(random, &filter, salt)
}

/// The last slice of a filter of two, that holds anything, nothing, or what the table has there.
fn last_slice(
    random: &mut Random,
    known: &Known,
    (size, salt, width): (u32, u32, u32),
) -> Option<Delivery> {
    let n = size.checked_sub(2520).filter(|&n| n > 0)? as usize;
    if !(1..=32).contains(&width) {
        return None;
    }
    let ids: Vec<u64> = known.ledger.table.iter().map(|hash| id_of(hash)).collect();
    let filter = Filter::of(&ids, size, salt);
    let mut slice = Slice {
        size,
        offset: 2520,
        salt,
        width,
        ids: filter.ids[2520..].to_vec(),
        hashes: filter.hashes[2520..].to_vec(),
        counts: filter.counts[2520..].to_vec(),
    };
    if random.once_in(3) || !model::fits(&slice.counts, width) {
        slice.ids = random.numbers(n);
        slice.hashes = random.words(n);
        slice.counts = random.counters(n, width);
    }
    Some(Delivery::new(random, Message::Slice(slice).bytes()))
}

fn gap(random: &mut Random, known: &Known) -> Option<Delivery> {
    let size = 2520 + random.between(1, 10) as u32;
    let (salt, width) = (some_salt(random), random.between(1, 32) as u32);
    last_slice(random, known, (size, salt, width))
}

/// The one that is awaited.
fn rest(random: &mut Random, known: &Known) -> Option<Delivery> {
    let now = known.numbers;
    last_slice(random, known, (now.size, now.salt, now.width))
}

/// One that differs from what is awaited in one number.
fn other_rest(random: &mut Random, known: &Known) -> Option<Delivery> {
    let now = known.numbers;
    let size = random
        .pick(&[now.size - 1, now.size + 1, 4096, 2521])
        .min(4096);
    let salt = random.pick(&[(now.salt + 1) % 64, (now.salt + 63) % 64]);
    let width = random.pick(&[now.width.wrapping_sub(1), now.width + 1, 32, 1]);
    let numbers = match random.below(3) {
        0 => (size, now.salt, now.width),
        1 => (now.size, salt, now.width),
        _ => (now.size, now.salt, width),
    };
    last_slice(random, known, numbers)
}

/// The first slice once more, or a filter of one slice.
fn first_again(random: &mut Random, known: &Known) -> Option<Delivery> {
    let now = known.numbers;
    let small = some_size(random, 90);
    let size = random.pick(&[small, small, small, small, now.size.max(2521)]);
    let filter = near_filter(random, known, size, now.salt);
    first_of(random, &filter, now.salt)
}

/// For a peer that waits for a filter.
pub const BEFORE: [Trick; 8] = [near, near, near, near, planted, planted, gap, rest];

/// For one that has the first slice.
pub const BETWEEN: [Trick; 5] = [rest, rest, other_rest, other_rest, first_again];
