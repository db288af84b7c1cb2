//! Random messages of each kind, all good.

use super::layout::{
    Message, Slice, DEMAND, DONE, ELEMENT, IBF, IBF_LAST, INQUIRY, KINDS, MOST_BUCKETS,
    MOST_CONTENT, MOST_IDS, MOST_LISTED, OFFER,
};
use crate::filters::HASH;
use crate::random::Random;
use crate::sets::some_salt;

/// A slice of a filter of this size, with counters of any width that fit it.
pub fn slice(random: &mut Random, size: u32, offset: u32, width: u32) -> Slice {
    let n = MOST_BUCKETS.min((size - offset) as usize);
    let mut slice = Slice {
        size,
        offset,
        salt: some_salt(random),
        width,
        ids: random.numbers(n),
        hashes: random.words(n),
        counts: random.counters(n, width),
    };
    // An empty filter's slice may have any width too.
    if random.once_in(12) {
        slice.ids.fill(0);
        slice.hashes.fill(0);
        slice.counts.fill(0);
    }
    slice
}

/// Widths at both ends come often.
pub fn width(random: &mut Random) -> u32 {
    match random.below(4) {
        0 => random.pick(&[1, 2, 8, 31, 32]),
        _ => random.between(1, 32) as u32,
    }
}

/// A slice that reaches the end, most often a small one: a whole filter, or what follows 2,520
/// buckets.
pub fn last_slice(random: &mut Random) -> Slice {
    let (size, offset) = match random.below(40) {
        0 => (random.pick(&[2519, 2520]), 0),
        1 => (random.pick(&[4095, 4096]), 2520),
        2 => (random.between(37, 2520), 0),
        3 => (random.between(2521, 4096), 2520),
        i if i % 2 == 0 => (random.between(37, 70), 0),
        _ => (random.between(2521, 2560), 2520),
    };
    let width = width(random);
    slice(random, size as u32, offset, width)
}

/// A slice that does not reach the end.
pub fn first_slice(random: &mut Random) -> Slice {
    let any = random.between(2521, 4096) as u32;
    let size = random.pick(&[2521, 2522, 4095, 4096, any, any, any]);
    let width = width(random);
    slice(random, size, 0, width)
}

/// A number of items up to the most; small ones come often.
fn number_up_to(random: &mut Random, most: usize) -> usize {
    let n = match random.below(60) {
        0 => most as u64,
        1 => most as u64 - 1,
        2 => random.between(1, most as u64),
        3..20 => 1,
        _ => random.between(1, 9),
    };
    n as usize
}

/// So many hashes. No order is asked for, and some may repeat or be zero.
pub fn hashes(random: &mut Random, n: usize) -> Vec<u8> {
    let numbers = random.numbers(n * HASH / 8);
    let mut hashes: Vec<u8> = numbers.into_iter().flat_map(u64::to_be_bytes).collect();
    match random.below(8) {
        0 if n > 1 => {
            let from = random.below(n as u64) as usize * HASH;
            hashes.copy_within(from..from + HASH, (n - 1) * HASH);
        }
        1 => hashes.fill(0),
        _ => {}
    }
    hashes
}

/// So many IDs, likewise.
pub fn ids(random: &mut Random, n: usize) -> Vec<u64> {
    let mut ids = random.numbers(n);
    match random.below(8) {
        0 if n > 1 => ids[n - 1] = ids[random.below(n as u64) as usize],
        1 => ids.fill(0),
        2 => ids = (0..n as u64).collect(),
        _ => {}
    }
    ids
}

/// A message of this kind.
pub fn message(random: &mut Random, kind: u32) -> Message {
    match kind {
        IBF => Message::Slice(first_slice(random)),
        IBF_LAST => Message::Slice(last_slice(random)),
        INQUIRY => {
            let n = number_up_to(random, MOST_IDS);
            Message::Inquiry {
                salt: some_salt(random),
                ids: ids(random, n),
            }
        }
        OFFER => {
            let n = number_up_to(random, MOST_LISTED);
            Message::Offer(hashes(random, n))
        }
        DEMAND => {
            let n = number_up_to(random, MOST_LISTED);
            Message::Demand(hashes(random, n))
        }
        ELEMENT => {
            let n = number_up_to(random, MOST_CONTENT);
            let n = match random.below(3) {
                0 => n,
                _ => random.between(1, 150) as usize,
            };
            Message::Element(random.bytes(n))
        }
        DONE => Message::Done(hashes(random, 1)),
        _ => panic!("{kind} is no kind"),
    }
}

/// A message of any kind; the long ones of type IBF are seldom.
pub fn any_message(random: &mut Random) -> Message {
    let kind = match random.below(12) {
        0 => random.pick(&KINDS),
        _ => random.pick(&[DEMAND, INQUIRY, OFFER, ELEMENT, IBF_LAST, DONE]),
    };
    message(random, kind)
}

/// Likewise, but for those that are long.
pub fn short_message(random: &mut Random) -> Vec<u8> {
    loop {
        let bytes = any_message(random).bytes();
        if bytes.len() < 2000 {
            return bytes;
        }
    }
}
