//! Comparisons of writing a whole filter: its slices, their width, and the refusals.

use super::calls::{self, few_rooms, rooms, Room, Whole};
use super::some;
use crate::building::{some_length, EDGE_SALTS, EDGE_SIZES};
use crate::filters::range_is_good;
use crate::model;
use crate::random::Random;
use crate::refused::{BAD_COUNTS, END_COUNTS};
use crate::sets::some_salt;
use crate::{lent, Tally};

/// Sizes about those at which a filter is cut, and at both ends.
pub const SIZES: [u32; 10] = [37, 38, 40, 2519, 2520, 2521, 2522, 2528, 4095, 4096];

pub fn compare(tally: &mut Tally) {
    every_size(tally);
    widths(tally);
    small(tally);
    counts(tally);
    orders(tally);
}

/// Columns of these lengths; the counts among the first size places fit the width.
pub fn columns(random: &mut Random, size: u32, width: u32, lens: [usize; 3]) -> Whole {
    let mut whole = Whole::of_lengths(random, lens);
    let counts = lent(&mut whole.counts);
    let within = counts.len().min(size as usize);
    for count in &mut counts[..within] {
        *count = random.counters(1, width)[0];
    }
    fill_behind(random, &mut counts[within..]);
    whole
}

/// Counts behind a filter: any, or good ones that are larger than most of its own.
fn fill_behind(random: &mut Random, counts: &mut [i64]) {
    if random.once_in(2) {
        let larger = random.pick(&END_COUNTS);
        counts.fill(larger);
    }
}

/// The width of a filter's messages, none where it cannot be written.
fn width_of(whole: &mut Whole, size: u32) -> Option<u32> {
    let judged = lent(&mut whole.counts).iter().take(size as usize);
    let largest = u32::try_from(judged.copied().max().unwrap_or(0));
    largest.ok().map(model::width)
}

/// The bytes of a filter's messages, 0 where it cannot be written.
pub fn bytes_of(whole: &mut Whole, size: u32) -> usize {
    match width_of(whole, size) {
        Some(width) if range_is_good(size, 0) => len_of(size as usize, width),
        _ => 0,
    }
}

fn slice_len(n: usize, width: u32) -> usize {
    16 + 12 * n + model::packed_len(n, width) as usize
}

fn len_of(size: usize, width: u32) -> usize {
    match size {
        0..=2520 => slice_len(size, width),
        _ => slice_len(2520, width) + slice_len(size - 2520, width),
    }
}

fn every_size(tally: &mut Tally) {
    let mut random = tally.subject("writing filters of every size", 0x166);
    let random = &mut random;
    for size in 37..=4096 {
        let width = some::width(random);
        let lens = [0; 3].map(|_| size as usize + random.pick(&[0, 0, 1, 7]));
        let mut whole = columns(random, size, width, lens);
        let (bytes, at) = (bytes_of(&mut whole, size), random.below(9) as usize);
        let more = random.pick(&[0, 0, 5]);
        let room = Room {
            len: at + bytes + more,
            at,
        };
        let salt = some_salt(random);
        let answer = calls::filter(tally, random, &whole, (size, salt), room);
        assert!(answer.next == at + bytes);
    }
}

/// Each width, by one counter alone: the smallest and the largest that needs it, in either slice.
fn widths(tally: &mut Tally) {
    let mut random = tally.subject("widths of filters", 0x167);
    let random = &mut random;
    for size in SIZES {
        let last = size as usize - 1;
        for width in 0..=32 {
            for largest in [1i64 << width >> 1, (1 << width) - 1] {
                let any = random.below(u64::from(size)) as usize;
                let place = random.pick(&[0, last, last, any, last.min(2519), last.min(2520)]);
                let lens = [0; 3].map(|_| size as usize + random.pick(&[0, 3]));
                let mut whole = Whole::of_lengths(random, lens);
                let counts = lent(&mut whole.counts);
                // All others are lower, or zero. What lies behind the size does not matter.
                let other = random.pick(&[1, 1, largest.max(1)]) as u64;
                for count in &mut counts[..=last] {
                    *count = random.below(other) as i64;
                }
                counts[place] = largest;
                fill_behind(random, &mut counts[last + 1..]);
                let bytes = bytes_of(&mut whole, size);
                let at = random.below(9) as usize;
                let short = random.pick(&[0, 0, 1]);
                let room = Room {
                    len: at + bytes - short,
                    at,
                };
                let salt = random.pick(&[0, 1, 9, 63]);
                let answer = calls::filter(tally, random, &whole, (size, salt), room);
                assert!((answer.refusal == 0) == (short == 0));
            }
        }
    }
}

/// Small filters in rooms of every kind, and large ones in a few.
fn small(tally: &mut Tally) {
    let mut random = tally.subject("rooms of filters", 0x168);
    let random = &mut random;
    for i in 0..700 {
        let size = match i % 20 {
            0 => random.pick(&SIZES),
            _ => random.between(37, 60) as u32,
        };
        let width = some::width(random);
        let mut whole = columns(random, size, width, [size as usize; 3]);
        let bytes = bytes_of(&mut whole, size);
        let all = match size {
            0..=60 => rooms(random, bytes),
            _ => few_rooms(random, bytes),
        };
        for room in all {
            calls::filter(tally, random, &whole, (size, 63), room);
        }
        if size > 2520 {
            // Room for the first slice only, nearly so, and for it and a header.
            let first = width_of(&mut whole, size).map_or(0, |width| slice_len(2520, width));
            for len in [30_256, first - 1, first, first + 16, bytes - 1] {
                let room = Room { len, at: 0 };
                let answer = calls::filter(tally, random, &whole, (size, 0), room);
                assert!(answer.refusal == 2);
            }
        }
    }
}

/// One count about the ends of its range: inside, last, at the size and behind it; sizes in range
/// and out of it, columns that reach so far and that do not.
fn counts(tally: &mut Tally) {
    let mut random = tally.subject("counts of written filters", 0x169);
    let random = &mut random;
    for size in [0, 1, 36, 37, 45, 2520, 2521, 4096, 4097, 4500, u32::MAX] {
        let all = size.min(4600) as usize;
        for count in BAD_COUNTS.into_iter().chain(END_COUNTS) {
            let any = random.below(all as u64 + 1) as usize;
            for place in [0, any, all.saturating_sub(1), all, all + 2, 2519, 2520] {
                let len = all + random.pick(&[0, 1, 4]);
                let len = random.pick(&[len, len, place, place + 1]);
                let mut whole = columns(random, size, 1, [all, all, len]);
                if let Some(there) = lent(&mut whole.counts).get_mut(place) {
                    *there = count;
                }
                let bytes = len_of(all, 32);
                let salt = random.pick(&[0, 63, 63, 64]);
                let room = Room { len: bytes, at: 0 };
                let answer = calls::filter(tally, random, &whole, (size, salt), room);
                let judged = place < len && place < size as usize;
                let bad = BAD_COUNTS.contains(&count) && judged;
                assert!((answer.refusal == 1) == bad);
            }
        }
    }
}

/// Every choice of a bad count, size, salt, column and room, many times.
fn orders(tally: &mut Tally) {
    let mut random = tally.subject("orders of refusals of filters", 0x16A);
    let random = &mut random;
    for round in 0..32 * 500 {
        let bad = |bit: u32| round >> bit & 1 == 1;
        let mut size = random.between(37, 64) as u32;
        if bad(0) {
            size = random.pick(&[0, 1, 35, 36, 36, 36, 4097, 4100, u32::MAX]);
        }
        if round % 97 == 0 {
            size = random.pick(&EDGE_SIZES);
        }
        let mut salt = some_salt(random);
        if bad(1) {
            salt = random.pick(&[64, 64, 65, 128, 256, 1 << 31, u32::MAX]);
        }
        if round % 89 == 0 {
            salt = random.pick(&EDGE_SALTS);
        }
        let len = size.min(4100) as usize;
        let mut lens = [0; 3].map(|_| len + random.pick(&[0, 0, 1, 4]));
        if bad(2) {
            let column = random.below(3) as usize;
            lens[column] = match random.below(3) {
                0 => some_length(random, size),
                _ => len.saturating_sub(1),
            };
        }
        let width = some::width(random);
        let mut whole = columns(random, size, width, lens);
        let bytes = bytes_of(&mut whole, size);
        let judged = &mut lent(&mut whole.counts)[..lens[2].min(len)];
        if bad(3) && !judged.is_empty() {
            let any = random.below(judged.len() as u64) as usize;
            let i = random.pick(&[0, judged.len() - 1, any]);
            judged[i] = random.pick(&BAD_COUNTS);
        }
        let enough = random.below(3) as usize;
        let mut room = Room {
            len: bytes + enough,
            at: enough,
        };
        if bad(4) {
            let all = rooms(random, bytes);
            room = random.pick(&all);
        }
        calls::filter(tally, random, &whole, (size, salt), room);
    }
}
