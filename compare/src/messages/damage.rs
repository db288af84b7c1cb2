//! Good messages damaged in one way each: a bit or a byte, a number, the length.

use super::layout::{self, IBF, IBF_LAST, INQUIRY, KINDS};
use crate::model;
use crate::random::Random;

/// Types that are no message's, next to those that are.
pub const OTHER_TYPES: [u32; 9] = [559, 563, 564, 569, 570, 0, 1, 571, 65_535];

/// The numbers that stand in a message of this type: where, and in how many bytes.
fn numbers_of(kind: u32) -> &'static [(usize, usize)] {
    match kind {
        IBF | IBF_LAST => &[(0, 2), (2, 2), (4, 4), (8, 4), (12, 2), (14, 2)],
        INQUIRY => &[(0, 2), (2, 2), (4, 4)],
        _ => &[(0, 2), (2, 2)],
    }
}

fn type_of(bytes: &[u8]) -> u32 {
    model::number_at(bytes, 2, 2) as u32
}

/// Every bit of every number and of the last byte, and a few of what stands between.
fn bits(random: &mut Random, bytes: &[u8]) -> Vec<Vec<u8>> {
    let last = bytes.len() - 1;
    let numbers = numbers_of(type_of(bytes)).iter();
    let mut places: Vec<usize> = numbers.flat_map(|&(at, k)| at..at + k).collect();
    places.push(last);
    let mut all: Vec<(usize, u8)> = Vec::new();
    for place in places {
        all.extend((0..8).map(|bit| (place, 1 << bit)));
    }
    for _ in 0..8 {
        let any = random.below(bytes.len() as u64) as usize;
        all.push((any, 1 << random.below(8)));
        all.push((any, random.between(1, 255) as u8));
    }
    // The ends of each column.
    if type_of(bytes) == IBF || type_of(bytes) == IBF_LAST {
        let n = layout::read(bytes).count;
        for end in [16, 16 + 8 * n, 16 + 12 * n] {
            all.push((end - 1, random.between(1, 255) as u8));
            all.push((end, random.between(1, 255) as u8));
        }
    }
    let change = |(at, by): (usize, u8)| {
        let mut changed = bytes.to_vec();
        changed[at] ^= by;
        changed
    };
    all.into_iter().map(change).collect()
}

/// Each number of the message changed to others that lie near a limit.
fn numbers(random: &mut Random, bytes: &[u8]) -> Vec<Vec<u8>> {
    let mut all = Vec::new();
    let len = bytes.len() as u64;
    for &(at, k) in numbers_of(type_of(bytes)) {
        let now = model::number_at(bytes, at, k);
        let mut others = vec![0, 1, now + 1, now.wrapping_sub(1), now * 2, now / 2];
        others.extend([now << 8, now << 16, now << 24, now + 256, now | 1 << 15]);
        others.extend([
            now + (1 << 16),
            now + (1 << 31),
            now.swap_bytes() >> (64 - 8 * k),
        ]);
        others.extend([u64::MAX, random.next()]);
        match at {
            0 => others.extend([2, 3, 4, 5, 8, 16, 68, len + 8, len + 64, len.abs_diff(8)]),
            2 => others.extend(KINDS.into_iter().chain(OTHER_TYPES).map(u64::from)),
            4 => others.extend([35, 36, 37, 63, 64, 65, 2519, 2520, 2521, 4095, 4096, 4097]),
            8 => others.extend([36, 37, 2519, 2520, 2521, 4096, 5040, (1 << 32) - 2520]),
            12 => others.extend([62, 63, 64, 65, 127, 128, 255, 256]),
            _ => others.extend([2, 7, 8, 9, 16, 31, 32, 33, 34, 63, 64, 65, 256, 257, 288]),
        }
        for other in others {
            let mut changed = bytes.to_vec();
            model::put_number(&mut changed, at, k, other);
            all.push(changed);
        }
    }
    all
}

/// Changed in one place, the length left as it is.
pub fn changed(random: &mut Random, bytes: &[u8]) -> Vec<Vec<u8>> {
    let mut all = bits(random, bytes);
    all.extend(numbers(random, bytes));
    all
}

/// Lengths near this one, and those of one item more or less of every kind.
pub fn other_lengths(random: &mut Random, len: usize) -> Vec<usize> {
    let mut all = vec![0, 1, 2, 3, 4, 5, 7, 8, 12, 15, 16, 17, 28, 67, 68, 69];
    for by in [1, 2, 3, 4, 7, 8, 9, 12, 13, 16, 24, 63, 64, 65, 128] {
        all.extend([len.saturating_sub(by), len + by]);
    }
    all.push(random.below(len as u64) as usize);
    all.push(len + random.below(300) as usize);
    all.retain(|&other| other != len);
    all
}

/// Cut or extended; MSG SIZE is the new length where it is said to be, else the old one.
pub fn resized(random: &mut Random, bytes: &[u8], told: bool) -> Vec<Vec<u8>> {
    let lengths = other_lengths(random, bytes.len());
    let resize = |len| {
        let mut other = bytes.to_vec();
        let more = random.bytes(300);
        other.extend(match random.once_in(2) {
            true => more,
            false => vec![0; 300],
        });
        other.truncate(len);
        if told {
            model::put_number(&mut other, 0, 2, len as u64);
        }
        other
    };
    lengths.into_iter().map(resize).collect()
}

/// One damage of any kind.
pub fn any(random: &mut Random, bytes: &[u8]) -> Vec<u8> {
    let mut all = match random.below(4) {
        0 => bits(random, bytes),
        1 => numbers(random, bytes),
        2 => resized(random, bytes, true),
        _ => resized(random, bytes, false),
    };
    let i = random.below(all.len() as u64) as usize;
    all.swap_remove(i)
}
