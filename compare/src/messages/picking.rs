//! Comparisons of items by number: of good, damaged and unrelated bytes.

use super::layout::{self, Header, Message, IBF, KINDS};
use super::{calls, damage, some};
use crate::random::Random;
use crate::Tally;

/// Numbers whose products with 4, 8 or 64 come back to the start if taken without care.
const FAR: [usize; 12] = [
    1 << 58,
    (1 << 58) + 1,
    (1 << 58) - 1,
    (1 << 61) - 2,
    (1 << 61) - 1,
    1 << 61,
    (1 << 61) + 1,
    1 << 62,
    1 << 63,
    usize::MAX / 64,
    usize::MAX - 1,
    usize::MAX,
];

pub fn compare(tally: &mut Tally) {
    good(tally);
    damaged(tally);
    unrelated(tally);
    limits(tally);
}

/// Numbers within n, at it, past it and far from it.
fn indices(random: &mut Random, n: usize) -> Vec<usize> {
    let any = random.below(n as u64 + 1) as usize;
    let mut all = vec![0, 1, any, n / 2, n.saturating_sub(1), n, n + 1, n + 7];
    all.push(random.pick(&FAR));
    all.push(usize::MAX);
    all
}

/// Positions and lengths of what is asked of 64 bytes or of a content of n bytes.
fn positions(random: &mut Random, n: usize) -> Vec<(usize, usize)> {
    let any = random.below(n as u64 + 1) as usize;
    let k = random.below(12) as usize;
    vec![
        (0, 8),
        (0, 0),
        (any, 8),
        (any, k),
        (any % 64, 9),
        (n.saturating_sub(8), 8),
        (n.saturating_sub(k), 8),
        (n, 1),
        (56, 8),
        (57, 8),
        (63, 1),
        (64, 8),
        (usize::MAX - k, 8),
        (0, usize::MAX),
        (random.pick(&FAR), 8),
    ]
}

/// All that can be asked of the bytes of a message.
fn all_of(tally: &mut Tally, random: &mut Random, bytes: &[u8], (n, width): (usize, u32)) {
    let those = indices(random, n);
    calls::pick(tally, random, bytes, (n, width), &those);
    let held = bytes.len() / 64;
    let mut hashes = indices(random, held);
    hashes.truncate(7);
    hashes.push(random.pick(&FAR));
    let places = positions(random, bytes.len().saturating_sub(4));
    calls::pick_bytes(tally, random, bytes, &hashes, &places);
}

/// What is asked for as a slice where the message is none.
fn some_numbers(random: &mut Random, header: Header) -> (usize, u32) {
    let n = random.pick(&[header.count, 1, 3, 37, 2520]);
    match header.width {
        0 => (n.min(2520), some::width(random)),
        width => (header.count, width),
    }
}

fn good(tally: &mut Tally) {
    let mut random = tally.subject("items of messages", 0x17A);
    let random = &mut random;
    for kind in KINDS {
        let times = if kind == IBF { 30 } else { 400 };
        for _ in 0..times {
            let bytes = some::message(random, kind).bytes();
            let numbers = some_numbers(random, layout::read(&bytes));
            all_of(tally, random, &bytes, numbers);
        }
    }
    // Every item of some slices, lists and hashes.
    for _ in 0..60 {
        let slice = some::slice(random, 2600, 2520, 5);
        let (n, width) = (slice.ids.len(), random.pick(&[5, 5, 4, 6]));
        let bytes = Message::Slice(slice).bytes();
        let every: Vec<usize> = (0..n + 3).collect();
        calls::pick(tally, random, &bytes, (n, width), &every);
        let bytes = Message::Offer(some::hashes(random, 3)).bytes();
        let every: Vec<(usize, usize)> = (0..200).map(|at| (at, at % 10)).collect();
        calls::pick_bytes(tally, random, &bytes, &[0, 1, 2, 3], &every);
    }
}

fn damaged(tally: &mut Tally) {
    let mut random = tally.subject("items of damaged messages", 0x17B);
    let random = &mut random;
    for _ in 0..2_500 {
        let bytes = some::short_message(random);
        let header = layout::read(&bytes);
        let damaged = damage::any(random, &bytes);
        // As the message was before, or as a slice of nearly as many buckets or another width.
        let (n, width) = some_numbers(random, header);
        let n = random.pick(&[n, n, n + 1, n.saturating_sub(1)]);
        let width = random.pick(&[width, width, width + 1, width - 1]);
        all_of(tally, random, &damaged, (n, width));
    }
}

fn unrelated(tally: &mut Tally) {
    let mut random = tally.subject("items of any bytes", 0x17C);
    let random = &mut random;
    for len in (0..=300).chain(0..=100) {
        let bytes = random.bytes(len);
        for _ in 0..3 {
            // So many buckets as the bytes just hold, or nearly.
            let width = random.between(0, 33) as u32;
            let most = len.saturating_sub(16) * 8 / (96 + width as usize);
            let n = most + random.below(3) as usize;
            all_of(tally, random, &bytes, (n.saturating_sub(1), width));
        }
    }
    for width in [0, 33, 64, 65, 257, 1 << 31, u32::MAX] {
        let bytes = random.bytes(400);
        all_of(tally, random, &bytes, (5, width));
    }
}

/// Numbers of buckets about 2,520 and far from it, with bytes enough for those near.
fn limits(tally: &mut Tally) {
    let mut random = tally.subject("items of many buckets", 0x17D);
    let random = &mut random;
    let bytes = random.bytes(16 + 12 * 2530 + 4 * 2530);
    for n in [2518, 2519, 2520, 2521, 2522, 2530] {
        for width in [1, 7, 31, 32] {
            all_of(tally, random, &bytes, (n, width));
            // Just enough bytes, and one less.
            let end = 16 + 12 * n + (n * width as usize).div_ceil(8);
            all_of(tally, random, &bytes[..end], (n, width));
            all_of(tally, random, &bytes[..end - 1], (n, width));
            for end in [16 + 8 * n, 16 + 8 * n - 1, 16 + 12 * n, 16 + 12 * n - 1] {
                let those = [0, n - 2, n - 1, n];
                calls::pick(tally, random, &bytes[..end], (n, width), &those);
            }
        }
    }
    // More bytes than any message has: items are still taken by where they stand.
    let long = random.bytes(70_000);
    let those = [8189, 8190, 8191, 8746, 8747, 8748, 8749, 9999];
    calls::pick(tally, random, &long, (10_000, 3), &those);
    calls::pick(tally, random, &long, (2520, 32), &those);
    let hashes = [1022, 1023, 1024, 1091, 1092, 1093];
    let places = [65_530, 65_531, 65_532, 69_988, 69_989, 69_995, 69_996].map(|at| (at, 8));
    calls::pick_bytes(tally, random, &long, &hashes, &[(0, 8), (56, 8), (60, 8)]);
    calls::pick_bytes(tally, random, &long, &hashes, &places);
    for n in FAR {
        for those in [&FAR[..], &[0, 1, 2, 3, 40]] {
            calls::pick(tally, random, &bytes[..600], (n, 3), those);
            calls::pick(tally, random, &bytes[..3], (n, 3), those);
        }
    }
    for at in FAR.into_iter().chain((0..8).map(|i| usize::MAX - i)) {
        for k in [0, 1, 4, 8, 9, usize::MAX] {
            calls::pick_bytes(
                tally,
                random,
                &bytes[..300],
                &[0, 1, at],
                &[(at, k), (3, k)],
            );
        }
    }
}
