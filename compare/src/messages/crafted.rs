//! Comparisons of reading slices and lists that are laid out with care and yet wrong: numbers out
//! of range with the length that goes with them.

use super::calls;
use super::layout::{framed, put, IBF, IBF_LAST, KINDS, MALFORMED};
use crate::model;
use crate::random::Random;
use crate::Tally;

const SIZES: [u32; 19] = [
    0,
    1,
    36,
    37,
    38,
    2518,
    2519,
    2520,
    2521,
    2522,
    2557,
    4095,
    4096,
    4097,
    5040,
    5041,
    65_535,
    65_573,
    u32::MAX,
];
const OFFSETS: [u32; 12] = [
    0,
    1,
    36,
    37,
    2519,
    2520,
    2521,
    5040,
    65_536,
    65_536 + 2520,
    u32::MAX - 2519,
    u32::MAX,
];
const WIDTHS: [u32; 21] = [
    0, 1, 2, 7, 8, 9, 31, 32, 33, 34, 63, 64, 65, 255, 256, 257, 288, 512, 8192, 32_769, 65_535,
];
const SALTS: [u32; 14] = [
    0, 1, 62, 63, 64, 65, 127, 128, 191, 255, 256, 319, 32_768, 65_535,
];

pub fn compare(tally: &mut Tally) {
    offsets(tally);
    widths(tally);
    numbers_of_buckets(tally);
    bodies(tally);
}

/// A slice of these numbers with n buckets, its last byte 0: no spare bit is set.
fn slice(random: &mut Random, kind: u32, numbers: [u32; 4], n: usize, packed: usize) -> Vec<u8> {
    let [size, offset, salt, width] = numbers;
    let mut body = Vec::new();
    put(&mut body, 4, u64::from(size));
    put(&mut body, 4, u64::from(offset));
    put(&mut body, 2, u64::from(salt));
    put(&mut body, 2, u64::from(width));
    body.extend(random.bytes(12 * n + packed));
    if packed > 0 {
        *body.last_mut().expect("not empty") = 0;
    }
    framed(kind, &body)
}

fn packed(n: usize, width: u32) -> usize {
    model::packed_len(n, width) as usize
}

/// Every size against every offset, as IBF and as IBF LAST, with every number of buckets that one
/// may take to belong to them.
fn offsets(tally: &mut Tally) {
    let mut random = tally.subject("reading slices at any offset", 0x171);
    let random = &mut random;
    let mut good = [0; 2];
    for size in SIZES {
        let near = [size.wrapping_sub(1), size, size.wrapping_add(1)];
        for offset in OFFSETS.into_iter().chain(near) {
            let mut numbers: Vec<u32> = vec![
                size.saturating_sub(offset),
                size.wrapping_sub(offset),
                size,
                37,
            ];
            numbers = numbers.into_iter().map(|n| n.min(2520)).collect();
            numbers.push(size.saturating_sub(offset).min(2521));
            numbers.push(size.saturating_sub(offset).min(2519));
            numbers.sort_unstable();
            numbers.dedup();
            for n in numbers {
                let n = n as usize;
                for kind in [IBF, IBF_LAST] {
                    let salt = random.below(64) as u32;
                    let width = random.between(1, 3) as u32;
                    let of = [size, offset, salt, width];
                    let bytes = slice(random, kind, of, n, packed(n, width));
                    if calls::read(tally, random, &bytes) != MALFORMED {
                        good[usize::from(kind == IBF_LAST)] += 1;
                    }
                }
            }
        }
    }
    assert!(good.iter().all(|&n| n > 4), "both are tried: {good:?}");
}

/// Every width with the length that goes with it, be it too much for MSG SIZE, and any two widths,
/// one told and one taken.
fn widths(tally: &mut Tally) {
    let mut random = tally.subject("reading slices of any width", 0x172);
    let random = &mut random;
    let places = [
        (37, 0),
        (40, 0),
        (2520, 0),
        (2521, 2520),
        (2523, 2520),
        (2528, 2520),
        (4096, 2520),
        (4096, 0),
    ];
    for (size, offset) in places {
        let n = 2520.min(size - offset) as usize;
        let kind = if offset == 0 && size > 2520 {
            IBF
        } else {
            IBF_LAST
        };
        for width in WIDTHS {
            let len = packed(n, width);
            for len in [len, len % 65_536, len.saturating_sub(1), len + 1] {
                // What 2,520 buckets take of the highest widths is cut.
                let len = len.min(400_000);
                let bytes = slice(random, kind, [size, offset, 7, width], n, len);
                calls::read(tally, random, &bytes);
            }
        }
        for salt in SALTS {
            let bytes = slice(random, kind, [size, offset, salt, 5], n, packed(n, 5));
            calls::read(tally, random, &bytes);
        }
    }
    for n in 1..=6 {
        for told in 0..=40 {
            for taken in 0..=40 {
                let of = [2520 + n, 2520, 7, told];
                let n = n as usize;
                let bytes = slice(random, IBF_LAST, of, n, packed(n, taken));
                calls::read(tally, random, &bytes);
            }
        }
    }
}

/// Slices with some buckets more or less than their numbers tell.
fn numbers_of_buckets(tally: &mut Tally) {
    let mut random = tally.subject("reading slices of any number of buckets", 0x173);
    let random = &mut random;
    for size in (30..=80).chain(2515..=2560) {
        for offset in [0, 2520, size] {
            let n = 2520.min(u32::saturating_sub(size, offset)) as usize;
            for n in n.saturating_sub(3)..n + 4 {
                let width = random.between(1, 9) as u32;
                let kind = random.pick(&[IBF_LAST, IBF_LAST, IBF]);
                let of = [size, offset, 7, width];
                let bytes = slice(random, kind, of, n, packed(n, width));
                calls::read(tally, random, &bytes);
            }
        }
    }
}

/// Bodies of every short length and of those about the longest, under every type.
fn bodies(tally: &mut Tally) {
    let mut random = tally.subject("reading bodies of any length", 0x174);
    let random = &mut random;
    let highest = [0, 3, 4, 8, 12, 64, 68, 128].map(|more| 65_536 + more);
    for kind in KINDS {
        for len in (0..=700).chain(65_440..=65_535).chain(highest) {
            if len > 700 && kind == IBF {
                continue;
            }
            let mut body = random.bytes(len);
            // A good salt where an INQUIRY has it.
            let zeros = len.min(4);
            body[..zeros].fill(0);
            calls::read(tally, random, &framed(kind, &body));
        }
    }
    // MSG SIZE with its bytes exchanged is another length's.
    for len in [256, 512, 68 << 8, 24 << 8, 5 << 8] {
        for kind in KINDS {
            let mut bytes = framed(kind, &random.bytes(len - 4));
            bytes.swap(0, 1);
            bytes[4..8].fill(0);
            calls::read(tally, random, &bytes);
        }
    }
}
