//! Items by number, of any bytes, each by where it stands: 0 where the bytes do not hold it.

use super::layout::MOST_BUCKETS;
use crate::filters::HASH;
use crate::model;

/// The k bytes of item i of those that stand from `at` on, if all are there.
/// Sums are wider than needed: nothing wraps.
fn item(s: &[u8], at: usize, i: usize, k: usize) -> Option<&[u8]> {
    let from = at as u128 + i as u128 * k as u128;
    match from + k as u128 <= s.len() as u128 {
        true => Some(&s[from as usize..from as usize + k]),
        false => None,
    }
}

fn number(item: Option<&[u8]>) -> u64 {
    item.map_or(0, |bytes| model::number_at(bytes, 0, 8))
}

pub fn id(s: &[u8], i: usize) -> u64 {
    number(item(s, 8, i, 8))
}

pub fn idsum(s: &[u8], n: usize, i: usize) -> u64 {
    match i < n {
        true => number(item(s, 16, i, 8)),
        false => 0,
    }
}

pub fn hashsum(s: &[u8], n: usize, i: usize) -> u32 {
    match n <= MOST_BUCKETS && i < n {
        true => number(item(s, 16 + 8 * n, i, 4)) as u32,
        false => 0,
    }
}

pub fn counter(s: &[u8], n: usize, width: u32, i: usize) -> u32 {
    match n <= MOST_BUCKETS && i < n {
        true => model::counter_at(s, 16 + 12 * n, n, width, i),
        false => 0,
    }
}

/// The number in up to k bytes, at most eight, from `at` of hash i on.
pub fn hash(s: &[u8], i: usize, at: usize, k: usize) -> u64 {
    let hash = item(s, 4, i, HASH).unwrap_or(&[]);
    model::number_at(hash, at, k)
}

/// All bytes behind the first four.
fn content_of(s: &[u8]) -> &[u8] {
    s.get(4..).unwrap_or(&[])
}

/// Likewise of an ELEMENT's content.
pub fn content(s: &[u8], at: usize, k: usize) -> u64 {
    model::number_at(content_of(s), at, k)
}

pub fn content_length(s: &[u8]) -> usize {
    content_of(s).len()
}
