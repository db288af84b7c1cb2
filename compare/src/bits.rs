//! Packing held to its sentence bit by bit: at width w, packed bit j is bit j mod w, both highest
//! first from 0, of counter j / w rounded down, and spare bits are zero. For reading it is said the
//! other way round: bit i of counter c is packed bit c * w + i; spare bits are judged by the
//! readers of messages.
//!
//! The model (model.rs) strings bits together; here each bit is looked up by its number.

mod damaged;
mod packing;
mod slices;
mod spare;
pub mod stand_ins;
mod unpacking;

use crate::random::Random;
use crate::{library, Tally};
use std::fmt::Debug;
use std::ops::RangeInclusive;

/// The widths of a counter.
const WIDTHS: RangeInclusive<usize> = 1..=32;

/// The five functions of packing: the library's, or a stand-in's.
#[derive(Clone, Copy)]
pub struct Packer {
    fits: fn(&[i64], u32) -> bool,
    pack: fn(&[i64], u32, &mut [u8], usize) -> usize,
    counter_at: fn(&[u8], usize, usize, u32, usize) -> u32,
    spare_is_zero: fn(&[u8], usize, usize, u32) -> bool,
    unpack: fn(&[u8], usize, usize, u32, &mut [i64], usize) -> bool,
}

const LIBRARY: Packer = Packer {
    fits: library::fits,
    pack: library::pack,
    counter_at: library::counter_at,
    spare_is_zero: library::spare_is_zero,
    unpack: library::unpack,
};

pub fn compare(tally: &mut Tally) {
    compare_calls(tally, &LIBRARY);
    slices::compare(tally, &slices::Library);
}

fn compare_calls(tally: &mut Tally, packer: &Packer) {
    packing::compare(tally, packer);
    unpacking::compare(tally, packer);
    spare::compare(tally, packer);
    damaged::compare(tally, packer);
}

/// Bit k, highest first from 0, of a number of w bits.
fn bit(w: usize, x: i64, k: usize) -> bool {
    x >> (w - 1 - k) & 1 == 1
}

/// Bit j, highest first from 0, of bytes end to end.
fn packed_bit(packed: &[u8], j: usize) -> bool {
    bit(8, i64::from(packed[j / 8]), j % 8)
}

/// The number of w bits in which bit k alone is set.
fn lone_bit(w: usize, k: usize) -> i64 {
    1 << (w - 1 - k)
}

/// The number of w bits in which every bit is set.
fn all_ones(w: usize) -> i64 {
    (1 << w) - 1
}

fn flip(packed: &mut [u8], j: usize) {
    packed[j / 8] ^= lone_bit(8, j % 8) as u8;
}

/// The bytes that n counters of w bits take.
fn bytes_of(n: usize, w: usize) -> usize {
    (n * w).div_ceil(8)
}

/// The first packed bit that is not the sentence's.
fn wrong_bit(packed: &[u8], counts: &[i64], w: usize) -> Option<usize> {
    (0..counts.len() * w).find(|&j| packed_bit(packed, j) != bit(w, counts[j / w], j % w))
}

/// The first spare bit that is set.
fn set_spare(packed: &[u8], n: usize, w: usize) -> Option<usize> {
    (n * w..8 * bytes_of(n, w)).find(|&j| packed_bit(packed, j))
}

/// The first bit of a counter read that is not the sentence's: the counter's number and the bit's.
fn wrong_counter(counts: &[i64], packed: &[u8], w: usize) -> Option<(usize, usize)> {
    let bits = (0..counts.len()).flat_map(|c| (0..w).map(move |i| (c, i)));
    let mut wrong = bits.filter(|&(c, i)| bit(w, counts[c], i) != packed_bit(packed, c * w + i));
    wrong.next()
}

/// The first counter that is negative or has more than w bits.
fn too_wide(counts: &[i64], w: usize) -> Option<usize> {
    let is_too_wide = |&count: &i64| (0..64 - w).any(|k| bit(64, count, k));
    counts.iter().position(is_too_wide)
}

/// What stands before these places, and what behind.
fn around<T>(whole: &[T], from: usize, len: usize) -> (&[T], &[T]) {
    (&whole[..from], &whole[from + len..])
}

/// What memory holds before it is written to.
#[derive(Clone, Copy, Debug)]
enum Old {
    Zeros,
    Ones,
    Anything,
}

const OLD: [Old; 3] = [Old::Zeros, Old::Ones, Old::Anything];

impl Old {
    fn bytes(self, random: &mut Random, len: usize) -> Vec<u8> {
        match self {
            Old::Zeros => vec![0; len],
            Old::Ones => vec![0xFF; len],
            Old::Anything => random.bytes(len),
        }
    }

    fn counts(self, random: &mut Random, len: usize) -> Vec<i64> {
        match self {
            Old::Zeros => vec![0; len],
            Old::Ones => vec![-1; len],
            Old::Anything => random.signed(len),
        }
    }
}

/// One comparison, of a kind of its own.
fn judge<T: PartialEq + Debug>(
    tally: &mut Tally,
    what: &'static str,
    call: impl FnOnce() -> String,
    wanted: T,
    answer: T,
) {
    let call = || format!("{what}: {}", call());
    tally.same_of_kind(|| String::from(what), call, wanted, answer);
}

/// Packed counters of the paper and of the draft, spare bits added.
const KNOWN: [(&[i64], usize, &[u8]); 6] = [
    (&[1, 2, 0, 1], 2, &[0x61]),
    (&[5, 0, 7], 3, &[0xA3, 0x80]),
    (&[256, 1], 9, &[0x80, 0x00, 0x40]),
    (&[1, 8, 10, 6, 2], 4, &[0x18, 0xA6, 0x20]),
    (&[26, 17, 19, 15, 2, 8], 5, &[0xD4, 0x66, 0xF1, 0x20]),
    (&[4, 2, 0, 1, 3], 3, &[0x88, 0x16]),
];

/// Says which known counters the sentence does not hold of as it is written here, or not of them
/// alone.
pub fn check_sentence() -> Result<(), String> {
    for (counts, w, packed) in KNOWN {
        let n = counts.len();
        let holds = |packed: &[u8]| {
            wrong_bit(packed, counts, w).is_none() && set_spare(packed, n, w).is_none()
        };
        let reads = |packed: &[u8]| wrong_counter(counts, packed, w).is_none();
        let mut right = packed.len() == bytes_of(n, w) && holds(packed) && reads(packed);
        for j in 0..8 * packed.len() {
            let mut other = packed.to_vec();
            flip(&mut other, j);
            right &= !holds(&other) && reads(&other) == (j >= n * w);
        }
        if !right {
            return Err(format!("{counts:?} at width {w}, bit by bit"));
        }
    }
    Ok(())
}
