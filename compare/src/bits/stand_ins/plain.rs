//! Packing without a fault, in plain Rust, made of parts that a fault can be put into.

use super::super::{bit, bytes_of, packed_bit, Packer};
use crate::model::MOST_COUNTERS;
use std::ops::Range;

pub const PLAIN: Packer = Packer {
    fits,
    pack,
    counter_at: |s, at, n, w, i| counter_by(s, at, n, w, i, as_read),
    spare_is_zero: |s, at, n, w| {
        spare_by(s, at, n, w, |_, mut bits, s| {
            bits.all(|j| !packed_bit(s, j))
        })
    },
    unpack,
};

/// The bytes in which n counters stand from `at` on, if they are there.
pub fn place(len: usize, at: usize, n: usize, w: u32) -> Option<Range<usize>> {
    if !(1..=32).contains(&w) || n > MOST_COUNTERS {
        return None;
    }
    let end = at.checked_add(bytes_of(n, w as usize))?;
    (end <= len).then_some(at..end)
}

pub fn fits(counts: &[i64], w: u32) -> bool {
    (1..=32).contains(&w) && counts.iter().all(|&count| count >> w == 0)
}

/// Packed bit j, by the sentence.
pub fn as_packed(counts: &[i64], w: usize, j: usize) -> bool {
    bit(w, counts[j / w], j % w)
}

pub fn pack(counts: &[i64], w: u32, out: &mut [u8], at: usize) -> usize {
    pack_by(counts, w, out, at, as_packed)
}

/// Packs, where packed bit j is what it is said to be.
pub fn pack_by(
    counts: &[i64],
    w: u32,
    out: &mut [u8],
    at: usize,
    says: impl Fn(&[i64], usize, usize) -> bool,
) -> usize {
    match place(out.len(), at, counts.len(), w) {
        Some(place) if fits(counts, w) => {
            let end = place.end;
            write(counts, w as usize, &mut out[place], says);
            end
        }
        _ => at,
    }
}

/// Writes as many of the bits as there is room for, spare ones too.
pub fn write(
    counts: &[i64],
    w: usize,
    out: &mut [u8],
    says: impl Fn(&[i64], usize, usize) -> bool,
) {
    for j in 0..8 * out.len() {
        let mask = 0x80 >> (j % 8);
        match j < counts.len() * w && says(counts, w, j) {
            true => out[j / 8] |= mask,
            false => out[j / 8] &= !mask,
        }
    }
}

/// Packed counters: their bytes, number and width.
pub struct Packed<'a> {
    pub s: &'a [u8],
    pub n: usize,
    pub w: usize,
}

impl Packed<'_> {
    /// A packed bit; behind the last byte there are zeros.
    pub fn bit(&self, j: usize) -> bool {
        j < 8 * self.s.len() && packed_bit(self.s, j)
    }

    pub fn spare(&self) -> usize {
        8 * self.s.len() - self.n * self.w
    }

    /// Whether bit i of counter c stands in the last byte.
    pub fn is_in_last_byte(&self, c: usize, i: usize) -> bool {
        (c * self.w + i) / 8 == self.s.len() - 1
    }
}

/// Bit i of counter c, by the sentence.
pub fn as_read(packed: &Packed, c: usize, i: usize) -> bool {
    packed.bit(c * packed.w + i)
}

/// The counter whose bits are what they are said to be.
pub fn counter(packed: &Packed, c: usize, says: impl Fn(&Packed, usize, usize) -> bool) -> u32 {
    let bits = (0..packed.w).map(|i| says(packed, c, i));
    bits.fold(0, |number, bit| number << 1 | u32::from(bit))
}

pub fn packed(s: &[u8], at: usize, n: usize, w: u32) -> Option<Packed<'_>> {
    let s = &s[place(s.len(), at, n, w)?];
    let w = w as usize;
    Some(Packed { s, n, w })
}

/// Counter i, its bits being what they are said to be.
pub fn counter_by(
    s: &[u8],
    at: usize,
    n: usize,
    w: u32,
    i: usize,
    says: impl Fn(&Packed, usize, usize) -> bool,
) -> u32 {
    match packed(s, at, n, w) {
        Some(packed) if i < n => counter(&packed, i, says),
        _ => 0,
    }
}

pub fn unpack(s: &[u8], at: usize, n: usize, w: u32, counts: &mut [i64], from: usize) -> bool {
    unpack_by(s, at, n, w, counts, from, |packed, c, _| {
        i64::from(counter(packed, c, as_read))
    })
}

/// Unpacks, where counter c is what it is said to be, given the entry that it takes the place of.
pub fn unpack_by(
    s: &[u8],
    at: usize,
    n: usize,
    w: u32,
    counts: &mut [i64],
    from: usize,
    says: impl Fn(&Packed, usize, i64) -> i64,
) -> bool {
    let column = from
        .checked_add(n)
        .and_then(|end| counts.get_mut(from..end));
    let (Some(packed), Some(column)) = (packed(s, at, n, w), column) else {
        return false;
    };
    for (c, entry) in column.iter_mut().enumerate() {
        *entry = says(&packed, c, *entry);
    }
    true
}

/// The bytes of counters whose end wraps: zeros, and then the first of all bytes.
pub fn wrapped(s: &[u8], at: usize, n: usize, w: u32) -> Option<Vec<u8>> {
    let bytes = bytes_of(n.min(MOST_COUNTERS), w.min(32) as usize);
    let end = at.wrapping_add(bytes);
    (end < at && end <= s.len()).then(|| [&vec![0; bytes - end], &s[..end]].concat())
}

/// The test of spare bits, given all bytes, where the counters stand in them and the numbers of the
/// spare bits, counted from the first of all bytes.
pub fn spare_by(
    s: &[u8],
    at: usize,
    n: usize,
    w: u32,
    says: impl Fn(Range<usize>, Range<usize>, &[u8]) -> bool,
) -> bool {
    let Some(place) = place(s.len(), at, n, w) else {
        return false;
    };
    let bits = 8 * at + n * w as usize..8 * place.end;
    says(place, bits, s)
}
