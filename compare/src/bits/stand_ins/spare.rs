//! Faults in the test of spare bits.

use super::super::{packed_bit, Packer};
use super::plain::{place, spare_by, wrapped, PLAIN};
use super::Fault;
use crate::model::MOST_COUNTERS;

/// The test is this, given where the counters stand, the numbers of the spare bits, and all bytes.
macro_rules! tests {
    (|$place:ident, $bits:ident, $s:ident| $test:expr) => {
        Packer {
            spare_is_zero: |s, at, n, w| {
                spare_by(s, at, n, w, |$place, $bits, $s| {
                    let _ = (&$place, &$bits, &$s);
                    $test
                })
            },
            ..PLAIN
        }
    };
}

/// The test on other arguments.
macro_rules! on {
    (|$s:ident, $at:ident, $n:ident, $w:ident| $test:expr) => {
        Packer {
            spare_is_zero: |$s, $at, $n, $w| $test,
            ..PLAIN
        }
    };
}

fn is_zero(s: &[u8], j: usize) -> bool {
    j >= 8 * s.len() || !packed_bit(s, j)
}

fn plain(s: &[u8], at: usize, n: usize, w: u32) -> bool {
    (PLAIN.spare_is_zero)(s, at, n, w)
}

pub const FAULTS: &[Fault] = &[
    ("spare: always zero", tests!(|place, bits, s| true)),
    (
        "spare: zero only if there is none",
        tests!(|place, bits, s| bits.is_empty()),
    ),
    (
        "spare: there must be some",
        tests!(|place, bits, s| !bits.is_empty() && { bits }.all(|j| is_zero(s, j))),
    ),
    (
        "spare: the byte behind instead",
        tests!(|place, bits, s| (bits.end..bits.end + 8).all(|j| is_zero(s, j))),
    ),
    (
        "spare: all bits of the last byte",
        tests!(|place, bits, s| (bits.start / 8 * 8..bits.end).all(|j| is_zero(s, j))),
    ),
    (
        "spare: all bits of the last byte, if some are spare",
        tests!(|place, bits, s| bits.is_empty()
            || (bits.start / 8 * 8..bits.end).all(|j| is_zero(s, j))),
    ),
    (
        "spare: the last bit of a counter too",
        tests!(
            |place, bits, s| (bits.start.max(8 * place.start + 1) - 1..bits.end)
                .all(|j| is_zero(s, j))
        ),
    ),
    (
        "spare: not the highest",
        tests!(|place, bits, s| (bits.start + 1..bits.end).all(|j| is_zero(s, j))),
    ),
    (
        "spare: not the lowest",
        tests!(|place, bits, s| (bits.start..bits.end.max(1) - 1).all(|j| is_zero(s, j))),
    ),
    (
        "spare: the highest alone",
        tests!(|place, bits, s| { bits }.next().is_none_or(|j| is_zero(s, j))),
    ),
    (
        "spare: the lowest alone",
        tests!(|place, bits, s| { bits }.last().is_none_or(|j| is_zero(s, j))),
    ),
    (
        "spare: any zero is enough",
        tests!(|place, bits, s| bits.is_empty() || { bits }.any(|j| is_zero(s, j))),
    ),
    (
        "spare: an even number of ones",
        tests!(|place, bits, s| { bits }.filter(|&j| !is_zero(s, j)).count() % 2 == 0),
    ),
    (
        "spare: as many high bits of the byte",
        tests!(|place, bits, s| {
            let from = bits.start / 8 * 8;
            (from..from + bits.len()).all(|j| is_zero(s, j))
        }),
    ),
    (
        "spare: bits of the first byte",
        tests!(|place, bits, s| {
            let from = 8 * place.start + bits.start % 8;
            (from..from + bits.len()).all(|j| is_zero(s, j))
        }),
    ),
    (
        "spare: bits of the byte before the last",
        tests!(|place, bits, s| match bits.start >= 8 {
            true => (bits.start - 8..bits.end - 8).all(|j| is_zero(s, j)),
            false => { bits }.all(|j| is_zero(s, j)),
        }),
    ),
    (
        "spare: of n bits, not of n * w",
        on!(|s, at, n, w| plain(s, at, n, w) && plain(s, at, n, 1)),
    ),
    (
        "spare: from the start of all bytes",
        on!(|s, at, n, w| plain(s, at, n, w) && plain(s, 0, n, w)),
    ),
    (
        "spare: at most 31 bits",
        on!(|s, at, n, w| plain(s, at, n, w) && w < 32),
    ),
];

/// Those that messages do not show: they end with their counters, and those are there.
pub const BELOW: &[Fault] = &[
    (
        "spare: positions of 16 bits",
        on!(|s, at, n, w| match place(s.len(), at, n, w) {
            Some(_) => plain(s, at & 0xFFFF, n, w),
            None => false,
        }),
    ),
    (
        "spare: there must be counters",
        tests!(|place, bits, s| !place.is_empty() && { bits }.all(|j| is_zero(s, j))),
    ),
    (
        "spare: the byte behind too",
        tests!(|place, bits, s| (bits.start..bits.end + 8).all(|j| is_zero(s, j))),
    ),
    (
        "spare: the bit behind too",
        tests!(|place, bits, s| (bits.start..bits.end + 1).all(|j| is_zero(s, j))),
    ),
    (
        "spare: zero where bytes are missing",
        on!(|s, at, n, w| place(s.len(), at, n, w).is_none() || plain(s, at, n, w)),
    ),
    (
        "spare: zero where one byte is missing",
        on!(|s, at, n, w| {
            let longer = [s, &[0]].concat();
            plain(&longer, at, n, w)
        }),
    ),
    (
        "spare: zero at width 0",
        on!(|s, at, n, w| w == 0 || plain(s, at, n, w)),
    ),
    (
        "spare: widths modulo 32",
        on!(|s, at, n, w| plain(s, at, n, w.wrapping_add(31) % 32 + 1)),
    ),
    (
        "spare: widths modulo 256",
        on!(|s, at, n, w| plain(s, at, n, w % 256)),
    ),
    (
        "spare: the first 65,536 of more",
        on!(|s, at, n, w| plain(s, at, n.min(MOST_COUNTERS), w)),
    ),
    (
        "spare: numbers that wrap",
        on!(|s, at, n, w| plain(s, at, n, w) || {
            let bits = n.wrapping_mul(w as usize);
            (1..=32).contains(&w) && n > MOST_COUNTERS && bits <= 800 && at <= s.len()
        }),
    ),
    (
        "spare: positions wrap",
        on!(|s, at, n, w| match wrapped(s, at, n, w) {
            Some(s) => plain(&s, 0, n, w),
            None => plain(s, at, n, w),
        }),
    ),
    (
        "spare: positions in bits wrap",
        on!(|s, at, n, w| plain(s, at & usize::MAX >> 3, n, w)),
    ),
];
