//! Faults in which counter is read by a number, and in what is refused there.

use super::super::Packer;
use super::plain::{packed, wrapped, PLAIN};
use super::Fault;
use crate::model::MOST_COUNTERS;

/// The counter is this instead.
macro_rules! answers {
    (|$s:ident, $at:ident, $n:ident, $w:ident, $i:ident| $counter:expr) => {
        Packer {
            counter_at: |$s, $at, $n, $w, $i| $counter,
            ..PLAIN
        }
    };
}

fn plain(s: &[u8], at: usize, n: usize, w: u32, i: usize) -> u32 {
    (PLAIN.counter_at)(s, at, n, w, i)
}

fn are_there(s: &[u8], at: usize, n: usize, w: u32) -> bool {
    packed(s, at, n, w).is_some()
}

/// The product of number and width wraps.
fn numbers_wrap(s: &[u8], at: usize, n: usize, w: u32, i: usize) -> u32 {
    match i.checked_mul(w as usize) {
        None => plain(s, at, n, w, i.wrapping_mul(w as usize) / w as usize),
        Some(_) => plain(s, at, n, w, i),
    }
}

/// The number of all bits wraps to one for which there are bytes enough.
fn all_bits_wrap(s: &[u8], at: usize, n: usize, w: u32, i: usize) -> u32 {
    let bits = n.wrapping_mul(w as usize);
    match n > MOST_COUNTERS && bits <= 8 * s.len() && i < MOST_COUNTERS {
        true => plain(s, at, i + 1, w, i),
        false => plain(s, at, n, w, i),
    }
}

pub const FAULTS: &[Fault] = &[
    (
        "counter_at: the next counter",
        answers!(|s, at, n, w, i| plain(s, at, n, w, i.saturating_add(1))),
    ),
    (
        "counter_at: the counter before",
        answers!(|s, at, n, w, i| if i < n {
            plain(s, at, n, w, i.saturating_sub(1))
        } else {
            0
        }),
    ),
    (
        "counter_at: the bit before the counter too",
        answers!(|s, at, n, w, i| if w < 32 && 0 < i && i < n {
            let before = plain(s, at, n, w, i - 1) & 1;
            plain(s, at, n, w, i) | before << w
        } else {
            plain(s, at, n, w, i)
        }),
    ),
    (
        "counter_at: from the start of the bytes",
        answers!(|s, at, n, w, i| if are_there(s, at, n, w) {
            plain(s, 0, n, w, i)
        } else {
            0
        }),
    ),
    (
        "counter_at: numbers of 8 bits",
        answers!(|s, at, n, w, i| if i < n {
            plain(s, at, n, w, i & 0xFF)
        } else {
            0
        }),
    ),
];

/// Those that messages do not show: there all counters that are asked for are there.
pub const BELOW: &[Fault] = &[
    (
        "counter_at: positions of 16 bits",
        answers!(|s, at, n, w, i| if are_there(s, at, n, w) {
            plain(s, at & 0xFFFF, n, w, i)
        } else {
            0
        }),
    ),
    (
        "counter_at: those behind the last too",
        answers!(
            |s, at, n, w, i| if are_there(s, at, n, w) && i < MOST_COUNTERS {
                plain(s, at, n.max(i + 1), w, i)
            } else {
                0
            }
        ),
    ),
    (
        "counter_at: the one behind the last is the last",
        answers!(|s, at, n, w, i| if n > 0 && i == n {
            plain(s, at, n, w, i - 1)
        } else {
            plain(s, at, n, w, i)
        }),
    ),
    (
        "counter_at: numbers modulo n",
        answers!(|s, at, n, w, i| plain(s, at, n, w, i % n.max(1))),
    ),
    (
        "counter_at: numbers wrap",
        answers!(|s, at, n, w, i| numbers_wrap(s, at, n, w, i)),
    ),
    (
        "counter_at: the number of all bits wraps",
        answers!(|s, at, n, w, i| all_bits_wrap(s, at, n, w, i)),
    ),
    (
        "counter_at: not all need be there",
        answers!(|s, at, n, w, i| if i < n.min(MOST_COUNTERS) {
            plain(s, at, i + 1, w, i)
        } else {
            0
        }),
    ),
    (
        "counter_at: missing bytes are zeros",
        answers!(|s, at, n, w, i| plain(&[s, &[0; 8]].concat(), at, n, w, i)),
    ),
    (
        "counter_at: width 0 taken as 1",
        answers!(|s, at, n, w, i| plain(s, at, n, w.max(1), i)),
    ),
    (
        "counter_at: widths modulo 32",
        answers!(|s, at, n, w, i| plain(s, at, n, w.wrapping_add(31) % 32 + 1, i)),
    ),
    (
        "counter_at: widths modulo 256",
        answers!(|s, at, n, w, i| plain(s, at, n, w % 256, i)),
    ),
    (
        "counter_at: positions wrap",
        answers!(|s, at, n, w, i| match wrapped(s, at, n, w) {
            Some(s) => plain(&s, 0, n, w, i),
            None => plain(s, at, n, w, i),
        }),
    ),
    (
        "counter_at: positions in bits wrap",
        answers!(|s, at, n, w, i| plain(s, at & usize::MAX >> 3, n, w, i)),
    ),
    (
        "counter_at: the first 65,536 of more",
        answers!(|s, at, n, w, i| plain(s, at, n.min(MOST_COUNTERS), w, i)),
    ),
];
