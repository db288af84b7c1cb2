//! Faults in which packed bit is read as which bit of which counter, each in unpacking and in a
//! counter by its number.

use super::super::{bytes_of, Packer};
use super::plain::{as_read, counter, counter_by, unpack_by, PLAIN};
use super::Fault;

/// Bit i of counter c is this instead.
macro_rules! bits {
    ($name:literal, |$packed:ident, $c:ident, $i:ident| $bit:expr) => {
        [
            (
                concat!("unpack: ", $name),
                Packer {
                    unpack: |s, at, n, w, counts, from| {
                        unpack_by(s, at, n, w, counts, from, |packed, c, _| {
                            i64::from(counter(packed, c, |$packed, $c, $i| $bit))
                        })
                    },
                    ..PLAIN
                },
            ),
            (
                concat!("counter_at: ", $name),
                Packer {
                    counter_at: |s, at, n, w, i| counter_by(s, at, n, w, i, |$packed, $c, $i| $bit),
                    ..PLAIN
                },
            ),
        ]
    };
}

/// Bit i of counter c is the packed bit of this number.
macro_rules! reads {
    ($name:literal, |$packed:ident, $c:ident, $i:ident| $j:expr) => {
        bits!($name, |$packed, $c, $i| $packed.bit($j))
    };
}

/// Bit i of counter c is zero where this holds.
macro_rules! loses {
    ($name:literal, |$packed:ident, $c:ident, $i:ident| $lost:expr) => {
        bits!($name, |$packed, $c, $i| !($lost)
            && as_read($packed, $c, $i))
    };
}

pub const FAULTS: &[[Fault; 2]] = &[
    reads!("lowest bit of a counter first", |p, c, i| (c + 1) * p.w
        - 1
        - i),
    reads!("lowest bit of a byte first", |p, c, i| (c * p.w + i) ^ 7),
    reads!("packed bit c * w + i + 1", |p, c, i| c * p.w + i + 1),
    reads!("packed bit c * (w + 1) + i", |p, c, i| c * (p.w + 1) + i),
    reads!("bit (i + 1) mod w", |p, c, i| c * p.w + (i + 1) % p.w),
    reads!("counters from the last", |p, c, i| (p.n - 1 - c) * p.w + i),
    reads!("at whole bytes", |p, c, i| c * 8 * bytes_of(1, p.w) + i),
    reads!("lowest byte of a counter first", |p, c, i| match p.w % 8 {
        0 => c * p.w + p.w - 8 - i / 8 * 8 + i % 8,
        _ => c * p.w + i,
    }),
    reads!("first byte passed over", |p, c, i| c * p.w + i + 8),
    reads!("numbers of 16 bits", |p, c, i| (c * p.w + i) & 0xFFFF),
    // Where none is set, the last counter's own bits are still shifted away.
    reads!("spare bits let into the last counter", |p, c, i| {
        c * p.w + i + if c == p.n - 1 { p.spare() } else { 0 }
    }),
    loses!("top bit of a counter lost", |p, c, i| i == 0),
    loses!("lowest bit of a counter lost", |p, c, i| i == p.w - 1),
    loses!("top bit lost at width 32", |p, c, i| (p.w, i) == (32, 0)),
    loses!("n bits, not n * w", |p, c, i| c * p.w + i >= p.n),
    loses!("last bit lost", |p, c, i| c * p.w + i == p.n * p.w - 1),
    loses!("first bit lost", |p, c, i| c + i == 0),
    loses!("last byte not read", |p, c, i| p.is_in_last_byte(c, i)),
    loses!("last partial byte not read", |p, c, i| {
        p.spare() > 0 && p.is_in_last_byte(c, i)
    }),
];

/// Those that messages do not show: their lists are shorter, and their spare bits are zero.
pub const BELOW: &[[Fault; 2]] = &[
    loses!("bits from 2^20 on are lost", |p, c, i| c * p.w + i
        >= 1 << 20),
    loses!("a set spare bit clears the last bit", |p, c, i| {
        c * p.w + i == p.n * p.w - 1 && p.spare() > 0 && p.bit(p.n * p.w)
    }),
    bits!("a set spare bit sets the last bit", |p, c, i| {
        as_read(p, c, i) || c * p.w + i == p.n * p.w - 1 && p.spare() > 0 && p.bit(p.n * p.w)
    }),
];
