//! Faults in what unpacking lays in the column, where it lays it, and what it refuses.

use super::super::Packer;
use super::plain::{as_read, counter, packed, unpack, unpack_by, wrapped, PLAIN};
use super::Fault;
use crate::model::MOST_COUNTERS;

/// An entry is this instead, given the counter, the width and the entry that was there.
macro_rules! entries {
    (|$counter:ident, $w:ident, $old:ident| $entry:expr) => {
        Packer {
            unpack: |s, at, n, w, counts, from| {
                unpack_by(s, at, n, w, counts, from, |packed, c, $old| {
                    let ($counter, $w) = (i64::from(counter(packed, c, as_read)), packed.w);
                    let _ = ($w, $old);
                    $entry
                })
            },
            ..PLAIN
        }
    };
}

/// Unpacked in another way.
macro_rules! unpacks {
    (|$s:ident, $at:ident, $n:ident, $w:ident, $counts:ident, $from:ident| $unpack:expr) => {
        Packer {
            unpack: |$s, $at, $n, $w, $counts, $from| $unpack,
            ..PLAIN
        }
    };
}

/// Unpacked as it should be; then an entry that is lent is cleared.
macro_rules! then_clears {
    (|$n:ident, $from:ident| $entry:expr) => {
        Packer {
            unpack: |s, at, $n, w, counts, $from| {
                let unpacked = unpack(s, at, $n, w, counts, $from);
                let entry: Option<usize> = $entry;
                match entry.and_then(|i| counts.get_mut(i)) {
                    Some(entry) if unpacked => *entry = 0,
                    _ => {}
                }
                unpacked
            },
            ..PLAIN
        }
    };
}

fn last_not_laid(s: &[u8], at: usize, n: usize, w: u32, counts: &mut [i64], from: usize) -> bool {
    let old = counts.to_vec();
    let unpacked = unpack(s, at, n, w, counts, from);
    if unpacked && n > 0 {
        counts[from + n - 1] = old[from + n - 1];
    }
    unpacked
}

/// Laid from another entry on, where there is room.
fn laid_from(
    s: &[u8],
    (at, n, w): (usize, usize, u32),
    counts: &mut [i64],
    from: usize,
    other: usize,
) -> bool {
    let old = counts.to_vec();
    let unpacked = unpack(s, at, n, w, counts, from);
    if unpacked && other + n <= counts.len() {
        counts.copy_from_slice(&old);
        unpack(s, at, n, w, counts, other);
    }
    unpacked
}

/// As many counters as the column has room for are laid before it is refused.
fn lays_what_fits(s: &[u8], at: usize, n: usize, w: u32, counts: &mut [i64], from: usize) -> bool {
    let room = counts.len().saturating_sub(from);
    if room < n && packed(s, at, n, w).is_some() {
        unpack(s, at, room, w, counts, from);
    }
    unpack(s, at, n, w, counts, from)
}

/// The column is cleared before the bytes are judged.
fn clears_first(s: &[u8], at: usize, n: usize, w: u32, counts: &mut [i64], from: usize) -> bool {
    let end = from.saturating_add(n);
    if let Some(column) = counts.get_mut(from..end) {
        column.fill(0);
    }
    unpack(s, at, n, w, counts, from)
}

/// The end of the entries wraps, and what comes to the start of the column is laid there.
fn entries_wrap(s: &[u8], at: usize, n: usize, w: u32, counts: &mut [i64], from: usize) -> bool {
    let end = from.wrapping_add(n);
    if end >= from || end > counts.len() || n > MOST_COUNTERS {
        return unpack(s, at, n, w, counts, from);
    }
    let mut laid = vec![0; n];
    let unpacked = unpack(s, at, n, w, &mut laid, 0);
    if unpacked {
        counts[..end].copy_from_slice(&laid[n - end..]);
    }
    unpacked
}

pub const FAULTS: &[Fault] = &[
    // What is laid.
    (
        "unpack: width 32 read with a sign",
        entries!(|counter, w, old| match w {
            32 => i64::from(counter as u32 as i32),
            _ => counter,
        }),
    ),
    (
        "unpack: every width read with a sign",
        entries!(|counter, w, old| counter << (64 - w) >> (64 - w)),
    ),
    (
        "unpack: the highest is -1",
        entries!(|counter, w, old| match counter == (1 << w) - 1 {
            true => -1,
            false => counter,
        }),
    ),
    (
        "unpack: entries or-ed into",
        entries!(|counter, w, old| counter | old),
    ),
    (
        "unpack: entries added to",
        entries!(|counter, w, old| counter.wrapping_add(old)),
    ),
    (
        "unpack: high half of an entry kept",
        entries!(|counter, w, old| counter | old & !0xFFFF_FFFF),
    ),
    (
        "unpack: sign of an entry kept",
        entries!(|counter, w, old| counter | old & i64::MIN),
    ),
    (
        "unpack: zeros not laid",
        entries!(|counter, w, old| if counter == 0 { old } else { counter }),
    ),
    // Where it is laid, and from where it is read.
    (
        "unpack: last counter not laid",
        unpacks!(|s, at, n, w, counts, from| last_not_laid(s, at, n, w, counts, from)),
    ),
    (
        "unpack: entry behind cleared",
        then_clears!(|n, from| from.checked_add(n)),
    ),
    (
        "unpack: entry before cleared",
        then_clears!(|_n, from| from.checked_sub(1)),
    ),
    (
        "unpack: laid from the start of the column",
        unpacks!(|s, at, n, w, counts, from| laid_from(s, (at, n, w), counts, from, 0)),
    ),
    (
        "unpack: laid one entry on",
        unpacks!(|s, at, n, w, counts, from| {
            laid_from(s, (at, n, w), counts, from, from.saturating_add(1))
        }),
    ),
    (
        "unpack: read from the start of the bytes",
        unpacks!(|s, at, n, w, counts, from| {
            unpack(s, at, n, w, counts, from) && unpack(s, 0, n, w, counts, from)
        }),
    ),
    (
        "unpack: read one byte back",
        unpacks!(|s, at, n, w, counts, from| {
            unpack(s, at, n, w, counts, from) && unpack(s, at.saturating_sub(1), n, w, counts, from)
        }),
    ),
];

/// Those that messages do not show: they are judged before their counters are read.
pub const BELOW: &[Fault] = &[
    (
        "unpack: read one byte on",
        unpacks!(|s, at, n, w, counts, from| {
            let unpacked = unpack(s, at, n, w, counts, from);
            if unpacked {
                unpack(s, at + 1, n, w, counts, from);
            }
            unpacked
        }),
    ),
    (
        "unpack: positions of 16 bits",
        unpacks!(|s, at, n, w, counts, from| {
            unpack(s, at, n, w, counts, from) && unpack(s, at & 0xFFFF, n, w, counts, from)
        }),
    ),
    (
        "unpack: answers no where there are none",
        unpacks!(|s, at, n, w, counts, from| n > 0 && unpack(s, at, n, w, counts, from)),
    ),
    (
        "unpack: spare bits judged",
        unpacks!(|s, at, n, w, counts, from| {
            (PLAIN.spare_is_zero)(s, at, n, w) && unpack(s, at, n, w, counts, from)
        }),
    ),
    (
        "unpack: missing bytes are zeros",
        unpacks!(|s, at, n, w, counts, from| {
            unpack(&[s, &[0; 8]].concat(), at, n, w, counts, from)
        }),
    ),
    (
        "unpack: as much laid as fits",
        unpacks!(|s, at, n, w, counts, from| lays_what_fits(s, at, n, w, counts, from)),
    ),
    (
        "unpack: a short column is enough",
        unpacks!(|s, at, n, w, counts, from| {
            let room = counts.len().saturating_sub(from);
            packed(s, at, n, w).is_some() && unpack(s, at, n.min(room), w, counts, from)
        }),
    ),
    (
        "unpack: cleared before it is judged",
        unpacks!(|s, at, n, w, counts, from| clears_first(s, at, n, w, counts, from)),
    ),
    (
        "unpack: width 0 taken as 1",
        unpacks!(|s, at, n, w, counts, from| unpack(s, at, n, w.max(1), counts, from)),
    ),
    (
        "unpack: widths modulo 32",
        unpacks!(|s, at, n, w, counts, from| {
            unpack(s, at, n, w.wrapping_add(31) % 32 + 1, counts, from)
        }),
    ),
    (
        "unpack: widths modulo 256",
        unpacks!(|s, at, n, w, counts, from| unpack(s, at, n, w % 256, counts, from)),
    ),
    (
        "unpack: positions of bytes wrap",
        unpacks!(|s, at, n, w, counts, from| match wrapped(s, at, n, w) {
            Some(s) => unpack(&s, 0, n, w, counts, from),
            None => unpack(s, at, n, w, counts, from),
        }),
    ),
    (
        "unpack: positions in bits wrap",
        unpacks!(|s, at, n, w, counts, from| unpack(s, at & usize::MAX >> 3, n, w, counts, from)),
    ),
    (
        "unpack: positions of entries wrap",
        unpacks!(|s, at, n, w, counts, from| entries_wrap(s, at, n, w, counts, from)),
    ),
    (
        "unpack: the first 65,536 of more",
        unpacks!(|s, at, n, w, counts, from| {
            unpack(s, at, n.min(MOST_COUNTERS), w, counts, from)
        }),
    ),
];
