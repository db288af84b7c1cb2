//! Faults in what packing refuses, and in which counters fit. Messages show none of these.

use super::super::{bytes_of, Packer};
use super::plain::{self, as_packed, pack, place, write, PLAIN};
use super::Fault;
use crate::model::MOST_COUNTERS;

/// Each counter is judged and packed as this.
macro_rules! takes {
    (|$count:ident, $w:ident| $as:expr) => {
        Packer {
            pack: |counts, w, out, at| {
                let taken = |&$count: &i64| {
                    let $w = w.min(40);
                    $as
                };
                let counts: Vec<i64> = counts.iter().map(taken).collect();
                pack(&counts, w, out, at)
            },
            ..PLAIN
        }
    };
}

/// Packed in another way.
macro_rules! packs {
    ($pack:expr) => {
        Packer {
            pack: $pack,
            ..PLAIN
        }
    };
}

/// Other counters fit.
macro_rules! fits {
    (|$counts:ident, $w:ident| $fits:expr) => {
        Packer {
            fits: |$counts, $w| $fits,
            ..PLAIN
        }
    };
}

/// As much as there is room for is written before it is refused.
fn writes_what_fits(counts: &[i64], w: u32, out: &mut [u8], at: usize) -> usize {
    let end = pack(counts, w, out, at);
    if plain::fits(counts, w) && at < out.len() && end == at {
        let room = (out.len() - at).min(bytes_of(counts.len(), w as usize));
        let out = &mut out[at..at + room];
        write(counts, w as usize, out, as_packed);
    }
    end
}

/// The memory is cleared before anything is judged.
fn clears_first(counts: &[i64], w: u32, out: &mut [u8], at: usize) -> usize {
    if let Some(place) = place(out.len(), at, counts.len(), w) {
        out[place].fill(0);
    }
    pack(counts, w, out, at)
}

/// The end wraps, and what comes to the start of the memory is written there.
fn wraps(counts: &[i64], w: u32, out: &mut [u8], at: usize) -> usize {
    let bytes = bytes_of(counts.len(), w.min(32) as usize);
    let end = at.wrapping_add(bytes);
    if end >= at || end > out.len() {
        return pack(counts, w, out, at);
    }
    let mut packed = vec![0; bytes];
    pack(counts, w, &mut packed, 0);
    out[..end].copy_from_slice(&packed[bytes - end..]);
    end
}

/// Lists longer than the longest are packed up to it.
fn packs_the_first(counts: &[i64], w: u32, out: &mut [u8], at: usize) -> usize {
    pack(&counts[..counts.len().min(MOST_COUNTERS)], w, out, at)
}

/// Width 33 is a width like the others.
fn takes_width_33(counts: &[i64], w: u32, out: &mut [u8], at: usize) -> usize {
    let bytes = bytes_of(counts.len(), 33);
    match w == 33 && at + bytes <= out.len() {
        true => {
            let out = &mut out[at..at + bytes];
            write(counts, 33, out, as_packed);
            at + bytes
        }
        false => pack(counts, w, out, at),
    }
}

pub const BELOW: &[Fault] = &[
    (
        "pack: a counter is cut to its width",
        takes!(|count, w| count & ((1 << w) - 1)),
    ),
    (
        "pack: a counter too high is the highest",
        takes!(|count, w| count.min((1 << w) - 1)),
    ),
    (
        "pack: a negative counter is cut to its width",
        takes!(|count, w| match count < 0 {
            true => count & ((1 << w) - 1),
            false => count,
        }),
    ),
    (
        "pack: a counter is cut to 32 bits",
        takes!(|count, _w| count & 0xFFFF_FFFF),
    ),
    (
        "pack: the sign is not judged",
        takes!(|count, _w| count & i64::MAX),
    ),
    ("pack: width 33 taken", packs!(takes_width_33)),
    (
        "pack: widths modulo 32",
        packs!(|c, w, out, at| pack(c, w.wrapping_add(31) % 32 + 1, out, at)),
    ),
    (
        "pack: widths modulo 256",
        packs!(|c, w, out, at| pack(c, w % 256, out, at)),
    ),
    ("pack: as much written as fits", packs!(writes_what_fits)),
    ("pack: cleared before it is judged", packs!(clears_first)),
    ("pack: positions wrap", packs!(wraps)),
    (
        "pack: positions in bits wrap",
        packs!(|c, w, out, at| pack(c, w, out, at & usize::MAX >> 3)),
    ),
    ("pack: the first 65,536 of more", packs!(packs_the_first)),
    (
        "fits: 2^w too",
        fits!(|c, w| (1..=32).contains(&w) && c.iter().all(|&c| 0 <= c && c <= 1 << w)),
    ),
    (
        "fits: negative counters too",
        fits!(|c, w| (1..=32).contains(&w) && c.iter().all(|&c| c < 1 << w)),
    ),
    (
        "fits: not the highest at width 32",
        fits!(|c, w| plain::fits(c, w) && c.iter().all(|&c| c < 0xFFFF_FFFF)),
    ),
    (
        "fits: the first counter alone",
        fits!(|c, w| plain::fits(&c[..c.len().min(1)], w)),
    ),
    (
        "fits: not the last counter",
        fits!(|c, w| plain::fits(&c[..c.len().saturating_sub(1)], w)),
    ),
    (
        "fits: 32 bits of it",
        fits!(|c, w| plain::fits(&c.iter().map(|c| c & 0xFFFF_FFFF).collect::<Vec<i64>>(), w)),
    ),
    (
        "fits: width 33 too",
        fits!(|c, w| (1..=33).contains(&w) && c.iter().all(|&c| c >> w == 0)),
    ),
    (
        "fits: width 0 for zeros",
        fits!(|c, w| w <= 32 && c.iter().all(|&c| c >> w == 0)),
    ),
    (
        "fits: no counters at any width",
        fits!(|c, w| c.is_empty() || plain::fits(c, w)),
    ),
];
