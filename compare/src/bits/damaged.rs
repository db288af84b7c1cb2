//! Calls that are refused: packing answers the position given, unpacking and the test of spare bits
//! answer no, a counter is 0, and nothing is written.

use super::packing::FEW;
use super::{all_ones, bit, bytes_of, judge, lone_bit, Old, Packer, OLD, WIDTHS};
use crate::model::MOST_COUNTERS;
use crate::packing::BAD_WIDTHS;
use crate::random::Random;
use crate::{lent, Tally, GUARD};

pub fn compare(tally: &mut Tally, packer: &Packer) {
    bad_widths(tally, packer);
    short_bytes(tally, packer);
    far_positions(tally, packer);
    far_numbers(tally, packer);
    columns(tally, packer);
    past_the_last(tally, packer);
    misfits(tally, packer);
}

/// Numbers so large that a sum or a product with them may wrap: those about 2^64, and powers of
/// two.
fn far_out() -> Vec<usize> {
    let powers = [32, 58, 59, 60, 61, 63].map(|power| 1 << power);
    let behind_powers = powers.map(|power| power + 1);
    let highest = (0..10).map(|k| usize::MAX - k);
    powers
        .into_iter()
        .chain(behind_powers)
        .chain(highest)
        .collect()
}

/// Numbers that come to 0 up to 20 when this is added and the sum wraps.
fn wrapping(added: usize) -> impl Iterator<Item = usize> {
    let sums = 0..=20usize;
    sums.map(move |sum| sum.wrapping_sub(added))
        .filter(move |number| number.checked_add(added).is_none())
}

fn no_packing(
    tally: &mut Tally,
    random: &mut Random,
    packer: &Packer,
    (counts, w): (&[i64], u32),
    (len, at): (usize, usize),
) {
    for old in OLD {
        let before = old.bytes(random, len + 2 * GUARD);
        let mut after = before.clone();
        let answer = (packer.pack)(counts, w, lent(&mut after), at);
        let call = || format!("pack({counts:x?}, w {w:#x}, len {len:#x}, at {at:#x}) on {old:?}");
        judge(tally, "no packing", call, (at, &before), (answer, &after));
    }
}

/// n counters of w bits from `at` of these bytes on.
#[derive(Clone, Copy, Debug)]
struct Given<'a> {
    s: &'a [u8],
    at: usize,
    n: usize,
    w: u32,
}

fn no_unpacking(
    tally: &mut Tally,
    random: &mut Random,
    packer: &Packer,
    given: Given,
    (clen, from): (usize, usize),
) {
    let Given { s, at, n, w } = given;
    for old in OLD {
        let before = old.counts(random, clen + 2 * GUARD);
        let mut after = before.clone();
        let answer = (packer.unpack)(s, at, n, w, lent(&mut after), from);
        let call = || format!("unpack({given:x?}, clen {clen:#x}, from {from:#x}) on {old:?}");
        judge(
            tally,
            "no unpacking",
            call,
            (false, &before),
            (answer, &after),
        );
    }
}

/// No counter either, and no spare bits that could be zero.
fn no_reading(tally: &mut Tally, random: &mut Random, packer: &Packer, given: Given) {
    let Given { s, at, n, w } = given;
    no_unpacking(tally, random, packer, given, (n.min(300) + 2, 1));
    let call = || format!("spare_is_zero({given:x?})");
    let answer = (packer.spare_is_zero)(s, at, n, w);
    judge(tally, "no test of spare bits", call, false, answer);
    for i in [0, 1, n / 2, n.saturating_sub(1)] {
        let call = || format!("counter_at({given:x?}, i {i:#x})");
        let answer = (packer.counter_at)(s, at, n, w, i);
        judge(tally, "no counter", call, 0, answer);
    }
}

fn bad_widths(tally: &mut Tally, packer: &Packer) {
    let mut random = tally.subject("bad widths", 0x308);
    let random = &mut random;
    for w in BAD_WIDTHS {
        for n in 0..=9 {
            for counts in [vec![0; n], vec![1; n], random.counters(n, 1)] {
                let call = || format!("fits({counts:?}, w {w:#x})");
                let answer = (packer.fits)(&counts, w);
                judge(tally, "whether counters fit", call, false, answer);
                no_packing(tally, random, packer, (&counts, w), (400, 1));
            }
            for old in OLD {
                let s = &old.bytes(random, 400);
                no_reading(tally, random, packer, Given { s, at: 1, n, w });
            }
        }
    }
}

/// The last byte of the counters is not there.
fn short_bytes(tally: &mut Tally, packer: &Packer) {
    let mut random = tally.subject("counters one byte short", 0x309);
    let random = &mut random;
    for w in WIDTHS {
        for n in FEW {
            for at in [0, 1, 5] {
                let len = at + bytes_of(n, w) - 1;
                let counts = vec![all_ones(w); n];
                let w = w as u32;
                no_packing(tally, random, packer, (&counts, w), (len, at));
                for s in [&random.bytes(len), &vec![0; len]] {
                    no_reading(tally, random, packer, Given { s, at, n, w });
                }
            }
        }
    }
}

fn far_positions(tally: &mut Tally, packer: &Packer) {
    let mut random = tally.subject("counters at far positions", 0x30A);
    let random = &mut random;
    for w in [1, 4, 9, 31, 32] {
        for n in FEW {
            let bytes = bytes_of(n, w);
            let len = bytes + 20;
            let counts = random.counters(n, w as u32);
            let (s, zeros) = (&random.bytes(len), &vec![0; len]);
            let w = w as u32;
            let near = [21, len, len + 1];
            for at in near.into_iter().chain(far_out()).chain(wrapping(bytes)) {
                assert!(at as u128 + bytes as u128 > len as u128);
                no_packing(tally, random, packer, (&counts, w), (len, at));
                for s in [s, zeros] {
                    no_reading(tally, random, packer, Given { s, at, n, w });
                }
            }
        }
    }
}

/// More counters than are read; and so many that their bits wrap.
fn far_numbers(tally: &mut Tally, packer: &Packer) {
    let mut random = tally.subject("too many counters", 0x30B);
    let random = &mut random;
    let n = MOST_COUNTERS + 1;
    for w in [1, 9, 32] {
        let bytes = bytes_of(n, w);
        let counts = random.counters(n, w as u32);
        let w = w as u32;
        no_packing(tally, random, packer, (&counts, w), (bytes, 0));
        for s in [&vec![0; bytes], &vec![0xFF; bytes]] {
            let given = Given { s, at: 0, n, w };
            no_reading(tally, random, packer, given);
            no_unpacking(tally, random, packer, given, (n, 0));
        }
    }
    for w in WIDTHS {
        let s = &random.bytes(100);
        let most = usize::MAX / w;
        let about_most = [0, 1, 2, 3].map(|more| (most - 1).saturating_add(more));
        for n in about_most.into_iter().chain(far_out()) {
            for at in [0, 1, 100] {
                let w = w as u32;
                no_reading(tally, random, packer, Given { s, at, n, w });
            }
        }
    }
}

/// The bytes are all there, but the column is too short or the position in it too far.
fn columns(tally: &mut Tally, packer: &Packer) {
    let mut random = tally.subject("columns too short for counters", 0x30C);
    let random = &mut random;
    for w in WIDTHS {
        for n in FEW {
            let s = &random.bytes(2 + bytes_of(n, w));
            let w = w as u32;
            let given = Given { s, at: 1, n, w };
            for from in [0, 1, 5] {
                no_unpacking(tally, random, packer, given, (from + n - 1, from));
                no_unpacking(tally, random, packer, given, (from, from));
            }
            for from in far_out().into_iter().chain(wrapping(n)) {
                no_unpacking(tally, random, packer, given, (n + 20, from));
            }
        }
        // No counters: they have their place up to the end, not behind it.
        let (s, w) = (&random.bytes(3), w as u32);
        for (at, from) in [(3, 6), (4, 5), (4, 6), (usize::MAX, 5), (3, usize::MAX)] {
            let none = Given { s, at, n: 0, w };
            no_unpacking(tally, random, packer, none, (5, from));
        }
    }
}

/// Counters asked for behind the last one, though set bits follow.
fn past_the_last(tally: &mut Tally, packer: &Packer) {
    tally.subject("counters behind the last", 0x30D);
    for w in WIDTHS {
        for n in (0..=9).chain([17, 70]) {
            let s = vec![0xFF; bytes_of(n, w) + 50];
            let wraps = [usize::MAX / w, (usize::MAX / w).saturating_add(1)];
            let near = [n, n + 1, n + 7];
            for i in near.into_iter().chain(far_out()).chain(wraps) {
                let call = || format!("counter_at({s:02x?}, at 1, n {n}, w {w}, i {i:#x})");
                let answer = (packer.counter_at)(&s, 1, n, w as u32, i);
                judge(tally, "no counter", call, 0, answer);
            }
        }
    }
}

/// A counter fits if none of its bits above the width is set; a list, if each of its counters does.
fn misfits(tally: &mut Tally, packer: &Packer) {
    let mut random = tally.subject("counters with a bit above the width", 0x30E);
    let random = &mut random;
    for w in WIDTHS {
        for n in [1, 2, 3, 9] {
            for c in 0..n {
                for k in 0..64 {
                    let mut counts = random.counters(n, w as u32);
                    counts[c] |= lone_bit(64, k);
                    one_misfit(tally, random, packer, &counts, w);
                }
                for count in [-1, i64::MIN, i64::MAX, all_ones(w) + 1, -all_ones(w)] {
                    let mut counts = vec![all_ones(w); n];
                    counts[c] = count;
                    one_misfit(tally, random, packer, &counts, w);
                }
            }
        }
    }
}

fn one_misfit(tally: &mut Tally, random: &mut Random, packer: &Packer, counts: &[i64], w: usize) {
    let fits = |&count: &i64| (0..64 - w).all(|k| !bit(64, count, k));
    let all_fit = counts.iter().all(fits);
    let call = || format!("fits({counts:x?}, w {w})");
    let answer = (packer.fits)(counts, w as u32);
    judge(tally, "whether counters fit", call, all_fit, answer);
    if all_fit {
        return;
    }
    let len = 3 + bytes_of(counts.len(), w);
    let before = Old::Anything.bytes(random, len + 2 * GUARD);
    let mut after = before.clone();
    let answer = (packer.pack)(counts, w as u32, lent(&mut after), 2);
    let call = || format!("pack({counts:x?}, w {w}, len {len}, at 2)");
    judge(tally, "no packing", call, (2, &before), (answer, &after));
}
