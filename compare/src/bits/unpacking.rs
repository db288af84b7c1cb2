//! Unpacking, each bit of each counter by its number, by the list and one counter at a time. Spare
//! bits hold anything.

use super::packing::{FAR, FEW, LONG};
use super::{all_ones, around, bytes_of, flip, lone_bit, too_wide, wrong_counter};
use super::{judge, Old, Packer, OLD, WIDTHS};
use crate::random::Random;
use crate::{lent, Tally, GUARD};

pub fn compare(tally: &mut Tally, packer: &Packer) {
    every_width(tally, packer);
    long_lists(tally, packer);
    lone_bits(tally, packer);
}

/// n counters of w bits from `at` of these bytes on, and what the column holds that they are laid
/// in.
struct Given<'a> {
    s: &'a [u8],
    at: usize,
    n: usize,
    w: usize,
    old: Old,
}

/// Unpacks into a column that has others before and behind, and reads each counter by itself.
fn one_list(tally: &mut Tally, random: &mut Random, packer: &Packer, given: Given) {
    let Given { s, at, n, w, old } = given;
    let packed = &s[at..];
    let (from, behind) = (random.below(9) as usize, random.below(9) as usize);
    let before = old.counts(random, from + n + behind + 2 * GUARD);
    let mut after = before.clone();
    let answer = (packer.unpack)(s, at, n, w as u32, lent(&mut after), from);

    let call = || {
        let len = s.len();
        format!("unpack({len} bytes {s:02x?}, at {at}, n {n}, w {w}, from {from}) on {old:?}")
    };
    judge(tally, "unpacked at all", call, true, answer);
    let first = GUARD + from;
    let counts = &after[first..first + n];
    let wrong = wrong_counter(counts, packed, w);
    judge(tally, "bit of a counter", call, None, wrong);
    judge(tally, "range of a counter", call, None, too_wide(counts, w));
    let unchanged = around(&before, first, n);
    let others = around(&after, first, n);
    judge(tally, "entries around", call, unchanged, others);

    let call = || format!("counter_at({s:02x?}, at {at}, n {n}, w {w}), each");
    let each = by_number(packer, s, at, n, w);
    let wrong = wrong_counter(&each, packed, w);
    judge(tally, "bit of a counter by number", call, None, wrong);
    let wide = too_wide(&each, w);
    judge(tally, "range of a counter by number", call, None, wide);
}

fn by_number(packer: &Packer, s: &[u8], at: usize, n: usize, w: usize) -> Vec<i64> {
    let counter = |i| i64::from((packer.counter_at)(s, at, n, w as u32, i));
    (0..n).map(counter).collect()
}

fn every_width(tally: &mut Tally, packer: &Packer) {
    let mut random = tally.subject("bits of unpacked counters", 0x303);
    let random = &mut random;
    for w in WIDTHS {
        for n in 0..=70 {
            for old in OLD {
                let (at, behind) = (random.below(9) as usize, random.below(9) as usize);
                let bytes = bytes_of(n, w);
                let s = &random.bytes(at + bytes + behind);
                one_list(tally, random, packer, Given { s, at, n, w, old });
                // The highest counters of all, between zeros and before set spare bits.
                let s = &mut vec![0; at + bytes + behind];
                s[at..at + bytes].fill(0xFF);
                one_list(tally, random, packer, Given { s, at, n, w, old });
            }
        }
    }
}

fn long_lists(tally: &mut Tally, packer: &Packer) {
    let mut random = tally.subject("bits of long lists unpacked", 0x304);
    let random = &mut random;
    for (n, widths) in LONG {
        for &w in widths {
            for at in [3, FAR] {
                let s = &random.bytes(at + bytes_of(n, w));
                let old = Old::Anything;
                one_list(tally, random, packer, Given { s, at, n, w, old });
            }
        }
    }
}

/// The counters other than `usual`, with their numbers: those unpacked, and those read by number.
fn unusual(packer: &Packer, s: &[u8], n: usize, w: usize, usual: i64) -> [Vec<(usize, i64)>; 2] {
    let mut counts = vec![!usual; n];
    (packer.unpack)(s, 1, n, w as u32, &mut counts, 0);
    [counts, by_number(packer, s, 1, n, w)].map(|counts| {
        let numbered = counts.into_iter().enumerate();
        numbered.filter(|&(_, count)| count != usual).collect()
    })
}

/// One packed bit is set, or all but that: so it is with the bits of counters. A spare bit is of
/// none.
fn lone_bits(tally: &mut Tally, packer: &Packer) {
    tally.subject("bits of counters one by one", 0x305);
    for w in WIDTHS {
        for n in FEW {
            let bytes = bytes_of(n, w);
            for j in 0..8 * bytes {
                for ones in [false, true] {
                    // The bytes before and behind are the other way round.
                    let (inside, outside) = if ones { (0xFF, 0) } else { (0, 0xFF) };
                    let mut s = vec![outside; bytes + 2];
                    s[1..=bytes].fill(inside);
                    flip(&mut s[1..], j);
                    let usual = if ones { all_ones(w) } else { 0 };
                    let wanted = match j < n * w {
                        true => vec![(j / w, usual ^ lone_bit(w, j % w))],
                        false => vec![],
                    };
                    let [unpacked, each] = unusual(packer, &s, n, w, usual);
                    let call = || format!("unpack({s:02x?}, at 1, n {n}, w {w}), packed bit {j}");
                    judge(tally, "the one counter", call, &wanted, &unpacked);
                    let call = || format!("counter_at({s:02x?}, at 1, n {n}, w {w}), bit {j}");
                    judge(tally, "the one counter by number", call, &wanted, &each);
                }
            }
        }
    }
}
