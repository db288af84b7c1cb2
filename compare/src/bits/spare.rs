//! Spare bits: they are zero exactly when each of them is. Bits of the last byte and of the byte
//! behind are turned over one by one, and a last byte takes every value.

use super::packing::{FAR, LONG};
use super::{bytes_of, flip, judge, set_spare, Old, Packer, OLD, WIDTHS};
use crate::random::Random;
use crate::Tally;

pub fn compare(tally: &mut Tally, packer: &Packer) {
    turned_over(tally, packer);
    long_lists(tally, packer);
    last_bytes(tally, packer);
}

fn one_list(tally: &mut Tally, packer: &Packer, s: &[u8], at: usize, n: usize, w: usize) {
    let wanted = set_spare(&s[at..], n, w).is_none();
    let answer = (packer.spare_is_zero)(s, at, n, w as u32);
    let call = || format!("spare_is_zero({s:02x?}, at {at}, n {n}, w {w})");
    judge(tally, "whether spare bits are zero", call, wanted, answer);
}

/// Counters from `at` on, their spare bits zero, and a byte behind.
fn clean(random: &mut Random, at: usize, n: usize, w: usize, old: Old) -> Vec<u8> {
    let mut s = old.bytes(random, at + bytes_of(n, w) + 1);
    while let Some(j) = set_spare(&s[at..], n, w) {
        flip(&mut s[at..], j);
    }
    s
}

/// The bits of the last byte and of the byte behind it, one by one.
fn each_turned_over(tally: &mut Tally, packer: &Packer, s: &[u8], at: usize, n: usize, w: usize) {
    let last = s.len().saturating_sub(2);
    for j in 8 * last..8 * s.len() {
        let mut turned = s.to_vec();
        flip(&mut turned, j);
        one_list(tally, packer, &turned, at, n, w);
    }
}

fn turned_over(tally: &mut Tally, packer: &Packer) {
    let mut random = tally.subject("spare bits turned over", 0x306);
    let random = &mut random;
    for w in WIDTHS {
        for n in 0..=70 {
            for old in OLD {
                let at = random.below(4) as usize;
                let s = clean(random, at, n, w, old);
                one_list(tally, packer, &s, at, n, w);
                // The counters may be all there is.
                one_list(tally, packer, &s[..s.len() - 1], at, n, w);
                each_turned_over(tally, packer, &s, at, n, w);
            }
        }
    }
}

fn long_lists(tally: &mut Tally, packer: &Packer) {
    let mut random = tally.subject("spare bits of long lists", 0x30F);
    let random = &mut random;
    for (n, widths) in LONG {
        for &w in widths {
            for at in [3, FAR] {
                let s = clean(random, at, n, w, Old::Anything);
                one_list(tally, packer, &s, at, n, w);
                each_turned_over(tally, packer, &s, at, n, w);
            }
        }
    }
}

fn last_bytes(tally: &mut Tally, packer: &Packer) {
    let mut random = tally.subject("last bytes of every value", 0x307);
    let random = &mut random;
    for w in WIDTHS {
        for n in 1..=8 {
            let at = random.below(4) as usize;
            let mut s = clean(random, at, n, w, Old::Anything);
            let last = s.len() - 2;
            for value in 0..=0xFF {
                s[last] = value;
                one_list(tally, packer, &s, at, n, w);
            }
        }
    }
}
