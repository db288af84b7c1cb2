//! Packing, each bit by its number: random counters, long lists, and each bit alone.

use super::{all_ones, around, bit, bytes_of, lone_bit, packed_bit, set_spare, wrong_bit};
use super::{judge, Old, Packer, OLD, WIDTHS};
use crate::random::Random;
use crate::{lent, Tally, GUARD};

/// Long lists of counters, and the widths at which they are packed. Those with one less have spare
/// bits.
pub const LONG: [(usize, &[usize]); 6] = [
    (2520, &[1, 4, 7, 9, 13, 31, 32]),
    (2519, &[1, 4, 9]),
    (4096, &[1, 4, 7, 9, 13, 31, 32]),
    (4095, &[1, 4, 9]),
    (65536, &[1, 9, 32]),
    (65535, &[1, 9]),
];

/// A position of more than 16 bits.
pub const FAR: usize = 65_600;

/// Numbers of counters of which each bit is tried alone. The first eight bring every number of
/// spare bits.
pub const FEW: [usize; 10] = [1, 2, 3, 4, 5, 6, 7, 8, 9, 17];

pub fn compare(tally: &mut Tally, packer: &Packer) {
    every_width(tally, packer);
    long_lists(tally, packer);
    lone_bits(tally, packer);
}

/// Where the counters go, and the bytes that are lent behind them.
#[derive(Clone, Copy, Debug)]
struct Room {
    at: usize,
    behind: usize,
    old: Old,
}

impl Room {
    fn somewhere(random: &mut Random, old: Old) -> Room {
        Room {
            at: random.between(1, 9) as usize,
            behind: random.between(1, 9) as usize,
            old,
        }
    }
}

fn one_list(
    tally: &mut Tally,
    random: &mut Random,
    packer: &Packer,
    counts: &[i64],
    w: usize,
    room: Room,
) {
    let n = counts.len();
    let bytes = bytes_of(n, w);
    let len = room.at + bytes + room.behind;
    let before = room.old.bytes(random, len + 2 * GUARD);
    let mut after = before.clone();
    let next = (packer.pack)(counts, w as u32, lent(&mut after), room.at);

    let call = || format!("pack({n} counts {counts:x?}, w {w}) in {room:?}");
    judge(tally, "position behind", call, room.at + bytes, next);
    let from = GUARD + room.at;
    let packed = &after[from..from + bytes];
    let wrong = wrong_bit(packed, counts, w);
    judge(tally, "packed bit", call, None, wrong);
    judge(tally, "spare bit", call, None, set_spare(packed, n, w));
    let unchanged = around(&before, from, bytes);
    let others = around(&after, from, bytes);
    judge(tally, "bytes around", call, unchanged, others);
}

fn every_width(tally: &mut Tally, packer: &Packer) {
    let mut random = tally.subject("bits of packed counters", 0x300);
    let random = &mut random;
    for w in WIDTHS {
        for n in 0..=70 {
            for old in OLD {
                let counts = random.counters(n, w as u32);
                let room = Room::somewhere(random, old);
                one_list(tally, random, packer, &counts, w, room);
                // Nothing before and nothing behind.
                let (at, behind) = (0, 0);
                one_list(tally, random, packer, &counts, w, Room { at, behind, old });
            }
        }
    }
}

fn long_lists(tally: &mut Tally, packer: &Packer) {
    let mut random = tally.subject("bits of long lists of counters", 0x301);
    let random = &mut random;
    for (n, widths) in LONG {
        for &w in widths {
            for old in OLD {
                let counts = random.counters(n, w as u32);
                let room = Room::somewhere(random, old);
                one_list(tally, random, packer, &counts, w, room);
                let far = Room { at: FAR, ..room };
                one_list(tally, random, packer, &counts, w, far);
            }
        }
    }
}

/// The packed bits that are set, spare ones among them.
fn set_bits(packer: &Packer, counts: &[i64], w: usize, old: u8) -> Vec<usize> {
    let mut packed = vec![old; bytes_of(counts.len(), w)];
    (packer.pack)(counts, w as u32, &mut packed, 0);
    let all = 0..8 * packed.len();
    all.filter(|&j| packed_bit(&packed, j)).collect()
}

/// One bit of one counter is set, or all but that: so it is with the packed bits.
fn lone_bits(tally: &mut Tally, packer: &Packer) {
    tally.subject("packed bits one by one", 0x302);
    for w in WIDTHS {
        for n in FEW {
            for j in 0..n * w {
                let lone = lone_bit(w, j % w);
                let (mut counts, mut others) = (vec![0; n], vec![all_ones(w); n]);
                counts[j / w] = lone;
                others[j / w] -= lone;
                assert!(bit(w, counts[j / w], j % w) && !bit(w, others[j / w], j % w));
                for old in [0x00, 0xFF] {
                    let call = || format!("pack({counts:x?}, w {w}) on bytes {old:02x}");
                    let set = set_bits(packer, &counts, w, old);
                    judge(tally, "the one packed bit set", call, vec![j], set);

                    let call = || format!("pack({others:x?}, w {w}) on bytes {old:02x}");
                    let set = set_bits(packer, &others, w, old);
                    let all_others = (0..n * w).filter(|&other| other != j).collect();
                    judge(tally, "the one packed bit not set", call, all_others, set);
                }
            }
        }
    }
}
