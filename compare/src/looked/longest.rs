//! The longest readings that were found, against the empty table: a bound is a bound, but how near can
//! a far end come to it?
//!
//! A peel at bucket b costs b + 1 looks, so the peels should lie high. But the lowest pure bucket is
//! always taken first, and a bucket that was peeled is zero: it can be peeled again only when three
//! later elements have been taken out of it. One alone would be listed twice, and two never look pure.
//! (Of three, two of one sign and one of the other, the HASHSUM is right by itself, as the CRC of three
//! numbers' XOR is the XOR of their CRCs.)
//!
//! A list has for each bucket what it holds at its first peel; all later peels follow from the rules. The
//! lists were found by a search that tried many beginnings of readings side by side and kept the best;
//! here they are only turned into columns, by reading them.

use super::keys::with_crc;
use super::{one, sent_to_none};
use crate::filters::{End, Filter};
use crate::random::Random;
use crate::sets::some_salt;
use crate::{quick, Tally};

/// For 4,096 buckets; the file says how a bucket is written.
const LIST_4096: &str = include_str!("../../longest-4096.inc");

/// 37 peels, then no bucket looks pure.
#[rustfmt::skip]
const STUCK_37: [i64; 37] = [
    -0x2ea98266a, 0, 0, 0, 0, 0, -0x27258c875, -0x2a3b9d654, 0, 0, -0x20bbf10fd, -0x31ebb652e, 0, 0,
    0x256add2ce, -0x2428622af, 0, 0x246455912, -0x2d29de30c, 0, -0x2ef4be192, -0x271c28dd1,
    -0x3e4e62bff, -0x206dfc2d7, -0x2101cd00e, 0x230edeb7d, 0x2e98d930a, -0x2c42485fe, 0x22f630a98,
    -0x22499548e, 0x389f81228, 0x225132e4d, -0x2c1c7b0ac, 0x29b392a60, -0x2eab1a79b, 0x20259ec46,
    -0x156c23215,
];

/// 37 peels, then a 38th bucket looks pure.
#[rustfmt::skip]
const TOO_MANY_37: [i64; 37] = [
    0, 0, 0, 0, 0, 0, 0x2b9607673, 0, 0, 0, -0x28152de5b, 0x2892b25ef, -0x218292ab5, -0x2a6bd10d7,
    0, -0x28adeeabc, -0x259127e2d, -0x2f7ce55cc, -0x3234a2278, 0x3d3f90666, -0x2c506cf3c,
    0x23d22a268, 0x36f7aaa8e, 0x28c97dabb, -0x215ee1307, -0x2f929ac15, -0x23d24b143, -0x2012451a7,
    0x20ccfcb67, -0x2d5a78093, 0x20a893934, 0x2416a6315, -0x29ad0c926, 0x2adbf4916, -0x2178fcb0a,
    -0x21d83b3d1, -0x17689c0e7,
];

pub fn compare(tally: &mut Tally) {
    let mut random = tally.subject("buckets looked at, the longest", 0x87);
    let list_4096 = list_of(LIST_4096);
    let lists: [(&[i64], End, usize); 3] = [
        (&STUCK_37, End::Stuck, 1_034),
        (&TOO_MANY_37, End::TooMany, 1_027),
        (&list_4096, End::TooMany, 13_529_091),
    ];
    for (list, end, looked) in lists {
        let received = sent_to_none(&Settling::of(list).columns());
        for _ in 0..4 {
            // An element's places come of the salted ID: the salt changes nothing but what is listed.
            let salt = some_salt(&mut random);
            one(tally, &mut random, &[], &received, salt, (end, looked));
        }
    }
}

/// The numbers of a list, without the comment before them.
fn list_of(text: &str) -> Vec<i64> {
    let (_, numbers) = text.split_once("*/").expect("a comment first");
    let words = numbers.split(',').map(str::trim);
    let number = |word: &str| match word.strip_prefix("-0x") {
        Some(hex) => i64::from_str_radix(hex, 16).map(|n| -n),
        None => i64::from_str_radix(word.trim_start_matches("0x"), 16),
    };
    let numbers = words.filter(|word| !word.is_empty()).map(number);
    numbers.collect::<Result<_, _>>().expect("hexadecimal")
}

/// A list being turned into columns: the difference at first, the same while it is read, and how many
/// elements are still to be taken out of a bucket before it is settled.
struct Settling<'a> {
    list: &'a [i64],
    waits: Vec<Option<i64>>,
    first: Filter,
    now: Filter,
    random: Random,
}

impl Settling<'_> {
    /// Buckets that are not settled yet, or never, have a count that never comes near 1.
    fn of(list: &[i64]) -> Settling<'_> {
        let mut first = Filter::empty(list.len() as u32);
        for (count, &number) in first.counts.iter_mut().zip(list) {
            *count = if number == 1 { 0 } else { -1000 };
        }
        let waits = list
            .iter()
            .map(|&n| (n != 0 && n != 1).then_some((n.abs() >> 32) - 1));
        let mut settling = Settling {
            list,
            waits: waits.collect(),
            now: first.clone(),
            first,
            random: Random::new(0x8A),
        };
        (0..list.len()).for_each(|bucket| settling.settle(bucket));
        settling
    }

    /// The difference at first, once it has been read to its end.
    fn columns(mut self) -> Filter {
        for _ in 0..self.list.len() {
            let (Some(bucket), _) = self.now.look() else {
                break;
            };
            let bucket = bucket as usize;
            self.take_out(self.now.ids[bucket], self.now.counts[bucket]);
        }
        self.first
    }

    fn take_out(&mut self, key: u64, count: i64) {
        self.now.put(key, -count);
        for place in quick::places(key, self.now.size()) {
            let place = place as usize;
            self.waits[place] = self.waits[place].map(|touches| touches - 1);
            self.settle(place);
        }
    }

    /// A bucket that waits no longer holds its first element and nothing else.
    fn settle(&mut self, bucket: usize) {
        if self.waits[bucket] != Some(0) {
            return;
        }
        self.waits[bucket] = None;
        let number = self.list[bucket];
        let crc = number.unsigned_abs() as u32;
        let id = with_crc(crc, self.random.word()) ^ self.now.ids[bucket];
        let hash = crc ^ self.now.hashes[bucket];
        let count = number.signum() - self.now.counts[bucket];
        for filter in [&mut self.first, &mut self.now] {
            filter.ids[bucket] ^= id;
            filter.hashes[bucket] ^= hash;
            filter.counts[bucket] += count;
        }
    }
}
