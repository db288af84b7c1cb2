//! Chains: the last bucket is peeled first, then each time the next lower one, which it has freed. So
//! the looks that peel take size, size - 1, size - 2 and so on, whatever the model says.
//!
//! A bucket holds at first what is peeled there and whatever touches it and is peeled before. What
//! is peeled later and touches it stays behind: once, it looks pure and repeats an ID; twice, its
//! HASHSUM is wrong; three times it can look pure with an ID that is new.

use super::keys::{third_of, with_one, with_two};
use super::{one, sent_to_none, Wanted};
use crate::filters::{End, Filter};
use crate::malicious::Plan;
use crate::random::Random;
use crate::sets::some_salt;
use crate::{quick, Tally};
use std::sync::OnceLock;

const SIZES: [u32; 3] = [37, 38, 101];

pub fn compare(tally: &mut Tally) {
    whole(tally);
    repeated(tally);
    cut(tally);
    large_ones(tally);
}

/// Salted IDs with their counts, that of the last bucket first.
#[derive(Clone)]
struct Chain {
    size: u32,
    peels: Vec<(u64, i64)>,
}

impl Chain {
    /// Of all buckets down to this one, 3 or higher: each touches the next lower one and one below
    /// that, but not 0.
    fn down_to(random: &mut Random, size: u32, lowest: u32) -> Chain {
        let down = |p| {
            with_two(random, size, [p, p - 1], |third| {
                (1..p - 1).contains(&third)
            })
        };
        let keys = (lowest..size).rev().map(down);
        let peels = keys.map(|key| (key, -1)).collect();
        Chain { size, peels }
    }

    /// What is peeled in this bucket.
    fn at(&mut self, bucket: u32) -> &mut (u64, i64) {
        &mut self.peels[(self.size - 1 - bucket) as usize]
    }

    /// The columns at first.
    fn difference(&self) -> Filter {
        let mut difference = Filter::empty(self.size);
        for (bucket, &(key, count)) in (0..self.size).rev().zip(&self.peels) {
            for place in quick::places(key, self.size) {
                if place <= bucket {
                    difference.put_at(place, key, count);
                }
            }
        }
        difference
    }

    /// What the looks that peel take together.
    fn peeling(&self) -> usize {
        let size = self.size as usize;
        (0..self.peels.len()).map(|peeled| size - peeled).sum()
    }

    /// As many peels as buckets, then stuck: two buckets are touched twice by the last three.
    fn stuck(&self, random: &mut Random) -> (Chain, Wanted) {
        let size = self.size;
        let one = with_two(random, size, [1, 0], |x| x > 2);
        let x = third_of(one, size, [1, 0]);
        let none = with_two(random, size, [0, x], |y| y > 2);
        let y = third_of(none, size, [0, x]);
        let two = with_two(random, size, [2, 1], |third| third == y);
        let mut chain = self.clone();
        chain.peels.extend([two, one, none].map(|key| (key, -1)));
        let looked = chain.peeling() + size as usize;
        (chain, (End::Stuck, looked))
    }

    /// As many peels as buckets, and then z looks pure: the last three touch it, one of them on the
    /// other side. The last one's third place is touched once more before.
    fn too_many(&self, random: &mut Random, z: u32) -> (Chain, Wanted) {
        let size = self.size;
        let one = with_two(random, size, [1, 0], |third| third == z);
        let two = with_two(random, size, [2, 1], |third| third == z);
        let looks_pure = |none| quick::places(none ^ one ^ two, size).contains(&z);
        let none = loop {
            let none = with_two(random, size, [0, z], |y| y > 3);
            if looks_pure(none) {
                break none;
            }
        };
        let y = third_of(none, size, [0, z]);
        let p = random.between(3, u64::from(y) - 1) as u32;
        let mut chain = self.clone();
        *chain.at(p) = (with_two(random, size, [p, p - 1], |third| third == y), -1);
        chain.peels.extend([(two, -1), (one, -1), (none, 1)]);
        let looked = chain.peeling() + z as usize + 1;
        (chain, (End::TooMany, looked))
    }

    /// As many peels as buckets, with third places anywhere; the lowest bucket that is touched once
    /// after its peel repeats an ID, if there is one. Those touched more often count 2 and more.
    fn anywhere(random: &mut Random, size: u32) -> (Chain, Wanted) {
        let mut touched = vec![0; size as usize];
        let mut peels = Vec::new();
        for p in (0..size).rev() {
            let key = match p {
                0 => with_one(random, size, 0),
                _ => with_two(random, size, [p, p - 1], |_| true),
            };
            for place in quick::places(key, size) {
                touched[place as usize] += u32::from(place > p);
            }
            peels.push((key, -1));
        }
        let chain = Chain { size, peels };
        let looked = chain.peeling();
        let wanted = match touched.iter().position(|&touches| touches == 1) {
            Some(q) => (End::Repeated, looked + q + 1),
            None => (End::Stuck, looked + size as usize),
        };
        (chain, wanted)
    }

    /// Stuck at the end of a chain that does not go down to 0: those below have wrong HASHSUMs.
    fn compare_cut(&self, tally: &mut Tally, random: &mut Random) {
        let mut received = sent_to_none(&self.difference());
        let below = self.size as usize - self.peels.len();
        for hash in &mut received.hashes[..below] {
            *hash ^= random.between(1, u64::from(u32::MAX)) as u32;
        }
        let wanted = (End::Stuck, self.peeling() + self.size as usize);
        let salt = some_salt(random);
        one(tally, random, &[], &received, salt, wanted);
    }

    fn compare(&self, tally: &mut Tally, random: &mut Random, wanted: Wanted) {
        let (received, salt) = (sent_to_none(&self.difference()), some_salt(random));
        one(tally, random, &[], &received, salt, wanted);
    }

    /// Likewise with the sides exchanged, against a table large enough for that to be sent.
    fn compare_exchanged(&self, tally: &mut Tally, random: &mut Random, wanted: Wanted) {
        let difference = sent_to_none(&self.difference());
        let plan = loop {
            let mut plan = Plan::new(random, self.size, 8 * self.size as usize);
            plan.difference = difference.clone();
            if plan.can_be_sent() {
                break plan;
            }
        };
        let received = plan.received();
        one(tally, random, &plan.table, &received, plan.salt, wanted);
    }
}

/// As many peels as buckets, and one more. At size 37 the looks that peel take 37 + 36 + .. + 1 = 703
/// buckets, and the last one 37 where it finds none or finds the last bucket: 740.
fn whole(tally: &mut Tally) {
    let mut random = tally.subject("buckets looked at, as many peels as buckets", 0x80);
    let random = &mut random;
    for i in 0..60 {
        let chain = Chain::down_to(random, 37, 3);
        let (stuck, wanted) = chain.stuck(random);
        assert!(wanted == (End::Stuck, 740));
        stuck.compare(tally, random, wanted);
        let (more, wanted) = chain.too_many(random, 36);
        assert!(wanted == (End::TooMany, 740));
        more.compare(tally, random, wanted);
        if i % 4 == 0 {
            stuck.compare_exchanged(tally, random, (End::Stuck, 740));
            more.compare_exchanged(tally, random, wanted);
        }
    }
    for size in SIZES {
        for z in 3..size {
            let chain = Chain::down_to(random, size, 3);
            let (more, wanted) = chain.too_many(random, z);
            more.compare(tally, random, wanted);
            let (stuck, wanted) = chain.stuck(random);
            stuck.compare(tally, random, wanted);
        }
    }
}

/// As many peels as buckets, and then a repeat at a bucket that is left to chance.
fn repeated(tally: &mut Tally) {
    let mut random = tally.subject("buckets looked at, a repeat after a chain", 0x81);
    let random = &mut random;
    let mut positions = std::collections::HashSet::new();
    for i in 0..600 {
        let size = match i % 4 {
            3 => random.between(37, 200) as u32,
            size => SIZES[size],
        };
        let (chain, wanted) = Chain::anywhere(random, size);
        chain.compare(tally, random, wanted);
        if wanted.0 == End::Repeated {
            positions.insert(wanted.1 - chain.peeling());
        }
    }
    assert!(positions.len() > 15, "{positions:?}");
}

/// Every number of peels from none on: with none, the one look takes as many buckets as there are.
fn cut(tally: &mut Tally) {
    let mut random = tally.subject("buckets looked at, a part of a chain", 0x82);
    let random = &mut random;
    for size in SIZES {
        for lowest in 3..=size {
            Chain::down_to(random, size, lowest).compare_cut(tally, random);
        }
    }
    for _ in 0..60 {
        let size = random.between(37, 1000) as u32;
        let lowest = random.between(16, size.into()) as u32;
        Chain::down_to(random, size, lowest).compare_cut(tally, random);
    }
}

/// Large chains, which are looked for once. There are no more than 2^32 first draws, so that at size
/// 4,096 many three buckets are the places of no element.
struct Large {
    /// At size 1,000, with their ends.
    whole: [(Chain, Wanted); 2],
    /// At size 4,096.
    down_to_256: Chain,
    anywhere: (Chain, Wanted),
}

fn large() -> &'static Large {
    static LARGE: OnceLock<Large> = OnceLock::new();
    LARGE.get_or_init(|| {
        let random = &mut Random::new(0x84);
        let down_to_3 = Chain::down_to(random, 1000, 3);
        Large {
            whole: [down_to_3.stuck(random), down_to_3.too_many(random, 999)],
            down_to_256: Chain::down_to(random, 4096, 256),
            anywhere: Chain::anywhere(random, 4096),
        }
    })
}

/// The keys of a chain down to bucket 3, or to 256 at the largest size.
pub fn keys(random: &mut Random, size: u32) -> Vec<u64> {
    let chain = match size {
        4096 => large().down_to_256.clone(),
        _ => Chain::down_to(random, size, 3),
    };
    chain.peels.iter().map(|&(key, _)| key).collect()
}

fn large_ones(tally: &mut Tally) {
    let mut random = tally.subject("buckets looked at, large chains", 0x83);
    let random = &mut random;
    let large = large();
    // 1,000 + 999 + .. + 1, and 1,000 once more.
    let [(stuck, stuck_end), (more, more_end)] = &large.whole;
    assert!(*stuck_end == (End::Stuck, 501_500));
    assert!(*more_end == (End::TooMany, 501_500));
    // 4,096 + 4,095 + .. + 1, and a look.
    let (anywhere, end) = &large.anywhere;
    assert!(end.1 > 8_390_656, "{end:?}");
    for _ in 0..3 {
        stuck.compare(tally, random, *stuck_end);
        more.compare(tally, random, *more_end);
        anywhere.compare(tally, random, *end);
        large.down_to_256.compare_cut(tally, random);
    }
}
