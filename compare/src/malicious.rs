//! Comparisons of readings of filters that no set makes: the difference is planted, and what the
//! far end must send for it is worked out.

use crate::filters::{self, End, Filter, MOST_COUNT};
use crate::model;
use crate::quick;
use crate::random::Random;
use crate::sets::{some_ids, some_salt, some_size, some_table, table_of, Call};
use crate::Tally;

pub fn compare(tally: &mut Tally) {
    lone_keys(tally);
    contradictions(tally);
    random_columns(tally);
}

/// A table, the salted IDs that it holds, and the difference to be read.
pub struct Plan {
    pub table: Vec<u8>,
    pub held: Vec<u64>,
    pub salt: u32,
    pub difference: Filter,
}

impl Plan {
    /// A table of n hashes and no difference yet.
    pub fn new(random: &mut Random, size: u32, n: usize) -> Plan {
        let ids = some_ids(random, n);
        Plan::with(random, size, &ids)
    }

    pub fn with(random: &mut Random, size: u32, ids: &[u64]) -> Plan {
        let salt = some_salt(random);
        Plan {
            table: table_of(random, ids),
            held: ids.iter().map(|&id| model::salt(id, salt)).collect(),
            salt,
            difference: Filter::empty(size),
        }
    }

    /// A small table, or one with several elements in each bucket: there a bucket can be sent with
    /// fewer elements than ours has, so that the difference counts 1 whatever its ID is.
    pub fn any(random: &mut Random) -> Plan {
        let size = some_size(random, 80);
        let n = match random.below(5) {
            0 => 0,
            1 => random.below(12),
            _ => random.between(2, 4) * u64::from(size),
        };
        Plan::new(random, size, n as usize)
    }

    /// What the far end must send.
    pub fn received(&self) -> Filter {
        let ids = filters::ids(&self.table);
        Filter::of(&ids, self.difference.size(), self.salt).less(&self.difference)
    }

    /// Whether a filter can say that.
    pub fn can_be_sent(&self) -> bool {
        let good = |count: &i64| (0..=MOST_COUNT).contains(count);
        self.received().counts.iter().all(good)
    }

    pub fn compare(&self, tally: &mut Tally, random: &mut Random) -> Option<End> {
        let call = Call::of_filter(random, &self.table, &self.received(), self.salt);
        call.compare(tally).1
    }

    /// A salted ID that the table holds, if it holds any, or most likely does not.
    pub fn key(&self, random: &mut Random, held: bool) -> u64 {
        if held && !self.held.is_empty() {
            return random.pick(&self.held);
        }
        match random.below(12) {
            0 => 0,
            1 => random.any_length(),
            _ => random.next(),
        }
    }

    /// Plants something in a bucket that does not look pure there.
    pub fn spoil(&mut self, random: &mut Random) {
        let any = self.key(random, false);
        let bucket = random.below(u64::from(self.difference.size())) as usize;
        let Filter {
            ids,
            hashes,
            counts,
        } = &mut self.difference;
        match random.below(7) {
            0 => ids[bucket] ^= random.next(),
            1 => hashes[bucket] ^= random.word(),
            2 => counts[bucket] -= random.between(1, 3) as i64,
            3 => hashes[bucket] ^= 1 << random.below(32),
            4 => ids[bucket] ^= 1 << random.below(64),
            5 => {
                // An element with its hash where it most likely has no place.
                ids[bucket] ^= any;
                hashes[bucket] ^= quick::crc(any);
                counts[bucket] -= 1;
            }
            _ => {
                ids[bucket] ^= random.next();
                hashes[bucket] ^= random.word();
                counts[bucket] -= random.pick(&[0, 1, 2, MOST_COUNT / 2]);
            }
        }
    }
}

/// Keys at one, two or three of their places, on either side, some with garbage beside them.
fn lone_keys(tally: &mut Tally) {
    let mut random = tally.subject("lone keys", 0x60);
    let random = &mut random;
    let (mut refused, mut repeated) = (0, 0);
    for _ in 0..14_000 {
        let mut plan = Plan::any(random);
        for _ in 0..random.pick(&[1, 1, 2, 3, 6, 20]) {
            let held = random.once_in(2);
            let key = plan.key(random, held);
            let sign = match plan.held.len() {
                0..=12 => random.pick(&[-1, -1, -1, -1, 1]),
                _ => random.pick(&[-1, 1]),
            };
            let count = sign * random.pick(&[1, 1, 1, 1, 1, 2, 3]);
            let places = quick::places(key, plan.difference.size());
            let which = random.between(1, 7);
            for (i, place) in places.into_iter().enumerate() {
                if which >> i & 1 == 1 {
                    plan.difference.put_at(place, key, count);
                }
            }
        }
        for _ in 0..random.pick(&[0, 0, 1, 3, 8]) {
            plan.spoil(random);
        }
        // Most of those that cannot be sent are turned about.
        if !plan.can_be_sent() && !random.once_in(5) {
            for count in &mut plan.difference.counts {
                *count = -count.abs();
            }
        }
        let end = plan.compare(tally, random);
        refused += u64::from(end.is_none());
        repeated += u64::from(end == Some(End::Repeated));
    }
    assert!((100..2_000).contains(&refused), "{refused}");
    assert!(repeated > 3_000, "{repeated}");
}

/// Whole keys on the side that the table speaks against, among honest ones; the columns become
/// zero, or something remains and the wrong listing stays.
fn contradictions(tally: &mut Tally) {
    let mut random = tally.subject("contradictions", 0x61);
    let random = &mut random;
    let mut ends = [0; 5];
    for _ in 0..12_000 {
        let mut plan = Plan::any(random);
        let wrong = random.pick(&[0, 1, 1, 1, 2, 5]);
        let most = random.pick(&[8, 8, u64::from(plan.difference.size()) * 3 / 5]);
        let mut planted = Vec::new();
        // Both sides alike, or most on one.
        let sides = random.pick(&[[true, false, true, false], [true; 4], [false; 4]]);
        for i in 0..wrong + random.below(most) {
            let ours = random.pick(&sides) != random.once_in(16);
            let key = plan.key(random, ours == (i >= wrong));
            if !planted.contains(&key) {
                plan.difference.put(key, if ours { 1 } else { -1 });
                planted.push(key);
            }
        }
        for _ in 0..random.pick(&[0, 0, 1, 2]) {
            plan.spoil(random);
        }
        if let Some(end) = plan.compare(tally, random) {
            ends[end as usize] += 1;
        }
    }
    assert!(ends[End::Contradicted as usize] > 2_000, "{ends:?}");
    assert!(ends[End::Complete as usize] > 500, "{ends:?}");
    assert!(ends[End::Stuck as usize] > 2_000, "{ends:?}");
}

/// Columns of anything: full, or bucket by bucket nothing, a lone element, or anything.
fn random_columns(tally: &mut Tally) {
    let mut random = tally.subject("random columns", 0x62);
    let random = &mut random;
    let mut ends = [0; 5];
    for i in 0..8_000 {
        let n = random.pick(&[0, 0, 1, 3, 40]);
        let table = some_table(random, n);
        let (size, salt) = (some_size(random, 80), some_salt(random));
        let mut received = Filter::empty(size);
        for bucket in 0..size {
            let at = bucket as usize;
            let mut key = random.next();
            match random.below(i % 6 + 1) {
                0 => {
                    received.ids[at] = key;
                    received.hashes[at] = random.word();
                    received.counts[at] = random.pick(&[0, 1, 2, MOST_COUNT]);
                }
                1 => received.put_at(bucket, key, 1),
                2 => {
                    // An element that has a place here.
                    while !quick::places(key, size).contains(&bucket) {
                        key = random.next();
                    }
                    received.put_at(bucket, key, 1);
                }
                _ => {}
            }
        }
        let call = Call::of_filter(random, &table, &received, salt);
        if let (_, Some(end)) = call.compare(tally) {
            ends[end as usize] += 1;
        }
    }
    assert!(ends[End::Stuck as usize] > 1_000, "{ends:?}");
    assert!(ends[End::Repeated as usize] > 1_000, "{ends:?}");
}
