//! Comparisons of estimates with strata that chance hardly brings: as many peels as can be, one
//! more than may be, and elements that come back late.

use super::estimate_of;
use super::malicious::plant_a_few;
use crate::chains::{chain, is_long};
use crate::crafted::{on_the_other_side, on_the_same_side};
use crate::estimator::{Estimate, Estimator, Outcome, BUCKETS, STRATA};
use crate::filters::{self, End, Filter};
use crate::pool::{ascending, Pool};
use crate::quick;
use crate::random::Random;
use crate::Tally;

pub fn compare(tally: &mut Tally) {
    let mut random = tally.subject("estimates, chosen places", 0xA9);
    let pool = Pool::new(&mut random, BUCKETS, 400_000);
    // The one choice of places below for which there is no other.
    assert!(!pool.with_three([0, 1, 2]).is_empty(), "take another seed");
    full_strata(tally, &mut random, &pool);
    overfull_strata(tally, &mut random, &pool);
    come_back(tally, &mut random, &pool);
    long_chains(tally, &mut random, &pool);
}

/// A complete filter of 77 elements, the most where all are of one side: each takes one bucket that
/// those before it left free, but the first takes three.
fn full(random: &mut Random, pool: &Pool) -> Filter {
    let mut order: Vec<u32> = (0..BUCKETS).collect();
    for i in (1..order.len()).rev() {
        order.swap(i, random.below(i as u64 + 1) as usize);
    }
    // The first three are some element's.
    let first = quick::places(random.pick(&pool.keys), BUCKETS);
    order.sort_by_key(|bucket| !first.contains(bucket));
    let sign = random.pick(&[1, -1]);
    let mut filter = Filter::empty(BUCKETS);
    for i in 2..order.len() {
        let keys = loop {
            let (a, b) = (random.below(i as u64), random.below(i as u64));
            let three = [order[i], order[a as usize], order[b as usize]];
            let keys = if a == b { &[] } else { pool.with_three(three) };
            if !keys.is_empty() {
                break keys;
            }
        };
        filter.put(random.pick(keys), sign);
    }
    filter
}

/// A filter that would be complete with so many elements more. Each of the 77 frees the next lower
/// bucket for the one before it. For each one more, three of these share a high bucket with what
/// they look like there: it does not show at first, and once the three are out it stands alone.
pub fn overfull(random: &mut Random, pool: &Pool, more: u32) -> Filter {
    let sign = random.pick(&[1, -1]);
    let mut filter = Filter::empty(BUCKETS);
    let mut taken = Vec::new();
    for shared in (BUCKETS - more..BUCKETS).rev() {
        loop {
            let three = [0; 3].map(|_| random.between(40, 74) as u32);
            let [a, b, c] = three;
            let keys = three.map(|bucket| pool.with_three([bucket, bucket - 1, shared]));
            let again = three.iter().any(|bucket| taken.contains(bucket));
            if again || a == b || b == c || a == c || keys.contains(&&[][..]) {
                continue;
            }
            let keys = keys.map(|keys| random.pick(keys));
            let look = keys[0] ^ keys[1] ^ keys[2];
            let [_, low, high] = ascending(look, BUCKETS);
            if high == shared && low < 39 {
                filter.put(keys[0], sign);
                filter.put(keys[1], sign);
                filter.put(keys[2], -sign);
                filter.put(look, -sign);
                taken.extend(three);
                break;
            }
        }
    }
    for bucket in (2..BUCKETS).filter(|bucket| !taken.contains(bucket)) {
        let keys = loop {
            let lower = random.below(u64::from(bucket) - 1) as u32;
            let keys = pool.with_three([bucket, bucket - 1, lower]);
            if !keys.is_empty() {
                break keys;
            }
        };
        filter.put(random.pick(keys), sign);
    }
    filter
}

/// Up to 79 are listed; with 80 the stratum is false, though nothing would remain.
fn overfull_strata(tally: &mut Tally, random: &mut Random, pool: &Pool) {
    for more in 0..=3 {
        for i in 0..STRATA {
            let wanted = (End::Complete, 77 + more as usize);
            let found = (0..100).find_map(|_| {
                let filter = overfull(random, pool, more);
                let (end, listed) = filters::peel_by(&mut filter.clone(), 0, 80, false);
                ((end, listed.len()) == wanted).then_some(filter)
            });
            let mut difference = Estimator::empty();
            difference.strata[i] = found.expect("most are so");
            for stratum in &mut difference.strata[i + 1..] {
                stratum.put(random.next(), 1);
            }
            let above = (STRATA - 1 - i) as u64;
            let wanted = match more {
                3 if above == 0 => (Estimate::Unknown, Outcome::Failing(i, End::TooMany)),
                3 => (
                    Estimate::Known(above << (i + 1)),
                    Outcome::Failing(i, End::TooMany),
                ),
                _ => (
                    Estimate::Known(77 + u64::from(more) + above),
                    Outcome::Complete,
                ),
            };
            assert!(estimate_of(tally, random, &difference) == wanted);
        }
    }
}

/// From one stratum on upwards all are full; the one below may fail.
fn full_strata(tally: &mut Tally, random: &mut Random, pool: &Pool) {
    for i in 0..3 * STRATA {
        let lowest = i % STRATA;
        let mut difference = Estimator::empty();
        for stratum in &mut difference.strata[lowest..] {
            *stratum = full(random, pool);
        }
        let listed = 77 * (STRATA - lowest) as u64;
        let answer = estimate_of(tally, random, &difference);
        assert!(answer == (Estimate::Known(listed), Outcome::Complete));
        if let Some(below) = lowest.checked_sub(1) {
            difference.strata[below].ids[0] = 1;
            let answer = estimate_of(tally, random, &difference);
            let stuck = Outcome::Failing(below, End::Stuck);
            assert!(answer == (Estimate::Known(listed << lowest), stuck));
        }
    }
}

/// This in the stratum, a few elements above and below it.
fn beside_a_few(random: &mut Random, stratum: usize, filter: Filter) -> Estimator {
    let mut difference = Estimator::empty();
    plant_a_few(random, &mut difference);
    difference.strata[stratum] = filter;
    difference
}

/// An element comes again only after others: it is overlooked by whoever minds the last alone.
fn come_back(tally: &mut Tally, random: &mut Random, pool: &Pool) {
    let mut repeated = 0;
    for i in 0..8 * STRATA {
        let stratum = i % STRATA;
        let filter = match i / STRATA % 2 {
            0 => on_the_other_side(random, pool, &[1, -1]),
            _ => on_the_same_side(random, pool, &[1, -1]),
        };
        let difference = beside_a_few(random, stratum, filter);
        let (_, outcome) = estimate_of(tally, random, &difference);
        repeated += u64::from(outcome == Outcome::Failing(stratum, End::Repeated));
    }
    assert!(repeated > 150, "{repeated}");
}

/// As many peels as buckets, and one more.
fn long_chains(tally: &mut Tally, random: &mut Random, pool: &Pool) {
    let mut tried = [0; 2];
    for i in 0..48 {
        let one_more = i % 3 == 0;
        let found = (0..50_000).find_map(|_| {
            let filter = chain(random, pool, &[1, -1])?;
            is_long(&filter, one_more).then_some(filter)
        });
        let wanted = if one_more { End::TooMany } else { End::Stuck };
        if let Some(filter) = found {
            let stratum = random.below(STRATA as u64) as usize;
            let difference = beside_a_few(random, stratum, filter);
            let (_, outcome) = estimate_of(tally, random, &difference);
            tried[usize::from(one_more)] += u64::from(outcome == Outcome::Failing(stratum, wanted));
        }
    }
    assert!(tried[0] > 20 && tried[1] > 8, "{tried:?}");
}
