//! Comparisons of readings with as many peels as buckets, and with one more.

use crate::filters::{self, End, Filter};
use crate::malicious::Plan;
use crate::pool::Pool;
use crate::quick;
use crate::random::Random;
use crate::Tally;

/// As many peels as there are buckets: first the last bucket, each time the next lower one is
/// freed, and what is peeled later spoils some of those above, the highest ones.
pub fn chain(random: &mut Random, pool: &Pool, signs: &[i64]) -> Option<Filter> {
    let last = pool.size - 1;
    let lowest = last - random.between(3, u64::from(last) / 4) as u32;
    let mut difference = Filter::empty(pool.size);
    for bucket in (0..pool.size).rev() {
        let mut above = || random.between(lowest.max(bucket + 1).into(), last.into()) as u32;
        let keys = match bucket {
            0 => pool.with_three([0, above(), above()]),
            _ if bucket == last => &pool.by_two[&[last - 1, last]],
            _ => pool.with_three([bucket, bucket - 1, above()]),
        };
        if keys.is_empty() {
            return None;
        }
        let (key, sign) = (random.pick(keys), random.pick(signs));
        for place in quick::places(key, pool.size) {
            // Those above are out by then.
            if place <= bucket {
                difference.put_at(place, key, sign);
            }
        }
    }
    Some(difference)
}

/// Whether there are as many peels as buckets and then none, or one more that brings an ID not
/// listed yet: whoever makes it is left stuck.
pub fn is_long(difference: &Filter, one_more: bool) -> bool {
    let size = difference.size() as usize;
    let (end, listed) = filters::peel(&mut difference.clone(), &[], 0);
    if listed.len() != size || !one_more {
        return listed.len() == size && end == End::Stuck;
    }
    let (more, _) = filters::peel_by(&mut difference.clone(), 0, size + 1, false);
    end == End::TooMany && more == End::Stuck
}

pub fn long_chains(tally: &mut Tally, random: &mut Random, pool: &Pool) {
    let mut tried = 0;
    for i in 0..240 {
        let (one_more, signs): (bool, &[i64]) = match i % 4 {
            0 => (false, &[-1]),
            1 => (false, &[1]),
            2 => (false, &[1, -1]),
            _ => (true, &[1, -1]),
        };
        let found = (0..50_000).find_map(|_| {
            let difference = chain(random, pool, signs)?;
            if !is_long(&difference, one_more) {
                return None;
            }
            let n = if signs == [-1] { 0 } else { 4 * pool.size };
            let mut plan = Plan::new(random, pool.size, n as usize);
            plan.difference = difference;
            plan.can_be_sent().then_some(plan)
        });
        let wanted = if one_more { End::TooMany } else { End::Stuck };
        if let Some(plan) = found {
            assert!(plan.compare(tally, random) == Some(wanted));
            tried += 1;
        }
    }
    assert!(tried > 230, "{tried} at size {}", pool.size);
}
