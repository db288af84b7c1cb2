//! Comparisons of readings that chance hardly brings: elements chosen by their places, so that count
//! and hash mislead, or an element comes back late.

use crate::chains::long_chains;
use crate::filters::{self, End, Filter};
use crate::malicious::Plan;
use crate::pool::{ascending, Pool};
use crate::quick;
use crate::random::Random;
use crate::Tally;

pub fn compare(tally: &mut Tally) {
    let mut random = tally.subject("chosen places", 0x70);
    let mut pools = Vec::new();
    for (size, keys) in [(37, 60_000), (38, 60_000), (45, 100_000), (64, 300_000)] {
        pools.push(Pool::new(&mut random, size, keys));
    }
    for pool in &pools {
        same_places(tally, &mut random, pool);
        two_and_one(tally, &mut random, pool);
    }
    let mut random = tally.subject("elements that come back", 0x71);
    for pool in &pools {
        come_back(tally, &mut random, pool);
    }
    let pool = Pool::new(&mut random, 250, 250_000);
    come_back_late(tally, &mut random, &pool);
    let mut random = tally.subject("long chains", 0x72);
    for pool in &pools {
        long_chains(tally, &mut random, pool);
    }
}

/// One of ours and one of theirs, or two of a side, in the same three places: nothing is pure,
/// and count 0 is not empty.
fn same_places(tally: &mut Tally, random: &mut Random, pool: &Pool) {
    for i in 0..400 {
        let two = pool.alike(random, 2);
        let n = random.pick(&[0, 1, 30]);
        let mut plan = match i % 3 {
            0 => pool.plan(random, &two[..1], n),
            1 => pool.plan(random, &[], n),
            _ => pool.plan(random, &two, n),
        };
        for &key in &two {
            let ours = plan.held.contains(&key);
            plan.difference.put(key, if ours { 1 } else { -1 });
        }
        // Others beside them, so that some is listed.
        for _ in 0..random.pick(&[0, 0, 1, 4]) {
            let key = plan.key(random, false);
            plan.difference.put(key, -1);
        }
        let end = plan.compare(tally, random);
        assert!(end.is_some());
    }
}

/// Two of one side and one of the other in one bucket: count and hash fit, and the place decides.
fn two_and_one(tally: &mut Tally, random: &mut Random, pool: &Pool) {
    let mut ends = [0; 5];
    for i in 0..900 {
        let keys = match i % 3 {
            0 => pool.alike(random, 3),
            1 => {
                // They share two places.
                let [a, b, _] = ascending(random.pick(&pool.keys), pool.size);
                vec![[a, b]; 3]
                    .into_iter()
                    .map(|two| pool.with_two(random, two).0)
                    .collect()
            }
            _ => {
                // They share one, and it is a place of the element that they look like.
                let mut keys;
                loop {
                    keys = [0; 3].map(|_| random.pick(&pool.keys));
                    let look = quick::places(keys[0] ^ keys[1] ^ keys[2], pool.size);
                    let [a, b, c] = keys.map(|key| quick::places(key, pool.size));
                    let shared =
                        |place| a.contains(place) && b.contains(place) && c.contains(place);
                    if look.iter().any(shared) {
                        break;
                    }
                }
                keys.to_vec()
            }
        };
        if keys[0] == keys[1] || keys[1] == keys[2] || keys[0] == keys[2] {
            continue;
        }
        let ours = if random.once_in(2) { 2 } else { 1 };
        let n = random.pick(&[0, 3, 100]);
        let mut plan = pool.plan(random, &keys[..ours], n);
        for (j, &key) in keys.iter().enumerate() {
            plan.difference.put(key, if j < ours { 1 } else { -1 });
        }
        if random.once_in(3) {
            plan.spoil(random);
        }
        if let Some(end) = plan.compare(tally, random) {
            ends[end as usize] += 1;
        }
    }
    assert!(ends[End::Stuck as usize] > 100, "{ends:?}");
}

/// An element is listed, others follow, and only then it would be listed again: on the other side or
/// on the same. Whoever overlooks that is left stuck.
fn come_back(tally: &mut Tally, random: &mut Random, pool: &Pool) {
    let mut repeated = 0;
    for i in 0..500 {
        let (n, signs): (_, &[i64]) = match i % 3 {
            0 => (0, &[-1]),
            _ => (200, &[1, -1]),
        };
        let mut plan = Plan::new(random, pool.size, n);
        plan.difference = match i % 2 {
            0 => on_the_other_side(random, pool, signs),
            _ => on_the_same_side(random, pool, signs),
        };
        let end = plan.compare(tally, random);
        repeated += u64::from(end == Some(End::Repeated));
    }
    assert!(repeated > 350, "{repeated} at size {}", pool.size);
}

/// The same with so many honest elements beside that the list is long before it comes to that.
fn come_back_late(tally: &mut Tally, random: &mut Random, pool: &Pool) {
    let mut tried = 0;
    for i in 0..200 {
        let found = (0..300).find_map(|_| {
            let mut plan = Plan::new(random, pool.size, 0);
            plan.difference = match i % 2 {
                0 => on_the_other_side(random, pool, &[-1]),
                _ => on_the_same_side(random, pool, &[-1]),
            };
            for _ in 0..random.between(90, 190) {
                plan.difference.put(random.next(), -1);
            }
            let overlooked = |repeats| {
                let mut difference = plan.difference.clone();
                filters::peel_by(&mut difference, 0, 250, repeats)
            };
            let (end, listed) = overlooked(false);
            let late = end == End::Repeated && listed.len() > 70;
            (late && overlooked(true).0 == End::Stuck).then_some(plan)
        });
        if let Some(plan) = found {
            assert!(plan.compare(tally, random) == Some(End::Repeated));
            tried += 1;
        }
    }
    assert!(tried > 150, "{tried}");
}

fn spoil_at(random: &mut Random, difference: &mut Filter, place: u32) {
    difference.ids[place as usize] ^= random.next();
    difference.hashes[place as usize] ^= random.word();
}

/// K stands alone at p and is listed first; what is left of it at q stays hidden behind V until
/// X, which lies higher, is out and has freed V, which lies lower. X and V then spoil p.
pub fn on_the_other_side(random: &mut Random, pool: &Pool, signs: &[i64]) -> Filter {
    loop {
        let x = random.pick(&pool.keys);
        let [low, p, high] = ascending(x, pool.size);
        let (v, q) = pool.with_two(random, [low, p]);
        if q < p || q == high {
            continue;
        }
        let (k, third) = pool.with_two(random, [p, q]);
        if third == low || third == high {
            continue;
        }
        let mut difference = Filter::empty(pool.size);
        let [k_sign, v_sign, x_sign] = [0; 3].map(|_| random.pick(signs));
        difference.put_at(p, k, k_sign);
        difference.put_at(q, v, v_sign);
        difference.put_at(high, x, x_sign);
        difference.put_at(low, x, x_sign);
        difference.put_at(low, v, v_sign);
        spoil_at(random, &mut difference, third);
        return difference;
    }
}

/// K stands alone at p and twice, behind W, at the lower q: W, which lies higher, bares it.
pub fn on_the_same_side(random: &mut Random, pool: &Pool, signs: &[i64]) -> Filter {
    loop {
        let w = random.pick(&pool.keys);
        let [q, p, high] = ascending(w, pool.size);
        let (k, third) = pool.with_two(random, [p, q]);
        if third == high {
            continue;
        }
        let mut difference = Filter::empty(pool.size);
        let sign = random.pick(signs);
        difference.put_at(p, k, sign);
        difference.put_at(q, w, sign);
        difference.counts[q as usize] += 2 * sign;
        difference.put_at(high, w, sign);
        spoil_at(random, &mut difference, third);
        return difference;
    }
}
