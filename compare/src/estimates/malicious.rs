//! Comparisons of estimates from columns that no set makes: the difference is planted.

use super::{estimate, estimate_of, id_in, ids_in, with_difference, Whole};
use crate::estimator::{Estimate, Estimator, Outcome, BUCKETS, PLACES, STRATA};
use crate::filters::{End, Filter, MOST_COUNT};
use crate::quick;
use crate::random::Random;
use crate::sets::some_ids;
use crate::Tally;

pub fn compare(tally: &mut Tally) {
    lone_keys(tally);
    everywhere(tally);
    large_counts(tally);
    damaged(tally);
    random_columns(tally);
}

/// A key of any stratum, as no stratum asks for its own.
pub fn some_key(random: &mut Random) -> u64 {
    let stratum = random.below(STRATA as u64) as usize;
    match random.below(3) {
        0 => random.next(),
        _ => id_in(random, stratum),
    }
}

/// Puts a few whole keys in every stratum, on either side. Most such strata are complete.
pub fn plant_a_few(random: &mut Random, difference: &mut Estimator) {
    let most = random.pick(&[1, 2, 6, 25]);
    for stratum in &mut difference.strata {
        for _ in 0..random.below(most) {
            stratum.put(some_key(random), random.pick(&[1, -1]));
        }
    }
}

/// Plants something in a bucket that most likely does not look pure there.
fn spoil(random: &mut Random, stratum: &mut Filter) {
    let bucket = random.below(BUCKETS.into());
    let at = bucket as usize;
    match random.below(6) {
        0 => stratum.ids[at] ^= 1 << random.below(64),
        1 => stratum.hashes[at] ^= 1 << random.below(32),
        2 => stratum.counts[at] += random.pick(&[-2, -1, 1, 2]),
        3 => stratum.ids[at] ^= random.next(),
        4 => stratum.hashes[at] ^= random.word(),
        // An element with its hash where it most likely has no place.
        _ => stratum.put_at(bucket as u32, random.next(), random.pick(&[1, -1])),
    }
}

/// A key at one or two of its places comes again: the stratum is false. Some have garbage beside.
fn lone_keys(tally: &mut Tally) {
    let mut random = tally.subject("estimates, lone keys", 0xA4);
    let random = &mut random;
    let mut repeated = 0;
    for i in 0..35 * STRATA {
        let mut difference = Estimator::empty();
        if i % 4 != 0 {
            plant_a_few(random, &mut difference);
        }
        let alone = i % STRATA;
        let some = random.below(alone as u64 + 1) as usize;
        for at in [alone, some] {
            let (key, sign) = (some_key(random), random.pick(&[1, -1]));
            let which = random.between(1, 6);
            for (j, place) in quick::places(key, BUCKETS).into_iter().enumerate() {
                if which >> j & 1 == 1 {
                    difference.strata[at].put_at(place, key, sign);
                }
            }
        }
        for _ in 0..random.pick(&[0, 0, 1, 2]) {
            spoil(random, &mut difference.strata[alone]);
        }
        let (_, outcome) = estimate_of(tally, random, &difference);
        repeated += u64::from(matches!(outcome, Outcome::Failing(_, End::Repeated)));
    }
    assert!(repeated > 500, "{repeated}");
}

/// One key, whole, in several strata or in all: each stratum's reading knows its own list alone.
fn everywhere(tally: &mut Tally) {
    let mut random = tally.subject("estimates, keys in many strata", 0xA5);
    let random = &mut random;
    let mut one = |tally: &mut Tally, strata: &[usize], wrong: Option<usize>| {
        let mut difference = Estimator::empty();
        let key = some_key(random);
        for &i in strata {
            difference.strata[i].put(key, random.pick(&[1, -1]));
        }
        // The same key once more where it is not whole.
        if let Some(i) = wrong {
            let place = random.pick(&quick::places(key, BUCKETS));
            difference.strata[i].put_at(place, key, random.pick(&[1, -1, 2]));
        }
        let (answer, outcome) = estimate_of(tally, random, &difference);
        if wrong.is_none() {
            let listed = strata.len() as u64;
            assert!((answer, outcome) == (Estimate::Known(listed), Outcome::Complete));
        }
    };
    let all: Vec<usize> = (0..STRATA).collect();
    one(tally, &[], None);
    one(tally, &all, None);
    for i in 0..STRATA {
        one(tally, &[i], None);
        one(tally, &all[i..], None);
        one(tally, &all[..i], None);
        one(tally, &all, Some(i));
        one(tally, &all[i + 1..], Some(i));
        one(tally, &[31, 30], Some(i));
        for j in 0..i {
            one(tally, &[i, j], None);
        }
    }
}

/// Counts at the ends of their range: a whole key that counts as many is never pure, and counts
/// may differ where nothing else does.
fn large_counts(tally: &mut Tally) {
    let mut random = tally.subject("estimates, large counts", 0xA6);
    let random = &mut random;
    for i in 0..10 * STRATA {
        let mut difference = Estimator::empty();
        plant_a_few(random, &mut difference);
        let stratum = &mut difference.strata[i % STRATA];
        *stratum = Filter::empty(BUCKETS);
        let most = [
            MOST_COUNT,
            MOST_COUNT - 1,
            1 << 31,
            (1 << 31) + 1,
            65537,
            257,
        ];
        let count = random.pick(&most) * random.pick(&[1, -1]);
        match i / STRATA % 2 {
            0 => stratum.put(some_key(random), count),
            _ => stratum.counts[random.below(BUCKETS.into()) as usize] = count,
        }
        estimate_of(tally, random, &difference);
    }
}

/// Honest estimators of which one is damaged in one place.
fn damaged(tally: &mut Tally) {
    let mut random = tally.subject("estimates, damaged", 0xA7);
    let random = &mut random;
    for i in 0..1_200 {
        let ids = match i % 3 {
            0 => some_ids(random, 60),
            _ => {
                let each = random.pick(&[1, 3, 8]);
                let strata = (0..STRATA).flat_map(|stratum| ids_in(random, stratum, each));
                strata.collect()
            }
        };
        let some = random.below(ids.len() as u64) as usize;
        let mut pair = [&ids[some..], &ids[..]].map(|ids| Whole::of(random, &Estimator::of(ids)));
        let columns = pair[random.below(2) as usize].lent();
        let place = random.below(PLACES as u64) as usize;
        match random.below(6) {
            0 => columns.ids[place] ^= 1 << random.below(64),
            1 => columns.hashes[place] ^= 1 << random.below(32),
            2 => columns.counts[place] += 1,
            3 => columns.counts[place] = random.pick(&[0, 1, 2, MOST_COUNT]),
            4 => columns.ids[place] = random.next(),
            _ => {
                columns.ids[place] = 0;
                columns.hashes[place] = 0;
                columns.counts[place] = 0;
            }
        }
        assert!(estimate(tally, &pair[0], &pair[1]).is_ok());
    }
}

/// Columns of anything: full, or bucket by bucket nothing, a lone element, or anything; all strata,
/// or only those from one on downwards.
fn random_columns(tally: &mut Tally) {
    let mut random = tally.subject("estimates, random columns", 0xA8);
    let random = &mut random;
    for i in 0..900 {
        let mut pair = [Estimator::empty(), Estimator::empty()];
        let highest = match i % 3 {
            0 => 31,
            _ => random.below(STRATA as u64) as usize,
        };
        let full = random.between(1, 8);
        for stratum in pair.iter_mut().flat_map(|one| &mut one.strata[..=highest]) {
            for bucket in 0..BUCKETS {
                let mut key = random.next();
                match random.below(full) {
                    0 => {
                        stratum.ids[bucket as usize] = key;
                        stratum.hashes[bucket as usize] = random.word();
                        stratum.counts[bucket as usize] = random.pick(&[0, 1, 2, MOST_COUNT]);
                    }
                    1 => stratum.put_at(bucket, key, 1),
                    2 => {
                        // An element that has a place here.
                        while !quick::places(key, BUCKETS).contains(&bucket) {
                            key = random.next();
                        }
                        stratum.put_at(bucket, key, 1);
                    }
                    _ => {}
                }
            }
        }
        if i % 2 == 0 {
            // A difference that is read, above what is not.
            let mut few = Estimator::empty();
            plant_a_few(random, &mut few);
            let few = with_difference(random, &few);
            for (one, few) in pair.iter_mut().zip(&few) {
                one.strata[highest + 1..].clone_from_slice(&few.strata[highest + 1..]);
            }
        }
        let [first, second] = pair.map(|one| Whole::of(random, &one));
        assert!(estimate(tally, &first, &second).is_ok());
    }
}
