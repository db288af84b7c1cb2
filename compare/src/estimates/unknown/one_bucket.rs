//! Equal estimators, and those that are equal but for one bucket or one element: 0 is said of the
//! first alone.

use super::{one, pair_of, sort_of, Met, KNOWN, LISTED, UNKNOWN, ZERO};
use crate::estimates::{id_in, ids_in};
use crate::estimator::{Estimate, Estimator, Outcome, BUCKETS, STRATA};
use crate::filters::{End, Filter, MOST_COUNT};
use crate::quick;
use crate::random::Random;
use crate::Tally;

const COLUMNS: [&str; 3] = ["IDSUM", "HASHSUM", "COUNT"];

/// What both hold: nothing, elements, or anything, in one stratum or in all.
const HELD: [fn(&mut Random, usize) -> Estimator; 7] = [
    |_, _| Estimator::empty(),
    |random, i| Estimator::of(&[id_in(random, i)]),
    |random, i| Estimator::of(&ids_in(random, i, 3)),
    |random, i| Estimator::of(&ids_in(random, i, 100)),
    |random, _| {
        let strata = (0..STRATA).flat_map(|stratum| ids_in(random, stratum, 2));
        Estimator::of(&strata.collect::<Vec<u64>>())
    },
    |random, i| {
        let mut estimator = Estimator::empty();
        estimator.strata[i] = anything(random);
        estimator
    },
    |random, _| Estimator {
        strata: (0..STRATA).map(|_| anything(random)).collect(),
    },
];

fn anything(random: &mut Random) -> Filter {
    Filter {
        ids: random.numbers(BUCKETS as usize),
        hashes: random.words(BUCKETS as usize),
        counts: (0..BUCKETS)
            .map(|_| random.pick(&[0, 1, 2, 77, MOST_COUNT]))
            .collect(),
    }
}

pub fn equal(tally: &mut Tally) {
    let mut random = tally.subject("estimates, equal estimators", 0xAB);
    let random = &mut random;
    let mut met = Met::default();
    for i in 0..STRATA {
        for held in HELD {
            let held = held(random, i);
            let answer = one(tally, random, &[held.clone(), held]);
            assert!(answer == (Estimate::Known(0), Outcome::Complete));
            met.count(sort_of(answer), i);
        }
    }
    met.must_have(&[ZERO], 0..STRATA, 7);
}

/// Makes one bucket of one column another.
fn change(random: &mut Random, stratum: &mut Filter, column: &str, bucket: usize) {
    match column {
        "IDSUM" => {
            let (bit, any) = (1 << random.below(64), random.next() | 1);
            stratum.ids[bucket] ^= random.pick(&[bit, any]);
        }
        "HASHSUM" => {
            let (bit, any) = (1 << random.below(32), random.word() | 1);
            stratum.hashes[bucket] ^= random.pick(&[bit, any]);
        }
        _ => {
            let count = stratum.counts[bucket];
            let any = random.below(MOST_COUNT as u64 + 1) as i64;
            let mut others = vec![count + 1, count - 1, count + 2, any, MOST_COUNT, 0];
            others.retain(|other| (0..=MOST_COUNT).contains(other) && *other != count);
            stratum.counts[bucket] = random.pick(&others);
        }
    }
}

/// The first bucket, the last, and a third of the others: each is met with many strata.
fn buckets(stratum: usize) -> impl Iterator<Item = usize> + Clone {
    let last = BUCKETS as usize - 1;
    (0..=last)
        .filter(move |bucket| [0, last].contains(bucket) || (bucket + stratum).is_multiple_of(3))
}

/// In each stratum, in each column: the stratum is stuck, and is never passed over.
pub fn one_bucket(tally: &mut Tally) {
    let mut random = tally.subject("estimates, one bucket differs", 0xAC);
    let random = &mut random;
    let places = (0..STRATA).flat_map(|i| buckets(i).map(move |bucket| (i, bucket)));
    for column in COLUMNS {
        let mut met = Met::default();
        for (i, bucket) in places.clone() {
            let held = random.pick(&HELD)(random, i);
            let mut pair = [held.clone(), held];
            let side = random.below(2) as usize;
            change(random, &mut pair[side].strata[i], column, bucket);
            let answer = one(tally, random, &pair);
            assert!(answer == (Estimate::Unknown, Outcome::Failing(i, End::Stuck)));
            met.count(sort_of(answer), i);
        }
        met.must_have(&UNKNOWN[..1], 0..STRATA, 26);
        one_above(tally, random, column);
    }
}

/// Likewise with one element in a stratum above.
fn one_above(tally: &mut Tally, random: &mut Random, column: &str) {
    let mut met = Met::default();
    for i in 0..STRATA - 1 {
        for above in [i + 1, STRATA - 1] {
            let mut pair = [Estimator::empty(), Estimator::empty()];
            let bucket = random.below(BUCKETS.into()) as usize;
            change(random, &mut pair[0].strata[i], column, bucket);
            let key = id_in(random, above);
            pair[random.below(2) as usize].strata[above].put(key, 1);
            let answer = one(tally, random, &pair);
            assert!(answer.0 == Estimate::Known(2 << i));
            met.count(sort_of(answer), i);
        }
    }
    met.must_have(&KNOWN[..1], 0..STRATA - 1, 2);
}

/// A number whose CRC-32 is 0: its bits are chosen from the lowest 32, each of which changes the
/// CRC-32 in its own way.
fn without_hash(random: &mut Random) -> u64 {
    let mut key = random.next() >> 32 << 32;
    let mut changes: Vec<(u64, u32)> = (0..32)
        .map(|bit| (1 << bit, quick::crc(1 << bit) ^ quick::crc(0)))
        .collect();
    for bit in (0..32).rev() {
        let is_set = |crc: u32| crc >> bit & 1 == 1;
        let at = changes.iter().position(|&(_, crc)| is_set(crc));
        let (bits, crc) = changes.swap_remove(at.expect("they are independent"));
        for other in changes.iter_mut().filter(|(_, other)| is_set(*other)) {
            *other = (other.0 ^ bits, other.1 ^ crc);
        }
        if is_set(quick::crc(key)) {
            key ^= bits;
        }
    }
    assert!(quick::crc(key) == 0);
    key
}

/// One element differs: one whose ID is 0, so that no IDSUM does; one whose CRC-32 is 0, so that no
/// HASHSUM does; or any other. It is whole, or stands at one or two of its places.
pub fn one_element(tally: &mut Tally) {
    let mut random = tally.subject("estimates, one element differs", 0xAD);
    let random = &mut random;
    let mut met = Met::default();
    for i in 0..STRATA {
        for n in 0..24 {
            let key = match n % 3 {
                0 => 0,
                1 => without_hash(random),
                _ => id_in(random, i),
            };
            let (at, sign) = (1 + n / 3 % 3, random.pick(&[1, -1]));
            let mut difference = Estimator::empty();
            for &place in &quick::places(key, BUCKETS)[..at] {
                difference.strata[i].put_at(place, key, sign);
            }
            let pair = pair_of(random, &difference);
            let answer = one(tally, random, &pair);
            let wanted = match at {
                3 => (Estimate::Known(1), Outcome::Complete),
                _ => (Estimate::Unknown, Outcome::Failing(i, End::Repeated)),
            };
            assert!(answer == wanted);
            met.count(sort_of(answer), i);
        }
    }
    met.must_have(&[LISTED, UNKNOWN[1]], 0..STRATA, 6);
}
