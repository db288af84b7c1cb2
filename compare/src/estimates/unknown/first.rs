//! Every stratum as the first that is not complete, in every way, with every sort of thing above it
//! and below.

use super::failing::{Kind, KINDS};
use super::{one, pair_of, sort_of, Met, KNOWN, LISTED, UNKNOWN};
use crate::estimates::malicious::some_key;
use crate::estimator::{Estimate, Estimator, Outcome, BUCKETS, STRATA};
use crate::filters::{self, End, Filter};
use crate::random::Random;
use crate::Tally;

const HIGHEST: usize = STRATA - 1;

/// The elements above a stratum: for each its own stratum and its side.
type Above = Vec<(usize, i64)>;

/// What is above stratum i, which is not the highest.
const ABOVE: [fn(&mut Random, usize) -> Above; 13] = [
    // One, next above or in the highest; one of each side; in two strata.
    |_, i| vec![(i + 1, 1)],
    |_, i| vec![(i + 1, -1)],
    |_, _| vec![(HIGHEST, 1)],
    |_, _| vec![(HIGHEST, -1)],
    |_, i| vec![(i + 1, 1), (i + 1, -1)],
    |_, i| vec![(i + 1, 1), (HIGHEST, -1)],
    |_, i| vec![(i + 1, -1), (HIGHEST, 1)],
    // One in every stratum.
    |_, i| (i + 1..STRATA).map(|above| (above, 1)).collect(),
    |_, i| (i + 1..STRATA).map(|above| (above, -1)).collect(),
    // Several anywhere.
    |random, i| several(random, i, &[1]),
    |random, i| several(random, i, &[-1]),
    |random, i| several(random, i, &[1, -1]),
    // So many, where they are few enough, that the estimate is 2^32.
    |_, i| vec![(HIGHEST, 1); 1 << (HIGHEST - i.max(26))],
];

fn several(random: &mut Random, i: usize, signs: &[i64]) -> Above {
    let n = random.between(2, 24);
    let any = |random: &mut Random| random.between(i as u64 + 1, HIGHEST as u64) as usize;
    (0..n).map(|_| (any(random), random.pick(signs))).collect()
}

/// Puts something below a stratum that is not complete, given that one.
type Below = fn(&mut Random, &mut [Filter], &Filter);

const BELOW: [Below; 8] = [
    // Nothing.
    |_, _, _| {},
    // One element, next below or in the lowest; a few in each.
    |random, below, _| put(random, below.last_mut(), 1),
    |random, below, _| put(random, below.first_mut(), 1),
    |random, below, _| {
        for stratum in below {
            put(random, Some(stratum), 3);
        }
    },
    // Others that fail: the next stuck or false, each in the same way, each in any way.
    |random, below, _| fail(random, below.last_mut(), |end| end == End::Stuck),
    |random, below, _| fail(random, below.last_mut(), |end| end != End::Stuck),
    |_, below, failing| below.fill(failing.clone()),
    |random, below, _| {
        for stratum in below {
            fail(random, Some(stratum), |_| true);
        }
    },
];

fn put(random: &mut Random, stratum: Option<&mut Filter>, n: usize) {
    if let Some(stratum) = stratum {
        for _ in 0..n {
            stratum.put(some_key(random), random.pick(&[1, -1]));
        }
    }
}

fn fail(random: &mut Random, stratum: Option<&mut Filter>, wanted: fn(End) -> bool) {
    if let Some(stratum) = stratum {
        let kinds: Vec<&Kind> = KINDS.iter().filter(|kind| wanted(kind.end)).collect();
        *stratum = random.pick(&kinds).some(random);
    }
}

/// An estimator in which these are listed, as strata that are complete.
fn listing(random: &mut Random, elements: &[(usize, i64)]) -> Estimator {
    loop {
        let mut difference = Estimator::empty();
        for &(stratum, sign) in elements {
            difference.strata[stratum].put(some_key(random), sign);
        }
        let mut listed = 0;
        let mut strata = difference.strata.iter();
        let are_complete = strata.all(|stratum| {
            let (end, list) = filters::peel_by(&mut stratum.clone(), 0, BUCKETS as usize, false);
            listed += list.len();
            end == End::Complete
        });
        if are_complete && listed == elements.len() {
            return difference;
        }
    }
}

pub fn compare(tally: &mut Tally) {
    let mut random = tally.subject("estimates, first stratum that fails", 0xAA);
    let mut met = Met::default();
    for i in 0..STRATA {
        for (k, kind) in KINDS.iter().enumerate() {
            for below in BELOW {
                case(tally, &mut random, &mut met, (i, kind), (&[], below));
            }
            let sorts = if i == HIGHEST { &[][..] } else { &ABOVE };
            // Every other one, in turn.
            for above in sorts.iter().skip((i + k) % 2).step_by(2) {
                let (above, below) = (above(&mut random, i), random.pick(&BELOW));
                case(tally, &mut random, &mut met, (i, kind), (&above, below));
            }
        }
        none_fails(tally, &mut random, &mut met, i);
    }
    met.must_have(&UNKNOWN[..2], 0..STRATA, 40);
    met.must_have(&KNOWN[..2], 0..HIGHEST, 35);
    met.must_have(&UNKNOWN[2..], 0..STRATA, 8);
    met.must_have(&KNOWN[2..], 0..HIGHEST, 6);
    met.must_have(&[LISTED], 0..STRATA, 8);
}

/// Stratum i fails in this way, with these above and such things below.
fn case(
    tally: &mut Tally,
    random: &mut Random,
    met: &mut Met,
    (i, kind): (usize, &Kind),
    (above, below): (&[(usize, i64)], Below),
) {
    let mut difference = listing(random, above);
    let failing = kind.some(random);
    below(random, &mut difference.strata[..i], &failing);
    difference.strata[i] = failing;
    let pair = pair_of(random, &difference);
    let answer = one(tally, random, &pair);
    let wanted = match above.len() as u64 {
        0 => Estimate::Unknown,
        total => Estimate::Known(total * 2u64.pow(i as u32 + 1)),
    };
    assert!(answer == (wanted, Outcome::Failing(i, kind.end)));
    met.count(sort_of(answer), i);
}

/// All strata are complete, and this one lists something: by itself, or others too.
fn none_fails(tally: &mut Tally, random: &mut Random, met: &mut Met, i: usize) {
    let mut all: Vec<Above> = vec![vec![(i, 1)], vec![(i, -1)], vec![(i, 1), (i, -1)]];
    all.push((0..STRATA).map(|stratum| (stratum, 1)).collect());
    for above in ABOVE {
        all.push(above(random, i.min(HIGHEST - 1)));
    }
    for elements in all {
        let difference = listing(random, &elements);
        let pair = pair_of(random, &difference);
        let answer = one(tally, random, &pair);
        let wanted = Estimate::Known(elements.len() as u64);
        assert!(answer == (wanted, Outcome::Complete));
        met.count(sort_of(answer), i);
    }
}
