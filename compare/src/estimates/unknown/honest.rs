//! Honest pairs of tables, both estimators built by the library: with almost nothing in common, and
//! such that the highest stratum in which anything differs is not complete.

use super::{sort_of, Met, KNOWN, UNKNOWN};
use crate::estimates::honest::{three_alike, two_alike, Sets};
use crate::estimates::ids_in;
use crate::estimator::{Estimate, Outcome, BUCKETS, STRATA};
use crate::filters::{self, End, Filter, MOST_HASHES};
use crate::random::Random;
use crate::sets::some_ids;
use crate::Tally;
use std::collections::HashSet;
use std::sync::OnceLock;

/// Tables of these sizes with so many IDs in common.
fn some_sets(random: &mut Random, ours: usize, theirs: usize, common: usize) -> Sets {
    let mut ids = some_ids(random, ours + theirs + common);
    Sets {
        common: ids.split_off(ours + theirs),
        theirs: ids.split_off(ours),
        ours: ids,
    }
}

/// Random tables, of any size up to the largest.
pub fn little_in_common(tally: &mut Tally) {
    let mut random = tally.subject("estimates, little in common", 0xAE);
    let random = &mut random;
    let mut known = 0;
    for i in 0..560 {
        let most = match i % 14 {
            0 => MOST_HASHES as u64,
            1..4 => 600,
            _ => 80,
        };
        let common = random.pick(&[0, 0, 1, 2, 5]);
        let [ours, theirs] = [0; 2].map(|_| random.between(1, most - common) as usize);
        let sets = some_sets(random, ours, theirs, common as usize);
        let (estimate, _) = sets.compare(tally, random);
        assert!(estimate != Estimate::Known(0));
        known += u64::from(estimate != Estimate::Unknown);
    }
    assert!(known > 500, "{known}");
}

/// How a stratum is read in which these are on one side alone each.
fn end_of(ours: &[u64], theirs: &[u64]) -> End {
    let size = BUCKETS;
    let mut difference = Filter::of(ours, size, 0).less(&Filter::of(theirs, size, 0));
    filters::peel_by(&mut difference, 0, size as usize, false).0
}

/// Random tables of which that happens to hold, which is seldom: found once.
fn failing_by_chance() -> &'static [Sets] {
    static FOUND: OnceLock<Vec<Sets>> = OnceLock::new();
    FOUND.get_or_init(|| {
        let mut random = Random::new(0x1AF);
        let mut found = Vec::new();
        while found.len() < 16 {
            let n = random.pick(&[30, 100, 200]);
            let [ours, theirs] = [0; 2].map(|_| random.numbers(n));
            let zeros = |id: &u64| id.trailing_zeros();
            let highest = ours.iter().chain(&theirs).map(zeros).max();
            let in_highest = |ids: &[u64]| -> Vec<u64> {
                let ids = ids.iter().copied();
                ids.filter(|id| Some(zeros(id)) == highest).collect()
            };
            let (few, others) = (in_highest(&ours), in_highest(&theirs));
            if few.len() + others.len() > 1 && end_of(&few, &others) != End::Complete {
                let common = some_ids(&mut random, 3);
                found.push(Sets {
                    common,
                    ours,
                    theirs,
                });
            }
        }
        found
    })
}

pub fn by_chance(tally: &mut Tally) {
    let mut random = tally.subject("estimates, unknown by chance", 0x1A0);
    for sets in failing_by_chance() {
        let different: HashSet<&u64> = sets.ours.iter().chain(&sets.theirs).collect();
        assert!(different.len() == sets.ours.len() + sets.theirs.len());
        let (estimate, _) = sets.compare(tally, &mut random);
        assert!(estimate == Estimate::Unknown);
    }
}

/// IDs of one stratum, in one table alone each, of which that is not complete: two in the same
/// places, two of a side and one of the other, a crowd, or what small random tables bring.
fn failing(random: &mut Random, stratum: usize, n: usize) -> Sets {
    let (mut ours, mut theirs) = match n {
        0 => (two_alike(random, stratum).to_vec(), vec![]),
        1 => {
            let [a, b] = two_alike(random, stratum);
            (vec![a], vec![b])
        }
        2 | 3 => {
            let [a, b, c] = three_alike(random, stratum);
            (vec![a, b], vec![c])
        }
        4 => (ids_in(random, stratum, 110), vec![]),
        5 => found(random, stratum, End::Stuck),
        _ => found(random, stratum, End::Repeated),
    };
    if random.once_in(2) {
        std::mem::swap(&mut ours, &mut theirs);
    }
    Sets {
        common: vec![],
        ours,
        theirs,
    }
}

/// IDs of one stratum on either side whose reading happens to end so.
fn found(random: &mut Random, stratum: usize, wanted: End) -> (Vec<u64>, Vec<u64>) {
    loop {
        let n = random.pick(&[6, 14, 30]);
        let mut ours = ids_in(random, stratum, n);
        let theirs = ours.split_off(random.between(1, n as u64 - 1) as usize);
        if end_of(&ours, &theirs) == wanted {
            return (ours, theirs);
        }
    }
}

/// What else the two tables hold.
const BESIDE: [fn(&mut Random, usize, &mut Sets); 4] = [
    |_, _, _| {},
    // Only what is common above, anything below.
    |random, i, sets| {
        for stratum in i + 1..STRATA {
            sets.common.extend(ids_in(random, stratum, 2));
        }
        for stratum in 0..i {
            let ids = ids_in(random, stratum, 2);
            sets.deal(random, ids, [1, 1, 1]);
        }
    },
    // Many in the lowest.
    |random, i, sets| {
        if i > 0 {
            let ids = ids_in(random, 0, 1_000);
            sets.deal(random, ids, [0, 1, 1]);
        }
    },
    // One above.
    |random, i, sets| {
        if i + 1 < STRATA {
            let above = random.between(i as u64 + 1, STRATA as u64 - 1);
            let ids = ids_in(random, above as usize, 1);
            sets.deal(random, ids, [0, 1, 1]);
        }
    },
];

pub fn highest_fails(tally: &mut Tally) {
    let mut random = tally.subject("estimates, honest pairs that fail at once", 0x1A1);
    let random = &mut random;
    let mut met = Met::default();
    for i in 0..STRATA {
        for n in 0..8 {
            for (b, beside) in BESIDE.into_iter().enumerate() {
                let mut sets = failing(random, i, n);
                beside(random, i, &mut sets);
                let answer = sets.compare(tally, random);
                let wanted = match b {
                    3 if i + 1 < STRATA => Estimate::Known(2 << i),
                    _ => Estimate::Unknown,
                };
                if matches!(answer.1, Outcome::Failing(at, _) if at == i) {
                    assert!(answer.0 == wanted);
                    met.count(sort_of(answer), i);
                }
            }
        }
    }
    met.must_have(&UNKNOWN[..2], 0..STRATA, 8);
    met.must_have(&KNOWN[..2], 0..STRATA - 1, 3);
}
