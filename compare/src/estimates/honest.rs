//! Comparisons of estimates of honest pairs: both estimators are built by the library.

use super::{build, estimate, id_in, ids_in, Whole};
use crate::estimator::{Estimate, Outcome, BUCKETS, STRATA};
use crate::filters::{End, MOST_HASHES};
use crate::pool::ascending;
use crate::quick;
use crate::random::Random;
use crate::sets::{some_ids, table_of};
use crate::Tally;
use std::collections::{HashMap, HashSet};

pub fn compare(tally: &mut Tally) {
    random_sets(tally);
    crowded(tally);
    same_places(tally);
    two_and_one(tally);
}

/// The IDs in both tables, in the first alone, and in the second alone.
#[derive(Clone, Default)]
pub struct Sets {
    pub common: Vec<u64>,
    pub ours: Vec<u64>,
    pub theirs: Vec<u64>,
}

impl Sets {
    /// Deals different IDs out to the three by these shares; no table gets too many.
    pub fn deal(&mut self, random: &mut Random, ids: Vec<u64>, shares: [u64; 3]) {
        for id in ids {
            let [common, ours, theirs] = shares;
            let set = match random.below(common + ours + theirs) {
                share if share < common => &mut self.common,
                share if share < common + ours => &mut self.ours,
                _ => &mut self.theirs,
            };
            set.push(id);
        }
        let most = MOST_HASHES - self.common.len().min(MOST_HASHES);
        self.common.truncate(MOST_HASHES);
        self.ours.truncate(most);
        self.theirs.truncate(most);
    }

    pub fn compare(&self, tally: &mut Tally, random: &mut Random) -> (Estimate, Outcome) {
        let pair = [&self.ours, &self.theirs].map(|alone| {
            let table = table_of(random, &[&self.common[..], alone].concat());
            let columns = Whole::with_room(random);
            let (refusal, built) = build(tally, &table, columns);
            assert!(refusal == 0);
            built
        });
        let (answer, outcome) = estimate(tally, &pair[0], &pair[1]).expect("not refused");
        // The model's own: what is complete is the true difference.
        if outcome == Outcome::Complete {
            assert!(answer == Estimate::Known((self.ours.len() + self.theirs.len()) as u64));
        }
        (answer, outcome)
    }
}

/// Shares of what is common, ours, theirs: all, one-sided, two-sided, nearly one-sided.
const SHARES: [[u64; 3]; 9] = [
    [1, 0, 0],
    [0, 1, 0],
    [0, 0, 1],
    [0, 1, 1],
    [1, 1, 1],
    [8, 1, 0],
    [8, 0, 1],
    [20, 1, 1],
    [1, 1, 20],
];

/// Any sets: the largest differences crowd strata 0 to 5.
fn random_sets(tally: &mut Tally) {
    let mut random = tally.subject("estimates of honest pairs", 0xA0);
    let random = &mut random;
    let mut complete = 0;
    for i in 0..1_200 {
        let most = random.pick(&[4, 40, 200, 400, 1000, 4096, 8192]);
        let n = match i % 8 {
            0 => random.below(most + 1),
            _ => random.below(most / 8 + 2),
        };
        let mut sets = Sets::default();
        let ids = some_ids(random, n as usize);
        let shares = random.pick(&SHARES);
        sets.deal(random, ids, shares);
        let (_, outcome) = sets.compare(tally, random);
        complete += u64::from(outcome == Outcome::Complete);
    }
    assert!((300..1_100).contains(&complete), "{complete}");
    for shares in SHARES {
        let mut sets = Sets::default();
        let ids = some_ids(random, MOST_HASHES);
        sets.deal(random, ids, shares);
        sets.compare(tally, random);
    }
}

/// One stratum is crowded; those above it are not, and those below may be anything.
fn crowded(tally: &mut Tally) {
    let mut random = tally.subject("estimates, crowded strata", 0xA1);
    let random = &mut random;
    let (mut stuck, mut repeated) = (0, 0);
    for i in 0..40 * STRATA {
        let crowded = i % STRATA;
        let mut sets = Sets::default();
        let above = random.pick(&[0, 1, 3, 12, 40]);
        for stratum in 0..STRATA {
            let n = match stratum {
                _ if stratum > crowded => random.below(above + 1),
                _ if stratum < crowded => random.pick(&[0, 0, 1, 5, 90]),
                _ => random.between(50, 130),
            };
            let ids = ids_in(random, stratum, n as usize);
            let shares = random.pick(&SHARES[1..5]);
            sets.deal(random, ids, shares);
        }
        match sets.compare(tally, random).1 {
            Outcome::Failing(_, End::Stuck) => stuck += 1,
            Outcome::Failing(..) => repeated += 1,
            Outcome::Complete => {}
        }
    }
    assert!(stuck > 400 && repeated > 100, "{stuck}, {repeated}");
}

/// Few IDs in all other strata, dealt out anyhow.
fn a_few_elsewhere(random: &mut Random, sets: &mut Sets, except: usize) {
    let most = random.pick(&[1, 2, 5, 20]);
    for stratum in (0..STRATA).filter(|&stratum| stratum != except) {
        let n = random.below(most) as usize;
        let ids = ids_in(random, stratum, n);
        let shares = random.pick(&SHARES);
        sets.deal(random, ids, shares);
    }
}

/// Two IDs of the stratum in the same three places.
pub fn two_alike(random: &mut Random, stratum: usize) -> [u64; 2] {
    let mut seen: HashMap<[u32; 3], u64> = HashMap::new();
    loop {
        let id = id_in(random, stratum);
        match seen.insert(ascending(id, BUCKETS), id) {
            Some(other) if other != id => return [other, id],
            _ => {}
        }
    }
}

/// Two elements of one stratum in the same three places: nothing is pure there, and where each
/// has one of them the counts are 0.
fn same_places(tally: &mut Tally) {
    let mut random = tally.subject("estimates, same places", 0xA2);
    let random = &mut random;
    for i in 0..6 * STRATA {
        let stratum = i % STRATA;
        let [a, b] = two_alike(random, stratum);
        let mut sets = Sets::default();
        match random.below(4) {
            0 => sets.ours = vec![a, b],
            1 => sets.theirs = vec![a, b],
            _ => (sets.ours, sets.theirs) = (vec![a], vec![b]),
        }
        a_few_elsewhere(random, &mut sets, stratum);
        let (_, outcome) = sets.compare(tally, random);
        assert!(outcome == Outcome::Failing(stratum, End::Stuck));
    }
}

/// Three IDs of the stratum that share their lowest bucket, a place of the element that they look
/// like.
pub fn three_alike(random: &mut Random, stratum: usize) -> [u64; 3] {
    let lowest = random.below(6) as u32;
    let mut found = Vec::new();
    loop {
        let id = id_in(random, stratum);
        if ascending(id, BUCKETS)[0] != lowest || found.contains(&id) {
            continue;
        }
        found.push(id);
        if found.len() < 3 {
            continue;
        }
        let last = [0; 3].map(|_| random.pick(&found));
        let different: HashSet<u64> = last.into_iter().collect();
        let look = quick::places(last[0] ^ last[1] ^ last[2], BUCKETS);
        if different.len() == 3 && look.contains(&lowest) {
            return last;
        }
    }
}

/// Two of one side and one of the other are such: what they look like is listed, and once the three
/// are out it comes again.
fn two_and_one(tally: &mut Tally) {
    let mut random = tally.subject("estimates, two and one", 0xA3);
    let random = &mut random;
    let mut repeated = 0;
    for i in 0..10 * STRATA {
        let stratum = i % STRATA;
        let three = three_alike(random, stratum);
        let mut sets = Sets::default();
        match random.below(2) {
            0 => (sets.ours, sets.theirs) = (three[..2].to_vec(), three[2..].to_vec()),
            _ => (sets.ours, sets.theirs) = (three[..1].to_vec(), three[1..].to_vec()),
        }
        a_few_elsewhere(random, &mut sets, stratum);
        let (_, outcome) = sets.compare(tally, random);
        repeated += u64::from(outcome == Outcome::Failing(stratum, End::Repeated));
    }
    assert!(repeated > 250, "{repeated}");
}
