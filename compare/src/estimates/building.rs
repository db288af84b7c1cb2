//! Comparisons of building a table's estimator, refusals and what is left behind included.

use super::{build, id_in, ids_in, Whole};
use crate::estimator::{PLACES, STRATA};
use crate::filters::MOST_HASHES;
use crate::random::Random;
use crate::sets::{some_table, table_of};
use crate::tables::break_table;
use crate::Tally;

/// Lengths of a column: enough, one less, more, far too few, none.
pub const LENGTHS: [usize; 9] = [
    PLACES,
    PLACES - 1,
    PLACES + 1,
    PLACES + 79,
    5000,
    PLACES - 79,
    79,
    1,
    0,
];

pub fn compare(tally: &mut Tally) {
    tables(tally);
    strata(tally);
    refusals(tally);
}

/// Builds in columns that have room, and is not refused.
fn one(tally: &mut Tally, random: &mut Random, ids: &[u64]) {
    let table = table_of(random, ids);
    let columns = Whole::with_room(random);
    let (refusal, _) = build(tally, &table, columns);
    assert!(refusal == 0);
}

/// Tables of every size up to the largest.
fn tables(tally: &mut Tally) {
    let mut random = tally.subject("building estimators", 0x90);
    let random = &mut random;
    for i in 0..900 {
        let n = match i % 9 {
            0 => random.below(MOST_HASHES as u64 + 1),
            1 => random.below(1000),
            _ => random.below(100),
        };
        let (table, columns) = (some_table(random, n as usize), Whole::with_room(random));
        let (refusal, _) = build(tally, &table, columns);
        assert!(refusal == 0);
    }
    for n in [0, 1, 2, MOST_HASHES - 1, MOST_HASHES, MOST_HASHES + 1] {
        let (table, columns) = (some_table(random, n), Whole::with_room(random));
        let (refusal, _) = build(tally, &table, columns);
        assert!(refusal == u32::from(n > MOST_HASHES));
    }
}

/// IDs of every stratum, alone, crowded, and of all strata together.
fn strata(tally: &mut Tally) {
    let mut random = tally.subject("building estimators by strata", 0x91);
    let random = &mut random;
    for bit in 0..64 {
        one(tally, random, &[1 << bit]);
        one(tally, random, &[u64::MAX << bit]);
        one(tally, random, &[u64::MAX << bit, 0]);
    }
    one(tally, random, &[0]);
    for stratum in 0..STRATA {
        for n in [1, 2, 80, 1000] {
            let ids = ids_in(random, stratum, n);
            one(tally, random, &ids);
        }
    }
    for _ in 0..200 {
        let each = random.pick(&[1, 2, 8, 128]);
        let mut ids = Vec::new();
        for stratum in 0..STRATA {
            ids.extend(ids_in(random, stratum, each));
        }
        one(tally, random, &ids);
    }
}

/// Bad tables and short columns, each by itself and together.
fn refusals(tally: &mut Tally) {
    let mut random = tally.subject("building estimators, refused", 0x92);
    let random = &mut random;
    let mut tried = [0; 3];
    let mut one = |tally: &mut Tally, random: &mut Random, table: &[u8], lens| {
        let columns = Whole::of_lengths(random, lens);
        tried[build(tally, table, columns).0 as usize] += 1;
    };
    for i in 0..1_500 {
        let n = random.between(2, 20) as usize;
        let mut table = some_table(random, n);
        if i % 2 == 0 {
            break_table(random, &mut table);
        }
        let mut lens = [0; 3].map(|_| PLACES + random.pick(&[0, 0, 1, 30]));
        match i % 6 {
            0 | 1 => lens[random.below(3) as usize] = random.pick(&LENGTHS),
            2 | 3 => lens = lens.map(|_| random.pick(&LENGTHS)),
            _ => {}
        }
        one(tally, random, &table, lens);
    }
    // Each column by itself, and nothing lent at all; a good table, an empty and a bad one.
    let good = some_table(random, 40);
    let high = id_in(random, 31);
    let twice = table_of(random, &[high, high]);
    for table in [&good[..], &[], &twice, &good[..65], &good[..63]] {
        for short in 0..3 {
            for len in LENGTHS {
                let mut lens = [PLACES + 1; 3];
                lens[short] = len;
                one(tally, random, table, lens);
            }
        }
        for len in LENGTHS {
            one(tally, random, table, [len; 3]);
        }
    }
    // One hash too many, and the last ID twice.
    let mut table = some_table(random, MOST_HASHES + 1);
    for len in LENGTHS {
        one(tally, random, &table, [len; 3]);
    }
    table.truncate(MOST_HASHES * 64);
    let last = (MOST_HASHES - 1) * 64;
    table.copy_within(last - 64..last - 56, last);
    for len in LENGTHS {
        one(tally, random, &table, [len; 3]);
    }
    assert!(tried.iter().all(|&n| n > 200), "each is tried: {tried:?}");
}
