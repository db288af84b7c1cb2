//! Parts of ledgers near the limit of what may be held and wanted: only what is there is counted.

use super::super::ledgers::{each_row, Good};
use super::super::memory::{Numbers, DEMANDED_MARKS};
use super::super::mutated::fixture::{Call, Lengths};
use super::{cut_others, Bed};
use crate::filters::{id_of, HASH, MOST_HASHES};
use crate::random::Random;
use crate::Tally;
use std::collections::HashSet;

/// Met, demanded and unmet, and only inquired, beside the table.
const FEW: [[usize; 3]; 4] = [[3, 4, 5], [0, 3, 3], [6, 0, 2], [400, 300, 200]];

pub fn compare(tally: &mut Tally) {
    let mut random = tally.subject("parts of ledgers at the limit", 0x294);
    let random = &mut random;
    let mut given = [0; 3];
    for (row, i) in each_row(2 * FEW.len()) {
        if row.0 < 2 || row == (3, 1) {
            continue;
        }
        let [met, unmet, open] = FEW[i / 2];
        let over = random.pick(&[1, 1, 2, 3]);
        let table = MOST_HASHES - met - unmet - open;
        let mut bed = Bed::new(random, row, [table, met, unmet, open + over]);
        for _ in 0..10 {
            let lengths = some_lengths(random, &bed);
            let call = Call {
                numbers: bed.good.numbers,
                lengths,
                delivery: bed.delivery.clone(),
                kinds: Vec::new(),
            };
            let step = bed.fixture.step(tally, random, &call, false);
            let number = number_there(&bed.good, &lengths);
            assert!((step.refusal == 1) == (number > MOST_HASHES), "{number}");
            given[step.refusal as usize] += 1;
        }
        bed.fixture.drop_whole();
    }
    assert!(given[1] >= 100 && given[2] >= 100, "{given:?}");
}

/// All of the ledger, or a few less; always something is short.
fn some_lengths(random: &mut Random, bed: &Bed) -> Lengths {
    let mut lengths = bed.lengths();
    let Numbers {
        demanded, inquired, ..
    } = bed.good.numbers;
    let less = [0; 3].map(|_| random.pick(&[0, 0, 0, 1, 1, 2, 3]));
    let demanded = demanded as usize;
    let broken_off = random.pick(&[0, 0, 1, 63]);
    lengths[1] = HASH * demanded.saturating_sub(less[0]) + broken_off;
    if random.once_in(2) {
        lengths[2] = DEMANDED_MARKS + demanded.saturating_sub(less[1]);
    }
    if random.once_in(2) {
        lengths[3] = (inquired as usize).saturating_sub(less[2]);
    }
    if random.once_in(4) {
        cut_others(random, &mut lengths);
    }
    lengths
}

/// The different IDs of the table, of the demands that are there, and inquired there.
fn number_there(good: &Good, lengths: &Lengths) -> usize {
    let [_, records, marks, inquired, ..] = *lengths;
    let demanded = (records / HASH).min(marks - DEMANDED_MARKS);
    let demanded = good.ledger.demanded.iter().take(demanded);
    let inquired = good.ledger.inquired.iter().take(inquired);
    let elements = good.ledger.table.iter().chain(demanded);
    let ids = elements.map(|hash| id_of(hash));
    ids.chain(inquired.copied()).collect::<HashSet<u64>>().len()
}
