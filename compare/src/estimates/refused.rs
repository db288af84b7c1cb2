//! Comparisons of estimates that are refused, and of columns of every length.

use super::building::LENGTHS;
use super::{estimate, Whole};
use crate::estimator::{Estimator, PLACES};
use crate::random::Random;
use crate::refused::{BAD_COUNTS, END_COUNTS};
use crate::sets::some_ids;
use crate::Tally;

pub fn compare(tally: &mut Tally) {
    lengths(tally);
    counts(tally);
    orders(tally);
}

/// Two estimators that differ a little, in columns of these lengths (three of each).
fn some_pair(random: &mut Random, lens: [usize; 6]) -> [Whole; 2] {
    let ids = some_ids(random, 30);
    let mut pair = [
        Whole::of_lengths(random, [lens[0], lens[1], lens[2]]),
        Whole::of_lengths(random, [lens[3], lens[4], lens[5]]),
    ];
    pair[0].lay(&Estimator::of(&ids[5..]));
    pair[1].lay(&Estimator::of(&ids[..22]));
    pair
}

fn refusal(tally: &mut Tally, [first, second]: &[Whole; 2]) -> u32 {
    estimate(tally, first, second).err().unwrap_or(0)
}

/// Each of the six at every length, several at once, and nothing lent at all.
fn lengths(tally: &mut Tally) {
    let mut random = tally.subject("estimates, lengths", 0x93);
    let random = &mut random;
    for enough in [PLACES, PLACES + 5] {
        for short in 0..6 {
            for len in LENGTHS {
                let mut lens = [enough; 6];
                lens[short] = len;
                let pair = some_pair(random, lens);
                let wanted = if len < PLACES { 2 } else { 0 };
                assert!(refusal(tally, &pair) == wanted);
            }
        }
    }
    for len in LENGTHS {
        let pair = some_pair(random, [len; 6]);
        refusal(tally, &pair);
    }
    for _ in 0..400 {
        let lens = [0; 6].map(|_| match random.below(4) {
            0 => random.pick(&LENGTHS),
            _ => PLACES,
        });
        let pair = some_pair(random, lens);
        refusal(tally, &pair);
    }
}

/// Counts about the ends of their range at the first, the last, the next and any place.
fn counts(tally: &mut Tally) {
    let mut random = tally.subject("estimates, ends of counts", 0x94);
    let random = &mut random;
    for side in 0..2 {
        for place in [0, 1, 78, 79, PLACES - 80, PLACES - 1, PLACES, PLACES + 3] {
            for count in BAD_COUNTS.into_iter().chain(END_COUNTS) {
                let mut pair = some_pair(random, [PLACES + 4; 6]);
                pair[side].lent().counts[place] = count;
                let bad = BAD_COUNTS.contains(&count) && place < PLACES;
                assert!(refusal(tally, &pair) == u32::from(bad));
            }
        }
    }
    for _ in 0..500 {
        let mut pair = some_pair(random, [PLACES + 4; 6]);
        let side = random.below(2) as usize;
        let bad = random.once_in(2);
        for _ in 0..random.between(1, 5) {
            let place = random.below(PLACES as u64) as usize;
            pair[side].lent().counts[place] = match bad {
                true => random.pick(&BAD_COUNTS),
                false => random.pick(&END_COUNTS),
            };
        }
        assert!(refusal(tally, &pair) == u32::from(bad));
    }
    // All counts at one end, in one or in both.
    for count in END_COUNTS.into_iter().chain(BAD_COUNTS) {
        for sides in [&[0][..], &[1], &[0, 1]] {
            let mut pair = some_pair(random, [PLACES; 6]);
            for &side in sides {
                pair[side].lent().counts.fill(count);
            }
            refusal(tally, &pair);
        }
    }
}

/// A bad count and a short column, in either of the two: what is there of the counts decides.
fn orders(tally: &mut Tally) {
    let mut random = tally.subject("estimates, orders of refusals", 0x95);
    let random = &mut random;
    let mut tried = [0; 3];
    for i in 0..1_200 {
        let mut lens = [PLACES + random.pick(&[0, 4]); 6];
        if i % 4 != 0 {
            for _ in 0..random.pick(&[1, 1, 2]) {
                let any = random.below(PLACES as u64) as usize;
                let short = random.pick(&[0, any, PLACES - 1]);
                // The counts as often as all others.
                let column = random.pick(&[2, 5, 0, 1, 3, 4, 2, 5]);
                lens[column] = short;
            }
        }
        let mut pair = some_pair(random, lens);
        if i % 3 != 0 {
            let counts = pair[random.below(2) as usize].lent().counts;
            if !counts.is_empty() {
                // Where the column ends before the estimator does, its last place counts.
                let any = random.below(counts.len() as u64) as usize;
                let place = random.pick(&[0, any, counts.len() - 1]);
                counts[place] = random.pick(&BAD_COUNTS);
            }
        }
        tried[refusal(tally, &pair) as usize] += 1;
    }
    assert!(tried.iter().all(|&n| n > 80), "each is tried: {tried:?}");
}
