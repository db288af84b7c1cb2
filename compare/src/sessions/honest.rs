//! Comparisons of honest pairs that run to the end, each step of both peers.

use super::peer::{Pair, PairEnd, Tables};
use crate::pool::Pool;
use crate::random::Random;
use crate::sets::{some_ids, some_salt, some_size};
use crate::{model, Tally};

pub fn compare(tally: &mut Tally) {
    tally.sessions.sort = "honest";
    small(tally);
    stopping_sets(tally);
    powers_of_two(tally);
    large(tally);
}

/// So many in both tables, in the sender's alone and in the receiver's alone.
pub type Shape = [usize; 3];

pub fn pair_of(
    tally: &mut Tally,
    random: &mut Random,
    [common, sender, receiver]: Shape,
    filter: (u32, u32),
) -> Pair {
    let ids = some_ids(random, common + sender + receiver);
    let tables = Tables::new(random, &ids, [common, sender]);
    Pair::new(tally, random, &tables, filter)
}

/// Runs a pair, and hands back the swaps of both.
fn one(tally: &mut Tally, random: &mut Random, shape: Shape, filter: (u32, u32)) -> (PairEnd, u32) {
    let mut pair = pair_of(tally, random, shape, filter);
    let end = pair.run(tally, random, |_, _, _| {});
    (end, pair.peers.iter().map(|peer| peer.numbers.swaps).sum())
}

/// A shape of a small session, equal and empty tables among them.
pub fn some_shape(random: &mut Random) -> Shape {
    let common = random.pick(&[0, 0, 1, 5, 20, 60]);
    let most = random.pick(&[0, 1, 2, 12, 12, 30, 30, 60]);
    let [one, other] = [0; 2].map(|_| random.below(most + 1) as usize);
    match random.below(8) {
        0 => [common, one, 0],
        1 => [common, 0, other],
        2 => [0, one, other],
        3 => [common, 0, 0],
        _ => [common, one, other],
    }
}

fn small(tally: &mut Tally) {
    let mut random = tally.subject("honest pairs", 0x210);
    let random = &mut random;
    let mut swapped = [0; 8];
    for i in 0..900 {
        let filter = (some_size(random, 150), some_salt(random));
        let shape = some_shape(random);
        let mut ids = some_ids(random, shape.iter().sum());
        // ID 0 in one of the parts.
        if i % 4 == 0 && !ids.is_empty() && !ids.contains(&0) {
            let at = random.below(ids.len() as u64) as usize;
            ids[at] = 0;
        }
        let tables = Tables::new(random, &ids, [shape[0], shape[1]]);
        let mut pair = Pair::new(tally, random, &tables, filter);
        assert!(pair.run(tally, random, |_, _, _| {}) == PairEnd::Finished);
        let swaps: u32 = pair.peers.iter().map(|peer| peer.numbers.swaps).sum();
        swapped[swaps as usize] += 1;
    }
    assert!(
        swapped[0] > 300 && swapped[1] > 50 && swapped[2] > 5,
        "{swapped:?}"
    );
}

/// Stopping sets of two: elements that share their places at the first size and salt, so that nothing
/// else tells them apart.
fn stopping_sets(tally: &mut Tally) {
    let mut random = tally.subject("honest pairs with stopping sets", 0x211);
    let random = &mut random;
    let pools = [37, 64].map(|size| Pool::new(random, size, 40_000));
    for i in 0..120 {
        let pool = &pools[i % 2];
        let salt = some_salt(random);
        let alike = pool.alike(random, 2);
        let stopping_set: Vec<u64> = alike.iter().map(|&key| model::unsalt(key, salt)).collect();
        let [common, others] = [random.below(20), random.below(6)].map(|n| n as usize);
        let mut ids = some_ids(random, common + others);
        ids.splice(common..common, stopping_set);
        // Both on one side, or one on each.
        let sender = random.pick(&[0, 1, 2, 2 + others]);
        let tables = Tables::new(random, &ids, [common, sender]);
        let mut pair = Pair::new(tally, random, &tables, (pool.size, salt));
        assert!(pair.run(tally, random, |_, _, _| {}) == PairEnd::Finished);
        assert!(pair.peers.iter().any(|peer| peer.numbers.swaps > 0));
    }
}

/// Two-sided differences at powers of two are often false.
fn powers_of_two(tally: &mut Tally) {
    let mut random = tally.subject("honest pairs, powers of two", 0x212);
    let random = &mut random;
    let mut swaps = 0;
    for _ in 0..120 {
        let size = random.pick(&[64, 64, 128, 256]);
        let [sender, receiver] = [0; 2].map(|_| random.below(u64::from(size) * 2 / 5) as usize);
        let common = random.below(30) as usize;
        let filter = (size, some_salt(random));
        let (end, swapped) = one(tally, random, [common, sender, receiver], filter);
        assert!(end == PairEnd::Finished);
        swaps += swapped;
    }
    assert!(swaps > 20, "{swaps}");
}

/// Lists longer than a message, tables and unions at the limit, and pairs that never agree.
fn large(tally: &mut Tally) {
    let mut random = tally.subject("honest pairs, large", 0x213);
    let random = &mut random;
    use PairEnd::{Finished, TooManyElements, TooManySwaps};
    for (size, shape, wanted) in [
        // Over 1,023 offered at once, and over 1,023 inquired.
        (2521, [10, 0, 1100], Finished),
        (2600, [0, 1100, 5], Finished),
        // Equal tables at the limit, and a union at exactly that.
        (37, [4096, 0, 0], Finished),
        (37, [4091, 3, 2], Finished),
        (100, [4056, 0, 40], Finished),
        (100, [4056, 40, 0], Finished),
        (4095, [3400, 348, 348], Finished),
        // One more than there may be: the receiver sees it when it reads.
        (37, [4092, 4, 1], TooManyElements),
        (37, [4093, 1, 3], TooManyElements),
        (3000, [3900, 97, 100], TooManyElements),
        // Stuck at every size, and false at 4,096.
        (4096, [0, 2048, 2048], TooManySwaps),
        (4096, [100, 700, 700], TooManySwaps),
    ] {
        let filter = (size, some_salt(random));
        let (end, swaps) = one(tally, random, shape, filter);
        assert!(end == wanted, "{shape:?} at {size} ends {end:?}");
        // The peer that read first refuses its 17th swap.
        assert!(wanted != TooManySwaps || swaps == 32, "{swaps}");
    }
}
