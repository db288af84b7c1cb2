//! Any readings: honest filters of any size, columns of anything, and the same reading with other
//! values behind the size.

use crate::filters::{End, Filter};
use crate::malicious::Plan;
use crate::random::Random;
use crate::sets::{some_ids, some_salt, table_of, Call};
use crate::{lent, quick, Tally, GUARD};

pub fn compare(tally: &mut Tally) {
    honest(tally);
    behind(tally);
}

/// Differences of a few elements and of as many as a filter can tell apart, at sizes of any length.
fn honest(tally: &mut Tally) {
    let mut random = tally.subject("buckets looked at, honest filters", 0x90);
    let random = &mut random;
    let mut ends = [0; 5];
    for i in 0..600 {
        let limit = 64 << random.below(7);
        let any = random.between(37, limit) as u32;
        let size = match i % 20 {
            0 => 4096,
            1..=6 => [37, 38, 101][i % 3],
            _ => any,
        };
        let most = u64::from(size) * 17 / 20;
        let differing = random.pick(&[1, 5, most / 2, most, most]);
        let differing = random.between(differing / 2, differing) as usize;
        let ours = random.pick(&[0, 0, differing, differing / 2]);
        let ids = some_ids(random, differing + 20);
        let (common, others) = ids.split_at(20);
        let (ours, theirs) = others.split_at(ours);
        let table = table_of(random, &[common, ours].concat());
        let salt = some_salt(random);
        let received = Filter::of(&[common, theirs].concat(), size, salt);
        let call = Call::of_filter(random, &table, &received, salt);
        let (reading, end) = call.compare(tally);
        let end = end.expect("not refused with 1 to 3");
        ends[end as usize] += 1;
        // Of itself: at least one look for each that is listed, and one that finds none.
        if end == End::Complete || end == End::Stuck {
            assert!(reading.looked >= reading.ours + reading.theirs + size as usize);
        }
    }
    assert!(ends[End::Complete as usize] > 200, "{ends:?}");
    assert!(ends[End::Stuck as usize] > 30, "{ends:?}");
}

/// Lays what looks pure, or anything, behind the size of each slice.
fn lay_behind(random: &mut Random, call: &mut Call) {
    let size = call.size as usize;
    let key = random.next();
    let pure = random.once_in(2);
    for id in &mut lent(&mut call.ids)[size..] {
        *id = if pure { key } else { random.next() };
    }
    for hash in &mut lent(&mut call.hashes)[size..] {
        *hash = if pure { quick::crc(key) } else { random.word() };
    }
    for count in &mut lent(&mut call.counts)[size..] {
        *count = if pure { 1 } else { random.next() as i64 };
    }
}

/// The same reading in slices of the size, and in longer ones with other values behind.
fn behind(tally: &mut Tally) {
    let mut random = tally.subject("buckets looked at, values behind the size", 0x91);
    let random = &mut random;
    for i in 0..300 {
        let mut plan = match i % 20 {
            0 => Plan::new(random, 4096, 30),
            _ => Plan::any(random),
        };
        for _ in 0..random.pick(&[0, 1, 3, 12]) {
            let held = random.once_in(2);
            let key = plan.key(random, held);
            plan.difference.put(key, -1);
        }
        for _ in 0..random.pick(&[0, 0, 1, 2]) {
            plan.spoil(random);
        }
        if !plan.can_be_sent() {
            continue;
        }
        let (size, received) = (plan.difference.size(), plan.received());
        let mut numbers = Vec::new();
        for more in [0, 1, 5, 4096] {
            let lens = [more; 5].map(|more| size as usize + more);
            let at = (size, plan.salt);
            let mut call = Call::of_lengths(random, &plan.table, at, lens);
            call.lay(&received);
            lay_behind(random, &mut call);
            assert!(call.ids.len() == lens[0] + 2 * GUARD);
            numbers.push(call.compare(tally).0.looked);
        }
        assert!(numbers.iter().all(|&number| number == numbers[0]));
    }
}
