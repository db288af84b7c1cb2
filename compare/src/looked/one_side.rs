//! Elements of one side alone. A bucket then looks pure exactly where one of them is left in it: two or
//! more count 2 or more. So the looks follow from the elements' places, without any columns.

use super::chains;
use super::{one, Wanted};
use crate::filters::{End, Filter};
use crate::random::Random;
use crate::sets::{some_ids, some_salt, table_of};
use crate::{model, quick, Tally};

pub fn compare(tally: &mut Tally) {
    let mut random = tally.subject("buckets looked at, one side alone", 0x86);
    let random = &mut random;
    for size in [37, 38, 101] {
        let keys = chains::keys(random, size);
        for n in 0..=keys.len() {
            all_ways(tally, random, size, &keys[..n]);
            all_ways(tally, random, size, &keys[n..]);
        }
    }
    for i in 0..160 {
        let size = match i % 8 {
            0 => 4096,
            1 => random.between(600, 4096) as u32,
            _ => random.between(37, 600) as u32,
        };
        let most = u64::from(size) * 17 / 20;
        let n = random.between(0, most) as usize;
        let keys = some_ids(random, n);
        all_ways(tally, random, size, &keys);
    }
    for size in [600, 4096] {
        let keys = chains::keys(random, size);
        for from in [0, 1, keys.len() / 2, keys.len() - 16] {
            all_ways(tally, random, size, &keys[from..]);
        }
    }
}

/// The end and the number, by the places alone.
fn by_places(size: u32, keys: &[u64]) -> Wanted {
    let places: Vec<[u32; 3]> = keys.iter().map(|&key| quick::places(key, size)).collect();
    let mut inside = vec![Vec::new(); size as usize];
    for (element, places) in places.iter().enumerate() {
        for &place in places {
            inside[place as usize].push(element);
        }
    }
    let mut looked = 0;
    while let Some(position) = inside.iter().position(|bucket| bucket.len() == 1) {
        looked += position + 1;
        let peeled = inside[position][0];
        for place in places[peeled] {
            inside[place as usize].retain(|&element| element != peeled);
        }
    }
    looked += inside.len();
    match inside.iter().all(Vec::is_empty) {
        true => (End::Complete, looked),
        false => (End::Stuck, looked),
    }
}

/// Theirs, ours and on both sides; one of theirs held, so that a complete reading is false; and
/// something beside them that never looks pure.
fn all_ways(tally: &mut Tally, random: &mut Random, size: u32, keys: &[u64]) {
    let salt = some_salt(random);
    let wanted = by_places(size, keys);
    let unsalted = keys.iter().map(|&key| model::unsalt(key, salt));
    let ids: Vec<u64> = unsalted.collect();
    let (sent, table) = (Filter::of(&ids, size, salt), table_of(random, &ids));
    let nothing = Filter::empty(size);
    one(tally, random, &[], &sent, salt, wanted);
    one(tally, random, &table, &nothing, salt, wanted);
    let equal = (End::Complete, size as usize);
    one(tally, random, &table, &sent, salt, equal);

    if !ids.is_empty() {
        let held = [random.pick(&ids)];
        let once_more = [&ids[..], &held].concat();
        let sent = Filter::of(&once_more, size, salt);
        let table = table_of(random, &held);
        let wanted = match wanted.0 {
            End::Complete => (End::Contradicted, wanted.1),
            _ => wanted,
        };
        one(tally, random, &table, &sent, salt, wanted);
    }
    let mut spoilt = sent;
    if let Some(free) = spoilt.counts.iter().position(|&count| count == 0) {
        match random.below(3) {
            0 => spoilt.ids[free] = random.between(1, u64::MAX - 1),
            1 => spoilt.hashes[free] = 1 << random.below(32),
            _ => spoilt.counts[free] = random.between(2, 9) as i64,
        }
        one(tally, random, &[], &spoilt, salt, (End::Stuck, wanted.1));
    }
}
