//! A repeat found at every position: an element stands at some of its places only. It is listed where
//! it stands lowest, and comes back on the other side where it lacked: two looks and no other.

use super::keys::with_one;
use super::{one, sent_to_none};
use crate::filters::{End, Filter};
use crate::random::Random;
use crate::sets::some_salt;
use crate::{quick, Tally};

pub fn compare(tally: &mut Tally) {
    let mut random = tally.subject("buckets looked at, a repeat at every position", 0x88);
    let random = &mut random;
    for size in [37, 38, 101] {
        for position in 0..size {
            for _ in 0..6 {
                at(tally, random, size, position);
            }
        }
    }
    for position in (0..4096).step_by(63).chain([4095]) {
        at(tally, random, 4096, position);
    }
    for _ in 0..300 {
        let size = random.between(37, 4096) as u32;
        let position = random.below(u64::from(size)) as u32;
        at(tally, random, size, position);
    }
}

/// The repeat is found at this position: the element lacks there, and at another place if it is
/// higher. Beside it something may stand that never looks pure.
fn at(tally: &mut Tally, random: &mut Random, size: u32, position: u32) {
    let key = with_one(random, size, position);
    let mut places = quick::places(key, size).to_vec();
    places.retain(|&place| place != position);
    places.sort_unstable();
    let [low, high] = [places[0], places[1]];
    let stands: &[u32] = match random.below(3) {
        0 if position < high => &[low],
        1 if position < low => &[high],
        _ => &[low, high],
    };
    let mut difference = Filter::empty(size);
    for &place in stands {
        difference.put_at(place, key, -1);
    }
    let free = random.below(u64::from(size)) as u32;
    if random.once_in(2) && !quick::places(key, size).contains(&free) {
        difference.hashes[free as usize] = random.word() | 1;
    }
    let looked = (stands[0] + 1 + position + 1) as usize;
    let (received, salt) = (sent_to_none(&difference), some_salt(random));
    let wanted = (End::Repeated, looked);
    one(tally, random, &[], &received, salt, wanted);
}
