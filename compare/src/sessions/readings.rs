//! Comparisons of sessions that read planted filters: each end of a reading in each state in which
//! a filter is read, with room for swaps and without, and at the limit of elements.

use super::calls::Delivery;
use super::peer::Peer;
use super::slices::messages_of;
use crate::chains::{chain, is_long};
use crate::filters::{self, Filter};
use crate::malicious::Plan;
use crate::model;
use crate::pool::Pool;
use crate::random::Random;
use crate::sets::{some_ids, some_salt, some_size, table_of};
use crate::Tally;

pub fn compare(tally: &mut Tally) {
    tally.sessions.sort = "hostile";
    planted(tally);
    too_many_peels(tally);
    too_many_elements(tally);
}

/// A peer that waits for a filter, with so many swaps behind it.
fn waiting(tally: &mut Tally, random: &mut Random, table: &[u8], swaps: u32) -> Peer {
    let filter = (some_size(random, 100), some_salt(random));
    let mut peer = match random.below(2) {
        0 => Peer::receiver(tally, random, table),
        _ => Peer::sender(tally, random, table, filter).0,
    };
    peer.numbers.swaps = swaps;
    peer
}

/// Takes the messages of a filter in its state; one of them may be tried wrongly before.
fn take(tally: &mut Tally, random: &mut Random, peer: &mut Peer, deliveries: &[Delivery]) {
    for delivery in deliveries {
        peer.take(tally, random, delivery);
    }
}

fn take_plan(tally: &mut Tally, random: &mut Random, plan: &Plan, swaps: u32) {
    if !plan.can_be_sent() {
        return;
    }
    let deliveries = messages_of(random, &plan.received(), plan.salt);
    let mut peer = waiting(tally, random, &plan.table, swaps);
    take(tally, random, &mut peer, &deliveries);
    // What was read is left behind; another filter comes over it.
    if peer.numbers.state == 3 {
        let salt = some_salt(random);
        let size = some_size(random, 100);
        let other = Filter::of(&filters::ids(&plan.table), size, salt);
        let deliveries = messages_of(random, &other, salt);
        take(tally, random, &mut peer, &deliveries);
    }
}

/// Plants honest elements, lone keys, elements on the wrong side and garbage.
fn plant(random: &mut Random, plan: &mut Plan) {
    let kind = random.below(6);
    let honest = random.pick(&[0, 1, 3, 12]);
    let mut planted = Vec::new();
    for i in 0..honest + u64::from(kind == 1) {
        // One on the wrong side is not in the table though it is ours, or the other way about.
        let wrong = kind == 1 && i == 0;
        let ours = random.once_in(2);
        let key = plan.key(random, ours != wrong);
        let one_sided = kind == 5 && ours;
        if !planted.contains(&key) && plan.held.contains(&key) == (ours != wrong) && !one_sided {
            plan.difference.put(key, if ours { 1 } else { -1 });
            planted.push(key);
        }
    }
    match kind {
        0 => {
            let key = plan.key(random, false);
            let place = crate::quick::places(key, plan.difference.size())[0];
            plan.difference.put_at(place, key, -1);
        }
        2 => plan.spoil(random),
        _ => {}
    }
}

fn planted(tally: &mut Tally) {
    let mut random = tally.subject("planted filters in sessions", 0x260);
    let random = &mut random;
    for i in 0..1_800 {
        let (size, n) = match i % 9 {
            // Of two slices.
            0 => (random.between(2521, 2700) as u32, random.below(60)),
            1 if i % 5 == 0 => (4096, random.below(60)),
            _ => (some_size(random, 90), random.pick(&[0, 3, 30, 150])),
        };
        let mut plan = Plan::new(random, size, n as usize);
        plant(random, &mut plan);
        let swaps = random.pick(&[0, 0, 1, 15, 16, 16]);
        take_plan(tally, random, &plan, swaps);
    }
}

/// As many peels as buckets, and one more.
fn too_many_peels(tally: &mut Tally) {
    let mut random = tally.subject("long chains in sessions", 0x261);
    let random = &mut random;
    let pool = Pool::new(random, 37, 60_000);
    for i in 0..40 {
        let found = (0..50_000).find_map(|_| {
            let difference = chain(random, &pool, &[1, -1])?;
            if !is_long(&difference, i % 4 != 0) {
                return None;
            }
            let mut plan = Plan::new(random, pool.size, 4 * 37);
            plan.difference = difference;
            plan.can_be_sent().then_some(plan)
        });
        if let Some(plan) = found {
            let swaps = random.pick(&[0, 3, 15, 16]);
            take_plan(tally, random, &plan, swaps);
        }
    }
}

/// Tables near the limit, and filters that list as many as may be, and one more.
fn too_many_elements(tally: &mut Tally) {
    let mut random = tally.subject("too many elements read", 0x262);
    let random = &mut random;
    for i in 0..60 {
        let theirs = random.between(1, 9) as usize;
        let over = random.pick(&[0, 1, 1, 1, theirs]).min(theirs);
        let size = match i % 3 {
            0 => random.between(2521, 2600) as u32,
            _ => random.between(37, 60) as u32,
        };
        let mut ids = some_ids(random, 4096 + over);
        let ours = random.below(5) as usize;
        let salt = some_salt(random);
        // The far end has theirs, and lacks a few of ours.
        let mut far = Filter::of(&ids[ours..], size, salt);
        // Those that are listed and then nothing more can be are not wanted.
        if i % 5 == 4 {
            far.ids[random.below(size.into()) as usize] ^= random.next();
        }
        ids.truncate(4096 + over - theirs);
        let table = table_of(random, &ids);
        let swaps = random.pick(&[0, 16]);
        let mut peer = waiting(tally, random, &table, swaps);
        assert!(ids.len() + theirs == 4096 + over && model::place_count(size) == 3);
        let deliveries = messages_of(random, &far, salt);
        take(tally, random, &mut peer, &deliveries);
    }
}
