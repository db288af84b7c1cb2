//! Comparisons of offers at the limit of elements held and wanted (refusal 10), an ID counted once.

use super::calls::Delivery;
use super::craft::{new_hash, shuffle};
use super::ledger::Hash;
use super::ledgers::Good;
use super::peer::Peer;
use super::slices::messages_of;
use crate::filters::{id_of, Filter};
use crate::messages::layout::Message;
use crate::random::Random;
use crate::sets::{some_ids, table_of};
use crate::Tally;
use std::collections::BTreeSet;

pub fn compare(tally: &mut Tally) {
    tally.sessions.sort = "hostile";
    let mut random = tally.subject("offers at the limit", 0x270);
    let random = &mut random;
    for i in 0..60 {
        let parts = random.pick(&[[3, 4, 5], [20, 30, 50], [0, 0, 0], [0, 0, 9], [2, 2, 0]]);
        let row = if i % 4 == 0 { (3, 1) } else { (3, 0) };
        let free = random.pick(&[0, 1, 2, 40]);
        near_the_limit(tally, random, row, parts, free);
    }
    in_two(tally, random);
    full_messages(tally, random);
}

/// Inquired, neither held nor demanded.
fn open_ids(good: &Good) -> Vec<u64> {
    let elements = good.ledger.table.iter().chain(&good.ledger.demanded);
    let taken: BTreeSet<u64> = elements.map(|hash| id_of(hash)).collect();
    let inquired = good.ledger.inquired.iter().copied();
    inquired.filter(|id| !taken.contains(id)).collect()
}

/// A peer in 3 that may want so many more; they are offered to it, and one more.
fn near_the_limit(
    tally: &mut Tally,
    random: &mut Random,
    row: (u32, u32),
    [met, unmet, open]: [usize; 3],
    free: usize,
) {
    let rest = if row.1 == 1 { 0 } else { met + unmet + open };
    let table = 4096 - rest - free;
    let good = Good::new(random, row, [table, met, unmet, open]);
    let mut compared = good.compared(random);
    assert!(good.ledger.held_and_wanted().len() == 4096 - free);
    let open = open_ids(&good);
    for (over, wanted) in [(0, 0), (1, 10), (9, 10)] {
        let mut hashes: Vec<Hash> = Vec::new();
        let fresh = random.numbers(free + over);
        // Those inquired already count already.
        for id in fresh.into_iter().chain(open.iter().copied().take(20)) {
            hashes.push(new_hash(random, id));
        }
        // Those demanded already, and held ones, count already too.
        hashes.extend(good.ledger.demanded.iter().take(20));
        hashes.extend(good.ledger.table.iter().take(3));
        let again = hashes[0];
        hashes.push(again);
        let offer = |random: &mut Random, hashes: &[Hash]| {
            Delivery::new(random, Message::Offer(hashes.concat()).bytes())
        };
        let delivery = offer(random, &hashes);
        let (step, _) = compared.trial(tally, random, good.numbers, &delivery);
        assert!(
            step.refusal == wanted,
            "{over} more than {free}: {}",
            step.refusal
        );
        // A shared ID is told before.
        hashes.push(new_hash(random, id_of(&good.ledger.table[0])));
        let delivery = offer(random, &hashes);
        let (step, _) = compared.trial(tally, random, good.numbers, &delivery);
        assert!(step.refusal == 7);
    }
}

/// In 2 what is offered was inquired and is counted already: exactly 4,096 stays as many.
fn in_two(tally: &mut Tally, random: &mut Random) {
    for [met, unmet, open] in [[3, 4, 5], [0, 0, 9], [100, 100, 200]] {
        let good = Good::new(
            random,
            (2, 0),
            [4096 - met - unmet - open, met, unmet, open],
        );
        let open = open_ids(&good).into_iter();
        let hashes: Vec<Hash> = open.map(|id| new_hash(random, id)).collect();
        let delivery = Delivery::new(random, Message::Offer(hashes.concat()).bytes());
        let mut compared = good.compared(random);
        let (step, _) = compared.step(tally, random, good.numbers, &delivery);
        assert!(step.refusal == 0 && step.sent > 0);
    }
}

/// The longest lists: answers of several messages, and messages that hold all they can.
fn full_messages(tally: &mut Tally, random: &mut Random) {
    let good = Good::new(random, (3, 1), [4096, 0, 0, 0]);
    let mut compared = good.compared(random);
    let mut ids: Vec<u64> = good.ledger.table.iter().map(|hash| id_of(hash)).collect();
    shuffle(random, &mut ids);
    ids.extend(random.numbers(8190 - 4096));
    let salt = good.numbers.salt;
    let inquiry = Message::Inquiry { salt, ids };
    let delivery = Delivery::new(random, inquiry.bytes());
    let (step, _) = compared.step(tally, random, good.numbers, &delivery);
    assert!(step.refusal == 0 && step.sent == 5 * 4 + 64 * 4096);

    // All of it is demanded, in full messages but for the last.
    let mut numbers = step.next;
    let mut hashes = good.ledger.table.clone();
    shuffle(random, &mut hashes);
    for part in hashes.chunks(1023) {
        let delivery = Delivery::new(random, Message::Demand(part.concat()).bytes());
        let (step, _) = compared.step(tally, random, numbers, &delivery);
        assert!(step.refusal == 0 && step.due == part.len());
        numbers = step.next;
    }

    // As many demands as there may be.
    let good = Good::new(random, (3, 0), [0, 0, 0, 0]);
    let mut compared = good.compared(random);
    let mut numbers = good.numbers;
    for n in [1023, 1023, 1023, 1023, 4] {
        let ids = random.numbers(n);
        let hashes: Vec<Hash> = ids.into_iter().map(|id| new_hash(random, id)).collect();
        let delivery = Delivery::new(random, Message::Offer(hashes.concat()).bytes());
        let (step, _) = compared.step(tally, random, numbers, &delivery);
        assert!(step.refusal == 0 && step.sent == 4 + 64 * n);
        numbers = step.next;
    }
    assert!(numbers.demanded == 4096);
    let one = new_hash(random, 5);
    let delivery = Delivery::new(random, Message::Offer(one.to_vec()).bytes());
    let (step, _) = compared.trial(tally, random, numbers, &delivery);
    assert!(step.refusal == 10);
    for hash in compared.ledger(&numbers).demanded.iter().step_by(40) {
        let delivery = Delivery::element(random, hash);
        let (step, _) = compared.step(tally, random, numbers, &delivery);
        assert!(step.refusal == 0);
    }

    // All of a large table is ours, or all of a large filter is theirs.
    for (ours, theirs) in [(3200, 0), (0, 3200), (1100, 1100)] {
        let ids = some_ids(random, ours + theirs);
        let table = table_of(random, &ids[..ours]);
        let mut peer = Peer::receiver(tally, random, &table);
        let far = Filter::of(&ids[ours..], 4095, 7);
        for delivery in messages_of(random, &far, 7) {
            peer.take(tally, random, &delivery);
        }
    }
}
