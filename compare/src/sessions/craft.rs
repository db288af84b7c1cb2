//! Messages made up for a peer whose ledger is known: good ones, and ones that just break a rule.

use super::calls::Delivery;
use super::ledger::{xor, Hash, Ledger};
use super::memory::Numbers;
use crate::filters::{id_of, HASH};
use crate::messages::layout::Message;
use crate::random::Random;
use std::collections::BTreeSet;

/// What is known of the peer.
pub struct Known {
    pub numbers: Numbers,
    pub ledger: Ledger,
    held: Vec<Hash>,
    unmet: Vec<Hash>,
    /// Inquired, neither held nor demanded.
    open: Vec<u64>,
}

impl Known {
    pub fn new(numbers: Numbers, ledger: Ledger) -> Known {
        let held: Vec<Hash> = ledger.held().into_values().collect();
        let unmet = ledger.unmet();
        let taken: BTreeSet<u64> = held.iter().chain(&unmet).map(|hash| id_of(hash)).collect();
        let inquired = ledger.inquired.iter().copied();
        Known {
            numbers,
            open: inquired.filter(|id| !taken.contains(id)).collect(),
            held,
            unmet,
            ledger,
        }
    }

    fn held_where(&self, wanted: impl Fn(&Hash) -> bool) -> Vec<Hash> {
        let held = self.held.iter().copied();
        held.filter(|hash| wanted(hash)).collect()
    }

    fn unasked(&self) -> Vec<u64> {
        let ids = self.held.iter().map(|hash| id_of(hash));
        ids.filter(|id| !self.ledger.asked.contains(id)).collect()
    }

    fn unserved(&self) -> Vec<Hash> {
        self.held_where(|h| self.ledger.offered.contains(h) && !self.ledger.served.contains(h))
    }
}

pub fn shuffle<T>(random: &mut Random, list: &mut [T]) {
    for i in (1..list.len()).rev() {
        list.swap(i, random.below(i as u64 + 1) as usize);
    }
}

/// Some of these in any order: one, a few, most or all.
pub fn some_of<T: Clone>(random: &mut Random, list: &[T], most: usize) -> Vec<T> {
    let mut some = list.to_vec();
    shuffle(random, &mut some);
    let n = some.len().min(most);
    let fewer = random.below(n as u64 + 1) as usize;
    some.truncate(random.pick(&[1, 3, fewer, fewer, n]).min(n));
    some
}

/// One of these, if there is any.
pub fn one_of<T: Copy>(random: &mut Random, list: &[T]) -> Option<T> {
    match list {
        [] => None,
        _ => Some(random.pick(list)),
    }
}

/// Puts an item among the others.
fn put_in<T>(random: &mut Random, list: &mut Vec<T>, item: T) {
    let at = random.below(list.len() as u64 + 1) as usize;
    list.insert(at, item);
}

/// A hash of this ID that nobody has seen.
pub fn new_hash(random: &mut Random, id: u64) -> Hash {
    let mut hash: Hash = random.bytes(HASH).try_into().expect("64 bytes");
    hash[..8].copy_from_slice(&id.to_be_bytes());
    hash
}

/// Another hash that differs in one bit, most often of its ID or of its end.
pub fn near(random: &mut Random, hash: &Hash) -> Hash {
    let any = random.below(64) as usize;
    let at = random.pick(&[0, 7, 8, 63, 63, any]);
    let mut hash = *hash;
    hash[at] ^= 1 << random.below(8);
    hash
}

fn delivery(random: &mut Random, message: &Message) -> Option<Delivery> {
    Some(Delivery::new(random, message.bytes()))
}

type Made = Option<Delivery>;

pub type Trick = fn(&mut Random, &Known) -> Made;

/// IDs that may be asked, and others that are not held, repeated too.
fn askable(random: &mut Random, known: &Known) -> Vec<u64> {
    let most = random.pick(&[4, 30, 4096]);
    let mut ids = some_of(random, &known.unasked(), most);
    for _ in 0..random.pick(&[0, 0, 1, 3]) {
        let any = random.any_length();
        let unmet = one_of(random, &known.unmet).map_or(any, |hash| id_of(&hash));
        let id = random.pick(&[any, unmet]);
        let held = known.held.iter().any(|hash| id_of(hash) == id);
        for _ in 0..if held { 0 } else { random.between(1, 2) } {
            put_in(random, &mut ids, id);
        }
    }
    ids
}

fn inquiry(random: &mut Random, salt: u32, ids: Vec<u64>) -> Made {
    match ids.len() {
        0 => None,
        _ => delivery(random, &Message::Inquiry { salt, ids }),
    }
}

fn inquiry_good(random: &mut Random, known: &Known) -> Made {
    let ids = askable(random, known);
    inquiry(random, known.numbers.salt, ids)
}

fn inquiry_of_none(random: &mut Random, known: &Known) -> Made {
    let any = random.next();
    let mut ids = vec![any; random.between(1, 2) as usize];
    ids.extend(known.open.first());
    ids.extend(known.unmet.first().map(|hash| id_of(hash)));
    inquiry(random, known.numbers.salt, ids)
}

fn inquiry_other_salt(random: &mut Random, known: &Known) -> Made {
    let mut ids = askable(random, known);
    ids.push(random.next());
    let other = random.below(64) as u32;
    let now = known.numbers.salt;
    let salt = random.pick(&[other, (now + 1) % 64, (now + 63) % 64]);
    inquiry(random, salt, ids)
}

fn inquiry_twice(random: &mut Random, known: &Known) -> Made {
    let id = one_of(random, &known.unasked())?;
    let mut ids = askable(random, known);
    for _ in 0..2 {
        put_in(random, &mut ids, id);
    }
    inquiry(random, known.numbers.salt, ids)
}

fn inquiry_again(random: &mut Random, known: &Known) -> Made {
    let asked: Vec<u64> = known.ledger.asked.iter().copied().collect();
    let id = one_of(random, &asked)?;
    let mut ids = askable(random, known);
    put_in(random, &mut ids, id);
    inquiry(random, known.numbers.salt, ids)
}

/// Hashes that are to be ignored.
fn ignorable(random: &mut Random, known: &Known) -> Vec<Hash> {
    let all = [&known.held[..], &known.unmet].concat();
    some_of(random, &all, 3)
}

/// Hashes that may be demanded, with others that are to be ignored and repeats among them.
fn offerable(random: &mut Random, known: &Known) -> Vec<Hash> {
    let open = match known.numbers.state {
        2 => some_of(random, &known.open, 12),
        _ => {
            let mut ids = some_of(random, &known.open, 2);
            let n = random.pick(&[1, 2, 9]);
            ids.extend(random.numbers(n));
            ids
        }
    };
    let mut hashes: Vec<Hash> = open.iter().map(|&id| new_hash(random, id)).collect();
    if random.once_in(2) {
        if let Some(again) = one_of(random, &hashes) {
            put_in(random, &mut hashes, again);
        }
        for hash in ignorable(random, known) {
            put_in(random, &mut hashes, hash);
        }
    }
    hashes
}

fn offer(random: &mut Random, hashes: Vec<Hash>) -> Made {
    match hashes.len() {
        1..=1023 => delivery(random, &Message::Offer(hashes.concat())),
        _ => None,
    }
}

fn offer_good(random: &mut Random, known: &Known) -> Made {
    let hashes = offerable(random, known);
    offer(random, hashes)
}

fn offer_of_none(random: &mut Random, known: &Known) -> Made {
    let hashes = ignorable(random, known);
    offer(random, hashes)
}

fn offer_not_inquired(random: &mut Random, known: &Known) -> Made {
    let mut hashes = offerable(random, known);
    let id = random.any_length();
    let hash = new_hash(random, id);
    put_in(random, &mut hashes, hash);
    offer(random, hashes)
}

/// Another hash of an ID that one of these has; where there is a choice one that was inquired.
fn offer_shared_with(random: &mut Random, known: &Known, list: &[Hash]) -> Made {
    let inquired = list
        .iter()
        .filter(|h| known.ledger.inquired.contains(&id_of(*h)));
    let inquired: Vec<Hash> = inquired.copied().collect();
    let hash = one_of(random, &inquired).or_else(|| one_of(random, list))?;
    let mut hashes = offerable(random, known);
    let mut shared = near(random, &hash);
    shared[..8].copy_from_slice(&hash[..8]);
    shared[8] ^= u8::from(shared == hash);
    put_in(random, &mut hashes, shared);
    offer(random, hashes)
}

fn offer_shared_with_table(random: &mut Random, known: &Known) -> Made {
    offer_shared_with(random, known, &known.ledger.table)
}

fn offer_shared_with_met(random: &mut Random, known: &Known) -> Made {
    let met: Vec<Hash> = known.ledger.gained.iter().copied().collect();
    offer_shared_with(random, known, &met)
}

fn offer_shared_with_unmet(random: &mut Random, known: &Known) -> Made {
    offer_shared_with(random, known, &known.unmet)
}

fn offer_shared_within(random: &mut Random, known: &Known) -> Made {
    let mut hashes = offerable(random, known);
    let fresh = random.next();
    let id = match known.numbers.state {
        2 => one_of(random, &known.open)?,
        _ => one_of(random, &known.open).unwrap_or(fresh),
    };
    for _ in 0..2 {
        let hash = new_hash(random, id);
        put_in(random, &mut hashes, hash);
    }
    offer(random, hashes)
}

fn demand(random: &mut Random, hashes: Vec<Hash>) -> Made {
    match hashes.len() {
        1..=1023 => delivery(random, &Message::Demand(hashes.concat())),
        _ => None,
    }
}

fn demandable(random: &mut Random, known: &Known) -> Vec<Hash> {
    let most = random.pick(&[4, 30, 1000]);
    some_of(random, &known.unserved(), most)
}

fn demand_good(random: &mut Random, known: &Known) -> Made {
    let hashes = demandable(random, known);
    demand(random, hashes)
}

/// Hashes that may be demanded with one among them that may not.
fn demand_with(random: &mut Random, known: &Known, bad: Option<Hash>) -> Made {
    let bad = bad?;
    let mut hashes = demandable(random, known);
    put_in(random, &mut hashes, bad);
    demand(random, hashes)
}

fn demand_twice(random: &mut Random, known: &Known) -> Made {
    let hash = one_of(random, &known.unserved())?;
    let mut hashes = demandable(random, known);
    hashes.retain(|other| *other != hash);
    for _ in 0..2 {
        put_in(random, &mut hashes, hash);
    }
    demand(random, hashes)
}

fn demand_again(random: &mut Random, known: &Known) -> Made {
    let served: Vec<Hash> = known.ledger.served.iter().copied().collect();
    let bad = one_of(random, &served);
    demand_with(random, known, bad)
}

fn demand_unoffered(random: &mut Random, known: &Known) -> Made {
    let unoffered = known.held_where(|hash| !known.ledger.offered.contains(hash));
    let bad = one_of(random, &[unoffered, known.unmet.clone()].concat());
    demand_with(random, known, bad)
}

fn demand_near(random: &mut Random, known: &Known) -> Made {
    let any = new_hash(random, 5);
    let hash = one_of(random, &known.unserved()).unwrap_or(any);
    let bad = near(random, &hash);
    demand_with(random, known, Some(bad))
}

fn element_of(random: &mut Random, list: &[Hash]) -> Made {
    let hash = one_of(random, list)?;
    Some(Delivery::element(random, &hash))
}

fn element_good(random: &mut Random, known: &Known) -> Made {
    element_of(random, &known.unmet)
}

fn element_of_table(random: &mut Random, known: &Known) -> Made {
    element_of(random, &known.ledger.table)
}

fn element_met(random: &mut Random, known: &Known) -> Made {
    let met: Vec<Hash> = known.ledger.gained.iter().copied().collect();
    element_of(random, &met)
}

fn element_near(random: &mut Random, known: &Known) -> Made {
    let any = new_hash(random, 5);
    let all = [&known.unmet[..], &known.held].concat();
    let hash = one_of(random, &all).unwrap_or(any);
    let hash = near(random, &hash);
    Some(Delivery::element(random, &hash))
}

fn done_right(random: &mut Random, known: &Known) -> Made {
    let mut sum = known.ledger.checksum();
    // The one that will be right once all demands are met.
    for hash in &known.unmet {
        sum = xor(&sum, hash);
    }
    delivery(random, &Message::Done(sum.to_vec()))
}

fn done_wrong(random: &mut Random, known: &Known) -> Made {
    let sum = known.ledger.checksum();
    let near = near(random, &sum);
    let other = random.pick(&[[0; HASH], near, near]);
    delivery(random, &Message::Done(other.to_vec()))
}

/// Those that are good, where the ledger allows it.
pub const GOOD: [Trick; 7] = [
    inquiry_good,
    inquiry_of_none,
    offer_good,
    offer_of_none,
    demand_good,
    element_good,
    done_right,
];

/// Those that break a rule.
pub const BAD: [Trick; 16] = [
    inquiry_other_salt,
    inquiry_twice,
    inquiry_again,
    offer_not_inquired,
    offer_shared_with_table,
    offer_shared_with_met,
    offer_shared_with_unmet,
    offer_shared_within,
    demand_twice,
    demand_again,
    demand_unoffered,
    demand_near,
    element_of_table,
    element_met,
    element_near,
    done_wrong,
];
