//! Comparisons of sessions with a far end that keeps to nothing: at any point of an honest session
//! something else is tried, and peers that are sent whatever comes to mind.

use super::calls::Delivery;
use super::craft::{Known, Trick, BAD, GOOD};
use super::honest::{pair_of, some_shape, Shape};
use super::peer::Peer;
use super::slices::{BEFORE, BETWEEN};
use super::step::{has_ended, may_come};
use crate::filters::HASH;
use crate::messages::layout;
use crate::model;
use crate::random::Random;
use crate::sets::{some_salt, some_size, some_table};
use crate::Tally;

pub fn compare(tally: &mut Tally) {
    tally.sessions.sort = "hostile";
    at_any_point(tally);
    wild(tally);
}

/// A message for a peer of which this is known, good or bad; few are of a kind that may not come.
pub fn made_up(random: &mut Random, known: &Known) -> Delivery {
    loop {
        let slices: &[Trick] = match known.numbers.state {
            1 => &BETWEEN,
            _ => &BEFORE,
        };
        let tricks = match random.below(3) {
            0 => slices,
            1 => &GOOD,
            _ => &BAD,
        };
        let Some(delivery) = random.pick(tricks)(random, known) else {
            continue;
        };
        let kind = layout::read(&delivery.bytes).kind;
        if has_ended(&known.numbers) || may_come(&known.numbers, kind) || random.once_in(6) {
            return delivery;
        }
    }
}

/// The message with one thing wrong: a bit, a byte, a number, its length, or what is behind it.
pub fn damaged(random: &mut Random, delivery: &Delivery) -> Delivery {
    let mut delivery = delivery.clone();
    let bytes = &mut delivery.bytes;
    let len = bytes.len();
    let any = random.below(len.max(1) as u64) as usize;
    if len < 4 {
        bytes.push(random.next() as u8);
        return delivery;
    }
    match random.below(10) {
        0 => bytes[any] ^= 1 << random.below(8),
        1 => bytes[any] = random.next() as u8,
        2 => bytes[any % 20 % len] ^= 1 << random.below(8),
        3 => bytes[len - 1] ^= 1 << random.below(8),
        4 => bytes.truncate(any),
        5 => {
            // Shorter or longer, and it says so.
            let to = random.pick(&[
                any,
                len - 1,
                len + 1,
                len + 8,
                len + HASH,
                len - len.min(HASH),
            ]);
            bytes.resize(to.max(4), random.next() as u8);
            let to = bytes.len() as u64;
            model::put_number(bytes, 0, 2, to);
        }
        6 => bytes.extend(random.bytes(3)),
        7 => {
            let kind = random.pick(&layout::KINDS);
            model::put_number(bytes, 2, 2, u64::from(kind));
        }
        8 => {
            let kind = random.pick(&[559, 563, 564, 569, 0, 1, 65_535]);
            model::put_number(bytes, 2, 2, kind);
        }
        _ => {
            let (at, k) = random.pick(&[(0, 2), (4, 4), (8, 4), (12, 2), (14, 2)]);
            let near = model::number_at(bytes, at, k).wrapping_add(random.pick(&[1, u64::MAX]));
            let number = random.pick(&[near, 0, 36, 64, 2520, 4097]);
            model::put_number(bytes, at, k, number);
        }
    }
    delivery
}

/// Bytes that are no message.
fn no_message(random: &mut Random, next: &Delivery) -> Delivery {
    let bytes = match random.below(6) {
        0 => Vec::new(),
        // So long that 16 bits do not hold its length, but for what they do hold.
        5 if random.once_in(10) => {
            let mut bytes = next.bytes.clone();
            bytes.resize(bytes.len() + 65_536, 0);
            bytes
        }
        1 => next.bytes[..next.bytes.len().min(3)].to_vec(),
        2 => [&next.bytes[..], &next.bytes].concat(),
        3 => vec![0; random.between(1, 80) as usize],
        _ => {
            let len = random.between(1, 80) as usize;
            random.bytes(len)
        }
    };
    Delivery::new(random, bytes)
}

/// What has been sent before, in this session and in others.
#[derive(Default)]
struct Past {
    here: Vec<Delivery>,
    elsewhere: Vec<Delivery>,
}

impl Past {
    fn one(random: &mut Random, deliveries: &[Delivery]) -> Option<Delivery> {
        match deliveries {
            [] => None,
            _ => Some(deliveries[random.below(deliveries.len() as u64) as usize].clone()),
        }
    }
}

fn trial(tally: &mut Tally, random: &mut Random, peer: &mut Peer, past: &Past) {
    let next = peer.inbox[0].clone();
    let numbers = peer.numbers;
    let later = random.below(peer.inbox.len() as u64) as usize;
    let delivery = match random.below(10) {
        0 => damaged(random, &next),
        1 => no_message(random, &next),
        2 => peer.inbox[later].clone(),
        3 => Past::one(random, &past.here).unwrap_or(next),
        4 => Past::one(random, &past.elsewhere).unwrap_or(next),
        // Good, but with another hash beside it.
        5 => Delivery::new(random, next.bytes),
        _ => {
            let known = Known::new(numbers, peer.compared.ledger(&numbers));
            let delivery = made_up(random, &known);
            match random.once_in(6) {
                true => damaged(random, &delivery),
                false => delivery,
            }
        }
    };
    peer.compared.trial(tally, random, numbers, &delivery);
}

/// Before the steps of honest sessions something else is tried and taken back.
fn at_any_point(tally: &mut Tally) {
    let mut random = tally.subject("hostile messages in honest sessions", 0x220);
    let random = &mut random;
    let mut past = Past::default();
    for i in 0..1100 {
        let filter = (some_size(random, 150), some_salt(random));
        let (shape, filter) = match i % 400 {
            // Filters of two slices, and lists of more than a message.
            7 => ([20, 9, 1030], (2600, filter.1)),
            j if j % 20 == 0 => ([random.below(40) as usize, 12, 12], (2521 + j, filter.1)),
            _ => (some_shape(random), filter),
        };
        one(tally, random, &mut past, shape, filter);
    }
}

fn one(tally: &mut Tally, random: &mut Random, past: &mut Past, shape: Shape, filter: (u32, u32)) {
    tally.sessions.sort = "honest";
    let mut pair = pair_of(tally, random, shape, filter);
    pair.run(tally, random, |tally, random, peer| {
        tally.sessions.sort = "hostile";
        let is_long = shape.iter().sum::<usize>() > 500;
        let trials = random.pick(&[0, 1, 2, 6]);
        let trials = if is_long {
            u64::from(random.once_in(20))
        } else {
            trials
        };
        for _ in 0..trials {
            trial(tally, random, peer, past);
        }
        tally.sessions.sort = "honest";
        if past.here.len() < 300 {
            past.here.push(peer.inbox[0].clone());
        }
    });
    tally.sessions.sort = "hostile";
    for peer in &mut pair.peers {
        let numbers = peer.numbers;
        // Whatever comes after the end.
        for delivery in past.here.iter().rev().take(2) {
            peer.compared.trial(tally, random, numbers, delivery);
        }
    }
    let here = std::mem::take(&mut past.here);
    past.elsewhere = here
        .into_iter()
        .chain(std::mem::take(&mut past.elsewhere))
        .take(600)
        .collect();
}

/// Peers that are sent made up messages one after the other; what is refused is as if it had not
/// been sent.
fn wild(tally: &mut Tally) {
    let mut random = tally.subject("wild sessions", 0x221);
    let random = &mut random;
    for i in 0..4000 {
        let n = random.pick(&[0, 1, 3, 20, 60]);
        let n = if i % 100 == 7 { 1200 } else { n };
        let table = some_table(random, n);
        let filter = (size_of_wild(random), some_salt(random));
        let mut peer = match i % 2 {
            0 => Peer::receiver(tally, random, &table),
            _ => Peer::sender(tally, random, &table, filter).0,
        };
        if i % 5 == 0 {
            peer.numbers.swaps = random.pick(&[1, 14, 15, 16]);
        }
        for _ in 0..random.pick(&[5, 30, 30, 60]) {
            let numbers = peer.numbers;
            let known = Known::new(numbers, peer.compared.ledger(&numbers));
            let mut delivery = made_up(random, &known);
            if random.once_in(12) {
                delivery = damaged(random, &delivery);
            }
            let (step, _) = peer.compared.step(tally, random, numbers, &delivery);
            if step.refusal == 0 || step.refusal == 6 {
                peer.numbers = step.next;
            }
            if peer.numbers.state == 6 && random.once_in(3) {
                break;
            }
        }
    }
}

fn size_of_wild(random: &mut Random) -> u32 {
    match random.once_in(10) {
        true => random.between(37, 4096) as u32,
        false => some_size(random, 90),
    }
}
