//! Mutated calls, many of them: on ledgers of every state and at any point of honest sessions steps
//! are made whose message, ledger, numbers or lengths are changed at random, and some as they are.
//! Those that are accepted may stay, and what follows begins from what they left. What is compared
//! when is told in fixture.rs.

mod counts;
mod deliveries;
pub mod fixture;
pub mod ledgers;
pub mod lengths;

use super::calls::Delivery;
use super::craft::{new_hash, Known, GOOD};
use super::honest::{pair_of, some_shape};
use super::hostile::made_up;
use super::ledger::Hash;
use super::ledgers::{some_parts, Good, ROWS};
use super::memory::Numbers;
use super::slices::{messages_of, BEFORE, BETWEEN};
use super::step::{has_ended, may_come};
use crate::filters::{id_of, Filter};
use crate::messages::layout::{self, Message};
use crate::random::Random;
use crate::sets::{some_salt, some_size};
use crate::Tally;
use counts::Counts;
use fixture::{writes, Call, Fixture, Lengths, HASH_AT, MESSAGE_AT};

/// What is kept from session to session.
struct Run {
    counts: Counts,
    /// Messages of other sessions.
    past: Vec<Delivery>,
}

/// Makes so many mutated calls, and others; whether they are enough, of each answer too.
pub fn compare(tally: &mut Tally, calls: u64, seed: u64) -> bool {
    tally.sessions.sort = "mutated";
    let mut random = tally.subject("mutated calls", seed);
    let random = &mut random;
    let mut run = Run {
        counts: Counts::new(calls, seed),
        past: Vec::new(),
    };
    while !run.counts.are_made() {
        match random.below(6) {
            0 => in_session(tally, random, &mut run),
            _ => on_ledger(tally, random, &mut run),
        }
    }
    let enough = run.counts.are_enough();
    enough & tally.sessions.nothing_is_new()
}

/// The states in which more can come; they are given more often.
const MORE: [(u32, u32); 5] = [(0, 0), (1, 0), (2, 0), (3, 0), (3, 1)];

/// A ledger near the limit of what may be held and wanted, and messages that reach and pass it.
fn at_limit(random: &mut Random) -> (Good, Vec<Delivery>) {
    let row = random.pick(&MORE);
    let few = random.pick(&[[3, 4, 5], [0, 0, 9], [20, 30, 50], [0, 0, 0]]);
    let has_few = row == (2, 0) || row == (3, 0);
    let rest: usize = if has_few { few.iter().sum() } else { 0 };
    let free = random.pick(&[0, 0, 1, 2, 9]);
    let [met, unmet, open] = few;
    let good = Good::new(random, row, [4096 - rest - free, met, unmet, open]);
    let mut deliveries = Vec::new();
    for n in [free, free + 1, free + 1] {
        let fresh = random.numbers(n);
        let hashes = fresh.iter().map(|&id| new_hash(random, id));
        let hashes: Vec<Hash> = hashes.chain([good.ledger.table[0]]).collect();
        let offer = Message::Offer(hashes.concat()).bytes();
        deliveries.push(Delivery::new(random, offer));

        let ids = good.ledger.table.iter().map(|hash| id_of(hash));
        let ids: Vec<u64> = ids.chain(fresh).collect();
        let (size, salt) = (some_size(random, 90), some_salt(random));
        let filter = Filter::of(&ids, size, salt);
        deliveries.extend(messages_of(random, &filter, salt));
    }
    (good, deliveries)
}

/// Mostly few elements, now and then many.
fn some_ledger(random: &mut Random) -> Good {
    let [any, more] = [random.pick(&ROWS), random.pick(&MORE)];
    let row = random.pick(&[any, more, more]);
    let parts = match random.below(100) {
        0 => [0; 4].map(|_| random.between(10, 400) as usize),
        _ => some_parts(random),
    };
    Good::new(random, row, parts)
}

/// Rounds of calls on a ledger of good form.
fn on_ledger(tally: &mut Tally, random: &mut Random, run: &mut Run) {
    let (good, deliveries) = match random.below(50) {
        0 => at_limit(random),
        _ => (some_ledger(random), Vec::new()),
    };
    let memory = good.memory(random);
    let mut fixture = Fixture::new(random, memory, good.numbers);
    rounds(tally, random, run, &mut fixture, &deliveries);
    fixture.drop_whole();
}

/// Rounds of calls at some points of an honest session, on a copy of the peer whose turn it is.
fn in_session(tally: &mut Tally, random: &mut Random, run: &mut Run) {
    let size = match random.below(30) {
        0 => random.between(2521, 2600) as u32,
        _ => some_size(random, 150),
    };
    let filter = (size, some_salt(random));
    let shape = some_shape(random);
    let mut pair = pair_of(tally, random, shape, filter);
    pair.run(tally, random, |tally, random, peer| {
        if !random.once_in(8) || run.counts.are_made() {
            return;
        }
        let mut fixture = Fixture::new(random, peer.compared.model.clone(), peer.numbers);
        let deliveries: Vec<Delivery> = peer.inbox.iter().take(3).cloned().collect();
        rounds(tally, random, run, &mut fixture, &deliveries);
        fixture.drop_whole();
    });
}

/// Each round begins from what the last one left; of a session that ended there are few.
fn rounds(
    tally: &mut Tally,
    random: &mut Random,
    run: &mut Run,
    fixture: &mut Fixture,
    given: &[Delivery],
) {
    let is_large = fixture.elements() > 90;
    let rounds = random.between(1, if is_large { 2 } else { 8 });
    for i in 0..rounds {
        let mut deliveries = deliveries_for(random, fixture);
        if i == 0 {
            deliveries.extend(given.iter().cloned());
        }
        let ended = has_ended(&fixture.numbers);
        let calls = if ended { 8 } else { random.between(10, 50) };
        for _ in 0..calls {
            if run.counts.are_made() || one(tally, random, run, fixture, &deliveries) {
                break;
            }
        }
        remember(random, run, deliveries);
        if ended {
            break;
        }
    }
}

/// Some deliveries for a session, good and bad; the second half of them are to be good.
fn deliveries_for(random: &mut Random, fixture: &mut Fixture) -> Vec<Delivery> {
    let known = Known::new(fixture.numbers, fixture.ledger());
    let mut deliveries: Vec<Delivery> = (0..4).map(|_| made_up(random, &known)).collect();
    deliveries.extend((0..4).filter_map(|_| good(random, &known)));
    deliveries
}

/// A good message that may come, if one is found.
fn good(random: &mut Random, known: &Known) -> Option<Delivery> {
    (0..20).find_map(|_| {
        let trick = match known.numbers.state {
            0 => random.pick(&BEFORE),
            1 => random.pick(&BETWEEN),
            3 if random.once_in(4) => random.pick(&BEFORE),
            _ => random.pick(&GOOD),
        };
        let delivery = trick(random, known)?;
        let kind = layout::read(&delivery.bytes).kind;
        (has_ended(&known.numbers) || may_come(&known.numbers, kind)).then_some(delivery)
    })
}

/// Keeps some short messages for later sessions.
fn remember(random: &mut Random, run: &mut Run, deliveries: Vec<Delivery>) {
    const MOST: usize = 100;
    for delivery in deliveries {
        if delivery.bytes.len() > 4_000 || !random.once_in(4) {
            continue;
        }
        if run.past.len() == MOST {
            run.past.swap_remove(random.below(MOST as u64) as usize);
        }
        run.past.push(delivery);
    }
}

/// Whether a filter may come.
fn may_read(numbers: &Numbers) -> bool {
    may_come(numbers, layout::IBF_LAST)
}

/// One call; true if what it left stays.
fn one(
    tally: &mut Tally,
    random: &mut Random,
    run: &mut Run,
    fixture: &mut Fixture,
    deliveries: &[Delivery],
) -> bool {
    let delivery = deliveries[random.below(deliveries.len() as u64) as usize].clone();
    let mut call = Call {
        numbers: fixture.numbers,
        lengths: fixture.lengths,
        delivery,
        kinds: Vec::new(),
    };
    let others = if random.once_in(2) {
        deliveries
    } else {
        &run.past
    };
    mutate(random, fixture, &mut call, others);
    // What reads a filter seldom stays: such a state does not come again.
    let stays = random.once_in(if may_read(&fixture.numbers) { 25 } else { 5 });
    let step = fixture.step(tally, random, &call, stays);
    run.counts.call(&call.numbers, &call.kinds, &step);
    stays && writes(&step)
}

/// How many mutations of the message, the ledger and the lengths there are; once in eight none.
fn how_many(random: &mut Random) -> [u64; 3] {
    let some = random.pick(&[1, 1, 1, 2, 3]);
    match random.below(24) {
        0..=2 => [0, 0, 0],
        3..=12 => [some, 0, 0],
        13..=17 => [0, some, 0],
        18 | 19 => [0, 0, some],
        20 => [1, 1, 0],
        21 => [1, 0, 1],
        22 => [0, 1, 1],
        _ => [0; 3].map(|_| random.between(1, 2)),
    }
}

/// Tries until something is changed, some times.
fn tried(mut mutation: impl FnMut() -> Option<&'static str>) -> Option<&'static str> {
    (0..9).find_map(|_| mutation())
}

fn mutate(random: &mut Random, fixture: &mut Fixture, call: &mut Call, others: &[Delivery]) {
    let [of_delivery, of_ledger, of_lengths] = how_many(random);
    for _ in 0..of_delivery {
        let kind = tried(|| mutate_delivery(random, &mut call.delivery, others));
        call.kinds.extend(kind);
    }
    for _ in 0..of_ledger {
        let kind = tried(|| {
            let (kind, mutation) = random.pick(&ledgers::ALL);
            mutation(random, fixture, &mut call.numbers).map(|()| kind)
        });
        call.kinds.extend(kind);
    }
    let mut most = fixture.most;
    most[MESSAGE_AT] = call.delivery.bytes.len();
    most[HASH_AT] = call.delivery.hash.len();
    call.lengths[MESSAGE_AT] = most[MESSAGE_AT];
    call.lengths[HASH_AT] = most[HASH_AT];
    for _ in 0..of_lengths {
        let kind = tried(|| mutate_lengths(random, &mut call.lengths, &most));
        call.kinds.extend(kind);
    }
}

fn mutate_delivery(
    random: &mut Random,
    delivery: &mut Delivery,
    others: &[Delivery],
) -> Option<&'static str> {
    let (kind, mutation) = match random.below(3) {
        0 => random.pick(&deliveries::OF_FRAME),
        _ => random.pick(&deliveries::OF_CONTENT),
    };
    let before = delivery.clone();
    mutation(random, delivery, others)?;
    (*delivery != before).then_some(kind)
}

fn mutate_lengths(
    random: &mut Random,
    lengths: &mut Lengths,
    most: &Lengths,
) -> Option<&'static str> {
    let (kind, mutation) = random.pick(&lengths::ALL);
    let before = *lengths;
    mutation(random, lengths, most)?;
    (*lengths != before).then_some(kind)
}
