//! A message of each kind for a peer of which something is known, and one that is malformed.

use super::calls::Delivery;
use super::craft::{Known, Trick, BAD, GOOD};
use super::hostile::damaged;
use super::slices::messages_of;
use crate::filters::{id_of, Filter};
use crate::messages::layout::{self, DEMAND, DONE, ELEMENT, IBF, IBF_LAST, INQUIRY, OFFER};
use crate::random::Random;
use crate::sets::{some_salt, some_size};

pub const KINDS: [(&str, u32); 7] = [
    ("DEMAND", DEMAND),
    ("INQUIRY", INQUIRY),
    ("OFFER", OFFER),
    ("IBF", IBF),
    ("ELEMENT", ELEMENT),
    ("IBF LAST", IBF_LAST),
    ("DONE", DONE),
];

/// A message of this kind, good if the ledger allows it.
pub fn of_kind(random: &mut Random, known: &Known, kind: u32) -> Delivery {
    if kind == IBF || kind == IBF_LAST {
        return of_filter(random, known, kind);
    }
    let good = (0..60).find_map(|_| tried(random, known, kind, &GOOD));
    good.unwrap_or_else(|| loop {
        if let Some(bad) = tried(random, known, kind, &BAD) {
            return bad;
        }
    })
}

fn tried(random: &mut Random, known: &Known, kind: u32, tricks: &[Trick]) -> Option<Delivery> {
    let delivery = random.pick(tricks)(random, known)?;
    (layout::read(&delivery.bytes).kind == kind).then_some(delivery)
}

/// The first slice of two, or the last of one or two.
fn of_filter(random: &mut Random, known: &Known, kind: u32) -> Delivery {
    let two = random.between(2521, 2600) as u32;
    let size = match kind == IBF || random.once_in(4) {
        true => random.pick(&[two, two, 4096]),
        false => some_size(random, 90),
    };
    let salt = some_salt(random);
    let ids: Vec<u64> = known.ledger.table.iter().map(|hash| id_of(hash)).collect();
    let mut messages = messages_of(random, &Filter::of(&ids, size, salt), salt);
    match kind {
        IBF => messages.swap_remove(0),
        _ => messages.pop().expect("one at least"),
    }
}

/// The message damaged so that it is none.
pub fn malformed(random: &mut Random, delivery: &Delivery) -> Delivery {
    loop {
        let damaged = damaged(random, delivery);
        if layout::parse(&damaged.bytes).is_none() {
            return damaged;
        }
    }
}
