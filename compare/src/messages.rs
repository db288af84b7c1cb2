//! Messages: the model of each (layout.rs, writers.rs, items.rs), the comparisons, and how many of
//! each kind there must be.

pub mod calls;
mod crafted;
mod damage;
mod filters;
mod items;
mod known;
mod laying;
pub mod layout;
mod lists;
mod noise;
mod picking;
mod reading;
mod some;
mod walking;
pub mod writers;

pub use known::check_model;

use crate::Tally;
use layout::{END, KINDS, MALFORMED};
use std::collections::BTreeMap;

/// Fewer messages read than this mean that something was left out, as do fewer of a kind, fewer
/// malformed ones, fewer steps of a walk of a kind, or fewer of a refusal of a call.
const LEAST: u64 = 200_000;
const LEAST_OF_A_KIND: u64 = 1_000;
const LEAST_MALFORMED: u64 = 50_000;
const LEAST_STEPS: u64 = 1_000;
const LEAST_REFUSED: u64 = 20;

/// What each call may answer; 0 is no refusal.
const REFUSALS: [(&str, &[u32]); 9] = [
    ("message_read", &[0, 4]),
    ("message_at", &[0, 4]),
    ("element_write", &[0, 2, 4]),
    ("filter_write", &[0, 1, 2, 3]),
    ("filter_lay", &[0, 2, 4]),
    ("inquiry_write", &[0, 2, 3]),
    ("offer_write", &[0, 1, 2]),
    ("demand_write", &[0, 1, 2]),
    ("done_write", &[0, 2]),
];

/// How often each kind was read and met in a walk, and each refusal answered.
#[derive(Default)]
pub struct Counts {
    read: BTreeMap<u32, u64>,
    met: BTreeMap<u32, u64>,
    refused: BTreeMap<(&'static str, u32), u64>,
}

impl Counts {
    fn answered(&mut self, name: &'static str, refusal: u32) {
        *self.refused.entry((name, refusal)).or_default() += 1;
    }
}

pub fn compare(tally: &mut Tally) {
    known::compare(tally);
    lists::compare(tally);
    filters::compare(tally);
    reading::compare(tally);
    crafted::compare(tally);
    noise::compare(tally);
    laying::compare(tally);
    picking::compare(tally);
    walking::compare(tally);
}

/// Tells the counts, and whether there are enough of each.
pub fn are_enough(counts: &Counts) -> bool {
    let read = |kind| counts.read.get(&kind).copied().unwrap_or(0);
    let met = |kind| counts.met.get(&kind).copied().unwrap_or(0);
    let mut enough = true;
    for kind in KINDS {
        println!(
            "messages of type {kind}: {} read, {} met in walks",
            read(kind),
            met(kind)
        );
        enough &= read(kind) >= LEAST_OF_A_KIND && met(kind) >= LEAST_STEPS;
    }
    println!(
        "malformed: {} read, {} met in walks; ends of buffers met: {}",
        read(MALFORMED),
        met(MALFORMED),
        met(END)
    );
    enough &= read(MALFORMED) >= LEAST_MALFORMED;
    enough &= met(MALFORMED) >= LEAST_STEPS && met(END) >= LEAST_STEPS;
    for (name, answers) in REFUSALS {
        let number = |&answer| counts.refused.get(&(name, answer)).copied().unwrap_or(0);
        let numbers: Vec<u64> = answers.iter().map(number).collect();
        println!("{name}: {numbers:?} times {answers:?}");
        enough &= numbers.iter().all(|&n| n >= LEAST_REFUSED);
    }
    let total: u64 = counts.read.values().sum();
    println!("{total} messages read");
    enough && total >= LEAST
}
