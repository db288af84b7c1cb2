//! Comparisons of steps in a number that is no state: 1 is the answer and nothing is changed,
//! whatever comes, however little is lent, and whatever the ledger says.

use super::calls::Delivery;
use super::counts::{row, NO_STATES};
use super::craft::Known;
use super::kinds::{malformed, of_kind, KINDS};
use super::ledgers::{each_row, some_parts, Good, Parts};
use super::memory::Numbers;
use super::mutated::fixture::{Call, Fixture, Lengths, ASKED, HASH_AT, MESSAGE_AT, TABLE_AT};
use super::mutated::{ledgers, lengths};
use super::step::refused;
use crate::random::Random;
use crate::Tally;

pub fn compare(tally: &mut Tally) {
    tally.sessions.sort = "states";
    on_good_ledgers(tally);
    on_broken_ledgers(tally);
}

/// The slices for which room is asked, and where they stand in the lengths.
const SLICES: [(&str, usize); 10] = [
    ("records", 1),
    ("marks", 2),
    ("inquired", 3),
    ("ids", 4),
    ("hashes", 5),
    ("counts", 6),
    ("ours", 7),
    ("theirs", 8),
    ("hash", HASH_AT),
    ("out", 11),
];

/// The number of this row.
fn number_of(random: &mut Random, row: &str) -> u32 {
    // Those above are states in their low bits, or anything.
    let low = random.below(8) as u32;
    let high = random.pick(&[8, 16, 256, 65_536, 1 << 31]);
    let any = random.between(11, u64::from(u32::MAX) - 1) as u32;
    match row {
        "above" => random.pick(&[high + low, any]).max(11),
        "2^32 - 1" => u32::MAX,
        _ => row.parse().expect("the row of one number"),
    }
}

/// One step in this number: what it must answer is known without the model.
fn one(tally: &mut Tally, random: &mut Random, fixture: &mut Fixture, call: &Call) {
    let step = fixture.step(tally, random, call, false);
    assert!(step == refused(1, call.numbers), "{step:?}");
}

/// Where one demand alone is unmet, in 5 its ELEMENT would be the last.
const SHAPES: [Parts; 6] = [
    [5, 3, 4, 3],
    [4, 5, 0, 0],
    [3, 1, 1, 0],
    [6, 0, 0, 4],
    [0, 0, 0, 0],
    [1, 9, 8, 0],
];

/// A ledger of each state, every kind of message, and each number.
fn on_good_ledgers(tally: &mut Tally) {
    let mut random = tally.subject("numbers that are no state", 0x2a0);
    let random = &mut random;
    for (shape, i) in each_row(SHAPES.len()) {
        let good = Good::new(random, shape, SHAPES[i]);
        let memory = good.memory(random);
        let mut fixture = Fixture::new(random, memory, good.numbers);
        let known = Known::new(good.numbers, good.ledger.clone());
        for (name, kind) in KINDS {
            let delivery = of_kind(random, &known, kind);
            let damaged = malformed(random, &delivery);
            for (formed, delivery) in [("well-formed", delivery), ("malformed", damaged)] {
                let words = [row(&good.numbers), name, formed];
                each_number(tally, random, &mut fixture, words, &delivery);
            }
        }
        fixture.drop_whole();
    }
}

/// In each number, with enough lent, with a slice short, and with nothing lent.
fn each_number(
    tally: &mut Tally,
    random: &mut Random,
    fixture: &mut Fixture,
    [shape, kind, formed]: [&'static str; 3],
    delivery: &Delivery,
) {
    for name in NO_STATES {
        for lent in ["enough lent", "a slice short", "nothing lent"] {
            let numbers = Numbers {
                state: number_of(random, name),
                ..fixture.numbers
            };
            let mut lengths = fixture.lengths;
            lengths[HASH_AT] = delivery.hash.len();
            lengths[MESSAGE_AT] = delivery.bytes.len();
            if let Some(slice) = cut(random, lent, &mut lengths) {
                tally.sessions.case(&[name, "short", slice]);
            }
            let call = Call {
                numbers,
                lengths,
                delivery: delivery.clone(),
                kinds: vec![lent],
            };
            one(tally, random, fixture, &call);
            tally.sessions.case(&[name, shape, kind, formed, lent]);
        }
    }
}

/// Cuts what is lent as said; answers the slice that is short, if it is one.
fn cut(random: &mut Random, lent: &str, lengths: &mut Lengths) -> Option<&'static str> {
    match lent {
        "a slice short" => {
            let (slice, at) = random.pick(&SLICES);
            let any = random.below(ASKED[at] as u64) as usize;
            lengths[at] = random.pick(&[ASKED[at] - 1, 0, any]);
            Some(slice)
        }
        "nothing lent" => {
            SLICES.iter().for_each(|&(_, at)| lengths[at] = 0);
            None
        }
        _ => None,
    }
}

/// Ledgers mutated in any way, and any lengths.
fn on_broken_ledgers(tally: &mut Tally) {
    let mut random = tally.subject("numbers that are no state, broken ledgers", 0x2a1);
    let random = &mut random;
    for (shape, _) in each_row(8) {
        let parts = some_parts(random);
        let good = Good::new(random, shape, parts);
        let memory = good.memory(random);
        let mut fixture = Fixture::new(random, memory, good.numbers);
        for name in NO_STATES.repeat(5) {
            let call = broken(random, &good, &mut fixture, name);
            one(tally, random, &mut fixture, &call);
            tally.sessions.case(&[name, "a broken ledger"]);
        }
        fixture.drop_whole();
    }
}

fn broken(random: &mut Random, good: &Good, fixture: &mut Fixture, name: &str) -> Call {
    let delivery = good.message(random);
    let mut numbers = good.numbers;
    let mut most = fixture.most;
    most[HASH_AT] = delivery.hash.len();
    most[MESSAGE_AT] = delivery.bytes.len();
    let mut call_lengths = most;
    call_lengths[TABLE_AT] = fixture.lengths[TABLE_AT];
    for _ in 0..random.between(1, 4) {
        let (_, mutation) = random.pick(&ledgers::ALL);
        mutation(random, fixture, &mut numbers);
    }
    for _ in 0..random.below(3) {
        let (_, mutation) = random.pick(&lengths::ALL);
        mutation(random, &mut call_lengths, &most);
    }
    numbers.state = number_of(random, name);
    Call {
        numbers,
        lengths: call_lengths,
        delivery,
        kinds: vec!["no state"],
    }
}
