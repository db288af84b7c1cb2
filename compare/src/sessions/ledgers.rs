//! Any ledgers of good form, most of which no session reaches, and steps on them.

use super::calls::{Compared, Delivery};
use super::craft::{shuffle, some_of, Known};
use super::hostile::{damaged, made_up};
use super::ledger::{hashes_of, xor, Hash, Ledger};
use super::memory::{Memory, Numbers, FAR, PLACES};
use super::step::has_ended;
use crate::filters::{id_of, HASH, MOST_COUNT};
use crate::random::Random;
use crate::sets::{some_ids, some_salt, some_size, table_of};
use crate::{lent, Tally};
use std::collections::BTreeSet;

pub fn compare(tally: &mut Tally) {
    tally.sessions.sort = "ledgers";
    any_message(tally);
}

/// The states, and 3 before and after its first message.
pub const ROWS: [(u32, u32); 8] = [
    (0, 0),
    (1, 0),
    (2, 0),
    (3, 0),
    (3, 1),
    (5, 0),
    (6, 0),
    (7, 0),
];

/// Each of them so many times, with the number of the time.
pub fn each_row(times: usize) -> impl Iterator<Item = ((u32, u32), usize)> {
    let with_times = move |row| (0..times).map(move |i| (row, i));
    ROWS.into_iter().flat_map(with_times)
}

/// Numbers and a ledger of good form.
#[derive(Clone)]
pub struct Good {
    pub numbers: Numbers,
    pub ledger: Ledger,
    pub far: Hash,
}

/// How many elements the table has, are met, are demanded and unmet, and are only inquired.
pub type Parts = [usize; 4];

pub fn some_parts(random: &mut Random) -> Parts {
    let most = random.pick(&[1, 3, 10, 10, 40]);
    [0; 4].map(|_| random.below(most + 1) as usize)
}

/// Some of these, maybe none or all.
fn subset<T: Clone>(random: &mut Random, list: &[T]) -> Vec<T> {
    match random.below(4) {
        0 => Vec::new(),
        1 => list.to_vec(),
        _ => some_of(random, list, list.len()),
    }
}

impl Good {
    /// One in this state, whose mark of the first message is as said in 3 and any elsewhere.
    pub fn new(random: &mut Random, (state, first): (u32, u32), parts: Parts) -> Good {
        let untouched = state < 2 || (state, first) == (3, 1);
        let parts = if untouched {
            [parts[0], 0, 0, 0]
        } else {
            parts
        };
        let [table, met, unmet, open] = parts;
        let mut ids = some_ids(random, table + met + unmet + open);
        // Any of them are in the table, demanded, or only inquired.
        shuffle(random, &mut ids);
        let only_inquired = ids.split_off(table + met + unmet);
        let demanded = ids.split_off(table);
        let mut ledger = Ledger {
            table: hashes_of(&table_of(random, &ids)),
            demanded: hashes_of(&table_of(random, &demanded)),
            ..Ledger::default()
        };
        let mut gained = ledger.demanded.clone();
        shuffle(random, &mut gained);
        ledger.gained = gained.into_iter().take(met).collect();
        if !untouched {
            ledger.mark_any(random);
            ledger.inquire_any(random, state, &only_inquired);
        }
        let all_held = ledger.all_inquired_are_held();
        let any = random.below(2) as u32;
        let numbers = Numbers {
            state,
            first: if state == 3 { first } else { any },
            size: some_size(random, 4096),
            salt: some_salt(random),
            width: random.pick(&[0, 1, 4, 32, 33, u32::MAX]),
            swaps: random.pick(&[0, 1, 8, 15, 16, 16]),
            done: match state {
                2 => u32::from(all_held),
                _ if untouched => 0,
                _ => random.below(2) as u32,
            },
            demanded: ledger.demanded.len() as u32,
            inquired: ledger.inquired.len() as u32,
        };
        let mut good = Good {
            numbers,
            ledger,
            far: [0; HASH],
        };
        good.far = good.some_checksum(random);
        if state == 1 {
            good.numbers.size = random.pick(&[2521, 2530, 2700, 4096, 4096, 100]);
            good.numbers.width = random.pick(&[1, 2, 5, 13, 32, 0, 40]);
        }
        good
    }

    /// The checksum once all is met, most often; else anything.
    fn some_checksum(&self, random: &mut Random) -> Hash {
        let unmet = self.ledger.unmet();
        let all = unmet
            .iter()
            .fold(self.ledger.checksum(), |sum, h| xor(&sum, h));
        let mut other = all;
        other[random.below(64) as usize] ^= 1 << random.below(8);
        random.pick(&[all, all, other, [0; HASH]])
    }

    /// A memory that says this; all the rest holds anything.
    pub fn memory(&self, random: &mut Random) -> Memory {
        let mut memory = Memory::with_room(random, &self.ledger.table.concat());
        self.lay(random, &mut memory);
        memory
    }

    /// Lays this in the memory, which has the room.
    pub fn lay(&self, random: &mut Random, memory: &mut Memory) {
        self.ledger.encode(&mut memory.lent());
        lent(&mut memory.records)[FAR..FAR + HASH].copy_from_slice(&self.far);
        if self.numbers.state == 1 {
            let highest = random.pick(&[1, 1, 3, MOST_COUNT]);
            for count in &mut lent(&mut memory.counts)[..2520] {
                *count &= highest;
            }
        }
    }

    pub fn compared(&self, random: &mut Random) -> Compared {
        Compared::new(self.memory(random))
    }

    /// A message for it, seldom a damaged one.
    pub fn message(&self, random: &mut Random) -> Delivery {
        let known = Known::new(self.numbers, self.ledger.clone());
        let delivery = made_up(random, &known);
        match random.once_in(8) {
            true => damaged(random, &delivery),
            false => delivery,
        }
    }
}

impl Ledger {
    /// Held ones may be asked, offered, and if offered served.
    fn mark_any(&mut self, random: &mut Random) {
        let held: Vec<Hash> = self.held().into_values().collect();
        let ids: Vec<u64> = held.iter().map(|hash| id_of(hash)).collect();
        self.asked = subset(random, &ids).into_iter().collect();
        let offered = subset(random, &held);
        self.served = subset(random, &offered).into_iter().collect();
        self.offered = offered.into_iter().collect();
    }

    /// In 2 all that is demanded was inquired; besides, any may have been.
    fn inquire_any(&mut self, random: &mut Random, state: u32, others: &[u64]) {
        let ids = |hashes: &[Hash]| -> Vec<u64> { hashes.iter().map(|hash| id_of(hash)).collect() };
        let mut inquired: BTreeSet<u64> = others.iter().copied().collect();
        match state {
            2 => inquired.extend(ids(&self.demanded)),
            _ => inquired.extend(subset(random, &ids(&self.demanded))),
        }
        let room = PLACES - inquired.len();
        let of_table = subset(random, &ids(&self.table));
        inquired.extend(of_table.into_iter().take(room));
        self.inquired = inquired.into_iter().collect();
    }
}

/// A few messages on each ledger, each taken back.
fn any_message(tally: &mut Tally) {
    let mut random = tally.subject("any ledgers", 0x230);
    let random = &mut random;
    for i in 0..5_000 {
        let parts = some_parts(random);
        let good = Good::new(random, ROWS[i % ROWS.len()], parts);
        let mut compared = good.compared(random);
        assert!(compared.ledger(&good.numbers) == good.ledger);
        for _ in 0..if has_ended(&good.numbers) { 1 } else { 8 } {
            let delivery = good.message(random);
            let (step, _) = compared.trial(tally, random, good.numbers, &delivery);
            assert!(step.refusal != 1 && step.refusal != 2, "{:?}", good.numbers);
        }
        // The last one for good, and others behind it.
        let mut numbers = good.numbers;
        for _ in 0..random.pick(&[0, 1, 4]) {
            let known = Known::new(numbers, compared.ledger(&numbers));
            let delivery = made_up(random, &known);
            let (step, _) = compared.step(tally, random, numbers, &delivery);
            numbers = step.next;
        }
    }
}
