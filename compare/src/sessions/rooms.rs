//! Comparisons of steps that are lent too little, exactly enough, or more.

use super::calls::{Compared, Delivery};
use super::ledgers::{some_parts, Good, ROWS};
use super::memory::{Memory, DEMANDED_MARKS};
use crate::random::Random;
use crate::{lent, Tally};

pub fn compare(tally: &mut Tally) {
    tally.sessions.sort = "rooms";
    one_short(tally);
    short_and_broken(tally);
    short_counts(tally);
    nothing_lent(tally);
}

/// A slice for which room is asked, and what is asked.
type Room = (&'static str, usize);

fn rooms(random: &mut Random) -> Vec<Room> {
    let mut memory = Memory::with_just_room(random, &[]);
    let rooms = memory.lent().rooms().into_iter();
    rooms.map(|(name, _, asked)| (name, asked)).collect()
}

/// Lends so many of a slice; the hash goes with the message.
fn shorten(memory: &mut Memory, delivery: &mut Delivery, slice: &str, len: usize) {
    match slice {
        "hash" => delivery.hash.truncate(len),
        _ => memory.shorten(slice, len),
    }
}

fn some_good(random: &mut Random, row: (u32, u32)) -> (Good, Delivery) {
    let parts = some_parts(random);
    let good = Good::new(random, row, parts);
    let delivery = good.message(random);
    (good, delivery)
}

/// A memory of exactly the room asked for.
fn just(random: &mut Random, good: &Good) -> Memory {
    let mut memory = Memory::with_just_room(random, &good.ledger.table.concat());
    good.lay(random, &mut memory);
    memory
}

/// Each slice one short, empty, or of any length; and none of them.
fn one_short(tally: &mut Tally) {
    let mut random = tally.subject("short slices of a session", 0x240);
    let random = &mut random;
    for (row, (slice, asked)) in each(random) {
        for i in 0..7 {
            let (good, mut delivery) = some_good(random, row);
            let mut memory = just(random, &good);
            let any = random.below(asked as u64) as usize;
            let len = [asked - 1, 0, asked - 1, any, asked, asked - 1, any][i];
            shorten(&mut memory, &mut delivery, slice, len);
            if i == 6 {
                let all = rooms(random);
                let (other, most) = random.pick(&all);
                if other != slice {
                    shorten(&mut memory, &mut delivery, other, most - 1);
                }
            }
            let mut compared = Compared::new(memory);
            let (step, _) = compared.step(tally, random, good.numbers, &delivery);
            assert!((step.refusal == 2) == (len < asked), "{slice} of {len}");
        }
    }
}

/// Each row with each slice.
fn each(random: &mut Random) -> Vec<((u32, u32), Room)> {
    let rooms = rooms(random);
    let with_rooms = |row| rooms.iter().map(move |&room| (row, room));
    ROWS.into_iter().flat_map(with_rooms).collect()
}

/// A broken form is told before a short slice; but of the ledger only what is lent is judged.
/// (short.rs has more of these.)
fn short_and_broken(tally: &mut Tally) {
    let mut random = tally.subject("short slices and a broken form", 0x241);
    let random = &mut random;
    for (row, (slice, asked)) in each(random) {
        for i in 0..8 {
            let (mut good, mut delivery) = some_good(random, row);
            let mut memory = just(random, &good);
            let mark = random.pick(&[0, good.ledger.table.len().max(1) - 1]);
            match i {
                0 => good.numbers.salt = 64,
                1 => good.numbers.state = random.pick(&[4, 8]),
                2 => memory.table.push(1),
                // The ledger's memory: a mark, an order, a record that is not there.
                3 | 4 => lent(&mut memory.marks)[mark] = 8,
                5 => {
                    good.numbers.inquired = 2;
                    lent(&mut memory.inquired)[..2].copy_from_slice(&[9, 9]);
                }
                6 => {
                    good.numbers.demanded += 1;
                    let behind = DEMANDED_MARKS + good.ledger.demanded.len();
                    lent(&mut memory.marks)[behind] = 16;
                }
                // A count that is judged in state 1, if it is lent.
                _ => lent(&mut memory.counts)[3] = -1,
            }
            let any = random.below(asked as u64) as usize;
            let len = random.pick(&[asked - 1, asked - 1, 0, any, 4.min(asked - 1)]);
            shorten(&mut memory, &mut delivery, slice, len);
            let mut compared = Compared::new(memory);
            let (step, _) = compared.step(tally, random, good.numbers, &delivery);
            assert!(step.refusal == 1 || step.refusal == 2);
        }
    }
}

/// In state 1 as many counts are judged as there are, up to 2,520.
fn short_counts(tally: &mut Tally) {
    let mut random = tally.subject("short counts in state 1", 0x243);
    let random = &mut random;
    for len in [0, 3, 4, 10, 2518, 2519, 2520, 2521, 4095, 4096] {
        for place in [3, 9, 2518, 2519, 2520, 4094] {
            let (good, delivery) = some_good(random, (1, 0));
            let mut memory = just(random, &good);
            lent(&mut memory.counts)[place] = random.pick(&[-1, 1 << 32]);
            memory.shorten("counts", len);
            let mut compared = Compared::new(memory);
            let (step, _) = compared.step(tally, random, good.numbers, &delivery);
            let judged = len.min(2520);
            assert!((step.refusal == 1) == (place < judged), "{place} of {len}");
        }
    }
}

/// An empty table, an empty message, and everything empty.
fn nothing_lent(tally: &mut Tally) {
    let mut random = tally.subject("nothing lent to a session", 0x242);
    let random = &mut random;
    for row in ROWS {
        for i in 0..6 {
            let mut parts = some_parts(random);
            parts[0] = if i < 4 { 0 } else { parts[0] };
            let good = Good::new(random, row, parts);
            let mut delivery = good.message(random);
            let mut memory = good.memory(random);
            if i % 2 == 0 {
                delivery.bytes.clear();
            }
            if i == 3 {
                delivery.hash.clear();
                for (slice, _) in rooms(random) {
                    memory.shorten(slice, 0);
                }
            }
            let mut compared = Compared::new(memory);
            compared.step(tally, random, good.numbers, &delivery);
        }
    }
}
