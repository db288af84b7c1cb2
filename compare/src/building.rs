//! Comparisons of building a table's filter, refusals and what is left behind included.

use crate::filters;
use crate::library::filters as library;
use crate::model::Columns;
use crate::random::Random;
use crate::sets::{some_salt, some_size, some_table};
use crate::tables::break_table;
use crate::{lent, Tally, GUARD};

/// Sizes out of range, and those next to them.
pub const EDGE_SIZES: [u32; 14] = [
    0,
    1,
    3,
    35,
    36,
    37,
    4095,
    4096,
    4097,
    1 << 16,
    (1 << 16) + 37,
    (1 << 31) + 64,
    1 << 31,
    u32::MAX,
];

/// Salts out of range, and those next to them.
pub const EDGE_SALTS: [u32; 9] = [0, 63, 64, 65, 127, 256, 1 << 16, 1 << 31, u32::MAX];

pub fn compare(tally: &mut Tally) {
    build(tally);
    build_large(tally);
}

/// Size, salt, the table, and the columns with what stands before and behind them.
#[derive(Clone, Debug, PartialEq)]
struct Call {
    size: u32,
    salt: u32,
    table: Vec<u8>,
    ids: Vec<u64>,
    hashes: Vec<u32>,
    counts: Vec<i64>,
}

impl Call {
    fn build(&mut self, by_model: bool) -> u32 {
        let columns = Columns {
            ids: lent(&mut self.ids),
            hashes: lent(&mut self.hashes),
            counts: lent(&mut self.counts),
        };
        match by_model {
            true => filters::build(&self.table, columns, self.size, self.salt),
            false => library::build(&mut self.table, columns, self.size, self.salt),
        }
    }
}

/// Builds in columns of these lengths that hold anything.
fn one(
    tally: &mut Tally,
    random: &mut Random,
    table: &[u8],
    (size, salt): (u32, u32),
    lens: [usize; 3],
) -> u32 {
    let before = Call {
        size,
        salt,
        table: table.to_vec(),
        ids: random.numbers(lens[0] + 2 * GUARD),
        hashes: random.words(lens[1] + 2 * GUARD),
        counts: random.signed(lens[2] + 2 * GUARD),
    };
    let (mut by_model, mut by_library) = (before.clone(), before.clone());
    let (model, library) = (by_model.build(true), by_library.build(false));
    let call = || format!("build {before:x?}");
    tally.same(call, (model, by_model), (library, by_library));
    model
}

/// A length for a slice: enough, more, one less, much less, or none.
pub fn some_length(random: &mut Random, size: u32) -> usize {
    // Not even the highest size is lent more than a little.
    let size = u64::from(size.min(5000));
    let len = match random.below(12) {
        0 => size.saturating_sub(1),
        1 => random.below(size + 1),
        2 => 0,
        3 => size + random.between(1, 20),
        _ => size,
    };
    len as usize
}

fn build(tally: &mut Tally) {
    let mut random = tally.subject("building", 0xB2);
    let random = &mut random;
    let mut refusals = [0; 4];
    for i in 0..12_000 {
        let n = match random.below(8) {
            0 => random.below(3),
            1 => random.between(100, 300),
            _ => random.below(60),
        };
        let mut table = some_table(random, n as usize);
        if i % 6 == 0 && n >= 2 {
            break_table(random, &mut table);
        }
        let mut size = some_size(random, 300);
        let mut salt = some_salt(random);
        if random.once_in(6) {
            size = random.pick(&EDGE_SIZES);
        }
        if random.once_in(6) {
            salt = random.pick(&EDGE_SALTS);
        }
        let mut lens = [size.min(5000) as usize + random.pick(&[0, 0, 1, 5]); 3];
        match random.below(4) {
            0 => lens = [0; 3].map(|_| some_length(random, size)),
            1 => lens[random.below(3) as usize] = some_length(random, size),
            _ => {}
        }
        let refusal = one(tally, random, &table, (size, salt), lens);
        refusals[refusal as usize] += 1;
    }
    assert!(refusals.iter().all(|&n| n > 1_000), "each is tried");

    // Every salt, and each size up to a power of two and a little.
    for salt in 0..=70 {
        let table = some_table(random, 20);
        one(tally, random, &table, (50, salt), [50; 3]);
    }
    for size in 30..=260 {
        let table = some_table(random, 40);
        one(tally, random, &table, (size, size % 64), [size as usize; 3]);
    }
}

fn build_large(tally: &mut Tally) {
    let mut random = tally.subject("building large", 0xB3);
    let random = &mut random;
    for n in [0, 1, 1000, 4095, 4096, 4097, 4200] {
        let table = some_table(random, n);
        for size in [37, 64, 2520, 4095, 4096, 4097] {
            let salt = some_salt(random);
            one(tally, random, &table, (size, salt), [size as usize; 3]);
            one(tally, random, &table, (size, salt), [5000; 3]);
            let less = size as usize - 1;
            one(tally, random, &table, (size, salt), [5000, less, 5000]);
        }
    }
}
