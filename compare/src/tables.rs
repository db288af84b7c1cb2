//! Comparisons of tables: which are good, their IDs, and where an ID or a hash stands.

use crate::filters::{self, HASH, MOST_HASHES};
use crate::library::filters as library;
use crate::random::Random;
use crate::sets::{some_ids, some_table, table_of};
use crate::Tally;

pub fn compare(tally: &mut Tally) {
    good_and_broken(tally);
    element_ids(tally);
    positions(tally);
}

fn one_table(tally: &mut Tally, table: &[u8]) -> bool {
    let model = filters::is_table(table);
    let call = || format!("is_table({} bytes {table:02x?})", table.len());
    tally.same(call, model, library::is_table(table));
    model
}

/// The index of a hash that has another behind it; the first and the last come often.
fn neighbour(random: &mut Random, n: usize) -> usize {
    let any = random.below(n as u64 - 1) as usize;
    random.pick(&[0, n - 2, any])
}

/// Breaks a table of at least two hashes in one way; a few of these leave it good.
pub fn break_table(random: &mut Random, table: &mut Vec<u8>) {
    let n = table.len() / HASH;
    let i = neighbour(random, n);
    let (this, next) = (i * HASH, (i + 1) * HASH);
    let byte = random.below(HASH as u64) as usize;
    match random.below(12) {
        // Not whole.
        0 => table.truncate(n * HASH - random.between(1, 63) as usize),
        1 => table.extend(random.bytes(byte.max(1))),
        // Not in order: two neighbours, any two, or all.
        2 => (0..HASH).for_each(|k| table.swap(this + k, next + k)),
        3 => {
            let other = random.below(n as u64) as usize * HASH;
            (0..HASH).for_each(|k| table.swap(this + k, other + k));
        }
        4 => *table = table.chunks(HASH).rev().flatten().copied().collect(),
        // Equal hashes, or equal but for one byte: above, below, or either.
        5 => table.copy_within(this..next, next),
        6 => {
            table.copy_within(this..next, next);
            table[next + byte] = table[next + byte].saturating_add(1);
        }
        7 => {
            table.copy_within(this..next, next);
            table[next + byte] = table[next + byte].saturating_sub(1);
        }
        8 => {
            table.copy_within(this..next, next);
            table[next + byte] ^= 0x80;
        }
        // Equal IDs with any bytes behind; equal but for the last byte of the ID.
        9 | 10 => table.copy_within(this..this + 8, next),
        _ => {
            table.copy_within(this..this + 7, next);
            table[next + 7] = table[this + 7].wrapping_add(random.pick(&[1, 255]));
        }
    }
}

fn good_and_broken(tally: &mut Tally) {
    let mut random = tally.subject("tables", 0x7A);
    let mut good = 0;
    for len in 0..=200 {
        let table = some_table(&mut random, 4);
        one_table(tally, &table[..len]);
        one_table(tally, &vec![0; len]);
        one_table(tally, &random.bytes(len));
    }
    for i in 0..16_000 {
        let n = random.between(2, 2 + i % 12) as usize;
        let mut table = some_table(&mut random, n);
        assert!(one_table(tally, &table));
        break_table(&mut random, &mut table);
        good += u64::from(one_table(tally, &table));
    }
    assert!((1_000..6_000).contains(&good), "both kinds are tried");

    // About the limit: one hash more is one too many.
    for i in 0..24 {
        let more = random.pick(&[1, 2, 100, 4096]);
        let whole = some_table(&mut random, MOST_HASHES + more);
        assert!(!one_table(tally, &whole));
        assert!(!one_table(tally, &whole[..(MOST_HASHES + 1) * HASH]));
        let mut most = whole[..MOST_HASHES * HASH].to_vec();
        assert!(one_table(tally, &most));
        one_table(tally, &whole[..most.len() + 1]);
        one_table(tally, &whole[..most.len() - 1]);
        one_table(tally, &whole[..most.len() - HASH]);
        let last = (MOST_HASHES - 1) * HASH;
        match i % 4 {
            0 => most.copy_within(last - HASH..last - HASH + 8, last),
            1 => most.copy_within(0..8, HASH),
            _ => break_table(&mut random, &mut most),
        }
        one_table(tally, &most);
    }
}

fn element_ids(tally: &mut Tally) {
    let mut random = tally.subject("element IDs", 0x7B);
    for _ in 0..4_000 {
        let len = match random.below(4) {
            0 => random.below(8) as usize * HASH,
            _ => random.below(400) as usize,
        };
        let table = random.bytes(len);
        let n = len / HASH;
        let any = random.below(n as u64 + 1) as usize;
        for i in [0, any, n.saturating_sub(1), n, n + 1, random.huge()] {
            let call = || format!("element_id({table:02x?}, {i:#x})");
            let model = filters::element_id(&table, i);
            tally.same(call, model, library::element_id(&table, i));
        }
    }
    // Positions that come back to the start if they are multiplied without care.
    let table = random.bytes(3 * HASH);
    for i in [
        1 << 58,
        (1 << 58) + 1,
        (1 << 59) + 2,
        usize::MAX / 64,
        usize::MAX / 64 + 1,
    ] {
        let call = || format!("element_id({table:02x?}, {i:#x})");
        let model = filters::element_id(&table, i);
        tally.same(call, model, library::element_id(&table, i));
    }
}

fn one_id(tally: &mut Tally, table: &[u8], id: u64) -> bool {
    let held = filters::holds_id(table, id);
    let model = (held, filters::id_position(table, id));
    let library = (
        library::holds_id(table, id),
        library::id_position(table, id),
    );
    let call = || format!("holds_id and id_position of {id:#x} in {table:02x?}");
    tally.same(call, model, library);
    held
}

fn one_hash(tally: &mut Tally, table: &[u8], hash: &[u8]) -> bool {
    let held = filters::holds_hash(table, hash);
    let model = (held, filters::hash_position(table, hash));
    let library = (
        library::holds_hash(table, hash),
        library::hash_position(table, hash),
    );
    let call = || format!("holds_hash and hash_position of {hash:02x?} in {table:02x?}");
    tally.same(call, model, library);
    held
}

/// Asks a good table for what it holds, what stands next to that, and anything.
fn ask(tally: &mut Tally, random: &mut Random, table: &[u8]) -> u64 {
    let n = table.len() / HASH;
    let mut held = 0;
    let any = random.any_length();
    for id in [0, u64::MAX, any, !any, random.next()] {
        held += u64::from(one_id(tally, table, id));
    }
    let any = random.bytes(70);
    for hash in [&[0; 64][..], &[0xFF; 64], &[], &any, &any[..64], &any[..63]] {
        held += u64::from(one_hash(tally, table, hash));
    }
    for _ in 0..n.min(12) {
        let i = random.below(n as u64) as usize;
        let hash = &table[i * HASH..][..HASH];
        let id = filters::id_of(hash);
        for id in [
            id,
            id.wrapping_add(1),
            id.wrapping_sub(1),
            id ^ 1 << random.below(64),
        ] {
            held += u64::from(one_id(tally, table, id));
        }
        // The hash, longer and shorter than it is, and with a bit turned.
        let longer = [hash, &any[..random.between(1, 70) as usize]].concat();
        let mut other = hash.to_vec();
        other[random.below(HASH as u64) as usize] ^= 1 << random.below(8);
        let mut last = hash.to_vec();
        last[HASH - 1] = last[HASH - 1].wrapping_add(random.pick(&[1, 255]));
        let shorter = &hash[..random.below(HASH as u64) as usize];
        for hash in [hash, &longer, &hash[..63], shorter, &other, &last] {
            held += u64::from(one_hash(tally, table, hash));
        }
    }
    held
}

fn positions(tally: &mut Tally) {
    let mut random = tally.subject("positions", 0x7C);
    let mut held = 0;
    for i in 0..1_500 {
        let n = match i % 10 {
            0 => random.below(4) as usize,
            1 => random.between(50, 300) as usize,
            _ => random.below(40) as usize,
        };
        let mut ids = some_ids(&mut random, n);
        if i % 3 == 0 {
            // One behind the other, at either end or anywhere.
            let from = random.pick(&[0, u64::MAX - n as u64, i << 40]);
            ids = (0..n as u64).map(|j| from + j).collect();
        }
        let table = table_of(&mut random, &ids);
        held += ask(tally, &mut random, &table);
    }
    assert!((20_000..80_000).contains(&held), "both kinds are tried");
    for n in [MOST_HASHES - 1, MOST_HASHES] {
        let table = some_table(&mut random, n);
        for _ in 0..4 {
            ask(tally, &mut random, &table);
        }
    }
}
