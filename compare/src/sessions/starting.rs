//! Comparisons of the starts of sessions.

use super::calls::Compared;
use super::memory::{Memory, MARKS, OUT};
use crate::random::Random;
use crate::sets::{some_salt, some_size, some_table};
use crate::tables::break_table;
use crate::Tally;

pub fn compare(tally: &mut Tally) {
    tally.sessions.sort = "starts";
    let mut random = tally.subject("starts of sessions", 0x250);
    let random = &mut random;
    filters(tally, random);
    tables(tally, random);
    rooms(tally, random);
}

fn both(tally: &mut Tally, memory: Memory, size: u32, salt: u32) {
    Compared::new(memory.clone()).start_receiver(tally);
    Compared::new(memory).start_sender(tally, size, salt);
}

/// Sizes and salts at and beyond their limits.
fn filters(tally: &mut Tally, random: &mut Random) {
    let sizes = [37, 38, 64, 2519, 2520, 2521, 4095, 4096];
    let bad_sizes = [36, 4097, 0, 1, 65_536 + 37, u32::MAX];
    for size in sizes.into_iter().chain(bad_sizes) {
        for salt in [0, 1, 62, 63, 64, 65, 128, u32::MAX] {
            let n = random.pick(&[0, 1, 40, 300]);
            let table = some_table(random, n);
            let memory = Memory::with_room(random, &table);
            both(tally, memory, size, salt);
        }
    }
    for (n, size) in [
        (4096, 37),
        (4096, 4096),
        (4095, 4095),
        (4096, 2520),
        (4096, 2521),
    ] {
        let table = some_table(random, n);
        let memory = Memory::with_just_room(random, &table);
        both(tally, memory, size, some_salt(random));
    }
}

/// Tables broken in any way.
fn tables(tally: &mut Tally, random: &mut Random) {
    for i in 0..120 {
        let n = random.pick(&[2, 3, 40]);
        let mut table = some_table(random, n);
        break_table(random, &mut table);
        let memory = Memory::with_room(random, &table);
        let salt = if i % 3 == 0 { 64 } else { some_salt(random) };
        both(tally, memory, some_size(random, 4096), salt);
    }
    let table = some_table(random, 4097);
    both(tally, Memory::with_room(random, &table), 37, 0);
    let broken = [&table[..], &[1]].concat();
    both(tally, Memory::with_room(random, &broken[64..]), 37, 0);
}

/// Too little, exactly enough, and more.
fn rooms(tally: &mut Tally, random: &mut Random) {
    for i in 0..60 {
        let n = random.pick(&[0, 1, 40]);
        let mut table = some_table(random, n);
        if i % 10 == 9 {
            table.push(3);
        }
        let any = random.below(MARKS as u64) as usize;
        let marks = random.pick(&[MARKS, MARKS, MARKS - 1, 0, any, MARKS / 2]);
        let any = random.below(OUT as u64) as usize;
        let out = random.pick(&[OUT, OUT, OUT - 1, 0, any]);
        let mut memory = Memory::with_just_room(random, &table);
        memory.shorten("marks", marks);
        memory.shorten("out", out);
        let salt = random.pick(&[0, 63, 63, 64]);
        both(tally, memory, some_size(random, 100), salt);
    }
}
