//! Comparisons of readings that are refused with 1, 2 or 3, and of slices of every length.

use crate::building::{some_length, EDGE_SALTS, EDGE_SIZES};
use crate::filters::{range_is_good, Filter, MOST_COUNT};
use crate::random::Random;
use crate::sets::{some_ids, some_salt, some_size, some_table, Call};
use crate::tables::break_table;
use crate::{lent, Tally};

/// Counts that no filter has, and those at the ends that one may have.
pub const BAD_COUNTS: [i64; 9] = [
    -1,
    MOST_COUNT + 1,
    MOST_COUNT + 2,
    -MOST_COUNT,
    -MOST_COUNT - 1,
    1 << 40,
    i64::MIN,
    i64::MIN + 1,
    i64::MAX,
];
pub const END_COUNTS: [i64; 7] = [0, 1, 2, MOST_COUNT, MOST_COUNT - 1, 1 << 31, (1 << 31) - 1];

pub fn compare(tally: &mut Tally) {
    orders(tally);
    lengths(tally);
    counts(tally);
}

/// A call whose judged counts are good, those of a filter where size and salt are.
fn good_call(
    random: &mut Random,
    table: &[u8],
    (size, salt): (u32, u32),
    lens: [usize; 5],
) -> Call {
    let mut call = Call::of_lengths(random, table, (size, salt), lens);
    if range_is_good(size, salt) {
        let n = random.below(20) as usize;
        let ids = some_ids(random, n);
        call.lay(&Filter::of(&ids, size, salt));
    } else {
        for place in lent(&mut call.counts).iter_mut().take(size as usize) {
            *place = random.pick(&END_COUNTS);
        }
    }
    call
}

/// Every choice of a bad table, count, size, salt and length, several times.
fn orders(tally: &mut Tally) {
    let mut random = tally.subject("orders of refusals", 0xE0);
    let random = &mut random;
    let mut refusals = [0; 4];
    for round in 0..32 * 250 {
        let bad = |bit: u32| round >> bit & 1 == 1;
        let n = random.between(2, 12) as usize;
        let mut table = some_table(random, n);
        if bad(0) {
            break_table(random, &mut table);
        }
        let mut size = random.between(37, 64) as u32;
        if bad(1) {
            size = random.pick(&[0, 1, 35, 36, 36, 4097, 4100, u32::MAX]);
        }
        let mut salt = some_salt(random);
        if bad(2) {
            salt = random.pick(&[64, 65, 128, 1 << 31, u32::MAX]);
        }
        // The highest sizes are lent what lies about 4,096.
        let len = size.min(4100) as usize;
        let mut lens = [0; 5].map(|_| len + random.pick(&[0, 0, 1, 4]));
        if bad(3) {
            let short = random.below(len as u64 + 1) as usize;
            let short = random.pick(&[len.saturating_sub(1), short, 0]);
            lens[random.below(5) as usize] = short;
        }
        let mut call = good_call(random, &table, (size, salt), lens);
        let judged = lent(&mut call.counts);
        let judged = &mut judged[..lens[2].min(len)];
        if bad(4) && !judged.is_empty() {
            let any = random.below(judged.len() as u64) as usize;
            let i = random.pick(&[0, judged.len() - 1, any]);
            judged[i] = random.pick(&BAD_COUNTS);
        }
        let (reading, end) = call.compare(tally);
        if end.is_none() {
            refusals[reading.refusal as usize] += 1;
        }
    }
    let tried = refusals[1..].iter().all(|&n| n > 200);
    assert!(tried, "each is tried: {refusals:?}");
}

/// Any lengths of the five slices, and sizes and salts at their ends.
fn lengths(tally: &mut Tally) {
    let mut random = tally.subject("lengths", 0xE1);
    let random = &mut random;
    for i in 0..6_000 {
        let n = random.below(12) as usize;
        let table = some_table(random, n);
        let mut size = some_size(random, 80);
        let mut salt = some_salt(random);
        if i % 10 == 0 {
            size = random.pick(&EDGE_SIZES);
        }
        if i % 10 == 1 {
            salt = random.pick(&EDGE_SALTS);
        }
        let len = size.min(5000) as usize;
        let mut lens = [len; 5];
        match random.below(3) {
            0 => lens = lens.map(|_| some_length(random, size)),
            1 => lens[random.below(5) as usize] = some_length(random, size),
            _ => lens = lens.map(|len| len + random.pick(&[0, 1, 30])),
        }
        good_call(random, &table, (size, salt), lens).compare(tally);
    }
    // Each slice one too short, by itself, and nothing lent at all.
    for size in [37, 38, 64, 100, 4096] {
        for short in 0..5 {
            let mut lens = [size as usize + 1; 5];
            lens[short] = size as usize - 1;
            let table = some_table(random, 5);
            good_call(random, &table, (size, 0), lens).compare(tally);
            lens[short] = size as usize;
            good_call(random, &table, (size, 0), lens).compare(tally);
        }
    }
    for size in [0, 36, 37, 4097] {
        good_call(random, &[], (size, 0), [0; 5]).compare(tally);
    }
    // Tables about the limit, and broken at their end.
    for n in [4095, 4096, 4097] {
        let mut table = some_table(random, n);
        for size in [37, 4096] {
            good_call(random, &table, (size, 0), [4096; 5]).compare(tally);
        }
        let last = (n - 1) * 64;
        table.copy_within(last - 64..last - 56, last);
        good_call(random, &table, (37, 0), [37; 5]).compare(tally);
        table.pop();
        good_call(random, &table, (37, 0), [37; 5]).compare(tally);
    }
}

/// Counts about the ends of their range: inside, in the last place, and behind the size.
fn counts(tally: &mut Tally) {
    let mut random = tally.subject("ends of counts", 0xE2);
    let random = &mut random;
    let mut refused = 0;
    for _ in 0..9_000 {
        let n = random.pick(&[0, 1, 5, 30]);
        let table = some_table(random, n);
        let size = some_size(random, 80);
        let salt = some_salt(random);
        let lens = [0; 5].map(|_| size as usize + random.pick(&[0, 1, 6]));
        let mut call = good_call(random, &table, (size, salt), lens);
        let size = size as usize;
        let column = lent(&mut call.counts);
        for count in &mut column[size..] {
            *count = random.pick(&BAD_COUNTS);
        }
        for _ in 0..random.below(4) {
            let i = match random.below(3) {
                0 => random.pick(&[0, 1, size - 1]),
                _ => random.below(size as u64) as usize,
            };
            column[i] = random.pick(&END_COUNTS);
        }
        if random.once_in(4) {
            let any = random.below(column.len() as u64) as usize;
            let i = random.pick(&[0, size - 1, any]);
            column[i] = random.pick(&BAD_COUNTS);
        }
        refused += u64::from(call.compare(tally).1.is_none());
    }
    assert!((1_000..4_000).contains(&refused), "both kinds are tried");
    // All counts at one end.
    for count in END_COUNTS.into_iter().chain(BAD_COUNTS) {
        for n in [0, 1, 60] {
            let table = some_table(random, n);
            let mut received = Filter::empty(37);
            received.counts.fill(count);
            Call::of_filter(random, &table, &received, 0).compare(tally);
        }
    }
}
