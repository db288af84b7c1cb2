//! Comparisons of packing: which counters fit, the bytes written, and the way there and back.

use crate::random::Random;
use crate::{lent, library, model, Tally, GUARD};

/// Widths that are refused, among them those that are good modulo 32 or 64 or 256.
pub const BAD_WIDTHS: [u32; 9] = [0, 33, 34, 40, 64, 65, 257, 1 << 31, u32::MAX];

/// The longest list of counters, and lists about it.
pub const LONG: [usize; 4] = [
    model::MOST_COUNTERS - 1,
    model::MOST_COUNTERS,
    model::MOST_COUNTERS + 1,
    2 * model::MOST_COUNTERS,
];

pub fn compare(tally: &mut Tally) {
    fitting(tally);
    packing(tally);
    round_trips(tally);
}

/// The bytes that the counters take, for a good width.
pub fn bytes_of(n: usize, w: u32) -> usize {
    model::packed_len(n, w) as usize
}

/// A count that does not fit the width, most often just not.
fn misfit(random: &mut Random, w: u32) -> i64 {
    let beyond = 1i64 << w;
    let low = random.below(2) as i64;
    random.pick(&[
        beyond,
        beyond + 1,
        beyond * 2,
        -1,
        -1,
        -beyond,
        (1 << 32) + low,
        (1 << 40) + low,
        i64::MIN,
        i64::MIN + low,
        i64::MAX,
    ])
}

fn one_fit(tally: &mut Tally, counts: &[i64], w: u32) {
    let call = || format!("fits({counts:x?}, w {w:#x})");
    tally.same(call, model::fits(counts, w), library::fits(counts, w));
}

fn fitting(tally: &mut Tally) {
    let mut random = tally.subject("fitting", 0xF1);
    for w in 1..=32 {
        for n in 0..=100 {
            let mut counts = random.counters(n, w);
            one_fit(tally, &counts, w);
            // The same counters at a width that may be too small.
            one_fit(tally, &counts, w - w / 2);
            one_fit(tally, &counts, w - 1);
            if n > 0 {
                let i = index(&mut random, n);
                counts[i] = misfit(&mut random, w);
                one_fit(tally, &counts, w);
            }
        }
        one_fit(tally, &random.counters(LONG[2], w), w);
    }
    for w in BAD_WIDTHS {
        for n in 0..=100 {
            one_fit(tally, &random.counters(n, 1), w);
        }
    }
}

/// The first or the last index below n, or any.
fn index(random: &mut Random, n: usize) -> usize {
    let any = random.below(n as u64) as usize;
    random.pick(&[0, n - 1, any])
}

/// Packs into a buffer of len random bytes.
fn one_pack(tally: &mut Tally, random: &mut Random, counts: &[i64], w: u32, len: usize, at: usize) {
    let before = random.bytes(len + 2 * GUARD);
    let (mut by_model, mut by_library) = (before.clone(), before.clone());
    let model = model::pack(counts, w, lent(&mut by_model), at);
    let library = library::pack(counts, w, lent(&mut by_library), at);
    let call = || {
        let n = counts.len();
        format!("pack({n} counts {counts:x?}, w {w:#x}, len {len:#x}, at {at:#x}) on {before:02x?}")
    };
    tally.same(call, (model, by_model), (library, by_library));
}

fn packing(tally: &mut Tally) {
    let mut random = tally.subject("packing", 0xF2);
    for w in 1..=32 {
        for n in 0..=100 {
            let counts = random.counters(n, w);
            let bytes = bytes_of(n, w);
            let at = random.between(1, 20) as usize;
            let more = random.between(1, 20) as usize;
            let less = random.between(1, bytes as u64 + 1) as usize;
            let far = random.huge();
            let mut one = |len, at| one_pack(tally, &mut random, &counts, w, len, at);
            one(bytes, 0);
            one(at + bytes, at);
            one(at + bytes + more, at);
            one(at + bytes - 1, at);
            one((at + bytes).saturating_sub(less), at);
            one(bytes, bytes + at);
            one(bytes + more, far);
            if n > 0 {
                let mut counts = counts.clone();
                let i = index(&mut random, n);
                counts[i] = misfit(&mut random, w);
                one_pack(tally, &mut random, &counts, w, at + bytes + more, at);
            }
        }
    }
    for w in BAD_WIDTHS {
        for n in 0..=20 {
            let counts = random.counters(n, 1);
            let (len, at) = (random.between(0, 200) as usize, random.below(4) as usize);
            one_pack(tally, &mut random, &counts, w, len, at);
            one_pack(tally, &mut random, &vec![0; n], w, 200, at);
        }
    }
    for n in LONG {
        for w in [1, 2, 7, 8, 13, 31, 32] {
            let counts = random.counters(n, w);
            let len = bytes_of(n, w);
            one_pack(tally, &mut random, &counts, w, len + 3, 3);
            one_pack(tally, &mut random, &counts, w, len + 2, 3);
        }
    }
}

/// The library packs and the library reads: what comes back is what went in.
fn round_trips(tally: &mut Tally) {
    let mut random = tally.subject("round trips", 0xF3);
    for w in 1..=32 {
        for n in 0..=100 {
            let counts = random.counters(n, w);
            let bytes = bytes_of(n, w);
            let (at, more) = (random.below(9) as usize, random.below(9) as usize);
            let mut packed = random.bytes(at + bytes + more);
            let end = library::pack(&counts, w, &mut packed, at);
            let mut back = vec![-1; n];
            let answer = (
                library::unpack(&packed, at, n, w, &mut back, 0),
                library::spare_is_zero(&packed, at, n, w),
                end,
            );
            let call = || format!("pack then unpack {counts:x?} at width {w:#x}, at {at:#x}");
            tally.same(call, (true, true, at + bytes), answer);
            tally.same(call, &counts, &back);
            let each = (0..n).map(|i| i64::from(library::counter_at(&packed, at, n, w, i)));
            let call = || format!("pack then counter_at {counts:x?} at width {w:#x}, at {at:#x}");
            tally.same(call, &counts, &each.collect());

            // Any bytes whose spare bits are zero come back as they were.
            let mut given = random.bytes(bytes);
            let spare = bytes * 8 - n * w as usize;
            if let Some(last) = given.last_mut() {
                *last = *last >> spare << spare;
            }
            let mut counts = vec![-1; n];
            let read = library::unpack(&given, 0, n, w, &mut counts, 0);
            let mut written = random.bytes(bytes);
            let end = library::pack(&counts, w, &mut written, 0);
            let call = || format!("unpack then pack {given:02x?} at width {w:#x}, n {n:#x}");
            tally.same(call, (true, bytes, &given), (read, end, &written));
        }
    }
}
