//! Comparisons of bucket arithmetic: zero, and the test of purity.

use crate::model::Bucket;
use crate::random::Random;
use crate::{library, model, Tally};

pub fn compare(tally: &mut Tally) {
    zero(tally);
    pure(tally);
}

/// Counts beside the bounds of 32 and 64 bits, small ones, and any.
fn count(random: &mut Random) -> i64 {
    match random.below(8) {
        0 => random.pick(&[(1 << 32) + 1, (1 << 32) - 1, i64::MAX]),
        1 => random.pick(&[0, i64::MIN, i64::MIN + 1]),
        2 => random.next() as i64,
        3 => random.any_length() as i64 >> 3,
        4 => -(random.any_length() as i64 >> 3),
        _ => random.below(7) as i64 - 3,
    }
}

fn zero(tally: &mut Tally) {
    let mut random = tally.subject("zero", 0x00);
    for _ in 0..10_000 {
        // Half of the columns are zero, the others mostly hold a single bit.
        let mut some = |high: u32| match random.below(6) {
            0..=2 => 0,
            3 => random.next(),
            _ => 1 << random.below(u64::from(high)),
        };
        let bucket = Bucket {
            idsum: some(64),
            hashsum: some(32) as u32,
            count: some(64) as i64,
        };
        let call = || format!("is_zero({bucket:x?})");
        tally.same(call, model::is_zero(bucket), library::is_zero(bucket));
    }
}

/// The bucket that holds these salted IDs, ours counting 1 and theirs -1.
fn bucket_of(ours: &[u64], theirs: &[u64]) -> Bucket {
    let mut bucket = Bucket {
        idsum: 0,
        hashsum: 0,
        count: ours.len() as i64 - theirs.len() as i64,
    };
    for &id in ours.iter().chain(theirs) {
        bucket.idsum ^= id;
        bucket.hashsum ^= model::crc(id);
    }
    bucket
}

fn one_pure(tally: &mut Tally, bucket: Bucket, i: u32, size: u32, k: usize) -> bool {
    let model = model::looks_pure(bucket, i, size, k);
    let library = library::looks_pure(bucket, i, size, k);
    let call = || format!("looks_pure({bucket:x?}, i {i:#x}, size {size:#x}, k {k:#x})");
    tally.same(call, model, library);
    model
}

/// A bucket number that is not among the places, below the size if there is one.
fn elsewhere(random: &mut Random, places: &[u32], size: u32) -> u32 {
    for _ in 0..20 {
        let i = random.below(u64::from(size.max(1))) as u32;
        if !places.contains(&i) {
            return i;
        }
    }
    size
}

fn pure(tally: &mut Tally) {
    let mut random = tally.subject("purity", 0x99);
    let random = &mut random;
    for round in 0..1_200 {
        let size = match round % 10 {
            0 => random.below(10) as u32,
            1 => random.word() | 1 << 31,
            2 => random.pick(&[37, 79, 4096]),
            _ => random.between(37, 4096) as u32,
        };
        let k = match round % 25 {
            0 => random.huge(),
            1 => random.below(7) as usize,
            n if n % 5 == 2 => 4,
            _ => 3,
        };
        let (a, b, c) = (random.next(), random.next(), random.next());
        let short = random.any_length();

        // One element, ours or theirs, in its places and elsewhere.
        for (id, ours) in [(a, true), (b, false), (short, true), (!short, false)] {
            let places = model::places(model::crc(id), size, k);
            let bucket = match ours {
                true => bucket_of(&[id], &[]),
                false => bucket_of(&[], &[id]),
            };
            for &i in &places {
                assert!(one_pure(tally, bucket, i, size, k));
            }
            for i in [elsewhere(random, &places, size), size, u32::MAX] {
                let pure = one_pure(tally, bucket, i, size, k);
                assert!(pure == places.contains(&i));
            }
            // The next place that one more would bring is not one of these.
            if let Some(&next) = model::places(model::crc(id), size, k.saturating_add(1)).get(k) {
                assert!(!one_pure(tally, bucket, next, size, k));
            }
            if let Some(&i) = places.first() {
                damaged(tally, random, bucket, i, size, k);
            }
        }

        // Two of one side and one of the other: the hash always fits, so the place decides.
        for bucket in [bucket_of(&[a, b], &[c]), bucket_of(&[c], &[a, b])] {
            let places = model::places(model::crc(a ^ b ^ c), size, k);
            let own = model::places(model::crc(a), size, k);
            for &i in own.iter().take(2).chain(places.iter().take(2)) {
                let pure = one_pure(tally, bucket, i, size, k);
                assert!(pure == places.contains(&i));
            }
        }

        // One of each side (count 0), and two of one.
        let i = random.below(u64::from(size.max(1))) as u32;
        for bucket in [bucket_of(&[a], &[b]), bucket_of(&[a, b], &[])] {
            one_pure(tally, bucket, i, size, k);
        }
        let any = Bucket {
            idsum: random.next(),
            hashsum: random.word(),
            count: random.pick(&[1, -1]),
        };
        one_pure(tally, any, i, size, k);
    }
}

/// A pure bucket with a wrong count or a wrong hash or another ID.
fn damaged(tally: &mut Tally, random: &mut Random, honest: Bucket, i: u32, size: u32, k: usize) {
    let some = count(random);
    let wrong = [0, 2, -2, 3, (1 << 32) + 1, i64::MIN + 1, i64::MAX, some];
    let count = random.pick(&wrong);
    let pure = one_pure(tally, Bucket { count, ..honest }, i, size, k);
    assert!(pure == (count == 1 || count == -1));

    let hashsum = honest.hashsum ^ 1 << random.below(32);
    assert!(!one_pure(tally, Bucket { hashsum, ..honest }, i, size, k));
    let hashsum = random.pick(&[0, !honest.hashsum, honest.hashsum.swap_bytes()]);
    one_pure(tally, Bucket { hashsum, ..honest }, i, size, k);
    let idsum = honest.idsum ^ 1 << random.below(64);
    assert!(!one_pure(tally, Bucket { idsum, ..honest }, i, size, k));
}
