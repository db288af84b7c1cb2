//! Salted IDs found by their places at any size: draw 0 is chosen, and the ID is worked out from it.

use crate::quick;
use crate::random::Random;
use std::sync::OnceLock;

/// A key is not found within so many tries only where there is none.
const MOST_TRIES: u64 = 1 << 30;

/// For each bit of a CRC-32 the bits of the lower half of a number that change that bit alone.
/// CRC-32 is affine, and with the upper half fixed it takes each value once.
fn lower_halves() -> &'static [u32; 32] {
    static HALVES: OnceLock<[u32; 32]> = OnceLock::new();
    HALVES.get_or_init(|| {
        // Rows of a change of the CRC-32 and of what makes it, reduced until each changes one bit.
        let change = |i: u32| (quick::crc(1 << i) ^ quick::crc(0), 1u32 << i);
        let mut rows: Vec<(u32, u32)> = (0..32).map(change).collect();
        for bit in 0..32 {
            let with = (bit..32).find(|&i| rows[i].0 >> bit & 1 == 1);
            rows.swap(bit, with.expect("each value is taken"));
            let (change, half) = rows[bit];
            for (i, row) in rows.iter_mut().enumerate() {
                if i != bit && row.0 >> bit & 1 == 1 {
                    *row = (row.0 ^ change, row.1 ^ half);
                }
            }
        }
        std::array::from_fn(|bit| rows[bit].1)
    })
}

/// The number with this upper half whose CRC-32 is this.
pub fn with_crc(crc: u32, upper: u32) -> u64 {
    let upper = u64::from(upper) << 32;
    let change = crc ^ quick::crc(upper);
    let halves = lower_halves().iter().enumerate();
    let changed = halves.filter(|(bit, _)| change >> bit & 1 == 1);
    let lower = changed.fold(0, |lower, (_, half)| lower ^ half);
    upper | u64::from(lower)
}

/// Places by draw 0, where the first draws are different; they mostly are.
fn places_by(draw0: u32, size: u32) -> Option<[u32; 3]> {
    let draw1 = quick::crc(u64::from(draw0) << 32);
    let [a, b] = [draw0 % size, draw1 % size];
    if a == b {
        return None;
    }
    let c = quick::crc(u64::from(draw1) << 32 | 1) % size;
    (c != a && c != b).then_some([a, b, c])
}

/// A key that has these two places, in whichever order, and a third of which this holds.
pub fn with_two(
    random: &mut Random,
    size: u32,
    [p, q]: [u32; 2],
    third: impl Fn(u32) -> bool,
) -> u64 {
    let highest = (u32::MAX - p) / size;
    for _ in 0..MOST_TRIES {
        let draw0 = p + size * random.below(u64::from(highest) + 1) as u32;
        let fits = match places_by(draw0, size) {
            Some([_, b, c]) => (b == q && third(c)) || (c == q && third(b)),
            None => false,
        };
        if fits {
            let key = with_crc(draw0, random.word());
            let places = quick::places(key, size);
            assert!(places.contains(&p) && places.contains(&q), "{key:#x}");
            return key;
        }
    }
    panic!("no key at {p} and {q} of {size}");
}

/// The third place of a key that has these two.
pub fn third_of(key: u64, size: u32, two: [u32; 2]) -> u32 {
    let places = quick::places(key, size);
    let third = places.into_iter().find(|place| !two.contains(place));
    third.expect("three are distinct")
}

/// A key that has this place.
pub fn with_one(random: &mut Random, size: u32, p: u32) -> u64 {
    let highest = (u32::MAX - p) / size;
    let draw0 = p + size * random.below(u64::from(highest) + 1) as u32;
    with_crc(draw0, random.word())
}
