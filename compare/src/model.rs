//! The paper's rules (document 01) in plain Rust, written from the paper alone.
//! Made to be obviously right, not fast: bits are lists of bools, sums are wider than needed.

/// The powers of x in the generator of IEEE 802.3's CRC-32.
const GENERATOR: [usize; 15] = [32, 26, 23, 22, 16, 12, 11, 10, 8, 7, 5, 4, 2, 1, 0];

/// How many draws are made for an element's places.
pub const DRAWS: u64 = 64;

/// The places asked for are at most this many, and as many are always written.
pub const MOST_PLACES: usize = 4;

/// Longer lists of counters are not packed or read.
pub const MOST_COUNTERS: usize = 65536;

/// CRC-32 by its definition: the rest of a division of polynomials over bits.
pub fn crc_bytes(bytes: &[u8]) -> u32 {
    // Coefficients, highest power first: each byte goes in lowest bit first.
    let mut bits: Vec<bool> = Vec::with_capacity(8 * bytes.len() + 32);
    for byte in bytes {
        for i in 0..8 {
            bits.push(byte >> i & 1 == 1);
        }
    }
    let message_bits = bits.len();
    bits.extend([false; 32]);
    for bit in &mut bits[..32] {
        *bit = !*bit;
    }
    for at in 0..message_bits {
        if bits[at] {
            for power in GENERATOR {
                bits[at + 32 - power] ^= true;
            }
        }
    }
    // The rest is complemented; its highest power is the lowest bit of the number.
    let mut crc = 0;
    for (i, bit) in bits[message_bits..].iter().enumerate() {
        if !bit {
            crc |= 1u32 << i;
        }
    }
    crc
}

/// CRC-32 of a number as eight bytes, most significant first.
pub fn crc(x: u64) -> u32 {
    crc_bytes(&x.to_be_bytes())
}

/// Rotates right by (salt * 7) mod 64, one bit at a time.
pub fn salt(x: u64, salt: u32) -> u64 {
    let mut x = x;
    for _ in 0..u64::from(salt) % 64 * 7 % 64 {
        x = (x >> 1) | ((x & 1) << 63);
    }
    x
}

/// Rotates left by as much.
pub fn unsalt(x: u64, salt: u32) -> u64 {
    let mut x = x;
    for _ in 0..u64::from(salt) % 64 * 7 % 64 {
        x = (x & (u64::MAX >> 1)) << 1 | x >> 63;
    }
    x
}

/// An element has three places.
pub fn place_count(_size: u32) -> usize {
    3
}

/// The remainders of draws 0 to 63.
pub fn remainders(draw0: u32, size: u32) -> Vec<u32> {
    let mut draw = draw0;
    let mut all = Vec::new();
    for i in 0..DRAWS {
        all.push(draw % size);
        let number = u128::from(draw) * (1 << 32) + u128::from(i);
        draw = crc(u64::try_from(number).expect("below 2^64"));
    }
    all
}

/// The first k distinct remainders; the lowest buckets not yet taken make up what lacks.
pub fn places_of(remainders: &[u32], size: u32, k: usize) -> Vec<u32> {
    let wanted = k.min(MOST_PLACES).min(size as usize);
    let mut found = Vec::new();
    for place in remainders.iter().copied().chain(0..size) {
        if found.len() == wanted {
            break;
        }
        if !found.contains(&place) {
            found.push(place);
        }
    }
    found
}

pub fn places(draw0: u32, size: u32, k: usize) -> Vec<u32> {
    if size == 0 {
        return Vec::new();
    }
    places_of(&remainders(draw0, size), size, k)
}

/// The places as they are handed out: four numbers, zeros behind the places.
pub fn write_places(draw0: u32, size: u32, k: usize, out: &mut [u32]) {
    if out.len() < MOST_PLACES {
        return;
    }
    out[..MOST_PLACES].fill(0);
    for (i, place) in places(draw0, size, k).into_iter().enumerate() {
        out[i] = place;
    }
}

/// The number of trailing zero bits, at most 31.
pub fn stratum(x: u64) -> u32 {
    let mut zeros = 0;
    while zeros < 31 && x >> zeros & 1 == 0 {
        zeros += 1;
    }
    zeros
}

/// The smallest width that holds n, at least 1.
pub fn width(n: u32) -> u32 {
    let mut w = 1;
    while u64::from(n) >= 1 << w {
        w += 1;
    }
    w
}

pub fn width_is_good(w: u32) -> bool {
    (1..=32).contains(&w)
}

pub fn fits(counts: &[i64], w: u32) -> bool {
    width_is_good(w) && counts.iter().all(|&count| 0 <= count && count < 1 << w)
}

/// The bytes that n counters take, rounded up.
pub fn packed_len(n: usize, w: u32) -> u128 {
    (n as u128 * u128::from(w)).div_ceil(8)
}

/// The counters' bits one behind the other, the highest first.
pub fn counter_bits(counts: &[i64], w: u32) -> Vec<bool> {
    let mut bits = Vec::new();
    for count in counts {
        for i in (0..w).rev() {
            bits.push(count >> i & 1 == 1);
        }
    }
    bits
}

/// Bits as one number, the highest first.
pub fn number_of(bits: &[bool]) -> u64 {
    bits.iter()
        .fold(0, |number, &bit| number * 2 + u64::from(bit))
}

/// Packs from position `at` and answers the position behind, or `at` where it cannot be done.
pub fn pack(counts: &[i64], w: u32, out: &mut [u8], at: usize) -> usize {
    if !fits(counts, w) || counts.len() > MOST_COUNTERS {
        return at;
    }
    let end = at as u128 + packed_len(counts.len(), w);
    if end > out.len() as u128 {
        return at;
    }
    let mut bits = counter_bits(counts, w);
    bits.resize(8 * (end as usize - at), false);
    for (i, eight) in bits.chunks(8).enumerate() {
        out[at + i] = number_of(eight) as u8;
    }
    end as usize
}

/// The bits of the bytes that n counters take from `at` on, if all these bytes are there.
fn packed_bits(s: &[u8], at: usize, n: usize, w: u32) -> Option<Vec<bool>> {
    if !width_is_good(w) || n > MOST_COUNTERS {
        return None;
    }
    let end = at as u128 + packed_len(n, w);
    if end > s.len() as u128 {
        return None;
    }
    let mut bits = Vec::new();
    for byte in &s[at..end as usize] {
        for i in (0..8).rev() {
            bits.push(byte >> i & 1 == 1);
        }
    }
    Some(bits)
}

/// All n counters that stand packed from `at` on, if they are there.
pub fn counters(s: &[u8], at: usize, n: usize, w: u32) -> Option<Vec<u32>> {
    let bits = packed_bits(s, at, n, w)?;
    let each = bits.chunks_exact(w as usize).take(n);
    Some(each.map(|bits| number_of(bits) as u32).collect())
}

pub fn counter_at(s: &[u8], at: usize, n: usize, w: u32, i: usize) -> u32 {
    match counters(s, at, n, w) {
        Some(all) if i < n => all[i],
        _ => 0,
    }
}

pub fn spare_is_zero(s: &[u8], at: usize, n: usize, w: u32) -> bool {
    match packed_bits(s, at, n, w) {
        Some(bits) => bits[n * w as usize..].iter().all(|bit| !bit),
        None => false,
    }
}

pub fn unpack(s: &[u8], at: usize, n: usize, w: u32, counts: &mut [i64], from: usize) -> bool {
    let Some(all) = counters(s, at, n, w) else {
        return false;
    };
    if from as u128 + n as u128 > counts.len() as u128 {
        return false;
    }
    for (i, counter) in all.into_iter().enumerate() {
        counts[from + i] = i64::from(counter);
    }
    true
}

/// The three columns of a filter, each lent by itself and of its own length.
pub struct Columns<'a> {
    pub ids: &'a mut [u64],
    pub hashes: &'a mut [u32],
    pub counts: &'a mut [i64],
}

/// One bucket.
#[derive(Clone, Copy, Debug)]
pub struct Bucket {
    pub idsum: u64,
    pub hashsum: u32,
    pub count: i64,
}

pub fn is_zero(bucket: Bucket) -> bool {
    bucket.idsum == 0 && bucket.hashsum == 0 && bucket.count == 0
}

/// The count is 1 or -1, the hash is that of the ID, and the bucket is one of its places.
pub fn looks_pure(bucket: Bucket, i: u32, size: u32, k: usize) -> bool {
    let hash = crc(bucket.idsum);
    (bucket.count == 1 || bucket.count == -1)
        && bucket.hashsum == hash
        && places(hash, size, k).contains(&i)
}

/// The number in those of the k bytes (at most eight) from `at` on that are there.
pub fn number_at(s: &[u8], at: usize, k: usize) -> u64 {
    let there = s.iter().skip(at).take(k.min(8));
    there.fold(0, |number, &byte| number * 256 + u64::from(byte))
}

/// The k low bytes of x from `at` on, the highest first.
pub fn put_number(s: &mut [u8], at: usize, k: usize, x: u64) {
    if k > 8 || at as u128 + k as u128 > s.len() as u128 {
        return;
    }
    for i in 0..k {
        s[at + i] = x.to_be_bytes()[8 - k + i];
    }
}
