//! Comparisons of what works on single numbers: CRC, salting, places, strata, widths, bytes.

use crate::known::DRAWS_THAT_LACK_A_PLACE;
use crate::random::Random;
use crate::{lent, library, model, Tally, GUARD};

pub fn compare(tally: &mut Tally) {
    crc_of_bytes(tally);
    crc_of_numbers(tally);
    salting(tally);
    place_counts(tally);
    places(tally);
    strata(tally);
    widths(tally);
    numbers_read(tally);
    numbers_written(tally);
}

/// 0, all ones, each single bit, each single bit missing, each run of low ones.
fn edge_numbers() -> Vec<u64> {
    let mut edges = vec![0, u64::MAX];
    for i in 0..64 {
        edges.extend([1 << i, !(1 << i), (1 << i) - 1]);
    }
    edges
}

fn crc_of_bytes(tally: &mut Tally) {
    let mut random = tally.subject("crc of bytes", 0xC0);
    let mut one = |s: &[u8]| {
        let call = || format!("crc_bytes({s:02x?})");
        tally.same(call, model::crc_bytes(s), library::crc_bytes(s));
    };
    one(b"123456789");
    for len in 0..=300 {
        one(&vec![0; len]);
        one(&vec![0xFF; len]);
        for _ in 0..20 {
            one(&random.bytes(len));
        }
    }
    for byte in 0..=255 {
        one(&[byte]);
        one(&[0, byte, 0, 0, 0, 0, 0, 0]);
    }
}

fn crc_of_numbers(tally: &mut Tally) {
    let mut random = tally.subject("crc of numbers", 0xC1);
    let mut numbers = edge_numbers();
    for _ in 0..9_000 {
        numbers.push(random.next());
        numbers.push(random.any_length());
        // As the draws make them: a draw above, its number below.
        numbers.push((random.next() >> 32 << 32) | random.below(64));
    }
    for x in numbers {
        let model = model::crc(x);
        tally.same(|| format!("crc({x:#x})"), model, library::crc(x));
        let call = || format!("crc_by_tables({x:#x})");
        tally.same(call, model, library::crc_by_tables(x));
    }
}

fn salting(tally: &mut Tally) {
    let mut random = tally.subject("salting", 0x5A);
    let mut salts: Vec<u32> = (0..=200).collect();
    salts.extend([u32::MAX, u32::MAX - 1, 1 << 31, 0x2492_4924, 0x2492_4925]);
    for _ in 0..20 {
        salts.push(random.word());
    }
    for salt in salts {
        let mut numbers = vec![0, 1, 2, 0x80, 1 << 63, u64::MAX, !1];
        numbers.extend((0..33).map(|_| random.next()));
        for x in numbers {
            let salted = library::salt(x, salt);
            let call = || format!("salt({x:#x}, {salt:#x})");
            tally.same(call, model::salt(x, salt), salted);
            let call = || format!("unsalt({x:#x}, {salt:#x})");
            tally.same(call, model::unsalt(x, salt), library::unsalt(x, salt));
            let call = || format!("unsalt(salt({x:#x}, {salt:#x}), {salt:#x})");
            tally.same(call, x, library::unsalt(salted, salt));
            let call = || format!("salt(unsalt({x:#x}, {salt:#x}), {salt:#x})");
            let back = library::salt(library::unsalt(x, salt), salt);
            tally.same(call, x, back);
        }
    }
}

fn place_counts(tally: &mut Tally) {
    let mut random = tally.subject("place counts", 0xB0);
    let mut sizes: Vec<u32> = (0..=4100).collect();
    sizes.extend([u32::MAX, u32::MAX - 1, 1 << 31, 65535, 65536]);
    sizes.extend((0..100).map(|_| random.word()));
    for size in sizes {
        let call = || format!("place_count({size:#x})");
        tally.same(call, model::place_count(size), library::place_count(size));
    }
}

fn one_place(tally: &mut Tally, random: &mut Random, draw0: u32, size: u32, k: usize) {
    // Four are enough; less is refused, more is left alone.
    let len = match random.below(16) {
        0 => random.below(4) as usize,
        1..=8 => 4,
        _ => 4 + random.below(6) as usize,
    };
    let mut by_model = random.words(len + 2 * GUARD);
    let mut by_library = by_model.clone();
    model::write_places(draw0, size, k, lent(&mut by_model));
    library::write_places(draw0, size, k, lent(&mut by_library));
    let call = || format!("places(draw0 {draw0:#x}, size {size:#x}, k {k:#x}, len {len:#x})");
    tally.same(call, by_model, by_library);
}

fn places(tally: &mut Tally) {
    let mut random = tally.subject("places", 0xB1);
    for size in 0..=80 {
        for k in 0..=6 {
            for _ in 0..if k == 3 || k == 4 { 50 } else { 10 } {
                let draw0 = random.word();
                one_place(tally, &mut random, draw0, size, k);
            }
        }
        for draw0 in [0, 1, size, u32::MAX, u32::MAX - 1, 1 << 31] {
            one_place(tally, &mut random, draw0, size, 3);
            one_place(tally, &mut random, draw0, size, 4);
        }
    }
    for draw0 in DRAWS_THAT_LACK_A_PLACE {
        for k in 0..=6 {
            one_place(tally, &mut random, draw0, 4, k);
        }
    }
    for i in 0..35_000 {
        let draw0 = random.word();
        let size = match i % 8 {
            0 => random.pick(&[37, 38, 64, 79, 128, 2048, 2520, 4095, 4096]),
            1 => 37 + random.below(20) as u32,
            _ => random.between(37, 4096) as u32,
        };
        let k = random.pick(&[0, 1, 2, 3, 3, 3, 3, 4, 4, 4, 4, 5, 6]);
        one_place(tally, &mut random, draw0, size, k);
    }
    for _ in 0..3_000 {
        let draw0 = random.word();
        let near = 1 << random.between(12, 31);
        let size = random.pick(&[
            u32::MAX,
            u32::MAX - 1,
            near,
            near - 1,
            near + 1,
            near | draw0,
        ]);
        let k = random.pick(&[3, 4]);
        one_place(tally, &mut random, draw0, size, k);
    }
    for _ in 0..500 {
        let (draw0, size) = (random.word(), random.below(100) as u32);
        let k = random.huge();
        one_place(tally, &mut random, draw0, size, k);
    }
}

fn strata(tally: &mut Tally) {
    let mut random = tally.subject("strata", 0x57);
    let mut numbers = edge_numbers();
    for i in 0..64 {
        numbers.push(u64::MAX << i);
        numbers.extend((0..150).map(|_| random.next() << i));
        numbers.extend((0..150).map(|_| (random.next() | 1) << i));
    }
    for x in numbers {
        let call = || format!("stratum({x:#x})");
        tally.same(call, model::stratum(x), library::stratum(x));
    }
}

fn widths(tally: &mut Tally) {
    let mut random = tally.subject("widths", 0x1D);
    let mut numbers: Vec<u32> = (0..=1100).collect();
    numbers.push(u32::MAX);
    for i in 2..32 {
        numbers.extend([(1 << i) - 1, 1 << i, (1 << i) + 1]);
    }
    for i in 0..32 {
        numbers.extend((0..500).map(|_| random.word() >> i));
    }
    for n in numbers {
        let call = || format!("width({n:#x})");
        tally.same(call, model::width(n), library::width(n));
    }
}

/// A position in a buffer of that length, at its end, behind it, or far away.
fn position(random: &mut Random, len: usize) -> usize {
    match random.below(12) {
        0 => random.huge(),
        1 => len,
        2 => len + random.between(1, 9) as usize,
        3 | 4 => len.saturating_sub(random.below(10) as usize),
        _ => random.below(len as u64 + 1) as usize,
    }
}

fn numbers_read(tally: &mut Tally) {
    let mut random = tally.subject("numbers read", 0x2E);
    for i in 0..25_000 {
        let len = (i % 41) as usize;
        let mut whole = random.bytes(len + 2 * GUARD);
        let s = &*lent(&mut whole);
        let at = position(&mut random, len);
        let k = match random.below(12) {
            0 => random.huge(),
            _ => random.below(12) as usize,
        };
        let call = || format!("number_at({s:02x?}, at {at:#x}, k {k:#x})");
        tally.same(
            call,
            model::number_at(s, at, k),
            library::number_at(s, at, k),
        );
    }
}

fn numbers_written(tally: &mut Tally) {
    let mut random = tally.subject("numbers written", 0x3E);
    for i in 0..25_000 {
        let len = (i % 41) as usize;
        let at = position(&mut random, len);
        let k = match random.below(12) {
            0 => random.huge(),
            _ => random.below(12) as usize,
        };
        let x = random.any_length();
        let before = random.bytes(len + 2 * GUARD);
        let (mut by_model, mut by_library) = (before.clone(), before.clone());
        model::put_number(lent(&mut by_model), at, k, x);
        library::put_number(lent(&mut by_library), at, k, x);
        let call = || format!("put_number({before:02x?}, at {at:#x}, k {k:#x}, {x:#x})");
        tally.same(call, by_model, by_library);
    }
}
