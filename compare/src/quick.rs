//! CRC-32 and places once more, fast enough for whole filters; `check` holds them against model.rs.

use crate::model;
use crate::random::Random;
use std::sync::OnceLock;

/// On eight bytes the CRC-32 of the XOR of three numbers is the XOR of their CRC-32s. So a
/// number's is that of 0, changed by what each of its bytes alone changes.
pub fn crc(x: u64) -> u32 {
    static CHANGES: OnceLock<Vec<[u32; 256]>> = OnceLock::new();
    let changes = CHANGES.get_or_init(|| {
        let alone = |i: usize, byte: usize| model::crc((byte as u64) << (8 * i)) ^ model::crc(0);
        (0..8)
            .map(|i| std::array::from_fn(|byte| alone(i, byte)))
            .collect()
    });
    let mut crc = 0x6522_DF69;
    for (change, byte) in changes.iter().zip(x.to_le_bytes()) {
        crc ^= change[usize::from(byte)];
    }
    crc
}

/// The three places of a salted ID, in the order in which they are found.
pub fn places(key: u64, size: u32) -> [u32; 3] {
    let mut found = Vec::with_capacity(3);
    let mut draw = crc(key);
    for i in 0..model::DRAWS {
        if !found.contains(&(draw % size)) {
            found.push(draw % size);
        }
        if found.len() == 3 {
            break;
        }
        draw = crc(u64::from(draw) << 32 | i);
    }
    let mut lowest = 0;
    while found.len() < 3 {
        if !found.contains(&lowest) {
            found.push(lowest);
        }
        lowest += 1;
    }
    [found[0], found[1], found[2]]
}

/// Says where these differ from model.rs.
pub fn check() -> Result<(), String> {
    let mut random = Random::new(0x01);
    for i in 0..1500 {
        let key = random.any_length();
        if crc(key) != model::crc(key) {
            return Err(format!("the quick CRC-32 of {key:#x}"));
        }
        let size = match i % 3 {
            0 => random.between(3, 40) as u32,
            _ => random.between(37, 4096) as u32,
        };
        if places(key, size)[..] != model::places(model::crc(key), size, 3) {
            return Err(format!("the quick places of {key:#x} at size {size}"));
        }
    }
    Ok(())
}
