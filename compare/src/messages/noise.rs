//! Comparisons of reading random bytes of every short length, most with a header that could be one.

use super::calls;
use super::layout::{framed, put, IBF, IBF_LAST, INQUIRY, KINDS, MALFORMED};
use crate::random::Random;
use crate::Tally;

pub fn compare(tally: &mut Tally) {
    any_bytes(tally);
    with_header(tally);
}

fn any_bytes(tally: &mut Tally) {
    let mut random = tally.subject("reading any bytes", 0x175);
    let random = &mut random;
    calls::read(tally, random, &[]);
    for len in 0..=200 {
        for _ in 0..25 {
            let bytes = random.bytes(len);
            calls::read(tally, random, &bytes);
            let mut few = bytes;
            few.iter_mut().for_each(|byte| *byte &= 1);
            calls::read(tally, random, &few);
        }
    }
    // All that is shorter than a header, one byte at a time.
    for byte in 0..=255 {
        calls::read(tally, random, &[byte]);
        calls::read(tally, random, &[0, byte]);
        calls::read(tally, random, &[0, 3, byte]);
        calls::read(tally, random, &[0, 4, 2, byte]);
        calls::read(tally, random, &[0, 5, 2, byte, 9]);
    }
}

/// Numbers as a slice begins with them: most often good ones that fit the length.
fn slice_numbers(random: &mut Random, bytes: &mut [u8]) {
    let any = random.between(1, 20);
    let size = random.pick(&[2520 + any, 2520 + any, 37, 36, 2520]);
    let offset = random.pick(&[2520, 2520, 2520, 0, size]);
    let mut numbers = Vec::new();
    put(&mut numbers, 4, size);
    put(&mut numbers, 4, offset);
    put(&mut numbers, 2, random.pick(&[0, 7, 63, 63, 64]));
    let width = random.between(1, 32);
    put(&mut numbers, 2, random.pick(&[width, width, 1, 32, 0, 33]));
    for (place, byte) in bytes.iter_mut().zip(numbers) {
        *place = byte;
    }
    if let [.., last] = bytes {
        *last &= random.pick(&[0, 0, 0x80, 0xFF]);
    }
}

fn with_header(tally: &mut Tally) {
    let mut random = tally.subject("reading any bytes behind a header", 0x176);
    let random = &mut random;
    let mut good = 0;
    for len in 0..=320 {
        for i in 0..350 {
            let mut body = random.bytes(len);
            let kind = KINDS[i % 7];
            match kind {
                IBF | IBF_LAST => slice_numbers(random, &mut body),
                INQUIRY => {
                    let zeros = len.min(3);
                    body[..zeros].fill(0);
                    if let Some(byte) = body.get_mut(3) {
                        *byte &= random.pick(&[0x3F, 0x3F, 0x7F]);
                    }
                }
                _ => {}
            }
            let mut bytes = framed(kind, &body);
            if random.once_in(10) {
                // A size that is one off, or anything.
                let size = random.pick(&[len + 3, len + 5, len, 4 + len % 4]);
                bytes[1] = size as u8;
            }
            good += u64::from(calls::read(tally, random, &bytes) != MALFORMED);
        }
    }
    assert!(good > 12_000, "{good} are good");
}
