//! Comparisons of reading one message: good ones, each damaged in every field, and spare bits.

use super::damage::{self, OTHER_TYPES};
use super::layout::{framed, Message, IBF, IBF_LAST, KINDS, MALFORMED};
use super::{calls, some};
use crate::random::Random;
use crate::{Tally, GUARD};

pub fn compare(tally: &mut Tally) {
    good(tally);
    every_byte(tally);
    damaged(tally);
    cut_and_extended(tally);
    other_types(tally);
    spare_bits(tally);
}

fn good(tally: &mut Tally) {
    let mut random = tally.subject("reading good messages", 0x16B);
    let random = &mut random;
    for kind in KINDS {
        let times = if kind == IBF { 2_000 } else { 8_000 };
        for _ in 0..times {
            let bytes = some::message(random, kind).bytes();
            assert!(calls::read(tally, random, &bytes) == kind);
        }
    }
    // Every size of a filter, and both its slices.
    for size in 37..=4096 {
        let width = random.between(1, 3) as u32;
        let last = some::slice(random, size, if size > 2520 { 2520 } else { 0 }, width);
        let bytes = Message::Slice(last).bytes();
        assert!(calls::read(tally, random, &bytes) == IBF_LAST);
        if size > 2520 {
            let first = some::slice(random, size, 0, width);
            let bytes = Message::Slice(first).bytes();
            assert!(calls::read(tally, random, &bytes) == IBF);
        }
    }
}

/// A byte changed at every place of small messages.
fn every_byte(tally: &mut Tally) {
    let mut random = tally.subject("reading with any byte changed", 0x16C);
    let random = &mut random;
    for i in 0..500 {
        let mut bytes = match i % 2 {
            0 => Message::Slice(some::last_slice(random)).bytes(),
            _ => some::short_message(random),
        };
        if bytes.len() > 1000 {
            continue;
        }
        for at in 0..bytes.len() {
            let before = bytes[at];
            bytes[at] ^= random.between(1, 255) as u8;
            calls::read(tally, random, &bytes);
            bytes[at] = before;
        }
    }
}

/// So many messages of a kind to be damaged: long ones are seldom.
fn to_damage(random: &mut Random, kind: u32) -> Vec<Vec<u8>> {
    let times = if kind == IBF { 60 } else { 250 };
    let all = (0..times).map(|_| some::message(random, kind).bytes());
    all.collect()
}

fn damaged(tally: &mut Tally) {
    let mut random = tally.subject("reading damaged messages", 0x16D);
    let random = &mut random;
    for kind in KINDS {
        for bytes in to_damage(random, kind) {
            for damaged in damage::changed(random, &bytes) {
                calls::read(tally, random, &damaged);
            }
        }
    }
}

fn cut_and_extended(tally: &mut Tally) {
    let mut random = tally.subject("reading cut and extended messages", 0x16E);
    let random = &mut random;
    for kind in KINDS {
        for bytes in to_damage(random, kind) {
            for other in damage::resized(random, &bytes, true) {
                calls::read(tally, random, &other);
            }
            for other in damage::resized(random, &bytes, false) {
                calls::read(tally, random, &other);
            }
            // Cut, with all of the message in memory: what is not lent must not be read.
            let whole = calls::guarded(random, &bytes);
            for len in damage::other_lengths(random, bytes.len()) {
                let end = GUARD + len;
                if end <= whole.len() {
                    assert!(calls::read_part(tally, &whole, GUARD..end) == MALFORMED);
                    assert!(calls::read_part(tally, &whole, GUARD - 1..end) == MALFORMED);
                }
            }
        }
    }
}

/// What follows the four bytes under every other type: MSG SIZE stays right.
fn other_types(tally: &mut Tally) {
    let mut random = tally.subject("reading under other types", 0x16F);
    let random = &mut random;
    for kind in KINDS {
        let times = if kind == IBF { 80 } else { 400 };
        for _ in 0..times {
            let bytes = some::message(random, kind).bytes();
            let any = random.below(1 << 16) as u32;
            for other in KINDS.into_iter().chain(OTHER_TYPES).chain([any]) {
                calls::read(tally, random, &framed(other, &bytes[4..]));
            }
        }
    }
    // Every type before bodies that are good for one or another.
    for kind in 0..=65_535 {
        let len = random.pick(&[1, 64, 68, 12]);
        let mut body = random.bytes(len);
        body[..len.min(3)].fill(0);
        calls::read(tally, random, &framed(kind, &body));
    }
}

/// Each bit of the last byte set, at every width and every number of spare bits, in both slices.
fn spare_bits(tally: &mut Tally) {
    let mut random = tally.subject("reading spare bits", 0x170);
    let random = &mut random;
    let mut malformed = 0;
    for width in 1..=32 {
        for size in (37..=44).chain(2521..=2528) {
            let offset = if size > 2520 { 2520 } else { 0 };
            let slice = some::slice(random, size, offset, width);
            let bytes = Message::Slice(slice).bytes();
            for bit in 0..8 {
                let mut changed = bytes.clone();
                *changed.last_mut().expect("not empty") |= 1 << bit;
                malformed += u32::from(calls::read(tally, random, &changed) == MALFORMED);
            }
        }
        // 2,520 counters of any width fill their bytes.
        let slice = some::slice(random, 4096, 0, width);
        let bytes = Message::Slice(slice).bytes();
        let mut changed = bytes.clone();
        *changed.last_mut().expect("not empty") = 0xFF;
        assert!(calls::read(tally, random, &changed) == IBF);
    }
    assert!(malformed > 1_000, "{malformed} with a spare bit set");
}
