//! Comparisons of laying a slice in columns, and of the way there and back.

use super::calls::{self, Whole};
use super::layout::{Message, Slice, IBF, IBF_LAST, KINDS};
use super::{damage, filters, some};
use crate::library::messages as library;
use crate::random::Random;
use crate::sets::some_salt;
use crate::{lent, Tally};

pub fn compare(tally: &mut Tally) {
    good(tally);
    refused(tally);
    round_trips(tally);
}

/// Lengths of three columns for a slice that ends there.
fn lengths(random: &mut Random, end: usize) -> [usize; 3] {
    match random.below(3) {
        0 => [end; 3],
        1 => [0; 3].map(|_| end + random.pick(&[0, 1, 9])),
        _ => {
            // One is too short.
            let mut lens = [end + random.pick(&[0, 5]); 3];
            let any = random.below(end as u64) as usize;
            let short = random.pick(&[0, any, end - 1, end - 1, 2520.min(end - 1)]);
            lens[random.below(3) as usize] = short;
            lens
        }
    }
}

fn some_slice(random: &mut Random, i: u64) -> Slice {
    match i % 12 {
        0 => some::first_slice(random),
        _ => some::last_slice(random),
    }
}

fn good(tally: &mut Tally) {
    let mut random = tally.subject("laying slices", 0x177);
    let random = &mut random;
    for i in 0..8_000 {
        let slice = some_slice(random, i);
        let end = slice.offset as usize + slice.ids.len();
        let bytes = Message::Slice(slice).bytes();
        let lens = lengths(random, end);
        let whole = Whole::of_lengths(random, lens);
        let short = lens.iter().any(|&len| len < end);
        let wanted = if short { 2 } else { 0 };
        assert!(calls::lay(tally, random, &bytes, &whole) == wanted);
    }
    // Each column one too short by itself, just long enough, and empty; and no column at all.
    for (size, offset) in [(37, 0), (2520, 0), (2521, 0), (2521, 2520), (4096, 2520)] {
        let slice = some::slice(random, size, offset, 9);
        let end = slice.offset as usize + slice.ids.len();
        let bytes = Message::Slice(slice).bytes();
        for column in 0..3 {
            for len in [end, end - 1, end + 1, 0, 1, end / 2, end.min(2520), 36] {
                let mut lens = [end + 2; 3];
                lens[column] = len;
                let whole = Whole::of_lengths(random, lens);
                calls::lay(tally, random, &bytes, &whole);
            }
        }
        let none = Whole::of_lengths(random, [0; 3]);
        assert!(calls::lay(tally, random, &bytes, &none) == 2);
        assert!(calls::lay(tally, random, &bytes[1..], &none) == 4);
    }
}

/// Damaged slices and messages of every other kind, into columns that are long enough and not.
fn refused(tally: &mut Tally) {
    let mut random = tally.subject("laying damaged messages", 0x178);
    let random = &mut random;
    let mut answers = [0; 5];
    for i in 0..40 {
        let slice = match i {
            0 => some::first_slice(random),
            _ => some::last_slice(random),
        };
        let end = slice.offset as usize + slice.ids.len();
        if end > 2600 && i > 1 {
            continue;
        }
        let bytes = Message::Slice(slice).bytes();
        let mut all = damage::changed(random, &bytes);
        all.extend(damage::resized(random, &bytes, true));
        all.extend(damage::resized(random, &bytes, false));
        for damaged in all {
            let lens = match random.below(4) {
                0 => lengths(random, end),
                _ => [end; 3],
            };
            let whole = Whole::of_lengths(random, lens);
            answers[calls::lay(tally, random, &damaged, &whole) as usize] += 1;
        }
    }
    assert!(answers[0] > 400 && answers[2] > 100 && answers[4] > 2_000);
    for kind in KINDS {
        for _ in 0..60 {
            let bytes = some::message(random, kind).bytes();
            let lens = random.pick(&[[4096; 3], [0; 3], [60; 3]]);
            let whole = Whole::of_lengths(random, lens);
            calls::lay(tally, random, &bytes, &whole);
        }
    }
    let whole = Whole::of_lengths(random, [4096; 3]);
    assert!(calls::lay(tally, random, &[], &whole) == 4);
}

/// The library writes a filter, walks over what it wrote and lays each slice: the first size
/// places of the columns are the filter.
fn round_trips(tally: &mut Tally) {
    let mut random = tally.subject("filters there and back", 0x179);
    let random = &mut random;
    for i in 0..500 {
        let size = match i % 5 {
            0 => random.pick(&filters::SIZES),
            1 => random.between(37, 4096) as u32,
            _ => random.between(37, 100) as u32,
        };
        let all = size as usize;
        let width = some::width(random);
        let mut filter = filters::columns(random, size, width, [all; 3]);
        let at = random.below(9) as usize;
        let bytes = filters::bytes_of(&mut filter, size);
        let mut out = random.bytes(at + bytes + 3);
        let salt = some_salt(random);
        let written = library::filter_write(filter.lent(), size, salt, &mut out, at);
        let mut back = Whole::of_lengths(random, [all; 3]);
        let mut position = at;
        let mut salts = Vec::new();
        // A filter has at most two slices: a walk that stands still ends too.
        for _ in 0..2 {
            let header = library::message_at(&mut out[..at + bytes], position);
            if position < header.next && header.next <= at + bytes {
                let message = &mut out[position..header.next];
                library::filter_lay(message, back.lent());
                position = header.next;
                salts.push((header.salt, header.kind));
            }
        }
        let kinds: &[u32] = if size > 2520 {
            &[IBF, IBF_LAST]
        } else {
            &[IBF_LAST]
        };
        let wanted: Vec<(u32, u32)> = kinds.iter().map(|&kind| (salt, kind)).collect();
        let call = || format!("filter_write of {size} buckets at {at}, walked and laid");
        let end = at + bytes;
        tally.same(call, (end, end, wanted), (written.next, position, salts));
        let given = (
            lent(&mut filter.ids),
            lent(&mut filter.hashes),
            lent(&mut filter.counts),
        );
        let laid = (
            lent(&mut back.ids),
            lent(&mut back.hashes),
            lent(&mut back.counts),
        );
        tally.same(call, given, laid);
    }
}
