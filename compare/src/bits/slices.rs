//! The sentence as the messages of filters show it: the counter part of a slice that was written,
//! the counters that are laid from it, and spare bits, which make a message malformed.

use super::{around, bytes_of, flip, lone_bit, set_spare, too_wide, wrong_bit, wrong_counter};
use super::{judge, Old, OLD, WIDTHS};
use crate::library::messages as library;
use crate::messages::calls::{guarded, Whole};
use crate::messages::layout::{Header, MOST_BUCKETS};
use crate::messages::writers::Written;
use crate::model::Columns;
use crate::random::Random;
use crate::sets::some_salt;
use crate::{lent, Tally, GUARD};
use std::ops::Range;

/// The calls by which packing is seen from outside: the library's, or a stand-in's.
pub trait Calls {
    fn write(&self, columns: Columns, size: u32, salt: u32, out: &mut [u8], at: usize) -> Written;
    fn lay(&self, message: &mut [u8], columns: Columns) -> u32;
    fn read(&self, message: &mut [u8]) -> Header;
    fn counter(&self, message: &mut [u8], n: usize, w: u32, i: usize) -> u32;
}

pub struct Library;

impl Calls for Library {
    fn write(&self, columns: Columns, size: u32, salt: u32, out: &mut [u8], at: usize) -> Written {
        library::filter_write(columns, size, salt, out, at)
    }

    fn lay(&self, message: &mut [u8], columns: Columns) -> u32 {
        library::filter_lay(message, columns)
    }

    fn read(&self, message: &mut [u8]) -> Header {
        library::message_read(message)
    }

    fn counter(&self, message: &mut [u8], n: usize, w: u32, i: usize) -> u32 {
        library::message_counter(message, n, w, i)
    }
}

/// Sizes at which filters are tried at a few widths.
const SIZES: [usize; 5] = [37, 512, 2520, 2521, 4096];
const FEW_WIDTHS: [usize; 4] = [1, 4, 9, 32];

pub fn compare(tally: &mut Tally, calls: &impl Calls) {
    let mut random = tally.subject("bits of the counters of messages", 0x310);
    let random = &mut random;
    for w in FEW_WIDTHS {
        for size in SIZES {
            for old in OLD {
                one_filter(tally, random, calls, size, w, old);
            }
        }
    }
    // Every width with every number of spare bits.
    for w in WIDTHS {
        for size in 37..=44 {
            for old in OLD {
                one_filter(tally, random, calls, size, w, old);
            }
        }
        one_filter(tally, random, calls, 2521, w, Old::Anything);
    }
}

/// A slice: its first bucket, and the number of its buckets and of the bits of a counter.
#[derive(Clone, Copy, Debug)]
pub struct Part {
    pub offset: usize,
    pub n: usize,
    pub w: usize,
}

impl Part {
    /// The slices of a filter.
    pub fn all(size: usize, w: usize) -> Vec<Part> {
        let offsets = (0..size).step_by(MOST_BUCKETS);
        let part = |offset| Part {
            offset,
            n: MOST_BUCKETS.min(size - offset),
            w,
        };
        offsets.map(part).collect()
    }

    /// Where the counters stand in the message.
    pub fn counters(&self) -> usize {
        16 + 12 * self.n
    }

    pub fn message_len(&self) -> usize {
        self.counters() + bytes_of(self.n, self.w)
    }
}

/// Columns of a filter whose largest counter has w bits.
fn some_filter(random: &mut Random, size: usize, w: usize) -> Whole {
    let mut filter = Whole::of_lengths(random, [size; 3]);
    let counts = random.counters(size, w as u32);
    lent(&mut filter.counts).copy_from_slice(&counts);
    let largest = random.below(size as u64) as usize;
    lent(&mut filter.counts)[largest] |= lone_bit(w, 0);
    filter
}

/// Written, each slice judged, and laid again.
fn one_filter(
    tally: &mut Tally,
    random: &mut Random,
    calls: &impl Calls,
    size: usize,
    w: usize,
    old: Old,
) {
    let mut filter = some_filter(random, size, w);
    let parts = Part::all(size, w);
    let len = parts.iter().map(Part::message_len).sum();
    let (at, behind) = (random.below(9) as usize, random.below(9) as usize);
    let before = old.bytes(random, at + len + behind + 2 * GUARD);
    let mut after = before.clone();
    let salt = some_salt(random);
    let written = calls.write(filter.lent(), size as u32, salt, lent(&mut after), at);

    let call = || format!("filter_write, {size} buckets at width {w}, at {at}, on {old:?}");
    let answer = (written.refusal, written.next);
    judge(tally, "end of a filter", call, (0, at + len), answer);
    let from = GUARD + at;
    let unchanged = around(&before, from, len);
    let others = around(&after, from, len);
    judge(tally, "bytes around a filter", call, unchanged, others);
    let mut start = from;
    for part in parts {
        let message = &after[start..start + part.message_len()];
        start += part.message_len();
        let packed = &message[part.counters()..];
        let counts = &lent(&mut filter.counts)[part.offset..][..part.n];
        let call = || format!("filter_write of {counts:x?}, {part:?}, on {old:?}");
        let wrong = wrong_bit(packed, counts, w);
        judge(tally, "bit of a slice", call, None, wrong);
        let set = set_spare(packed, part.n, w);
        judge(tally, "spare bit of a slice", call, None, set);
        one_slice(tally, random, calls, message, part);
        turned_over(tally, random, calls, message, part);
    }
}

/// Lays a message in columns that hold anything; the answer, the columns before and after.
fn laid(
    random: &mut Random,
    calls: &impl Calls,
    message: &[u8],
    part: Part,
) -> (u32, Whole, Whole) {
    let len = part.offset + part.n + random.below(4) as usize;
    let before = Whole::of_lengths(random, [len; 3]);
    let mut after = before.clone();
    let mut whole = guarded(random, message);
    let answer = calls.lay(lent(&mut whole), after.lent());
    (answer, before, after)
}

/// A good message: each counter that is laid or read by its number has its bits in the message.
fn one_slice(
    tally: &mut Tally,
    random: &mut Random,
    calls: &impl Calls,
    message: &[u8],
    part: Part,
) {
    let Part { offset, n, w } = part;
    let packed = &message[part.counters()..];
    let mut whole = guarded(random, message);
    let header = calls.read(lent(&mut whole));
    let call = || format!("message_read({message:02x?})");
    let answer = (header.refusal, header.width, header.count);
    judge(tally, "message read", call, (0, w as u32, n), answer);

    let (answer, before, after) = laid(random, calls, message, part);
    let call = || format!("filter_lay({message:02x?}), {part:?}");
    judge(tally, "slice laid", call, 0, answer);
    let first = GUARD + offset;
    let counts = &after.counts[first..first + n];
    let wrong = wrong_counter(counts, packed, w);
    judge(tally, "bit of a counter laid", call, None, wrong);
    let wide = too_wide(counts, w);
    judge(tally, "range of a counter laid", call, None, wide);
    let unchanged = around(&before.counts, first, n);
    let others = around(&after.counts, first, n);
    judge(tally, "entries around a slice", call, unchanged, others);

    let message = lent(&mut whole);
    let counter = |i| i64::from(calls.counter(message, n, w as u32, i));
    let each: Vec<i64> = (0..n).map(counter).collect();
    let call = || format!("message_counter of each, {packed:02x?}, {part:?}");
    let wrong = wrong_counter(&each, packed, w);
    judge(tally, "bit of a counter of a message", call, None, wrong);
    let wide = too_wide(&each, w);
    judge(tally, "range of a counter of a message", call, None, wide);
}

/// One bit of the counters is turned over: so is that bit of that counter, and no other. With a
/// spare bit the message is malformed. In small messages each bit has its turn, in others those of
/// the last byte.
fn turned_over(
    tally: &mut Tally,
    random: &mut Random,
    calls: &impl Calls,
    message: &[u8],
    part: Part,
) {
    let Part { offset, n, w } = part;
    let all = 8 * bytes_of(n, w);
    let first_turned = if n == 37 { 0 } else { all - 8 };
    let (_, _, usual) = laid(random, calls, message, part);
    let usual = &usual.counts[GUARD + offset..][..n];
    for j in first_turned..n * w {
        let turned = with_flipped(message, part, j..j + 1);
        let read = calls.read(lent(&mut guarded(random, &turned))).refusal;
        let (answer, _, after) = laid(random, calls, &turned, part);
        let call = || format!("{turned:02x?}, {part:?}, packed bit {j} turned over");
        judge(tally, "turned bit taken", call, (0, 0), (read, answer));
        let counts = &after.counts[GUARD + offset..][..n];
        let changed = (0..n).filter(|&c| counts[c] != usual[c]);
        let changed = changed.map(|c| (c, counts[c] ^ usual[c])).collect();
        let wanted = vec![(j / w, lone_bit(w, j % w))];
        judge(tally, "the one bit of a slice", call, wanted, changed);
    }
    for j in n * w..all {
        // Alone, and with those behind it.
        for set in [j..j + 1, j..all] {
            let turned = with_flipped(message, part, set);
            malformed(tally, random, calls, &turned, part);
        }
    }
}

/// The message with these packed bits turned over.
fn with_flipped(message: &[u8], part: Part, bits: Range<usize>) -> Vec<u8> {
    let mut turned = message.to_vec();
    for j in bits {
        flip(&mut turned[part.counters()..], j);
    }
    turned
}

/// Refused with 4, and no column changed.
fn malformed(
    tally: &mut Tally,
    random: &mut Random,
    calls: &impl Calls,
    message: &[u8],
    part: Part,
) {
    let read = calls.read(lent(&mut guarded(random, message))).refusal;
    let (answer, before, after) = laid(random, calls, message, part);
    let call = || format!("{message:02x?}, {part:?}, spare bits set");
    judge(tally, "spare bit refused", call, (4, 4), (read, answer));
    judge(tally, "columns as they were", call, before, after);
}
