//! Faults in which bits are packed, in what becomes of old memory, and in the position.

use super::super::{bit, bytes_of, Packer};
use super::plain::{self, pack, pack_by, place, PLAIN};
use super::Fault;
use std::ops::Range;

/// Packed bit j is this instead.
macro_rules! bits {
    (|$counts:ident, $w:ident, $j:ident| $bit:expr) => {
        Packer {
            pack: |counts, w, out, at| pack_by(counts, w, out, at, |$counts, $w, $j| $bit),
            ..PLAIN
        }
    };
}

/// What was written, and what was there before.
struct Done<'a> {
    out: &'a mut [u8],
    old: &'a [u8],
    place: Range<usize>,
    spare: usize,
}

impl Done<'_> {
    /// The last byte of the counters, where they have one.
    fn last(&self) -> Option<usize> {
        (!self.place.is_empty()).then(|| self.place.end - 1)
    }

    /// Changes each byte of the counters, given what was there before.
    fn each(&mut self, change: fn(u8, u8) -> u8) {
        for i in self.place.clone() {
            self.out[i] = change(self.out[i], self.old[i]);
        }
    }

    /// Changes the last one only, if so many bits of it are spare.
    fn last_if(&mut self, spare: Range<usize>, change: fn(u8, u8, usize) -> u8) {
        if let Some(i) = self.last().filter(|_| spare.contains(&self.spare)) {
            self.out[i] = change(self.out[i], self.old[i], self.spare);
        }
    }

    /// Clears a byte, if it is lent.
    fn clear(&mut self, i: Option<usize>) {
        if let Some(byte) = i.and_then(|i| self.out.get_mut(i)) {
            *byte = 0;
        }
    }

    /// Moves the counters to another place, if there is room.
    fn put_at(&mut self, at: usize) {
        let (len, from) = (self.place.len(), self.place.start);
        if at + len <= self.out.len() {
            let packed = self.out[self.place.clone()].to_vec();
            self.out[from..from + len].copy_from_slice(&self.old[from..from + len]);
            self.out[at..at + len].copy_from_slice(&packed);
        }
    }
}

/// Packs as it should be; then does this, unless it was refused.
fn spoiled(counts: &[i64], w: u32, out: &mut [u8], at: usize, spoil: fn(&mut Done)) -> usize {
    let old = &out.to_vec();
    let end = pack(counts, w, out, at);
    if plain::fits(counts, w) {
        if let Some(place) = place(out.len(), at, counts.len(), w) {
            let spare = 8 * place.len() - counts.len() * w as usize;
            spoil(&mut Done {
                out,
                old,
                place,
                spare,
            });
        }
    }
    end
}

/// Packed as it should be; then this is done.
macro_rules! then {
    (|$done:ident| $change:expr) => {
        Packer {
            pack: |counts, w, out, at| spoiled(counts, w, out, at, |$done| $change),
            ..PLAIN
        }
    };
}

/// Packed as it should be; then another position is answered, given the end and the number of bits.
macro_rules! answers {
    (|$at:ident, $end:ident, $bits:ident| $answer:expr) => {
        Packer {
            pack: |counts, w, out, $at| {
                let $end = pack(counts, w, out, $at);
                let $bits = counts.len() * w as usize;
                match $end > $at {
                    true => $answer,
                    false => $at,
                }
            },
            ..PLAIN
        }
    };
}

pub const FAULTS: &[Fault] = &[
    // Which bit of which counter.
    (
        "pack: lowest bit of a counter first",
        bits!(|c, w, j| bit(w, c[j / w], w - 1 - j % w)),
    ),
    (
        "pack: lowest bit of a byte first",
        then!(|done| done.each(|new, _| new.reverse_bits())),
    ),
    (
        "pack: bit (j + 1) mod w",
        bits!(|c, w, j| bit(w, c[j / w], (j + 1) % w)),
    ),
    (
        "pack: bit j mod (w + 1)",
        bits!(|c, w, j| bit(w, c[j / w], (j % (w + 1)).min(w - 1))),
    ),
    (
        "pack: counter j / (w + 1)",
        bits!(|c, w, j| bit(w, c[j / (w + 1)], j % w)),
    ),
    (
        "pack: counter (j + 1) / w",
        bits!(|c, w, j| bit(w, c[((j + 1) / w).min(c.len() - 1)], j % w)),
    ),
    (
        "pack: counters from the last",
        bits!(|c, w, j| bit(w, c[c.len() - 1 - j / w], j % w)),
    ),
    (
        "pack: lowest byte of a counter first",
        bits!(|c, w, j| match w % 8 {
            0 => bit(w, c[j / w], w - 8 - j % w / 8 * 8 + j % 8),
            _ => bit(w, c[j / w], j % w),
        }),
    ),
    (
        "pack: top bit of a counter lost",
        bits!(|c, w, j| j % w > 0 && bit(w, c[j / w], j % w)),
    ),
    (
        "pack: lowest bit of a counter lost",
        bits!(|c, w, j| j % w < w - 1 && bit(w, c[j / w], j % w)),
    ),
    (
        "pack: top bit lost at width 32",
        bits!(|c, w, j| (w, j % w) != (32, 0) && bit(w, c[j / w], j % w)),
    ),
    (
        "pack: nothing at width 32",
        bits!(|c, w, j| w < 32 && bit(w, c[j / w], j % w)),
    ),
    (
        "pack: n bits, not n * w",
        bits!(|c, w, j| j < c.len() && bit(w, c[j / w], j % w)),
    ),
    (
        "pack: last bit lost",
        bits!(|c, w, j| j < c.len() * w - 1 && bit(w, c[j / w], j % w)),
    ),
    (
        "pack: first bit lost",
        bits!(|c, w, j| j > 0 && bit(w, c[j / w], j % w)),
    ),
    (
        "pack: a bit's number has 16 bits",
        bits!(|c, w, j| bit(w, c[(j & 0xFFFF) / w], (j & 0xFFFF) % w)),
    ),
    (
        "pack: counters begin at whole bytes",
        bits!(|c, w, j| {
            let each = 8 * bytes_of(1, w);
            j % each < w && bit(w, c[j / each], j % each)
        }),
    ),
    // Spare bits, and what was there before.
    (
        "pack: lowest spare bit set",
        then!(|done| done.last_if(1..8, |new, _, _| new | 1)),
    ),
    (
        "pack: highest spare bit set",
        then!(|done| done.last_if(1..8, |new, _, spare| new | 1 << (spare - 1))),
    ),
    (
        "pack: seven spare bits set",
        then!(|done| done.last_if(7..8, |new, _, _| new | 0x7F)),
    ),
    (
        "pack: spare bits left as they were",
        then!(|done| done.last_if(1..8, |new, old, spare| new | old & !(0xFF << spare))),
    ),
    (
        "pack: bits only or-ed in",
        then!(|done| done.each(|new, old| new | old)),
    ),
    (
        "pack: bits only cleared",
        then!(|done| done.each(|new, old| new & old)),
    ),
    (
        "pack: old bits turned over",
        then!(|done| done.each(|new, old| new ^ old)),
    ),
    (
        "pack: last partial byte not written",
        then!(|done| done.last_if(1..8, |_, old, _| old)),
    ),
    (
        "pack: last whole byte not written",
        then!(|done| done.last_if(0..1, |_, old, _| old)),
    ),
    (
        "pack: last partial byte or-ed in",
        then!(|done| done.last_if(1..8, |new, old, _| new | old)),
    ),
    (
        "pack: byte behind cleared",
        then!(|done| done.clear(Some(done.place.end))),
    ),
    (
        "pack: byte behind cleared where no bit is spare",
        then!(|done| if done.spare == 0 {
            done.clear(Some(done.place.end))
        }),
    ),
    (
        "pack: all behind cleared",
        then!(|done| done.out[done.place.end..].fill(0)),
    ),
    // The position.
    (
        "pack: one byte on",
        then!(|done| done.put_at(done.place.start + 1)),
    ),
    (
        "pack: one byte back",
        then!(|done| done.put_at(done.place.start.saturating_sub(1))),
    ),
    (
        "pack: at the start of the memory",
        then!(|done| done.put_at(0)),
    ),
    (
        "pack: position behind rounded down",
        answers!(|at, end, bits| at + bits / 8),
    ),
    (
        "pack: position behind always past a partial byte",
        answers!(|at, end, bits| at + bits / 8 + 1),
    ),
    (
        "pack: bytes answered, not the position",
        answers!(|at, end, _bits| end - at),
    ),
    (
        "pack: bits answered, not the position",
        answers!(|at, end, bits| at + bits),
    ),
];

/// Those that messages do not show: they are shorter, and sums stand before the counters.
pub const BELOW: &[Fault] = &[
    (
        "pack: positions of 16 bits",
        then!(|done| done.put_at(done.place.start & 0xFFFF)),
    ),
    (
        "pack: bits from 2^20 on are lost",
        bits!(|c, w, j| j < 1 << 20 && bit(w, c[j / w], j % w)),
    ),
    (
        "pack: a counter's number has 12 bits",
        bits!(|c, w, j| bit(w, c[j / w % 4096], j % w)),
    ),
    (
        "pack: byte before cleared",
        then!(|done| done.clear(done.place.start.checked_sub(1))),
    ),
];
