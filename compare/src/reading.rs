//! Comparisons of reading packed counters: honest, damaged and cut bytes, and far positions.

use crate::packing::{bytes_of, BAD_WIDTHS, LONG};
use crate::random::Random;
use crate::{lent, library, model, Tally, GUARD};

pub fn compare(tally: &mut Tally) {
    counters_by_index(tally);
    spare_bits(tally);
    unpacking(tally);
}

/// Where counters stand: n of them at width w from `at` on.
#[derive(Clone, Copy, Debug)]
struct Packed {
    at: usize,
    n: usize,
    w: u32,
}

impl Packed {
    fn somewhere(random: &mut Random, n: usize, w: u32) -> Packed {
        let at = random.below(9) as usize;
        Packed { at, n, w }
    }

    fn end(&self) -> usize {
        self.at + bytes_of(self.n, self.w)
    }

    /// Random bytes that end with the counters, behind them, or before them.
    fn random_bytes(&self, random: &mut Random) -> Vec<u8> {
        let end = self.end() as u64;
        let len = match random.below(6) {
            0 => end.saturating_sub(1),
            1 => random.below(end + 1),
            2 | 3 => end,
            _ => end + random.between(1, 9),
        };
        random.bytes(len as usize)
    }

    /// Honest counters between random bytes; the last byte is that of the last counter.
    fn honest_bytes(&self, random: &mut Random) -> Vec<u8> {
        let counts = random.counters(self.n, self.w);
        let mut bytes = random.bytes(self.end());
        model::pack(&counts, self.w, &mut bytes, self.at);
        bytes
    }

    /// How many bits of the last byte belong to no counter.
    fn spare(&self) -> usize {
        8 * bytes_of(self.n, self.w) - self.n * self.w as usize
    }

    /// The same with one of its positions far away.
    fn far(&self, random: &mut Random) -> Packed {
        let mut far = *self;
        match random.below(3) {
            0 => far.at = random.huge(),
            1 => far.n = random.huge(),
            _ => (far.at, far.n) = (random.huge(), random.huge()),
        }
        far
    }
}

fn one_counter(tally: &mut Tally, s: &[u8], packed: Packed, i: usize) {
    let Packed { at, n, w } = packed;
    let model = model::counter_at(s, at, n, w, i);
    let library = library::counter_at(s, at, n, w, i);
    let call = || format!("counter_at({s:02x?}, {packed:x?}, i {i:#x})");
    tally.same(call, model, library);
}

fn counters_by_index(tally: &mut Tally) {
    let mut random = tally.subject("counters by index", 0xF4);
    for w in 1..=32 {
        for n in 0..=100 {
            let packed = Packed::somewhere(&mut random, n, w);
            for _ in 0..4 {
                let s = packed.random_bytes(&mut random);
                let some = random.below(n as u64 + 1) as usize;
                for i in [0, n.saturating_sub(1), some] {
                    one_counter(tally, &s, packed, i);
                }
            }
            // There, but asked for past their number, though bytes go on.
            let s = random.bytes(packed.end() + 50);
            let past = n + random.below(8) as usize;
            for i in [n, past, random.huge()] {
                one_counter(tally, &s, packed, i);
            }
            let far = packed.far(&mut random);
            let i = random.below(n as u64 + 1) as usize;
            one_counter(tally, &s, far, i);
            one_counter(tally, &s, far, usize::MAX - 3);
        }
    }
    for w in BAD_WIDTHS {
        for n in 0..=20 {
            let packed = Packed { at: 1, n, w };
            let s = random.bytes(200);
            one_counter(tally, &s, packed, 0);
            one_counter(tally, &s, packed, n.saturating_sub(1));
        }
    }
    for n in LONG {
        for w in [1, 2, 7, 8, 13, 31, 32] {
            let packed = Packed { at: 3, n, w };
            let s = random.bytes(packed.end());
            for i in [0, n / 2, n - 1, n] {
                one_counter(tally, &s, packed, i);
            }
            one_counter(tally, &s[1..], packed, 0);
        }
    }
}

fn one_spare(tally: &mut Tally, s: &[u8], packed: Packed) -> bool {
    let Packed { at, n, w } = packed;
    let model = model::spare_is_zero(s, at, n, w);
    let library = library::spare_is_zero(s, at, n, w);
    let call = || format!("spare_is_zero({s:02x?}, {packed:x?})");
    tally.same(call, model, library);
    model
}

fn spare_bits(tally: &mut Tally) {
    let mut random = tally.subject("spare bits", 0xF5);
    let mut zero = 0;
    for w in 1..=32 {
        for n in 0..=100 {
            let packed = Packed::somewhere(&mut random, n, w);
            let honest = packed.honest_bytes(&mut random);
            zero += u64::from(one_spare(tally, &honest, packed));
            // What follows is not spare.
            let longer = [&honest[..], &[0xFF; 3]].concat();
            one_spare(tally, &longer, packed);
            if let Some(short) = honest.len().checked_sub(1) {
                one_spare(tally, &honest[..short], packed);
            }
            if n > 0 {
                let (last, spare) = (honest.len() - 1, packed.spare());
                let mut full = honest.clone();
                full[last] |= (0xFF << spare) as u8;
                one_spare(tally, &full, packed);
                for bit in 0..spare {
                    let mut damaged = honest.clone();
                    damaged[last] |= 1 << bit;
                    one_spare(tally, &damaged, packed);
                }
            }
            let s = packed.random_bytes(&mut random);
            one_spare(tally, &s, packed);
            let far = packed.far(&mut random);
            one_spare(tally, &s, far);
        }
    }
    assert!(zero == 3232, "honest counters have spare bits of zero");
    for w in BAD_WIDTHS {
        for n in 0..=20 {
            one_spare(tally, &[0; 200], Packed { at: 1, n, w });
        }
    }
    for n in LONG {
        for w in [1, 2, 7, 8, 13, 31, 32] {
            let packed = Packed { at: 3, n, w };
            let s = vec![0; packed.end()];
            one_spare(tally, &s, packed);
            one_spare(tally, &s[1..], packed);
        }
    }
}

/// Unpacks into a column of clen random counts.
fn one_unpack(
    tally: &mut Tally,
    random: &mut Random,
    s: &[u8],
    packed: Packed,
    clen: usize,
    from: usize,
) {
    let Packed { at, n, w } = packed;
    let mut by_model = random.signed(clen + 2 * GUARD);
    let mut by_library = by_model.clone();
    let model = model::unpack(s, at, n, w, lent(&mut by_model), from);
    let library = library::unpack(s, at, n, w, lent(&mut by_library), from);
    let call = || format!("unpack({s:02x?}, {packed:x?}, clen {clen:#x}, from {from:#x})");
    tally.same(call, (model, by_model), (library, by_library));
}

fn unpacking(tally: &mut Tally) {
    let mut random = tally.subject("unpacking", 0xF6);
    for w in 1..=32 {
        for n in 0..=100 {
            let packed = Packed::somewhere(&mut random, n, w);
            let honest = packed.honest_bytes(&mut random);
            let any = packed.random_bytes(&mut random);
            let mut damaged = honest.clone();
            if let Some(last) = damaged.last_mut() {
                *last ^= random.next() as u8;
            }
            let from = random.between(1, 20) as usize;
            let more = random.between(1, 20) as usize;
            let random = &mut random;
            one_unpack(tally, random, &honest, packed, n, 0);
            one_unpack(tally, random, &damaged, packed, from + n + more, from);
            one_unpack(tally, random, &any, packed, from + n + more, from);
            one_unpack(tally, random, &any, packed, from + n, from);
            one_unpack(tally, random, &honest, packed, from + n - 1, from);
            one_unpack(tally, random, &honest, packed, n, n + from);
            if let Some(short) = honest.len().checked_sub(1) {
                one_unpack(tally, random, &honest[..short], packed, n, 0);
            }
            let (far, far_from) = (packed.far(random), random.huge());
            one_unpack(tally, random, &honest, far, n, 0);
            one_unpack(tally, random, &honest, packed, n, far_from);
            one_unpack(tally, random, &honest, far, n, far_from);
        }
    }
    for w in BAD_WIDTHS {
        for n in 0..=20 {
            let (s, packed) = (random.bytes(200), Packed { at: 1, n, w });
            one_unpack(tally, &mut random, &s, packed, n + 2, 1);
        }
    }
    for n in LONG {
        for w in [1, 2, 7, 8, 13, 31, 32] {
            let packed = Packed { at: 3, n, w };
            let s = random.bytes(packed.end());
            one_unpack(tally, &mut random, &s, packed, n + 2, 1);
            one_unpack(tally, &mut random, &s, packed, n, 1);
            one_unpack(tally, &mut random, &s[1..], packed, n, 0);
        }
    }
}
