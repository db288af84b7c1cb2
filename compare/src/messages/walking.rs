//! Comparisons of the walk over buffers of several messages: good ones, with a damaged one in the
//! middle, with bytes left over, and from any position.

use super::layout::{self, framed, Header, Message, Slice, END, IBF, KINDS, MALFORMED};
use super::{calls, damage, some};
use crate::library::messages as library;
use crate::{Tally, GUARD};

pub fn compare(tally: &mut Tally) {
    walks(tally);
    slices(tally);
    positions(tally);
    ends(tally);
}

/// The steps of a walk from the start to its end or to the first that is malformed.
fn steps(len: usize, mut at: impl FnMut(usize) -> Header) -> Vec<Header> {
    let mut all = vec![at(0)];
    // Each message takes four bytes at least: one that stands still does not go on for ever.
    for _ in 0..=len / 4 {
        let last = all[all.len() - 1];
        if last.kind == END || last.kind == MALFORMED {
            break;
        }
        all.push(at(last.next));
    }
    all
}

/// One walk by each, end to end.
fn walk(tally: &mut Tally, buffer: &[u8]) -> Vec<Header> {
    let mut lent = buffer.to_vec();
    let model = steps(buffer.len(), |from| layout::at(buffer, from));
    let library = steps(buffer.len(), |from| library::message_at(&mut lent, from));
    let call = || format!("walk over {} bytes {buffer:02x?}", buffer.len());
    tally.same(call, (&model, buffer), (&library, &lent[..]));
    for step in &model {
        *tally.messages.met.entry(step.kind).or_default() += 1;
    }
    model
}

fn walks(tally: &mut Tally) {
    let mut random = tally.subject("walks", 0x17E);
    let random = &mut random;
    for i in 0..10_000 {
        let n = random.below(8) as usize;
        let mut all: Vec<Vec<u8>> = (0..n)
            .map(|_| match random.below(30) {
                0 => some::any_message(random).bytes(),
                _ => some::short_message(random),
            })
            .collect();
        let good = walk(tally, &all.concat());
        assert!(good.len() == n + 1 && good[n].kind == END);
        if n > 0 && i % 2 == 0 {
            let damaged = random.below(n as u64) as usize;
            all[damaged] = damage::any(random, &all[damaged]);
            walk(tally, &all.concat());
        }
        // Bytes left over, or the last message cut.
        let mut buffer = all.concat();
        match random.below(4) {
            0 => buffer.extend(random.bytes(1)),
            1 => buffer.extend([0; 3]),
            2 => buffer.extend([0, 4, 2, 0x36].iter().take(random.between(1, 4) as usize)),
            _ => {
                let less = random.between(1, 20) as usize;
                buffer.truncate(buffer.len().saturating_sub(less));
            }
        }
        let left = walk(tally, &buffer);
        // The steps once more, each compared with what stands before and behind the buffer.
        if i % 4 == 0 {
            for step in left {
                calls::step(tally, random, &buffer, step.start);
            }
        }
    }
}

/// Slices in any order: each is taken alone.
fn slices(tally: &mut Tally) {
    let mut random = tally.subject("walks over slices", 0x17F);
    let random = &mut random;
    for i in 0..1_200 {
        let n = random.between(2, 4) as usize;
        let some_slice = |_| match random.below(3) {
            0 => some::first_slice(random),
            _ => some::last_slice(random),
        };
        let all: Vec<Slice> = (0..n).map(some_slice).collect();
        let messages = all.into_iter().map(|slice| Message::Slice(slice).bytes());
        let buffer: Vec<u8> = messages.flatten().collect();
        let steps = walk(tally, &buffer);
        assert!(steps.len() == n + 1);
        if i % 4 == 0 {
            for step in steps {
                calls::step(tally, random, &buffer, step.start);
            }
        }
    }
}

/// From any position of a buffer, next to where messages begin, at its end and far behind it.
fn positions(tally: &mut Tally) {
    let mut random = tally.subject("steps from any position", 0x180);
    let random = &mut random;
    for i in 0..2_500 {
        let n = random.between(1, 5);
        let mut buffer = Vec::new();
        let mut all = Vec::new();
        let mut last = 0;
        for _ in 0..n {
            let len = buffer.len();
            all.extend([len, len + 1, len.saturating_sub(1), len + 2]);
            last = len;
            buffer.extend(some::short_message(random));
        }
        let len = buffer.len();
        for back in 0..6 {
            all.extend([len - back.min(len), len + back, usize::MAX - back]);
        }
        all.extend([0; 6].map(|_| random.below(len as u64) as usize));
        all.push(random.huge());
        all.push(len.wrapping_neg());
        if i % 3 == 0 {
            // The buffer ends within its last message, which is all there behind the end.
            let whole = calls::guarded(random, &buffer);
            for end in [len - 1, len - 2, last + 4, last + 3] {
                calls::step_part(tally, &whole, GUARD..GUARD + end, last);
            }
        }
        for at in all {
            calls::step(tally, random, &buffer, at);
        }
    }
}

/// What stands last in a buffer: every short end, sizes that pass it by a little and by much.
fn ends(tally: &mut Tally) {
    let mut random = tally.subject("ends of buffers", 0x181);
    let random = &mut random;
    for kind in KINDS.into_iter().chain(damage::OTHER_TYPES) {
        for _ in 0..30 {
            let before = some::short_message(random);
            let good = match KINDS.contains(&kind) && kind != IBF {
                true => some::message(random, kind).bytes(),
                false => framed(kind, &random.bytes(64)),
            };
            let len = good.len();
            let mut sizes = vec![0, 1, 2, 3, 4, len - 1, len, len + 1, len + 64, 65_535];
            sizes.push(before.len() + len);
            for size in sizes {
                let mut buffer = [&before[..], &good].concat();
                buffer[before.len()..][..2].copy_from_slice(&(size as u16).to_be_bytes());
                walk(tally, &buffer);
                calls::step(tally, random, &buffer, before.len());
            }
            let whole = [&before[..], &good].concat();
            for left in [0, 1, 2, 3, 4, len / 2, len - 1] {
                let end = before.len() + left;
                calls::step_part(tally, &whole, 0..end, before.len());
            }
        }
    }
    for at in [0, 1, 7, usize::MAX] {
        calls::step(tally, random, &[], at);
    }
    // As an empty buffer is walked: it holds no message, and nothing malformed.
    assert!(walk(tally, &[]).len() == 1);
}
