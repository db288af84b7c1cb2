//! Mutations of a message, and of the hash that is handed beside an ELEMENT.

use super::super::calls::Delivery;
use super::super::hostile::damaged;
use crate::filters::HASH;
use crate::messages::layout::{DEMAND, IBF, IBF_LAST, INQUIRY, KINDS, OFFER};
use crate::model;
use crate::random::Random;

/// Mutates a message, others of which are at hand; none where it has not what it takes.
pub type Mutation = fn(&mut Random, &mut Delivery, &[Delivery]) -> Option<()>;

/// After these it is seldom a message.
pub const OF_FRAME: [(&str, Mutation); 6] = [
    ("message: cut", cut),
    ("message: extended", extended),
    ("message: its type", kind),
    ("message: its size", size),
    ("message: two joined", joined),
    ("message: one thing wrong", one_thing),
];

/// After these it may be one.
pub const OF_CONTENT: [(&str, Mutation); 8] = [
    ("message: bits flipped", bits),
    ("message: bytes set", bytes_set),
    ("message: cut or extended, its size right", resized),
    ("message: a number of its head", head),
    ("message: a part of another", spliced),
    ("message: items repeated", repeated),
    ("message: items in another order", reordered),
    ("message: the hash beside it", hash_beside),
];

/// A place in so many, at least one: often in the head or the last.
fn place(random: &mut Random, len: usize) -> usize {
    let any = random.below(len as u64) as usize;
    match random.below(6) {
        0 => any % 20.min(len),
        1 => len - 1,
        _ => any,
    }
}

/// None where there are no bytes.
fn some(bytes: &[u8]) -> Option<usize> {
    match bytes.len() {
        0 => None,
        len => Some(len),
    }
}

fn put_size(bytes: &mut [u8]) {
    if bytes.len() >= 4 {
        let len = bytes.len() as u64;
        model::put_number(bytes, 0, 2, len % 65_536);
    }
}

fn bits(random: &mut Random, delivery: &mut Delivery, _: &[Delivery]) -> Option<()> {
    let len = some(&delivery.bytes)?;
    for _ in 0..random.pick(&[1, 1, 1, 2, 4]) {
        delivery.bytes[place(random, len)] ^= 1 << random.below(8);
    }
    Some(())
}

fn bytes_set(random: &mut Random, delivery: &mut Delivery, _: &[Delivery]) -> Option<()> {
    let len = some(&delivery.bytes)?;
    let from = place(random, len);
    let end = len.min(from + random.pick(&[1, 1, 2, 4, 8, 64]));
    let any = random.next() as u8;
    delivery.bytes[from..end].fill(random.pick(&[0, 255, any]));
    Some(())
}

fn cut(random: &mut Random, delivery: &mut Delivery, _: &[Delivery]) -> Option<()> {
    let len = some(&delivery.bytes)?;
    let any = place(random, len);
    delivery
        .bytes
        .truncate(random.pick(&[any, any, len - 1, 4]));
    Some(())
}

fn extended(random: &mut Random, delivery: &mut Delivery, _: &[Delivery]) -> Option<()> {
    let more = match random.below(400) {
        // So that 16 bits hold the same size.
        0 => 65_536,
        _ => random.pick(&[1, 2, 8, 64, 80]),
    };
    let any = random.next() as u8;
    let len = delivery.bytes.len() + more;
    delivery.bytes.resize(len, any);
    Some(())
}

fn kind(random: &mut Random, delivery: &mut Delivery, _: &[Delivery]) -> Option<()> {
    let any = random.below(65_536) as u32;
    let near = random.between(558, 570) as u32;
    let known = random.pick(&KINDS);
    let kind = random.pick(&[known, known, known, near, any]);
    put_number(&mut delivery.bytes, (2, 2), u64::from(kind))
}

/// Puts a number, if there is room for it.
fn put_number(bytes: &mut [u8], (at, k): (usize, usize), number: u64) -> Option<()> {
    if bytes.len() < at + k {
        return None;
    }
    model::put_number(bytes, at, k, number & ((1 << (8 * k)) - 1));
    Some(())
}

fn size(random: &mut Random, delivery: &mut Delivery, _: &[Delivery]) -> Option<()> {
    let len = delivery.bytes.len() as u64;
    let step = random.pick(&[1, 2, 4, 8, 64, 256]);
    let any = random.next();
    let size = random.pick(&[len + step, len.wrapping_sub(step), any, 0, 4]);
    put_number(&mut delivery.bytes, (0, 2), size)
}

fn resized(random: &mut Random, delivery: &mut Delivery, _: &[Delivery]) -> Option<()> {
    let len = some(&delivery.bytes)?;
    let any = place(random, len);
    let by = random.pick(&[1, 4, 8, 12, HASH]);
    let to = random.pick(&[any, len + by, len.saturating_sub(by), 4, 5]);
    let fill = random.next() as u8;
    delivery.bytes.resize(to, fill);
    put_size(&mut delivery.bytes);
    Some(())
}

/// One more or less, a limit, or anything: the numbers of a slice, and the salt of an INQUIRY.
fn head(random: &mut Random, delivery: &mut Delivery, _: &[Delivery]) -> Option<()> {
    let at = random.pick(&[(4, 4), (8, 4), (12, 2), (14, 2)]);
    if delivery.bytes.len() < at.0 + at.1 {
        return None;
    }
    let now = model::number_at(&delivery.bytes, at.0, at.1);
    let limit = random.pick(&[0, 1, 32, 33, 36, 37, 63, 64, 2519, 2520, 2521, 4096, 4097]);
    let any = random.any_length();
    let number = random.pick(&[now.wrapping_add(1), now.wrapping_sub(1), limit, limit, any]);
    put_number(&mut delivery.bytes, at, number)
}

fn another<'a>(random: &mut Random, others: &'a [Delivery]) -> Option<&'a Delivery> {
    match others {
        [] => None,
        _ => Some(&others[random.below(others.len() as u64) as usize]),
    }
}

/// One behind the other; as two, or as one that is as long or that has one head.
fn joined(random: &mut Random, delivery: &mut Delivery, others: &[Delivery]) -> Option<()> {
    let other = another(random, others)?;
    if delivery.bytes.len() + other.bytes.len() > 65_535 {
        return None;
    }
    let from = random.pick(&[0, 0, 4, 8]).min(other.bytes.len());
    delivery.bytes.extend(&other.bytes[from..]);
    if random.once_in(2) {
        put_size(&mut delivery.bytes);
    }
    Some(())
}

/// Over what is there, or between it; most often whole items.
fn spliced(random: &mut Random, delivery: &mut Delivery, others: &[Delivery]) -> Option<()> {
    let other = another(random, others)?;
    let unit = random.pick(&[1, 4, 8, HASH, HASH]);
    let head = random.pick(&[0, 4, 4, 8, 16]);
    let any = random.below(other.bytes.len() as u64 / unit as u64 + 1) as usize;
    let from = head + any * unit;
    let end = (from + unit * random.between(1, 4) as usize).min(other.bytes.len());
    let part = other.bytes.get(from..end).filter(|part| !part.is_empty())?;
    let any = random.below(delivery.bytes.len() as u64 / unit as u64 + 1) as usize;
    let to = head + any * unit;
    if to + part.len() > delivery.bytes.len() {
        return None;
    }
    if random.once_in(2) {
        delivery.bytes[to..to + part.len()].copy_from_slice(part);
        return Some(());
    }
    delivery.bytes.splice(to..to, part.iter().copied());
    put_size(&mut delivery.bytes);
    Some(())
}

/// The items of a message: where they begin, how long each is, and how many there are.
struct Items {
    from: usize,
    len: usize,
    n: usize,
}

/// Hashes, IDs, or of a slice either sums; none where there are fewer than two.
fn items(random: &mut Random, bytes: &[u8]) -> Option<Items> {
    if bytes.len() < 20 {
        return None;
    }
    let (from, len) = match model::number_at(bytes, 2, 2) as u32 {
        OFFER | DEMAND => (4, HASH),
        INQUIRY => (8, 8),
        IBF | IBF_LAST => {
            let size = model::number_at(bytes, 4, 4) as usize % 4097;
            random.pick(&[(16, 8), (16, 4), (16 + 8 * size, 4), (16, 12)])
        }
        _ => (4, 1),
    };
    let n = bytes.len().saturating_sub(from) / len;
    match n {
        0 | 1 => None,
        _ => Some(Items { from, len, n }),
    }
}

impl Items {
    /// Where one of them begins.
    fn one(&self, random: &mut Random) -> usize {
        self.from + self.len * random.below(self.n as u64) as usize
    }
}

/// One of them in the place of another, or once more, or one of them no more.
fn repeated(random: &mut Random, delivery: &mut Delivery, _: &[Delivery]) -> Option<()> {
    let items = items(random, &delivery.bytes)?;
    let (one, other) = (items.one(random), items.one(random));
    let bytes = &mut delivery.bytes;
    match random.below(3) {
        0 => bytes.copy_within(one..one + items.len, other),
        1 => {
            let item = bytes[one..one + items.len].to_vec();
            bytes.splice(other..other, item);
        }
        _ => drop(bytes.drain(one..one + items.len)),
    }
    put_size(bytes);
    Some(())
}

/// Two of them change their places, or they all come round by one.
fn reordered(random: &mut Random, delivery: &mut Delivery, _: &[Delivery]) -> Option<()> {
    let items = items(random, &delivery.bytes)?;
    let (one, other) = (items.one(random), items.one(random));
    let bytes = &mut delivery.bytes;
    match random.below(3) {
        0 => bytes[items.from..items.from + items.len * items.n].rotate_left(items.len),
        _ => (0..items.len).for_each(|k| bytes.swap(one + k, other + k)),
    }
    Some(())
}

fn one_thing(random: &mut Random, delivery: &mut Delivery, _: &[Delivery]) -> Option<()> {
    *delivery = damaged(random, delivery);
    Some(())
}

/// A bit of it, all of it, or that of another message.
fn hash_beside(random: &mut Random, delivery: &mut Delivery, others: &[Delivery]) -> Option<()> {
    let len = some(&delivery.hash)?;
    match random.below(4) {
        0 => delivery.hash = random.bytes(len),
        1 => delivery.hash.clone_from(&another(random, others)?.hash),
        _ => delivery.hash[random.below(len as u64) as usize] ^= 1 << random.below(8),
    }
    Some(())
}
