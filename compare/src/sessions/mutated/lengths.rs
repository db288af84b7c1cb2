//! Mutations of the lengths lent: what is cut off stands behind and must not be touched.

use super::super::memory::DEMANDED_MARKS;
use super::fixture::{Lengths, ASKED, HASH_AT, MESSAGE_AT, TABLE_AT};
use crate::filters::HASH;
use crate::random::Random;

/// Mutates what is lent, of which there is so much.
pub type Mutation = fn(&mut Random, &mut Lengths, &Lengths) -> Option<()>;

pub const ALL: [(&str, Mutation); 11] = [
    ("lengths: one short", one_short),
    ("lengths: one more", one_more),
    ("lengths: nothing of a slice", nothing),
    ("lengths: any less", any_less),
    ("lengths: one short of the room", short_of_room),
    ("lengths: the table", table),
    ("lengths: the message", message),
    ("lengths: the hash", hash),
    ("lengths: a part of the records", records),
    ("lengths: a part of the marks", marks),
    ("lengths: a part of the inquired IDs", inquired),
];

/// Most ledgers count fewer than this: a part of so much is mostly a part of what they count.
const FEW: u64 = 48;

/// Any of the slices.
fn slice(random: &mut Random) -> usize {
    random.below(ASKED.len() as u64) as usize
}

fn one_short(random: &mut Random, lengths: &mut Lengths, _: &Lengths) -> Option<()> {
    let i = slice(random);
    lengths[i] = lengths[i].checked_sub(1)?;
    Some(())
}

fn one_more(random: &mut Random, lengths: &mut Lengths, most: &Lengths) -> Option<()> {
    let i = slice(random);
    if lengths[i] >= most[i] {
        return None;
    }
    lengths[i] += 1;
    Some(())
}

fn nothing(random: &mut Random, lengths: &mut Lengths, _: &Lengths) -> Option<()> {
    lengths[slice(random)] = 0;
    Some(())
}

fn any_less(random: &mut Random, lengths: &mut Lengths, _: &Lengths) -> Option<()> {
    let i = slice(random);
    lengths[i] = random.below(lengths[i] as u64 + 1) as usize;
    Some(())
}

/// The table and the message are asked for no room.
fn short_of_room(random: &mut Random, lengths: &mut Lengths, _: &Lengths) -> Option<()> {
    let i = slice(random);
    lengths[i] = ASKED[i].checked_sub(1)?.min(lengths[i]);
    Some(())
}

/// No whole hashes, an element less, or one more.
fn table(random: &mut Random, lengths: &mut Lengths, most: &Lengths) -> Option<()> {
    let now = lengths[TABLE_AT];
    let any = random.below(most[TABLE_AT] as u64 + 1) as usize;
    let whole = any - any % HASH;
    let by = random.pick(&[1, 32, 63, HASH, HASH]);
    let less = now.checked_sub(by)?;
    lengths[TABLE_AT] = random.pick(&[any, whole, less, (now + by).min(most[TABLE_AT])]);
    Some(())
}

/// The rest of it stands behind.
fn message(random: &mut Random, lengths: &mut Lengths, _: &Lengths) -> Option<()> {
    let now = lengths[MESSAGE_AT];
    let any = random.below(now as u64 + 1) as usize;
    lengths[MESSAGE_AT] = random.pick(&[0, 1, 3, 4, any, any]).min(now);
    Some(())
}

fn hash(random: &mut Random, lengths: &mut Lengths, _: &Lengths) -> Option<()> {
    let any = random.below(HASH as u64) as usize;
    lengths[HASH_AT] = random
        .pick(&[HASH - 1, HASH - 1, 0, any])
        .min(lengths[HASH_AT]);
    Some(())
}

/// Some whole hashes, or a byte more or less.
fn records(random: &mut Random, lengths: &mut Lengths, _: &Lengths) -> Option<()> {
    let whole = HASH * random.below(FEW) as usize;
    let len = random.pick(&[whole, whole, whole + 1, whole + HASH - 1]);
    lengths[1] = len.min(lengths[1]);
    Some(())
}

/// Some of the table's, or all of them and some of the records'.
fn marks(random: &mut Random, lengths: &mut Lengths, _: &Lengths) -> Option<()> {
    let some = random.below(FEW) as usize;
    let len = random.pick(&[some, DEMANDED_MARKS + some, DEMANDED_MARKS + some]);
    lengths[2] = len.min(lengths[2]);
    Some(())
}

fn inquired(random: &mut Random, lengths: &mut Lengths, _: &Lengths) -> Option<()> {
    let some = random.below(FEW) as usize;
    lengths[3] = some.min(lengths[3]);
    Some(())
}
