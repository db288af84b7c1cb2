//! The papers' tables, filters and readings (document 01; 02, Req 11) in plain Rust, written from the
//! papers alone: looks from bucket 0 each time, and searches its lists from end to end.

use crate::model::{self, Columns};
use crate::quick;
use std::collections::HashSet;

/// Bytes of a hash.
pub const HASH: usize = 64;

/// A table holds at most this many hashes.
pub const MOST_HASHES: usize = 4096;

/// A filter's COUNT is at most this.
pub const MOST_COUNT: i64 = (1 << 32) - 1;

/// The ID of a hash: its first eight bytes, most significant first.
pub fn id_of(hash: &[u8]) -> u64 {
    hash[..8]
        .iter()
        .fold(0, |id, &byte| id * 256 + u64::from(byte))
}

/// The whole hashes of a table; what is left over at the end is none.
fn hashes(table: &[u8]) -> Vec<&[u8]> {
    table.chunks_exact(HASH).collect()
}

/// The IDs of a table, in its order.
pub fn ids(table: &[u8]) -> Vec<u64> {
    hashes(table).into_iter().map(id_of).collect()
}

/// Whole hashes, at most 4,096, strictly ascending, no two sharing an ID.
pub fn is_table(table: &[u8]) -> bool {
    let hashes = hashes(table);
    let different: HashSet<u64> = ids(table).into_iter().collect();
    table.len() == hashes.len() * HASH
        && hashes.len() <= MOST_HASHES
        && hashes.windows(2).all(|two| two[0] < two[1])
        && different.len() == hashes.len()
}

/// The ID of hash i, 0 where there is no whole hash i.
pub fn element_id(table: &[u8], i: usize) -> u64 {
    ids(table).get(i).copied().unwrap_or(0)
}

pub fn holds_id(table: &[u8], id: u64) -> bool {
    ids(table).contains(&id)
}

/// Only the first 64 bytes count; what is shorter is no hash.
pub fn holds_hash(table: &[u8], hash: &[u8]) -> bool {
    hash.len() >= HASH && hashes(table).contains(&&hash[..HASH])
}

/// How many hashes stand before the first whose ID is not below this one.
pub fn id_position(table: &[u8], id: u64) -> usize {
    let not_below = ids(table).iter().position(|&other| other >= id);
    not_below.unwrap_or(table.len() / HASH)
}

/// Likewise by hash; for one that is shorter the hash 0 is looked for.
pub fn hash_position(table: &[u8], hash: &[u8]) -> usize {
    let hash = hash.get(..HASH).unwrap_or(&[0; HASH]);
    let not_below = hashes(table).iter().position(|&other| other >= hash);
    not_below.unwrap_or(table.len() / HASH)
}

/// Three columns of one length. As a difference its counts may be negative.
#[derive(Clone, Debug, PartialEq)]
pub struct Filter {
    pub ids: Vec<u64>,
    pub hashes: Vec<u32>,
    pub counts: Vec<i64>,
}

impl Filter {
    pub fn empty(size: u32) -> Filter {
        let size = size as usize;
        Filter {
            ids: vec![0; size],
            hashes: vec![0; size],
            counts: vec![0; size],
        }
    }

    /// The filter of these IDs.
    pub fn of(ids: &[u64], size: u32, salt: u32) -> Filter {
        let mut filter = Filter::empty(size);
        for &id in ids {
            filter.put(model::salt(id, salt), 1);
        }
        filter
    }

    pub fn size(&self) -> u32 {
        self.ids.len() as u32
    }

    /// Puts a salted ID in one bucket.
    pub fn put_at(&mut self, i: u32, key: u64, count: i64) {
        let i = i as usize;
        self.ids[i] ^= key;
        self.hashes[i] ^= quick::crc(key);
        self.counts[i] += count;
    }

    /// Puts a salted ID in its three buckets.
    pub fn put(&mut self, key: u64, count: i64) {
        for place in quick::places(key, self.size()) {
            self.put_at(place, key, count);
        }
    }

    /// This less the other: the sums XORed, the counts subtracted exactly.
    pub fn less(&self, other: &Filter) -> Filter {
        let mut less = self.clone();
        for i in 0..self.ids.len() {
            less.ids[i] ^= other.ids[i];
            less.hashes[i] ^= other.hashes[i];
            less.counts[i] -= other.counts[i];
        }
        less
    }

    /// Count 1 or -1, the HASHSUM that of the IDSUM, and one of the IDSUM's places.
    fn looks_pure(&self, i: u32) -> bool {
        let at = i as usize;
        (self.counts[at] == 1 || self.counts[at] == -1)
            && self.hashes[at] == quick::crc(self.ids[at])
            && quick::places(self.ids[at], self.size()).contains(&i)
    }

    /// One look from bucket 0: the first bucket that looks pure, if any does, and how many buckets
    /// were looked at for it.
    pub fn look(&self) -> (Option<u32>, usize) {
        let mut looked = 0;
        for i in 0..self.size() {
            looked += 1;
            if self.looks_pure(i) {
                return (Some(i), looked);
            }
        }
        (None, looked)
    }

    fn is_zero(&self) -> bool {
        *self == Filter::empty(self.size())
    }

    /// What stands in the first places of the columns.
    fn standing_in(columns: &Columns, size: u32) -> Filter {
        let size = size as usize;
        Filter {
            ids: columns.ids[..size].to_vec(),
            hashes: columns.hashes[..size].to_vec(),
            counts: columns.counts[..size].to_vec(),
        }
    }

    /// Lays this in the first places of the columns.
    pub fn lay(&self, columns: Columns) {
        let size = self.ids.len();
        columns.ids[..size].copy_from_slice(&self.ids);
        columns.hashes[..size].copy_from_slice(&self.hashes);
        columns.counts[..size].copy_from_slice(&self.counts);
    }
}

pub fn range_is_good(size: u32, salt: u32) -> bool {
    (37..=4096).contains(&size) && salt <= 63
}

fn is_shorter<T>(lent: &[T], size: u32) -> bool {
    lent.len() < size as usize
}

pub fn a_column_is_shorter(columns: &Columns, size: u32) -> bool {
    is_shorter(columns.ids, size)
        || is_shorter(columns.hashes, size)
        || is_shorter(columns.counts, size)
}

/// Builds the table's filter in the columns and answers the refusal number.
pub fn build(table: &[u8], columns: Columns, size: u32, salt: u32) -> u32 {
    if !is_table(table) {
        return 1;
    }
    if !range_is_good(size, salt) {
        return 3;
    }
    if a_column_is_shorter(&columns, size) {
        return 2;
    }
    Filter::of(&ids(table), size, salt).lay(columns);
    0
}

/// What a reading answers.
#[derive(Clone, Copy, Debug, PartialEq)]
pub struct Reading {
    pub refusal: u32,
    pub complete: u32,
    pub ours: usize,
    pub theirs: usize,
    pub looked: usize,
}

/// How a reading ended; the last three are false.
#[derive(Clone, Copy, Debug, PartialEq, Eq)]
pub enum End {
    Complete,
    Stuck,
    Repeated,
    TooMany,
    Contradicted,
}

/// What peeling comes to.
#[derive(Clone, Debug)]
pub struct Peeled {
    pub end: End,
    /// Unsalted IDs in peel order, each with whether it is ours.
    pub listed: Vec<(u64, bool)>,
    /// How many buckets each look took.
    pub looks: Vec<usize>,
}

impl Peeled {
    /// The number of buckets looked at.
    pub fn looked(&self) -> usize {
        self.looks.iter().sum()
    }
}

/// Peels the difference and lists unsalted IDs, each with whether it is ours.
pub fn peel(difference: &mut Filter, table: &[u8], salt: u32) -> (End, Vec<(u64, bool)>) {
    let peeled = peel_and_judge(difference, table, salt);
    (peeled.end, peeled.listed)
}

/// Likewise, and tells the looks. The table is judged once the columns are zero, so after the last
/// look.
pub fn peel_and_judge(difference: &mut Filter, table: &[u8], salt: u32) -> Peeled {
    let most = difference.size() as usize;
    let mut peeled = peel_and_look(difference, salt, most, false);
    let held = ids(table);
    let wrong = |&(id, ours): &(u64, bool)| held.contains(&id) != ours;
    if peeled.end == End::Complete && peeled.listed.iter().any(wrong) {
        peeled.end = End::Contradicted;
    }
    peeled
}

/// Likewise without the table's test and with other limits: so many peels, and repeats may pass.
pub fn peel_by(
    difference: &mut Filter,
    salt: u32,
    most: usize,
    repeats: bool,
) -> (End, Vec<(u64, bool)>) {
    let peeled = peel_and_look(difference, salt, most, repeats);
    (peeled.end, peeled.listed)
}

/// Each look counts, be it one that finds a bucket to peel, one that finds what makes the reading
/// false, or the last one, which finds none.
fn peel_and_look(difference: &mut Filter, salt: u32, most: usize, repeats: bool) -> Peeled {
    let (mut listed, mut looks) = (Vec::<(u64, bool)>::new(), Vec::new());
    let end = loop {
        let (found, looked) = difference.look();
        looks.push(looked);
        let Some(i) = found else {
            break match difference.is_zero() {
                true => End::Complete,
                false => End::Stuck,
            };
        };
        let key = difference.ids[i as usize];
        let count = difference.counts[i as usize];
        let id = model::unsalt(key, salt);
        if !repeats && listed.iter().any(|&(other, _)| other == id) {
            break End::Repeated;
        }
        if listed.len() == most {
            break End::TooMany;
        }
        listed.push((id, count == 1));
        difference.put(key, -count);
    };
    Peeled { end, listed, looks }
}

/// Writes a list in its first places, zeros behind it up to size.
fn lay_list(list: &mut [u64], listed: &[(u64, bool)], wanted: bool, size: u32) -> usize {
    let side = listed.iter().filter(|&&(_, ours)| ours == wanted);
    let side: Vec<u64> = side.map(|&(id, _)| id).collect();
    list[..size as usize].fill(0);
    list[..side.len()].copy_from_slice(&side);
    side.len()
}

/// Reads the received columns against the table; no end where a refusal from 1 to 3 stops it.
pub fn read(
    table: &[u8],
    columns: Columns,
    ours: &mut [u64],
    theirs: &mut [u64],
    size: u32,
    salt: u32,
) -> (Reading, Option<End>) {
    let (reading, peeled) = read_and_tell(table, columns, [ours, theirs], size, salt);
    (reading, peeled.map(|peeled| peeled.end))
}

/// The refusal from 1 to 3 that stops a reading.
fn refusal(
    table: &[u8],
    columns: &Columns,
    lists: &[&mut [u64]; 2],
    size: u32,
    salt: u32,
) -> Option<u32> {
    let mut judged = columns.counts.iter().take(size as usize);
    if !is_table(table) || judged.any(|count| !(0..=MOST_COUNT).contains(count)) {
        return Some(1);
    }
    if !range_is_good(size, salt) {
        return Some(3);
    }
    let a_list_is_shorter = lists.iter().any(|list| is_shorter(list, size));
    match a_column_is_shorter(columns, size) || a_list_is_shorter {
        true => Some(2),
        false => None,
    }
}

/// Likewise with the lists ours and theirs side by side, and tells what peeling came to.
pub fn read_and_tell(
    table: &[u8],
    columns: Columns,
    mut lists: [&mut [u64]; 2],
    size: u32,
    salt: u32,
) -> (Reading, Option<Peeled>) {
    let refused = |refusal, looked| Reading {
        refusal,
        complete: 0,
        ours: 0,
        theirs: 0,
        looked,
    };
    if let Some(refusal) = refusal(table, &columns, &lists, size, salt) {
        return (refused(refusal, 0), None);
    }
    let received = Filter::standing_in(&columns, size);
    let mut difference = Filter::of(&ids(table), size, salt).less(&received);
    let peeled = peel_and_judge(&mut difference, table, salt);
    if peeled.end != End::Complete && peeled.end != End::Stuck {
        Filter::empty(size).lay(columns);
        lists
            .iter_mut()
            .for_each(|list| list[..size as usize].fill(0));
        return (refused(6, peeled.looked()), Some(peeled));
    }
    difference.lay(columns);
    let [ours, theirs] = lists;
    let reading = Reading {
        refusal: 0,
        complete: u32::from(peeled.end == End::Complete),
        ours: lay_list(ours, &peeled.listed, true, size),
        theirs: lay_list(theirs, &peeled.listed, false, size),
        looked: peeled.looked(),
    };
    (reading, Some(peeled))
}
