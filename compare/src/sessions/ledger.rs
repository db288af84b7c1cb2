//! The ledger in the paper's words, as sets and lists, and how it stands in the memory.

use super::memory::{Lent, Numbers, DEMANDED_MARKS};
use crate::filters::{id_of, HASH};
use std::collections::{BTreeMap, BTreeSet};

pub type Hash = [u8; HASH];

/// The bits of a mark.
pub const ASKED: u8 = 1;
pub const OFFERED: u8 = 2;
pub const SERVED: u8 = 4;
pub const MET: u8 = 8;

/// What is kept beside the numbers. `served` are the hashes that the far end demanded of us.
#[derive(Clone, Debug, Default, PartialEq)]
pub struct Ledger {
    pub table: Vec<Hash>,
    pub inquired: Vec<u64>,
    pub demanded: Vec<Hash>,
    pub asked: BTreeSet<u64>,
    pub offered: BTreeSet<Hash>,
    pub served: BTreeSet<Hash>,
    pub gained: BTreeSet<Hash>,
}

/// The hashes that stand end to end.
pub fn hashes_of(bytes: &[u8]) -> Vec<Hash> {
    let whole = bytes.chunks_exact(HASH);
    whole
        .map(|hash| hash.try_into().expect("64 bytes"))
        .collect()
}

/// Where the hash of a record stands in the records.
fn record(j: usize) -> std::ops::Range<usize> {
    HASH * j..HASH * (j + 1)
}

/// How much of a ledger stands in the slices lent, which may be too short for it.
#[derive(Clone, Copy, Debug, PartialEq)]
pub struct There {
    /// Marks of the table's elements.
    pub table_marks: usize,
    /// Demanded hashes, each with its mark.
    pub demanded: usize,
    pub inquired: usize,
    /// Whether that is all that the numbers count.
    pub whole: bool,
}

impl There {
    /// A demanded hash is there where both its 64 bytes and its mark are.
    pub fn of(numbers: &Numbers, lent: &Lent) -> There {
        let [all_demanded, all_inquired] = [numbers.demanded, numbers.inquired].map(|n| n as usize);
        let hashes = lent.records.len() / HASH;
        let marks = lent.marks.len().saturating_sub(DEMANDED_MARKS);
        let demanded = all_demanded.min(hashes).min(marks);
        let inquired = all_inquired.min(lent.inquired.len());
        There {
            table_marks: lent.marks.len().min(lent.table.len() / HASH),
            demanded,
            inquired,
            whole: demanded == all_demanded && inquired == all_inquired,
        }
    }
}

impl Ledger {
    /// What the memory says, as far as it is there.
    pub fn decode(numbers: &Numbers, lent: &Lent) -> Ledger {
        Ledger::decode_part(lent, &There::of(numbers, lent))
    }

    /// What so much of the memory says.
    pub fn decode_part(lent: &Lent, there: &There) -> Ledger {
        let mut ledger = Ledger {
            table: hashes_of(lent.table),
            demanded: hashes_of(&lent.records[..lent.records.len().min(HASH * there.demanded)]),
            inquired: lent.inquired[..there.inquired].to_vec(),
            ..Ledger::default()
        };
        let marks = lent.marks.iter().take(there.table_marks);
        for (hash, &mark) in ledger.table.clone().into_iter().zip(marks) {
            ledger.note(hash, mark);
        }
        let marks = lent.marks.iter().skip(DEMANDED_MARKS);
        for (hash, &mark) in ledger.demanded.clone().into_iter().zip(marks) {
            ledger.note(hash, mark);
            if mark & MET != 0 {
                ledger.gained.insert(hash);
            }
        }
        ledger
    }

    fn note(&mut self, hash: Hash, mark: u8) {
        if mark & ASKED != 0 {
            self.asked.insert(id_of(&hash));
        }
        if mark & OFFERED != 0 {
            self.offered.insert(hash);
        }
        if mark & SERVED != 0 {
            self.served.insert(hash);
        }
    }

    /// The bits that both kinds of elements have.
    fn mark(&self, hash: &Hash) -> u8 {
        let bit = |bit, is: bool| if is { bit } else { 0 };
        bit(ASKED, self.asked.contains(&id_of(hash)))
            | bit(OFFERED, self.offered.contains(hash))
            | bit(SERVED, self.served.contains(hash))
    }

    /// Writes all of it; what stands behind the counts is left.
    pub fn encode(&self, lent: &mut Lent) {
        for (i, hash) in self.table.iter().enumerate() {
            lent.marks[i] = self.mark(hash);
        }
        for (j, hash) in self.demanded.iter().enumerate() {
            let met = if self.gained.contains(hash) { MET } else { 0 };
            lent.records[record(j)].copy_from_slice(hash);
            lent.marks[DEMANDED_MARKS + j] = self.mark(hash) | met;
        }
        lent.inquired[..self.inquired.len()].copy_from_slice(&self.inquired);
    }

    /// In the table or gained, by ID.
    pub fn held(&self) -> BTreeMap<u64, Hash> {
        let all = self.table.iter().chain(&self.gained);
        all.map(|hash| (id_of(hash), *hash)).collect()
    }

    /// Demanded and not gained.
    pub fn unmet(&self) -> Vec<Hash> {
        let demanded = self.demanded.iter();
        demanded
            .filter(|hash| !self.gained.contains(*hash))
            .copied()
            .collect()
    }

    /// The IDs of elements held and of those wanted: inquired or demanded, unmet. Each counts once.
    pub fn held_and_wanted(&self) -> BTreeSet<u64> {
        let hashes = self.table.iter().chain(&self.demanded);
        let ids = hashes.map(|hash| id_of(hash));
        ids.chain(self.inquired.iter().copied()).collect()
    }

    pub fn all_inquired_are_held(&self) -> bool {
        let held = self.held();
        self.inquired.iter().all(|id| held.contains_key(id))
    }

    /// The XOR of all hashes held.
    pub fn checksum(&self) -> Hash {
        let mut sum = [0; HASH];
        for hash in self.held().values() {
            sum = xor(&sum, hash);
        }
        sum
    }

    /// Puts in the hashes newly demanded, each at its place.
    pub fn demand(&mut self, hashes: &[Hash]) {
        self.demanded.extend(hashes);
        self.demanded.sort_unstable();
    }
}

pub fn xor(a: &Hash, b: &Hash) -> Hash {
    std::array::from_fn(|i| a[i] ^ b[i])
}
