//! What a session's caller keeps and lends: the numbers, and the slices, each with what stands
//! before and behind it.

use crate::filters::HASH;
use crate::random::Random;
use crate::{lent, GUARD};
use std::fmt::Debug;
use std::sync::OnceLock;

/// The room asked for.
pub const RECORDS: usize = 262_208;
pub const MARKS: usize = 8_192;
pub const PLACES: usize = 4_096;
pub const OUT: usize = 295_008;

/// The far checksum stands in the records from here on, the demanded hashes' marks from there.
pub const FAR: usize = 262_144;
pub const DEMANDED_MARKS: usize = 4_096;

/// The numbers of a session, by value.
#[repr(C)]
#[derive(Clone, Copy, Debug, Default, PartialEq, Eq)]
pub struct Numbers {
    pub state: u32,
    pub first: u32,
    pub size: u32,
    pub salt: u32,
    pub width: u32,
    pub swaps: u32,
    pub done: u32,
    pub demanded: u32,
    pub inquired: u32,
}

/// What a step or a start answers.
#[repr(C)]
#[derive(Clone, Copy, Debug, PartialEq, Eq)]
pub struct Step {
    pub refusal: u32,
    pub sent: usize,
    pub due: usize,
    pub next: Numbers,
}

/// All that is lent to one call.
pub struct Lent<'a> {
    pub table: &'a mut [u8],
    pub records: &'a mut [u8],
    pub marks: &'a mut [u8],
    pub inquired: &'a mut [u64],
    pub ids: &'a mut [u64],
    pub hashes: &'a mut [u32],
    pub counts: &'a mut [i64],
    pub ours: &'a mut [u64],
    pub theirs: &'a mut [u64],
    pub hash: &'a mut [u8],
    pub message: &'a mut [u8],
    pub out: &'a mut [u8],
}

/// The slices for which room is asked, with what there is and what there must be.
pub type Rooms = [(&'static str, usize, usize); 10];

impl Lent<'_> {
    /// The same, lent once more.
    pub fn again(&mut self) -> Lent<'_> {
        Lent {
            table: &mut *self.table,
            records: &mut *self.records,
            marks: &mut *self.marks,
            inquired: &mut *self.inquired,
            ids: &mut *self.ids,
            hashes: &mut *self.hashes,
            counts: &mut *self.counts,
            ours: &mut *self.ours,
            theirs: &mut *self.theirs,
            hash: &mut *self.hash,
            message: &mut *self.message,
            out: &mut *self.out,
        }
    }

    pub fn rooms(&self) -> Rooms {
        [
            ("records", self.records.len(), RECORDS),
            ("marks", self.marks.len(), MARKS),
            ("inquired", self.inquired.len(), PLACES),
            ("ids", self.ids.len(), PLACES),
            ("hashes", self.hashes.len(), PLACES),
            ("counts", self.counts.len(), PLACES),
            ("ours", self.ours.len(), PLACES),
            ("theirs", self.theirs.len(), PLACES),
            ("hash", self.hash.len(), HASH),
            ("out", self.out.len(), OUT),
        ]
    }

    /// Whether a slice of the ledger is lent shorter than its room.
    pub fn has_short_ledger(&self) -> bool {
        let [records, marks, inquired, ..] = self.rooms();
        [records, marks, inquired]
            .iter()
            .any(|(_, there, asked)| there < asked)
    }
}

/// The slices with their guards.
#[derive(Clone)]
pub struct Memory {
    pub table: Vec<u8>,
    pub records: Vec<u8>,
    pub marks: Vec<u8>,
    pub inquired: Vec<u64>,
    pub ids: Vec<u64>,
    pub hashes: Vec<u32>,
    pub counts: Vec<i64>,
    pub ours: Vec<u64>,
    pub theirs: Vec<u64>,
    pub hash: Vec<u8>,
    pub message: Vec<u8>,
    pub out: Vec<u8>,
}

/// How long each slice is, in the order of `Lent::rooms`.
type Lengths = [usize; 10];

/// Exactly the room asked for.
const ENOUGH: Lengths = [
    RECORDS, MARKS, PLACES, PLACES, PLACES, PLACES, PLACES, PLACES, HASH, OUT,
];

/// A part of many random numbers, so that filling large slices costs little.
fn garbage(random: &mut Random, len: usize) -> &'static [u64] {
    const ALL: usize = 1 << 16;
    static NUMBERS: OnceLock<Vec<u64>> = OnceLock::new();
    let all = NUMBERS.get_or_init(|| Random::new(0x200).numbers(ALL));
    let from = random.below((ALL - len) as u64) as usize;
    &all[from..from + len]
}

/// Likewise of bytes.
fn some_bytes(random: &mut Random, len: usize) -> Vec<u8> {
    const ALL: usize = 1 << 20;
    static BYTES: OnceLock<Vec<u8>> = OnceLock::new();
    let all = BYTES.get_or_init(|| Random::new(0x201).bytes(ALL));
    let from = random.below((ALL - len) as u64) as usize;
    all[from..from + len].to_vec()
}

impl Memory {
    /// Slices of these lengths that hold anything, beside the table.
    fn of_lengths(random: &mut Random, table: &[u8], lens: Lengths) -> Memory {
        let [records, marks, inquired, ids, hashes, counts, ours, theirs, hash, out] =
            lens.map(|len| len + 2 * GUARD);
        let words = garbage(random, hashes).iter().map(|&x| x as u32);
        let signed = garbage(random, counts).iter().map(|&x| x as i64);
        let mut memory = Memory {
            table: Vec::new(),
            records: some_bytes(random, records),
            marks: some_bytes(random, marks),
            inquired: garbage(random, inquired).to_vec(),
            ids: garbage(random, ids).to_vec(),
            hashes: words.collect(),
            counts: signed.collect(),
            ours: garbage(random, ours).to_vec(),
            theirs: garbage(random, theirs).to_vec(),
            hash: some_bytes(random, hash),
            message: Vec::new(),
            out: some_bytes(random, out),
        };
        set(random, &mut memory.table, table);
        set(random, &mut memory.message, &[]);
        memory
    }

    /// Slices with exactly the room asked for.
    pub fn with_just_room(random: &mut Random, table: &[u8]) -> Memory {
        Memory::of_lengths(random, table, ENOUGH)
    }

    /// Slices with enough room, or more.
    pub fn with_room(random: &mut Random, table: &[u8]) -> Memory {
        let lens = ENOUGH.map(|len| len + random.pick(&[0, 0, 0, 1, 2, 9, 64]));
        Memory::of_lengths(random, table, lens)
    }

    pub fn lent(&mut self) -> Lent<'_> {
        Lent {
            table: lent(&mut self.table),
            records: lent(&mut self.records),
            marks: lent(&mut self.marks),
            inquired: lent(&mut self.inquired),
            ids: lent(&mut self.ids),
            hashes: lent(&mut self.hashes),
            counts: lent(&mut self.counts),
            ours: lent(&mut self.ours),
            theirs: lent(&mut self.theirs),
            hash: lent(&mut self.hash),
            message: lent(&mut self.message),
            out: lent(&mut self.out),
        }
    }

    /// Lends only so many of a slice that is named as in `Lent::rooms`.
    pub fn shorten(&mut self, slice: &str, len: usize) {
        match slice {
            "records" => cut(&mut self.records, len),
            "marks" => cut(&mut self.marks, len),
            "inquired" => cut(&mut self.inquired, len),
            "ids" => cut(&mut self.ids, len),
            "hashes" => cut(&mut self.hashes, len),
            "counts" => cut(&mut self.counts, len),
            "ours" => cut(&mut self.ours, len),
            "theirs" => cut(&mut self.theirs, len),
            "hash" => cut(&mut self.hash, len),
            _ => cut(&mut self.out, len),
        }
    }

    /// Becomes the other, without new memory.
    pub fn become_copy(&mut self, other: &Memory) {
        self.table.clone_from(&other.table);
        self.records.clone_from(&other.records);
        self.marks.clone_from(&other.marks);
        self.inquired.clone_from(&other.inquired);
        self.ids.clone_from(&other.ids);
        self.hashes.clone_from(&other.hashes);
        self.counts.clone_from(&other.counts);
        self.ours.clone_from(&other.ours);
        self.theirs.clone_from(&other.theirs);
        self.hash.clone_from(&other.hash);
        self.message.clone_from(&other.message);
        self.out.clone_from(&other.out);
    }

    /// The first place of each slice where another memory differs from this one.
    pub fn differences(&self, other: &Memory) -> Vec<Difference> {
        [
            differing("table", &self.table, &other.table),
            differing("records", &self.records, &other.records),
            differing("marks", &self.marks, &other.marks),
            differing("inquired", &self.inquired, &other.inquired),
            differing("ids", &self.ids, &other.ids),
            differing("hashes", &self.hashes, &other.hashes),
            differing("counts", &self.counts, &other.counts),
            differing("ours", &self.ours, &other.ours),
            differing("theirs", &self.theirs, &other.theirs),
            differing("hash", &self.hash, &other.hash),
            differing("message", &self.message, &other.message),
            differing("out", &self.out, &other.out),
        ]
        .into_iter()
        .flatten()
        .collect()
    }
}

/// Where two slices differ: the place counts from the start of what is lent, and both go on a bit.
#[derive(Clone, Debug, PartialEq)]
pub struct Difference {
    pub slice: &'static str,
    pub place: isize,
    pub model: String,
    pub library: String,
}

fn differing<T: PartialEq + Debug>(
    slice: &'static str,
    model: &[T],
    library: &[T],
) -> Option<Difference> {
    if model == library {
        return None;
    }
    let at = model
        .iter()
        .zip(library)
        .take_while(|(a, b)| a == b)
        .count();
    let part = |s: &[T]| format!("{:x?}", &s[at.min(s.len())..s.len().min(at + 8)]);
    Some(Difference {
        slice,
        place: at as isize - GUARD as isize,
        model: part(model),
        library: part(library),
    })
}

/// Takes the guard behind nearer.
fn cut<T>(whole: &mut Vec<T>, len: usize) {
    let end = whole.len() - GUARD;
    whole.drain(GUARD + len..end);
}

/// Puts these bytes in a whole buffer, with any others before and behind them.
pub fn set(random: &mut Random, whole: &mut Vec<u8>, bytes: &[u8]) {
    const { assert!(GUARD == 8) }
    whole.clear();
    whole.extend(random.next().to_le_bytes());
    whole.extend(bytes);
    whole.extend(random.next().to_le_bytes());
}
