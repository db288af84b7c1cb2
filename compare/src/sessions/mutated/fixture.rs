//! The fixture of mutated calls: a session on which many are tried, its memory twice, and once more
//! as it is to stay.
//!
//! After each call the answers are compared and both memories whole, with what is not lent of them.
//! What a mutation changed is noted and put back from what is kept; as a refused step leaves the
//! memory unchanged (but for 6, 9 and 10), no more is to be done then. When a session is dropped its
//! memory must be what is kept.

use super::super::calls::{same_step, told, told_short, Delivery};
use super::super::ledger::Ledger;
use super::super::memory::{set, Lent, Memory, Numbers, Step, MARKS, OUT, PLACES, RECORDS};
use super::super::step::{self, Why};
use crate::filters::HASH;
use crate::random::Random;
use crate::{Tally, GUARD};
use std::ops::Range;

/// How long each slice is, in the order of `Lent`.
pub type Lengths = [usize; 12];

/// Where in the lengths the table's stands, the hash's and the message's.
pub const TABLE_AT: usize = 0;
pub const HASH_AT: usize = 9;
pub const MESSAGE_AT: usize = 10;

/// The room asked for; the table and the message are as long as they are.
pub const ASKED: Lengths = [
    0, RECORDS, MARKS, PLACES, PLACES, PLACES, PLACES, PLACES, PLACES, HASH, 0, OUT,
];

/// What a mutation may change of the memory.
#[derive(Clone, Copy, Debug)]
pub enum Part {
    Table,
    Records,
    Marks,
    Inquired,
    Ids,
    Hashes,
    Counts,
}

/// One call: what is handed to the step.
pub struct Call {
    pub numbers: Numbers,
    pub delivery: Delivery,
    pub lengths: Lengths,
    /// How it was mutated.
    pub kinds: Vec<&'static str>,
}

pub struct Fixture {
    pub numbers: Numbers,
    /// What is lent where nothing is mutated, and the most that can be.
    pub lengths: Lengths,
    pub most: Lengths,
    model: Memory,
    library: Memory,
    kept: Memory,
    changed: Vec<(Part, Range<usize>)>,
}

/// So much of a whole buffer from the start of what is lent.
fn front<T>(whole: &mut [T], len: usize) -> &mut [T] {
    &mut whole[GUARD..GUARD + len]
}

fn lent_of<'a>(memory: &'a mut Memory, lengths: &Lengths) -> Lent<'a> {
    let [table, records, marks, inquired, ids, hashes, counts, ours, theirs, hash, message, out] =
        *lengths;
    Lent {
        table: front(&mut memory.table, table),
        records: front(&mut memory.records, records),
        marks: front(&mut memory.marks, marks),
        inquired: front(&mut memory.inquired, inquired),
        ids: front(&mut memory.ids, ids),
        hashes: front(&mut memory.hashes, hashes),
        counts: front(&mut memory.counts, counts),
        ours: front(&mut memory.ours, ours),
        theirs: front(&mut memory.theirs, theirs),
        hash: front(&mut memory.hash, hash),
        message: front(&mut memory.message, message),
        out: front(&mut memory.out, out),
    }
}

fn lengths_of(lent: &Lent) -> Lengths {
    [
        lent.table.len(),
        lent.records.len(),
        lent.marks.len(),
        lent.inquired.len(),
        lent.ids.len(),
        lent.hashes.len(),
        lent.counts.len(),
        lent.ours.len(),
        lent.theirs.len(),
        lent.hash.len(),
        lent.message.len(),
        lent.out.len(),
    ]
}

/// Puts a part of one memory back to what it is in another.
fn put_back(to: &mut Lent, from: &Lent, part: Part, at: Range<usize>) {
    match part {
        Part::Table => to.table[at.clone()].copy_from_slice(&from.table[at]),
        Part::Records => to.records[at.clone()].copy_from_slice(&from.records[at]),
        Part::Marks => to.marks[at.clone()].copy_from_slice(&from.marks[at]),
        Part::Inquired => to.inquired[at.clone()].copy_from_slice(&from.inquired[at]),
        Part::Ids => to.ids[at.clone()].copy_from_slice(&from.ids[at]),
        Part::Hashes => to.hashes[at.clone()].copy_from_slice(&from.hashes[at]),
        Part::Counts => to.counts[at.clone()].copy_from_slice(&from.counts[at]),
    }
}

/// Whether a part of one memory is what it is in another.
fn is_same(one: &Lent, other: &Lent, part: Part, at: Range<usize>) -> bool {
    match part {
        Part::Table => one.table[at.clone()] == other.table[at],
        Part::Records => one.records[at.clone()] == other.records[at],
        Part::Marks => one.marks[at.clone()] == other.marks[at],
        Part::Inquired => one.inquired[at.clone()] == other.inquired[at],
        Part::Ids => one.ids[at.clone()] == other.ids[at],
        Part::Hashes => one.hashes[at.clone()] == other.hashes[at],
        Part::Counts => one.counts[at.clone()] == other.counts[at],
    }
}

/// Whether the step may have written.
pub fn writes(step: &Step) -> bool {
    matches!(step.refusal, 0 | 6 | 9 | 10)
}

impl Fixture {
    /// Behind the table goes room for two hashes, that may be lent too: the highest one, or anything.
    pub fn new(random: &mut Random, mut memory: Memory, numbers: Numbers) -> Fixture {
        let mut table = memory.lent().table.to_vec();
        let len = table.len();
        match random.below(2) {
            0 => table.extend([255; HASH]),
            _ => table.extend(random.bytes(HASH)),
        }
        table.extend(random.bytes(HASH));
        set(random, &mut memory.table, &table);

        let most = lengths_of(&memory.lent());
        let mut lengths = if random.once_in(4) { most } else { ASKED };
        lengths[TABLE_AT] = len;
        Fixture {
            numbers,
            lengths,
            most,
            library: memory.clone(),
            kept: memory.clone(),
            model: memory,
            changed: Vec::new(),
        }
    }

    /// All of the memory as it is to stay, with the table as long as it is.
    pub fn kept(&mut self) -> Lent<'_> {
        let mut lengths = self.most;
        lengths[TABLE_AT] = self.lengths[TABLE_AT];
        lengths[HASH_AT] = 0;
        lengths[MESSAGE_AT] = 0;
        lent_of(&mut self.kept, &lengths)
    }

    /// What the ledger says.
    pub fn ledger(&mut self) -> Ledger {
        let numbers = self.numbers;
        Ledger::decode(&numbers, &self.kept())
    }

    /// How many elements the table has.
    pub fn elements(&self) -> usize {
        self.lengths[TABLE_AT] / HASH
    }

    /// Changes these places of both alike, for one call; none if they are as they are to stay.
    pub fn change(
        &mut self,
        part: Part,
        at: Range<usize>,
        change: impl Fn(&mut Lent),
    ) -> Option<()> {
        change(&mut self.model.lent());
        change(&mut self.library.lent());
        self.changed.push((part, at.clone()));
        let same = is_same(&self.model.lent(), &self.kept.lent(), part, at);
        (!same).then_some(())
    }

    fn lay(&mut self, random: &mut Random, delivery: &Delivery) {
        set(random, &mut self.model.message, &delivery.bytes);
        set(random, &mut self.model.hash, &delivery.hash);
        self.library.message.clone_from(&self.model.message);
        self.library.hash.clone_from(&self.model.hash);
    }

    /// One step, compared; what it leaves may stay if it is accepted, else it is taken back.
    pub fn step(
        &mut self,
        tally: &mut Tally,
        random: &mut Random,
        call: &Call,
        stays: bool,
    ) -> Step {
        self.lay(random, &call.delivery);
        let (step, _) = self.compare(tally, call);
        match writes(&step) {
            true if stays => {
                self.kept.become_copy(&self.model);
                self.numbers = step.next;
                self.lengths[TABLE_AT] = call.lengths[TABLE_AT];
            }
            true => {
                self.model.become_copy(&self.kept);
                self.library.become_copy(&self.kept);
            }
            false => self.put_back(),
        }
        self.changed.clear();
        step
    }

    fn compare(&mut self, tally: &mut Tally, call: &Call) -> (Step, Why) {
        let Call {
            numbers,
            lengths,
            kinds,
            ..
        } = call;
        let (model, why) = step::step(*numbers, lent_of(&mut self.model, lengths));
        let library = (tally.sessions.library)(*numbers, lent_of(&mut self.library, lengths));
        tally.sessions.step(numbers, &model, why);
        let differences = self.model.differences(&self.library);
        let has_differences = !differences.is_empty();
        let rooms = lent_of(&mut self.model, lengths).rooms();
        let words = || {
            let (short, message) = (told_short(&rooms), told(&call.delivery.bytes));
            let elements = lengths[TABLE_AT] / HASH;
            format!("step {numbers:?} ({why}) mutated {kinds:?}, {short}, {elements} elements, of {message}")
        };
        same_step(tally, words, (model, why), library, differences);
        // Where differences are gathered, what comes next must not suffer from this one.
        if has_differences {
            self.library.become_copy(&self.model);
        }
        (model, why)
    }

    /// Takes back what the mutations changed.
    fn put_back(&mut self) {
        let from = self.kept.lent();
        for memory in [&mut self.model, &mut self.library] {
            let mut to = memory.lent();
            for (part, at) in &self.changed {
                put_back(&mut to, &from, *part, at.clone());
            }
        }
    }

    /// The end of a session: nothing but what was to stay has been left.
    pub fn drop_whole(mut self) {
        self.kept.message.clone_from(&self.model.message);
        self.kept.hash.clone_from(&self.model.hash);
        let left = self.kept.differences(&self.model);
        assert!(left.is_empty(), "something else was left: {left:x?}");
        assert!(self.kept.differences(&self.library).is_empty());
    }
}
