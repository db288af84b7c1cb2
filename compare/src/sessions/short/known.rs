//! Parts of ledgers whose answers are worked out by hand.

use super::super::calls::{Compared, Delivery};
use super::super::ledger::Hash;
use super::super::memory::{Memory, Numbers, DEMANDED_MARKS};
use crate::filters::HASH;
use crate::random::Random;
use crate::{lent, Tally};

/// A ledger as it stands in the memory.
#[derive(Clone)]
struct Case {
    state: u32,
    first: u32,
    done: u32,
    /// IDs of the table, with a mark each.
    table: Vec<(u64, u8)>,
    /// IDs of the records, with a mark each.
    records: Vec<(u64, u8)>,
    inquired: Vec<u64>,
}

/// The hash of this ID, with the same byte behind it all along.
fn h(id: u64) -> Hash {
    let mut hash = [7; HASH];
    hash[..8].copy_from_slice(&id.to_be_bytes());
    hash
}

/// In 3 after its first message; the numbers count what is given.
fn later(table: &[(u64, u8)], records: &[(u64, u8)], inquired: &[u64]) -> Case {
    Case {
        state: 3,
        first: 0,
        done: 0,
        table: table.to_vec(),
        records: records.to_vec(),
        inquired: inquired.to_vec(),
    }
}

impl Case {
    fn numbers(&self) -> Numbers {
        Numbers {
            state: self.state,
            first: self.first,
            size: 100,
            salt: 4,
            done: self.done,
            demanded: self.records.len() as u32,
            inquired: self.inquired.len() as u32,
            ..Numbers::default()
        }
    }

    fn memory(&self, random: &mut Random) -> Memory {
        let table: Vec<Hash> = self.table.iter().map(|&(id, _)| h(id)).collect();
        let mut memory = Memory::with_just_room(random, &table.concat());
        for (i, (_, mark)) in self.table.iter().enumerate() {
            lent(&mut memory.marks)[i] = *mark;
        }
        for (j, (id, mark)) in self.records.iter().enumerate() {
            lent(&mut memory.records)[HASH * j..][..HASH].copy_from_slice(&h(*id));
            lent(&mut memory.marks)[DEMANDED_MARKS + j] = *mark;
        }
        lent(&mut memory.inquired)[..self.inquired.len()].copy_from_slice(&self.inquired);
        // In 1 these are judged.
        lent(&mut memory.counts).fill(0);
        memory
    }
}

struct Steps<'a> {
    tally: &'a mut Tally,
    random: &'a mut Random,
}

impl Steps<'_> {
    /// With so much lent of records, marks and inquired the answer is this, and all stays as it is.
    fn answers(&mut self, case: &Case, lent: [usize; 3], refusal: u32) {
        let mut memory = case.memory(self.random);
        for (slice, len) in ["records", "marks", "inquired"].into_iter().zip(lent) {
            memory.shorten(slice, len);
        }
        let delivery = Delivery::new(self.random, Vec::new());
        let mut compared = Compared::new(memory);
        let (step, _) = compared.step(self.tally, self.random, case.numbers(), &delivery);
        assert!(step.refusal == refusal, "{lent:?}: {}", step.refusal);
        assert!(step.next == case.numbers() && step.sent == 0 && step.due == 0);
    }
}

pub fn compare(tally: &mut Tally) {
    let mut random = tally.subject("known parts of ledgers", 0x295);
    let steps = &mut Steps {
        tally,
        random: &mut random,
    };
    idle_numbers(steps);
    marks_of_the_table(steps);
    records_with_marks(steps);
    inquired(steps);
    of_two(steps);
}

/// In 0, 1, and 3 before its first message: the numbers alone, whatever is lent.
fn idle_numbers(steps: &mut Steps) {
    for (state, first) in [(0, 0), (0, 1), (1, 0), (3, 1)] {
        let idle = Case {
            state,
            first,
            ..later(&[(1, 0), (2, 0)], &[], &[])
        };
        let mut demanded = idle.clone();
        demanded.records = vec![(50, 0)];
        let mut inquired = idle.clone();
        inquired.inquired = vec![50];
        let mut done = idle.clone();
        done.done = 1;
        for lent in [[0; 3], [262_207, 8_191, 4_095], [0, 8_192, 4_096]] {
            steps.answers(&idle, lent, 2);
            steps.answers(&demanded, lent, 1);
            steps.answers(&inquired, lent, 1);
            steps.answers(&done, lent, 1);
        }
        // A mark of the table that is there is zero.
        let mut offered = idle.clone();
        offered.table[1].1 = 2;
        steps.answers(&offered, [0, 1, 0], 2);
        steps.answers(&offered, [0, 2, 0], 1);
    }
    // Elsewhere DONE may have gone, and something be demanded or inquired.
    let mut touched = later(&[(1, 0)], &[(50, 0)], &[50]);
    touched.done = 1;
    steps.answers(&touched, [0; 3], 2);
}

fn marks_of_the_table(steps: &mut Steps) {
    for mark in [8, 4, 255] {
        let broken = later(&[(1, 7), (2, mark), (3, 0)], &[], &[]);
        steps.answers(&broken, [0, 1, 0], 2);
        steps.answers(&broken, [0, 2, 0], 1);
        steps.answers(&broken, [262_208, 1, 4_096], 2);
    }
    // What stands behind the table's marks is none of it.
    let good = later(&[(1, 7), (2, 3)], &[], &[]);
    steps.answers(&good, [0, 4_095, 0], 2);
}

/// A demanded hash is there with all of its bytes and its mark.
fn records_with_marks(steps: &mut Steps) {
    let unordered = later(&[(1, 0)], &[(50, 0), (40, 0)], &[]);
    steps.answers(&unordered, [128, 4_098, 0], 1);
    steps.answers(&unordered, [127, 4_098, 0], 2);
    steps.answers(&unordered, [128, 4_097, 0], 2);
    steps.answers(&unordered, [262_208, 4_096, 4_096], 2);
    steps.answers(&unordered, [262_207, 8_192, 4_096], 1);

    for mark in [16, 12, 4, 2, 1] {
        let marked = later(&[(1, 0)], &[(50, 8), (60, mark)], &[]);
        steps.answers(&marked, [128, 4_098, 0], 1);
        steps.answers(&marked, [127, 8_192, 4_096], 2);
        steps.answers(&marked, [262_208, 4_097, 4_096], 2);
    }
    let shared = later(&[(1, 0)], &[(0, 0), (1, 8)], &[]);
    steps.answers(&shared, [128, 4_098, 0], 1);
    steps.answers(&shared, [64, 4_098, 0], 2);
}

fn inquired(steps: &mut Steps) {
    for ids in [[7, 7], [8, 7]] {
        let unordered = later(&[(1, 0)], &[], &ids);
        steps.answers(&unordered, [0, 0, 2], 1);
        steps.answers(&unordered, [0, 0, 1], 2);
        steps.answers(&unordered, [262_208, 8_192, 4_095], 1);
    }
}

/// In 2 what is said of all demands and of all that is inquired needs all of it.
fn of_two(steps: &mut Steps) {
    let mut two = later(&[(1, 0)], &[(50, 8)], &[50]);
    two.state = 2;
    // All that is inquired is held: DONE must have gone.
    for (done, whole) in [(0, 1), (1, 2)] {
        two.done = done;
        steps.answers(&two, [64, 4_097, 1], whole);
        steps.answers(&two, [64, 4_097, 4_096], whole);
        // The mark, a byte of the hash, or the ID is cut off; the table's marks do not count.
        steps.answers(&two, [64, 4_096, 1], 2);
        steps.answers(&two, [63, 4_097, 1], 2);
        steps.answers(&two, [64, 4_097, 0], 2);
        steps.answers(&two, [0; 3], 2);
    }
    let mut not_inquired = two.clone();
    not_inquired.inquired = vec![1];
    steps.answers(&not_inquired, [64, 4_097, 1], 1);
    steps.answers(&not_inquired, [64, 4_097, 0], 2);

    // Nothing is demanded: the inquired IDs alone are all of it, with no mark lent.
    let mut open = later(&[(1, 0)], &[], &[50]);
    open.state = 2;
    for (done, whole) in [(0, 2), (1, 1)] {
        open.done = done;
        steps.answers(&open, [0, 0, 1], whole);
        steps.answers(&open, [0, 0, 0], 2);
    }
    // And nothing inquired: the numbers are all of it.
    let mut nothing = later(&[(1, 0)], &[], &[]);
    nothing.state = 2;
    for (done, whole) in [(0, 1), (1, 2)] {
        nothing.done = done;
        steps.answers(&nothing, [0; 3], whole);
    }
}
