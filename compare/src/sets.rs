//! Random sets, tables and received columns, and one reading by the model and the library.

use crate::filters::{self, End, Filter, Reading};
use crate::looked::LibraryRead;
use crate::model::Columns;
use crate::random::Random;
use crate::{lent, Tally, GUARD};
use std::collections::HashSet;

/// So many different IDs; short ones come too, 0 among them.
pub fn some_ids(random: &mut Random, n: usize) -> Vec<u64> {
    let mut seen = HashSet::new();
    let mut ids = Vec::new();
    while ids.len() < n {
        let id = match random.below(16) {
            0 => random.any_length(),
            1 => !random.any_length(),
            _ => random.next(),
        };
        if seen.insert(id) {
            ids.push(id);
        }
    }
    ids
}

/// The table of these IDs: behind each stand any 56 bytes.
pub fn table_of(random: &mut Random, ids: &[u64]) -> Vec<u8> {
    let mut ids = ids.to_vec();
    ids.sort_unstable();
    let mut table = Vec::new();
    for id in ids {
        table.extend(id.to_be_bytes());
        for _ in 0..7 {
            table.extend(random.next().to_be_bytes());
        }
    }
    table
}

/// A table of n hashes.
pub fn some_table(random: &mut Random, n: usize) -> Vec<u8> {
    let ids = some_ids(random, n);
    table_of(random, &ids)
}

/// A good size: small ones, powers of two, and any up to that limit.
pub fn some_size(random: &mut Random, limit: u64) -> u32 {
    let size = match random.below(8) {
        0 => random.pick(&[64, 128, 256, 512, 1024, 2048, 4096]),
        1 => random.between(37, limit),
        2 => random.pick(&[37, 38, 79]),
        _ => random.between(37, 64),
    };
    size.min(limit) as u32
}

pub fn some_salt(random: &mut Random) -> u32 {
    match random.below(6) {
        0 => random.pick(&[0, 1, 9, 62, 63]),
        _ => random.below(64) as u32,
    }
}

/// The three columns and the two lists, each with what stands before and behind it.
#[derive(Clone, Debug, PartialEq)]
pub struct Call {
    pub size: u32,
    pub salt: u32,
    pub table: Vec<u8>,
    pub ids: Vec<u64>,
    pub hashes: Vec<u32>,
    pub counts: Vec<i64>,
    pub ours: Vec<u64>,
    pub theirs: Vec<u64>,
}

impl Call {
    /// Slices of these lengths (the columns, then the lists) that hold anything.
    pub fn of_lengths(
        random: &mut Random,
        table: &[u8],
        (size, salt): (u32, u32),
        lens: [usize; 5],
    ) -> Call {
        Call {
            size,
            salt,
            table: table.to_vec(),
            ids: random.numbers(lens[0] + 2 * GUARD),
            hashes: random.words(lens[1] + 2 * GUARD),
            counts: random.signed(lens[2] + 2 * GUARD),
            ours: random.numbers(lens[3] + 2 * GUARD),
            theirs: random.numbers(lens[4] + 2 * GUARD),
        }
    }

    /// A reading of this filter. Each slice may go on behind the size.
    pub fn of_filter(random: &mut Random, table: &[u8], received: &Filter, salt: u32) -> Call {
        let size = received.size();
        let lens = [0; 5].map(|_| size as usize + random.pick(&[0, 0, 0, 1, 2, 9]));
        let mut call = Call::of_lengths(random, table, (size, salt), lens);
        call.lay(received);
        call
    }

    /// Lays the filter in the columns, as far as they go.
    pub fn lay(&mut self, received: &Filter) {
        for (place, &id) in lent(&mut self.ids).iter_mut().zip(&received.ids) {
            *place = id;
        }
        for (place, &hash) in lent(&mut self.hashes).iter_mut().zip(&received.hashes) {
            *place = hash;
        }
        for (place, &count) in lent(&mut self.counts).iter_mut().zip(&received.counts) {
            *place = count;
        }
    }

    fn read_by_model(&mut self) -> (Reading, Option<End>) {
        let columns = Columns {
            ids: lent(&mut self.ids),
            hashes: lent(&mut self.hashes),
            counts: lent(&mut self.counts),
        };
        let (ours, theirs) = (lent(&mut self.ours), lent(&mut self.theirs));
        filters::read(&self.table, columns, ours, theirs, self.size, self.salt)
    }

    pub fn read_by_library(&mut self, library: &LibraryRead) -> Reading {
        let columns = Columns {
            ids: lent(&mut self.ids),
            hashes: lent(&mut self.hashes),
            counts: lent(&mut self.counts),
        };
        let lists = [lent(&mut self.ours), lent(&mut self.theirs)];
        library(&mut self.table, columns, lists, self.size, self.salt)
    }

    /// One comparison of a reading, the number of buckets looked at among it, with all that is lent.
    pub fn compare(self, tally: &mut Tally) -> (Reading, Option<End>) {
        self.compare_and_then(tally, |_| {})
    }

    /// Likewise, and shows what the model leaves.
    pub fn compare_and_then(
        self,
        tally: &mut Tally,
        left: impl FnOnce(&mut Call),
    ) -> (Reading, Option<End>) {
        let (mut by_model, mut by_library) = (self.clone(), self.clone());
        let (model, end) = by_model.read_by_model();
        let library = by_library.read_by_library(&tally.looked.library);
        left(&mut by_model);
        if let Some(end) = end {
            tally.read(end);
        }
        tally.looked.made(self.size, &model, end);
        let subject = tally.subject_name();
        let call = || format!("read {self:x?}");
        tally.same_of_kind(
            || String::from(subject),
            call,
            (model, by_model),
            (library, by_library),
        );
        (model, end)
    }
}
