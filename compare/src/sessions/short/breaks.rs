//! Ledgers broken in one clause at a known place, so that how long the slices must be for it to
//! show is known without the model.

use super::super::counts::{Rows, ALL, TOUCHED, UNTOUCHED};
use super::super::craft::new_hash;
use super::super::form::is_untouched;
use super::super::ledger::{Hash, ASKED, MET, OFFERED, SERVED};
use super::super::ledgers::Good;
use super::super::memory::{Numbers, DEMANDED_MARKS};
use super::super::mutated::fixture::{Fixture, Part};
use crate::filters::{id_of, HASH};
use crate::random::Random;

/// The least lengths of records, marks and inquired at which a break shows.
pub type Shows = [usize; 3];

/// It shows whatever is lent of the ledger; or there is none.
pub const ALWAYS: Shows = [0; 3];
pub const NEVER: Shows = [usize::MAX; 3];

/// Which of several is broken.
#[derive(Clone, Copy, Debug, PartialEq)]
pub enum Place {
    First,
    Last,
    Any,
}

/// A ledger of good form, the memory that it stands in, and the numbers of one call.
pub struct Site<'a> {
    pub random: &'a mut Random,
    pub good: &'a Good,
    pub fixture: &'a mut Fixture,
    pub numbers: Numbers,
    pub place: Place,
}

/// Breaks something, if the ledger has what it takes; else nothing is changed.
pub type Break = fn(&mut Site) -> Option<Shows>;

/// Each with the states in which it can be.
pub const BREAKS: [(&str, Rows, Break); 18] = [
    ("nothing", ALL, nothing),
    ("a number out of range", ALL, number),
    ("a number of an idle state", UNTOUCHED, idle_number),
    ("the order of the table", ALL, table_order),
    ("a count of the columns", &["1"], column),
    ("a mark of the table out of range", ALL, table_mark),
    ("a mark of the table", ALL, table_mark_in_range),
    ("a mark of a record out of range", TOUCHED, record_mark),
    ("a mark of a met record", TOUCHED, met_mark),
    ("a mark of an unmet record", TOUCHED, unmet_mark),
    ("the order of the records", TOUCHED, records_order),
    ("one record more than there are", TOUCHED, one_record_more),
    (
        "an ID of a record and the table",
        TOUCHED,
        shared_with_table,
    ),
    ("an ID of two records", TOUCHED, shared_by_records),
    ("the order of the inquired IDs", TOUCHED, inquired_order),
    (
        "one inquired ID more than there are",
        TOUCHED,
        one_inquired_more,
    ),
    ("a demand not inquired", &["2"], not_inquired),
    ("whether DONE went", &["2"], done),
];

/// A demanded hash with its mark; a mark of the table; an inquired ID.
fn of_record(j: usize) -> Shows {
    [HASH * (j + 1), DEMANDED_MARKS + j + 1, 0]
}

fn of_table(i: usize) -> Shows {
    [0, i + 1, 0]
}

fn of_inquired(i: usize) -> Shows {
    [0, 0, i + 1]
}

/// All that the numbers count.
fn of_all(numbers: &Numbers) -> Shows {
    let [_, _, inquired] = match numbers.inquired as usize {
        0 => ALWAYS,
        k => of_inquired(k - 1),
    };
    let [records, marks, _] = match numbers.demanded as usize {
        0 => ALWAYS,
        n => of_record(n - 1),
    };
    [records, marks, inquired]
}

impl Site<'_> {
    fn at(&mut self, n: usize) -> Option<usize> {
        match (n, self.place) {
            (0, _) => None,
            (_, Place::First) => Some(0),
            (_, Place::Last) => Some(n - 1),
            (_, Place::Any) => Some(self.random.below(n as u64) as usize),
        }
    }

    /// One of the records, met or not.
    fn at_record(&mut self, met: bool) -> Option<usize> {
        let all = self.good.ledger.demanded.iter().enumerate();
        let alike = all.filter(|(_, hash)| self.good.ledger.gained.contains(*hash) == met);
        let alike: Vec<usize> = alike.map(|(j, _)| j).collect();
        let i = self.at(alike.len())?;
        Some(alike[i])
    }

    fn is_idle(&self) -> bool {
        is_untouched(&self.numbers)
    }

    fn put_mark(&mut self, at: usize, mark: u8) {
        let part = at..at + 1;
        self.fixture
            .change(Part::Marks, part, |lent| lent.marks[at] = mark);
    }

    fn put_record(&mut self, j: usize, hash: &Hash) {
        let at = HASH * j..HASH * (j + 1);
        self.fixture.change(Part::Records, at.clone(), |lent| {
            lent.records[at.clone()].copy_from_slice(hash);
        });
    }

    fn put_inquired(&mut self, from: usize, ids: &[u64]) {
        let at = from..from + ids.len();
        self.fixture.change(Part::Inquired, at.clone(), |lent| {
            lent.inquired[at.clone()].copy_from_slice(ids);
        });
    }
}

fn nothing(_: &mut Site) -> Option<Shows> {
    Some(NEVER)
}

fn number(site: &mut Site) -> Option<Shows> {
    let Site {
        random, numbers, ..
    } = site;
    match random.below(8) {
        0 => numbers.state = random.pick(&[4, 8, u32::MAX]),
        1 => numbers.first = random.pick(&[2, u32::MAX]),
        2 => numbers.done = random.pick(&[2, u32::MAX]),
        3 => numbers.size = random.pick(&[36, 0, 4097]),
        4 => numbers.salt = random.pick(&[64, u32::MAX]),
        5 => numbers.swaps = random.pick(&[17, u32::MAX]),
        6 => numbers.demanded = random.pick(&[4097, 8193, 1 << 26, u32::MAX]),
        _ => numbers.inquired = random.pick(&[4097, 8193, 1 << 29, u32::MAX]),
    }
    Some(ALWAYS)
}

fn idle_number(site: &mut Site) -> Option<Shows> {
    if !site.is_idle() {
        return None;
    }
    let Site {
        random, numbers, ..
    } = site;
    match random.below(3) {
        0 => numbers.demanded = random.pick(&[1, 1, 2, 4095, 4096]),
        1 => numbers.inquired = random.pick(&[1, 1, 2, 4095, 4096]),
        _ => numbers.done = 1,
    }
    Some(ALWAYS)
}

fn table_order(site: &mut Site) -> Option<Shows> {
    let i = site.at(site.good.ledger.table.len().checked_sub(1)?)?;
    let bytes = HASH * i..HASH * (i + 2);
    site.fixture.change(Part::Table, bytes.clone(), |lent| {
        lent.table[bytes.clone()].rotate_left(HASH);
    });
    Some(ALWAYS)
}

/// The columns are never cut before this place here.
fn column(site: &mut Site) -> Option<Shows> {
    if site.numbers.state != 1 {
        return None;
    }
    let count = site.random.pick(&[-1, 1 << 32]);
    site.fixture
        .change(Part::Counts, 0..1, |lent| lent.counts[0] = count);
    Some(ALWAYS)
}

fn table_mark(site: &mut Site) -> Option<Shows> {
    let i = site.at(site.good.ledger.table.len())?;
    let mark = site.fixture.kept().marks[i] | site.random.pick(&[8, 16, 128]);
    site.put_mark(i, mark);
    Some(of_table(i))
}

/// Served and not offered; in an idle state any.
fn table_mark_in_range(site: &mut Site) -> Option<Shows> {
    let i = site.at(site.good.ledger.table.len())?;
    let mark = match site.is_idle() {
        true => site.random.between(1, 7) as u8,
        false => site.random.pick(&[SERVED, SERVED | ASKED]),
    };
    site.put_mark(i, mark);
    Some(of_table(i))
}

fn record_mark(site: &mut Site) -> Option<Shows> {
    let j = site.at(site.good.ledger.demanded.len())?;
    let at = DEMANDED_MARKS + j;
    let mark = site.fixture.kept().marks[at] | site.random.pick(&[16, 32, 128]);
    site.put_mark(at, mark);
    Some(of_record(j))
}

/// Served and not offered.
fn met_mark(site: &mut Site) -> Option<Shows> {
    let j = site.at_record(true)?;
    let mark = site.random.pick(&[MET | SERVED, MET | SERVED | ASKED]);
    site.put_mark(DEMANDED_MARKS + j, mark);
    Some(of_record(j))
}

/// Asked, offered or served.
fn unmet_mark(site: &mut Site) -> Option<Shows> {
    let j = site.at_record(false)?;
    let all = [ASKED, OFFERED, SERVED, OFFERED | SERVED, 3, 5, 7];
    let mark = site.random.pick(&all);
    site.put_mark(DEMANDED_MARKS + j, mark);
    Some(of_record(j))
}

/// Two neighbours change their places, or one is put twice.
fn records_order(site: &mut Site) -> Option<Shows> {
    let records = &site.good.ledger.demanded;
    let j = site.at(records.len().checked_sub(1)?)?;
    site.put_record(j, &records[j + 1]);
    if !site.random.once_in(3) {
        site.put_record(j + 1, &records[j]);
    }
    Some(of_record(j + 1))
}

/// The numbers count more, and what stands there does not ascend or has no mark.
fn one_record_more(site: &mut Site) -> Option<Shows> {
    let records = &site.good.ledger.demanded;
    let n = records.len();
    if site.is_idle() || n == DEMANDED_MARKS {
        return None;
    }
    site.numbers.demanded = site.random.pick(&[n as u32 + 1, n as u32 + 1, 4096]);
    match records.last() {
        Some(last) => site.put_record(n, last),
        None => site.put_mark(DEMANDED_MARKS, 16),
    }
    Some(of_record(n))
}

/// Puts this hash at its place in the place of another one; answers where it stands.
fn put_instead(site: &mut Site, other: usize, hash: Hash) -> usize {
    let marks = site.fixture.kept().marks[DEMANDED_MARKS..].to_vec();
    let mut list: Vec<(Hash, u8)> = site
        .good
        .ledger
        .demanded
        .iter()
        .copied()
        .zip(marks)
        .collect();
    list[other].0 = hash;
    list.sort_unstable();
    for (j, (record, mark)) in list.iter().enumerate() {
        if *record != site.good.ledger.demanded[j] {
            site.put_record(j, record);
            site.put_mark(DEMANDED_MARKS + j, *mark);
        }
    }
    let stands = list.iter().position(|(record, _)| *record == hash);
    stands.expect("it was put in")
}

/// A record is an element of the table, or another hash of its ID.
fn shared_with_table(site: &mut Site) -> Option<Shows> {
    let other = site.at(site.good.ledger.demanded.len())?;
    let i = site.at(site.good.ledger.table.len())?;
    let element = site.good.ledger.table[i];
    let hash = match site.random.below(2) {
        0 => element,
        _ => new_hash(site.random, id_of(&element)),
    };
    Some(of_record(put_instead(site, other, hash)))
}

/// A record has the ID of the next, and zeros behind it.
fn shared_by_records(site: &mut Site) -> Option<Shows> {
    let records = &site.good.ledger.demanded;
    let j = site.at(records.len().checked_sub(1)?)?;
    let mut hash = [0; HASH];
    hash[..8].copy_from_slice(&records[j + 1][..8]);
    if hash == records[j + 1] {
        return None;
    }
    site.put_record(j, &hash);
    Some(of_record(j + 1))
}

/// Likewise as with the records.
fn inquired_order(site: &mut Site) -> Option<Shows> {
    let ids = &site.good.ledger.inquired;
    let i = site.at(ids.len().checked_sub(1)?)?;
    let two = match site.random.below(3) {
        0 => [ids[i], ids[i]],
        _ => [ids[i + 1], ids[i]],
    };
    site.put_inquired(i, &two);
    Some(of_inquired(i + 1))
}

fn one_inquired_more(site: &mut Site) -> Option<Shows> {
    let ids = &site.good.ledger.inquired;
    let last = ids.len().max(1);
    if site.is_idle() || last == 4096 {
        return None;
    }
    site.numbers.inquired = site.random.pick(&[last as u32 + 1, last as u32 + 1, 4096]);
    let id = ids.last().copied().unwrap_or(9);
    site.put_inquired(last - 1, &[id, id]);
    Some(of_inquired(last))
}

/// In 2 the ID of a demand is inquired no more.
fn not_inquired(site: &mut Site) -> Option<Shows> {
    if site.numbers.state != 2 {
        return None;
    }
    let j = site.at(site.good.ledger.demanded.len())?;
    let id = id_of(&site.good.ledger.demanded[j]);
    let mut ids = site.good.ledger.inquired.clone();
    ids.retain(|&other| other != id);
    site.numbers.inquired = ids.len() as u32;
    site.put_inquired(0, &ids);
    Some(of_all(&site.numbers))
}

/// In 2 it went where it cannot have, or did not where it must have.
fn done(site: &mut Site) -> Option<Shows> {
    if site.numbers.state != 2 {
        return None;
    }
    site.numbers.done = 1 - site.numbers.done;
    Some(of_all(&site.numbers))
}
