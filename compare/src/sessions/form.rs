//! The form of what a session is given (refusal 1): which of its clauses are broken.

use super::ledger::{Ledger, There, MET};
use super::memory::{Lent, Numbers, DEMANDED_MARKS};
use super::step::is_state;
use crate::filters::{id_of, is_table, range_is_good, MOST_COUNT, MOST_HASHES};
use std::collections::BTreeSet;

/// In state 1 so many places of the columns are judged.
const JUDGED: usize = 2520;

/// Nothing has happened yet in 0 and 1, and in 3 until its first message.
pub fn is_untouched(numbers: &Numbers) -> bool {
    matches!((numbers.state, numbers.first), (0, _) | (1, _) | (3, 1))
}

/// Those of the given clauses that do not hold.
fn broken(clauses: &[(&'static str, bool)]) -> Vec<&'static str> {
    let broken = clauses.iter().filter(|(_, holds)| !holds);
    broken.map(|&(name, _)| name).collect()
}

/// All broken clauses; those on the ledger's memory are judged only where the numbers say how far
/// it goes, and as far as it is there.
pub fn breaches(numbers: &Numbers, lent: &Lent) -> Vec<&'static str> {
    breaches_in(numbers, lent, &There::of(numbers, lent))
}

/// Likewise, so much of the ledger being there.
pub fn breaches_in(numbers: &Numbers, lent: &Lent, there: &There) -> Vec<&'static str> {
    let mut breaches = of_ranges(numbers, lent);
    if breaches.is_empty() && is_untouched(numbers) {
        breaches = of_idle_numbers(numbers);
    }
    if !breaches.is_empty() {
        return breaches;
    }
    let ledger = Ledger::decode_part(lent, there);
    let mut breaches = of_marks(lent, there);
    breaches.extend(of_part(&ledger));
    if is_untouched(numbers) {
        breaches.extend(broken(&[
            ("nothing is asked", ledger.asked.is_empty()),
            ("nothing is offered", ledger.offered.is_empty()),
        ]));
    }
    if numbers.state == 2 && there.whole {
        breaches.extend(of_whole(numbers, &ledger));
    }
    breaches
}

/// The table, the ranges of the numbers, and the columns: whatever is lent of the ledger.
fn of_ranges(numbers: &Numbers, lent: &Lent) -> Vec<&'static str> {
    let mut judged = lent.counts.iter().take(JUDGED);
    let columns = numbers.state != 1 || judged.all(|count| (0..=MOST_COUNT).contains(count));
    broken(&[
        ("table", is_table(lent.table)),
        ("state", is_state(numbers.state)),
        ("first", numbers.first <= 1),
        ("done", numbers.done <= 1),
        ("demanded", numbers.demanded as usize <= MOST_HASHES),
        ("inquired", numbers.inquired as usize <= MOST_HASHES),
        ("swaps", numbers.swaps <= 16),
        ("size", range_is_good(numbers.size, 0)),
        ("salt", range_is_good(37, numbers.salt)),
        ("columns", columns),
    ])
}

/// Likewise by the numbers alone, whatever is lent of the ledger.
fn of_idle_numbers(numbers: &Numbers) -> Vec<&'static str> {
    broken(&[
        ("nothing is inquired", numbers.inquired == 0),
        ("nothing is demanded", numbers.demanded == 0),
        ("DONE has not gone", numbers.done == 0),
    ])
}

fn of_marks(lent: &Lent, there: &There) -> Vec<&'static str> {
    let mut of_table = lent.marks.iter().take(there.table_marks);
    let behind = lent.marks.iter().skip(DEMANDED_MARKS);
    let mut of_records = behind.take(there.demanded);
    broken(&[
        ("a table's mark", of_table.all(|&mark| mark < MET)),
        ("a record's mark", of_records.all(|&mark| mark < 2 * MET)),
    ])
}

fn ascend<T: PartialOrd>(list: &[T]) -> bool {
    list.windows(2).all(|two| two[0] < two[1])
}

/// What any part of a ledger must keep to: where the whole keeps to it, each part does.
fn of_part(ledger: &Ledger) -> Vec<&'static str> {
    let held = ledger.held();
    let mut offered = ledger.offered.iter();
    let mut asked = ledger.asked.iter();
    let elements = ledger.table.iter().chain(&ledger.demanded);
    let ids: Vec<u64> = elements.map(|hash| id_of(hash)).collect();
    let different: BTreeSet<u64> = ids.iter().copied().collect();
    let number = ledger.held_and_wanted().len();
    broken(&[
        ("records ascend", ascend(&ledger.demanded)),
        ("inquired ascend", ascend(&ledger.inquired)),
        (
            "offered are held",
            offered.all(|hash| held.get(&id_of(hash)) == Some(hash)),
        ),
        ("asked are held", asked.all(|id| held.contains_key(id))),
        (
            "served were offered",
            ledger.served.is_subset(&ledger.offered),
        ),
        ("no ID is shared", different.len() == ids.len()),
        ("at most 4,096", number <= MOST_HASHES),
    ])
}

/// In state 2 these hold of a whole ledger and may not of a part: an inquired ID may be held by a
/// demand that is cut off, and a demand inquired by an ID that is.
fn of_whole(numbers: &Numbers, ledger: &Ledger) -> Vec<&'static str> {
    let inquired: BTreeSet<u64> = ledger.inquired.iter().copied().collect();
    let mut demanded = ledger.demanded.iter();
    let all = ledger.all_inquired_are_held();
    broken(&[
        (
            "demands were inquired",
            demanded.all(|hash| inquired.contains(&id_of(hash))),
        ),
        ("DONE went, not all is held", numbers.done == 0 || all),
        ("all is held, DONE went not", numbers.done == 1 || !all),
    ])
}
