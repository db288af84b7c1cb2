//! Stand-ins for the reading call, each with one fault in the number of buckets looked at: the
//! comparisons made for it must find each of them, and no comparison of readings one without a fault.

mod looks;
mod refusals;

use super::PARTS;
use crate::filters::{self, Peeled, Reading};
use crate::model::Columns;
use crate::{crafted, honest, malicious, refused, Tally};

/// What is known of a reading when its number is given.
struct Seen {
    size: usize,
    /// The shortest of the columns and lists.
    lent: usize,
    /// The answer without a fault.
    right: Reading,
    /// None where a refusal from 1 to 3 stops it.
    peeled: Option<Peeled>,
}

/// Another number than the right one, or the same.
type Number = Box<dyn Fn(&Seen) -> usize>;

/// A stand-in by the name of its fault.
type Fault = (String, Number);

/// Reads as the model does, and answers that number.
fn read(
    number: &Number,
    table: &[u8],
    columns: Columns,
    lists: [&mut [u64]; 2],
    size: u32,
    salt: u32,
) -> Reading {
    let lens = [
        columns.ids.len(),
        columns.hashes.len(),
        columns.counts.len(),
    ];
    let lists_len = lists.iter().map(|list| list.len());
    let lent = lens.into_iter().chain(lists_len).min();
    let (right, peeled) = filters::read_and_tell(table, columns, lists, size, salt);
    let seen = Seen {
        size: size as usize,
        lent: lent.unwrap_or(0),
        right,
        peeled,
    };
    Reading {
        looked: number(&seen),
        ..right
    }
}

/// The differences that are found, by subject in words; after the first part that finds any, no
/// other is tried.
fn found(begin: fn() -> Tally, number: Number, compare: &[fn(&mut Tally)]) -> (u64, String) {
    let mut tally = begin();
    tally.gathered.quiet = true;
    tally.gathered.begin();
    tally.looked.library = Box::new(move |table, columns, lists, size, salt| {
        read(&number, table, columns, lists, size, salt)
    });
    for compare in compare {
        compare(&mut tally);
        if tally.gathered.total() > 0 {
            break;
        }
    }
    (tally.gathered.total(), tally.gathered.by_kind())
}

/// Whether each stand-in with a fault is found, and none without.
pub fn are_caught(begin: fn() -> Tally) -> bool {
    let all = [
        super::compare,
        refused::compare,
        honest::compare,
        malicious::compare,
        crafted::compare,
    ];
    let plain: Number = Box::new(|seen| seen.right.looked);
    let (differences, kinds) = found(begin, plain, &all);
    println!("readings without a fault: {differences} differences: {kinds}");
    let mut caught = differences == 0;
    let mut number = 0;
    for (name, fault) in [looks::faults(), refusals::faults()].into_iter().flatten() {
        let (differences, kinds) = found(begin, fault, &PARTS);
        println!("{name}: {differences} differences: {kinds}");
        caught &= differences > 0;
        number += 1;
    }
    println!("{number} stand-ins with a fault");
    caught
}
