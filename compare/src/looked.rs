//! Comparisons of the number of buckets looked at (document 02, Req 11): the field `looked` of a
//! reading's answer. Every reading of every subject compares it (sets.rs, `Call::compare`); those
//! here are made for it, most with a number worked out before.
//!
//!   known.rs     small readings worked out by hand
//!   repeats.rs   a repeat found at every position
//!   chains.rs    as many peels as buckets, and one more, from the last bucket downwards
//!   one_side.rs  elements of one side alone, whose looks follow from their places
//!   refused.rs   refusals 1, 2 and 3: the number is 0, and everything is unchanged; and 6
//!   any.rs       any readings of any size, and values behind the size
//!   keys.rs      salted IDs by their places
//!   longest.rs   the longest that were found
//!   counts.rs    how many there must be of each kind

mod any;
mod chains;
mod counts;
mod keys;
mod known;
mod longest;
mod one_side;
mod refused;
mod repeats;
pub mod stand_ins;

pub use counts::{Counts, LibraryRead};
pub use known::check_model;

use crate::filters::{End, Filter};
use crate::random::Random;
use crate::sets::Call;
use crate::Tally;

const PARTS: [fn(&mut Tally); 7] = [
    known::compare,
    repeats::compare,
    chains::compare,
    one_side::compare,
    refused::compare,
    any::compare,
    longest::compare,
];

pub fn compare(tally: &mut Tally) {
    for compare in PARTS {
        compare(tally);
    }
}

/// The end of a reading and its number of buckets looked at, worked out before.
type Wanted = (End, usize);

/// One comparison of a reading of these columns, as many buckets as they have, against the table:
/// the library with the model, and the model with what is wanted.
fn one(
    tally: &mut Tally,
    random: &mut Random,
    table: &[u8],
    received: &Filter,
    salt: u32,
    wanted: Wanted,
) {
    let call = Call::of_filter(random, table, received, salt);
    let (reading, end) = call.compare(tally);
    let size = received.size();
    let answer = (end.expect("not refused with 1 to 3"), reading.looked);
    assert!(answer == wanted, "{answer:?} for {wanted:?} at size {size}");
    tally.looked.worked_out += 1;
}

/// What the far end sends where our table is empty and the difference is this.
fn sent_to_none(difference: &Filter) -> Filter {
    Filter::empty(difference.size()).less(difference)
}
