//! How many numbers of buckets looked at were compared, by the end of their readings, and how many
//! there must be.

use crate::filters::{End, Reading};
use crate::library::filters as library;
use crate::model::Columns;

/// Fewer numbers compared than this mean that something was left out, as do fewer of an end or of a
/// refusal, or fewer that were worked out before.
const LEAST: u64 = 8_000;
const LEAST_OF_A_KIND: u64 = 200;
const LEAST_WORKED_OUT: u64 = 7_000;

/// The number of a reading must have come up to that of the longest that was found.
const LEAST_LARGEST: usize = 13_529_091;

const KINDS: [&str; 8] = [
    "complete",
    "stuck",
    "repeated",
    "too many peels",
    "false by the table",
    "refused with 1",
    "refused with 2",
    "refused with 3",
];

/// A reading of the library, or of what stands in for it: the table, the columns, the lists ours and
/// theirs, the size and the salt.
pub type LibraryRead = Box<dyn Fn(&mut [u8], Columns, [&mut [u64]; 2], u32, u32) -> Reading>;

pub struct Counts {
    /// What the model is compared with.
    pub library: LibraryRead,
    /// How many were worked out before.
    pub worked_out: u64,
    kinds: [u64; KINDS.len()],
    /// The largest number, and the largest share of its bound with the size it was found at.
    largest: usize,
    fullest: (f64, u32),
}

impl Default for Counts {
    fn default() -> Counts {
        Counts {
            library: Box::new(library::read),
            worked_out: 0,
            kinds: [0; KINDS.len()],
            largest: 0,
            fullest: (0.0, 0),
        }
    }
}

impl Counts {
    /// Counts one reading, and holds its number to the bound.
    pub fn made(&mut self, size: u32, reading: &Reading, end: Option<End>) {
        let Some(end) = end else {
            assert!(reading.looked == 0, "nothing is looked at where refused");
            self.kinds[4 + reading.refusal as usize] += 1;
            return;
        };
        let size_of = size as usize;
        let bound = size_of * (size_of + 1);
        assert!(
            (1..=bound).contains(&reading.looked),
            "{reading:?} at size {size}"
        );
        self.kinds[end as usize] += 1;
        self.largest = self.largest.max(reading.looked);
        let share = reading.looked as f64 / bound as f64;
        if share > self.fullest.0 {
            self.fullest = (share, size);
        }
    }

    /// Tells the numbers compared, and whether there are enough of each kind.
    pub fn are_enough(&self) -> bool {
        let compared: u64 = self.kinds.iter().sum();
        println!("numbers of buckets looked at: {compared} compared");
        println!("worked out before: {}", self.worked_out);
        for (kind, n) in KINDS.iter().zip(self.kinds) {
            println!("of a reading {kind}: {n}");
        }
        let (share, size) = self.fullest;
        println!(
            "none above size x (size + 1): the largest is {}, the largest share {:.1} %, at size {size}",
            self.largest,
            100.0 * share
        );
        compared >= LEAST
            && self.worked_out >= LEAST_WORKED_OUT
            && self.kinds.iter().all(|&n| n >= LEAST_OF_A_KIND)
            && self.largest >= LEAST_LARGEST
    }
}
