//! Numbers of buckets looked at that are worked out by hand, held to the model and to the library.
//!
//! The elements are hashes of one byte throughout, and so are their IDs, which salting by a multiple of
//! 8 leaves as they are. Their places were worked out with another CRC-32 (Python's zlib):
//!
//!   size 37    01: 13 19 20   02: 10 19 35   03: 11 13 27   04: 11 25 31   05:  4 13 26
//!              06:  0  3 26   07:  3  5 12   0d: 11 20 36   12:  0 15 18
//!   size 38    01:  7 29 37
//!   size 101   01: 52 60 83
//!   size 4096  01: 689 723 1635

use crate::filters::{self, End, Filter, Reading};
use crate::model::Columns;
use crate::sets::Call;
use crate::{quick, Tally};

/// An element's byte, the buckets it is put in, and its count there.
type Put = (u8, &'static [u32], i64);

/// A received filter: what is put in it, and what the HASHSUM of a bucket has besides; then the looks
/// that are made, each by the number of buckets it takes.
struct Case {
    name: &'static str,
    size: u32,
    ours: &'static [u8],
    received: &'static [Put],
    besides: Option<(usize, u32)>,
    end: End,
    listed: [usize; 2],
    looks: &'static [usize],
    looked: usize,
}

const PLAIN: Case = Case {
    name: "",
    size: 37,
    ours: &[],
    received: &[],
    besides: None,
    end: End::Complete,
    listed: [0, 0],
    looks: &[37],
    looked: 37,
};

const ONE: Put = (0x01, &[13, 19, 20], 1);
const TWO: Put = (0x02, &[10, 19, 35], 1);
const THREE: Put = (0x03, &[11, 13, 27], 1);
const FOUR: Put = (0x04, &[11, 25, 31], 1);
const FIVE: Put = (0x05, &[4, 13, 26], 1);
const SIX: Put = (0x06, &[0, 3, 26], 1);
const SEVEN: Put = (0x07, &[3, 5, 12], 1);
const EIGHTEEN: Put = (0x12, &[0, 15, 18], 1);

/// Equal tables: nothing is found, and the last look takes every bucket.
const EQUAL: [Case; 5] = [
    Case {
        name: "two empty tables",
        ..PLAIN
    },
    Case {
        name: "one in both",
        ours: &[0x01],
        received: &[ONE],
        ..PLAIN
    },
    Case {
        name: "nothing at size 38",
        size: 38,
        looks: &[38],
        looked: 38,
        ..PLAIN
    },
    Case {
        name: "nothing at size 101",
        size: 101,
        looks: &[101],
        looked: 101,
        ..PLAIN
    },
    Case {
        name: "nothing at size 4096",
        size: 4096,
        looks: &[4096],
        looked: 4096,
        ..PLAIN
    },
];

const COMPLETE: [Case; 10] = [
    Case {
        name: "document 01's worked example",
        ours: &[0x01, 0x02],
        received: &[TWO],
        listed: [1, 0],
        looks: &[14, 37],
        looked: 51,
        ..PLAIN
    },
    Case {
        name: "one found in bucket 0",
        received: &[SIX],
        listed: [0, 1],
        looks: &[1, 37],
        looked: 38,
        ..PLAIN
    },
    Case {
        // Bucket 19 has both.
        name: "two found one behind the other",
        received: &[ONE, TWO],
        listed: [0, 2],
        looks: &[11, 14, 37],
        looked: 62,
        ..PLAIN
    },
    Case {
        // 03 and 04 share bucket 11, 01 and 03 bucket 13: 01 in 19 frees 03 in 13, and that 04 in 11.
        name: "three found one before the other",
        received: &[ONE, THREE, FOUR],
        listed: [0, 3],
        looks: &[20, 14, 12, 37],
        looked: 83,
        ..PLAIN
    },
    Case {
        name: "the same three, all ours",
        ours: &[0x01, 0x03, 0x04],
        listed: [3, 0],
        looks: &[20, 14, 12, 37],
        looked: 83,
        ..PLAIN
    },
    Case {
        // Buckets 11 and 13 count 0.
        name: "the same three, on both sides",
        ours: &[0x03],
        received: &[ONE, FOUR],
        listed: [1, 2],
        looks: &[20, 14, 12, 37],
        looked: 83,
        ..PLAIN
    },
    Case {
        // 06 and 07 share bucket 3.
        name: "two found from bucket 0 on",
        ours: &[0x06],
        received: &[SEVEN],
        listed: [1, 1],
        looks: &[1, 4, 37],
        looked: 42,
        ..PLAIN
    },
    Case {
        name: "one at size 38",
        size: 38,
        received: &[(0x01, &[7, 29, 37], 1)],
        listed: [0, 1],
        looks: &[8, 38],
        looked: 46,
        ..PLAIN
    },
    Case {
        name: "one at size 101",
        size: 101,
        received: &[(0x01, &[52, 60, 83], 1)],
        listed: [0, 1],
        looks: &[53, 101],
        looked: 154,
        ..PLAIN
    },
    Case {
        name: "one at size 4096",
        size: 4096,
        received: &[(0x01, &[689, 723, 1635], 1)],
        listed: [0, 1],
        looks: &[690, 4096],
        looked: 4786,
        ..PLAIN
    },
];

const STUCK: [Case; 5] = [
    Case {
        name: "stuck at once, in the first bucket",
        besides: Some((0, 1)),
        end: End::Stuck,
        ..PLAIN
    },
    Case {
        name: "stuck at once, in the last bucket",
        besides: Some((36, 1)),
        end: End::Stuck,
        ..PLAIN
    },
    Case {
        name: "stuck after one",
        received: &[ONE],
        besides: Some((30, 1)),
        end: End::Stuck,
        listed: [0, 1],
        looks: &[14, 37],
        looked: 51,
        ..PLAIN
    },
    Case {
        // Bucket 13 has the wrong HASHSUM: 01 is found in 19.
        name: "stuck after one that is hidden",
        received: &[ONE],
        besides: Some((13, 1)),
        end: End::Stuck,
        listed: [0, 1],
        looks: &[20, 37],
        looked: 57,
        ..PLAIN
    },
    Case {
        // They share bucket 13, and 4 is spoilt: 03 is found in 11, 01 in 19, and 05 in 13.
        name: "stuck after three",
        received: &[ONE, THREE, FIVE],
        besides: Some((4, 1)),
        end: End::Stuck,
        listed: [0, 3],
        looks: &[12, 20, 14, 37],
        looked: 83,
        ..PLAIN
    },
];

/// An element at some of its places: no look follows that which finds it again.
const REPEATED: [Case; 9] = [
    repeat("a repeat, 20 then 13", &[(0x01, &[20], 1)], &[21, 14], 35),
    repeat("a repeat, 19 then 13", &[(0x01, &[19], 1)], &[20, 14], 34),
    repeat("a repeat, 13 then 19", &[(0x01, &[13], 1)], &[14, 20], 34),
    repeat(
        "a repeat, 19 and 20 then 13",
        &[(0x01, &[19, 20], 1)],
        &[20, 14],
        34,
    ),
    repeat(
        "a repeat, 13 and 20 then 19",
        &[(0x01, &[13, 20], 1)],
        &[14, 20],
        34,
    ),
    repeat(
        "a repeat, 13 and 19 then 20",
        &[(0x01, &[13, 19], 1)],
        &[14, 21],
        35,
    ),
    repeat("a repeat in bucket 0", &[(0x06, &[3, 26], 1)], &[4, 1], 5),
    repeat(
        "a repeat in the last bucket",
        &[(0x0D, &[11, 20], 1)],
        &[12, 37],
        49,
    ),
    repeat(
        "a repeat after another element",
        &[SIX, (0x01, &[20], 1)],
        &[1, 21, 14],
        36,
    ),
];

const fn repeat(
    name: &'static str,
    received: &'static [Put],
    looks: &'static [usize],
    looked: usize,
) -> Case {
    Case {
        name,
        received,
        end: End::Repeated,
        looks,
        looked,
        ..PLAIN
    }
}

/// The columns are zero, and then the table speaks against the list.
const BY_THE_TABLE: [Case; 2] = [
    Case {
        name: "held, and listed as theirs",
        ours: &[0x01],
        received: &[ONE, ONE],
        end: End::Contradicted,
        looks: &[14, 37],
        looked: 51,
        ..PLAIN
    },
    Case {
        // 05, 07 and 12 count in its three buckets.
        name: "not held, and listed as ours",
        ours: &[0x05, 0x07, 0x12],
        received: &[FIVE, SEVEN, EIGHTEEN, (0x06, &[0, 3, 26], -1)],
        end: End::Contradicted,
        looks: &[1, 37],
        looked: 38,
        ..PLAIN
    },
];

fn cases() -> impl Iterator<Item = Case> {
    let cases = EQUAL.into_iter().chain(COMPLETE).chain(STUCK);
    cases.chain(REPEATED).chain(BY_THE_TABLE)
}

impl Case {
    fn table(&self) -> Vec<u8> {
        let hashes = self.ours.iter().map(|&byte| [byte; 64]);
        hashes.flatten().collect()
    }

    fn received(&self) -> Filter {
        let mut received = Filter::empty(self.size);
        for &(byte, buckets, count) in self.received {
            let key = u64::from_be_bytes([byte; 8]);
            for &bucket in buckets {
                received.put_at(bucket, key, count);
            }
        }
        if let Some((bucket, hash)) = self.besides {
            received.hashes[bucket] ^= hash;
        }
        received
    }

    fn answer(&self) -> Reading {
        Reading {
            refusal: match self.end {
                End::Complete | End::Stuck => 0,
                _ => 6,
            },
            complete: u32::from(self.end == End::Complete),
            ours: self.listed[0],
            theirs: self.listed[1],
            looked: self.looked,
        }
    }

    /// Whether the model reads it so.
    fn is_read(&self, salt: u32) -> bool {
        let size = self.size as usize;
        let mut received = self.received();
        let columns = Columns {
            ids: &mut received.ids,
            hashes: &mut received.hashes,
            counts: &mut received.counts,
        };
        let (mut ours, mut theirs) = (vec![0; size], vec![0; size]);
        let lists = [&mut ours[..], &mut theirs[..]];
        let (reading, peeled) =
            filters::read_and_tell(&self.table(), columns, lists, self.size, salt);
        let peeled = peeled.expect("not refused with 1 to 3");
        reading == self.answer() && peeled.end == self.end && peeled.looks == self.looks
    }
}

const SALTS: [u32; 4] = [0, 8, 24, 56];

/// Says which value the model gets wrong.
pub fn check_model() -> Result<(), String> {
    let hash = quick::crc(0x0101_0101_0101_0101);
    if hash != 0x2EA1_22D3 {
        return Err(format!("the CRC-32 of eight bytes 01, {hash:#x}"));
    }
    for case in cases() {
        let added: usize = case.looks.iter().sum();
        if added != case.looked || !SALTS.iter().all(|&salt| case.is_read(salt)) {
            return Err(format!("buckets looked at: {}", case.name));
        }
    }
    Ok(())
}

pub fn compare(tally: &mut Tally) {
    let mut random = tally.subject("buckets looked at, known values", 0x7F);
    for case in cases() {
        for salt in SALTS {
            let call = Call::of_filter(&mut random, &case.table(), &case.received(), salt);
            let (reading, _) = call.compare(tally);
            assert!(reading == case.answer(), "{}", case.name);
            tally.looked.worked_out += 1;
        }
    }
}
