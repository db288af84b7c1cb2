//! Comparisons of steps that are lent a part of a ledger: records, marks or inquired too short,
//! each alone and together, on ledgers of good form and broken ones.
//!
//! Only so much is lent of slices that have their room: what is cut off stands behind, and must be
//! neither judged nor touched.

mod breaks;
mod known;
mod limits;

use super::calls::Delivery;
use super::counts::row;
use super::ledgers::{some_parts, Good, Parts, ROWS};
use super::memory::DEMANDED_MARKS;
use super::mutated::fixture::{Call, Fixture, Lengths, ASKED, HASH_AT, MESSAGE_AT};
use super::mutated::ledgers;
use crate::filters::HASH;
use crate::random::Random;
use crate::Tally;
use breaks::{Place, Shows, Site, ALWAYS, BREAKS};
use std::collections::{BTreeMap, BTreeSet};

pub fn compare(tally: &mut Tally) {
    tally.sessions.sort = "short";
    known::compare(tally);
    let mut seen = Seen::default();
    each_alone(tally, &mut seen);
    together(tally, &mut seen);
    large(tally, &mut seen);
    seen.must_be_enough();
    limits::compare(tally);
    any_way(tally);
}

/// Where records, marks and inquired stand in the lengths.
const LEDGER_AT: [usize; 3] = [1, 2, 3];

/// Where the other slices do that have their room: columns, lists, hash and out.
const OTHERS_AT: [usize; 7] = [4, 5, 6, 7, 8, HASH_AT, 11];

/// A test bed: a ledger on which many calls are tried, and a message for it.
struct Bed {
    good: Good,
    fixture: Fixture,
    delivery: Delivery,
}

impl Bed {
    fn new(random: &mut Random, row: (u32, u32), parts: Parts) -> Bed {
        let good = Good::new(random, row, parts);
        let memory = good.memory(random);
        Bed {
            fixture: Fixture::new(random, memory, good.numbers),
            delivery: good.message(random),
            good,
        }
    }

    /// What is lent where nothing is cut.
    fn lengths(&self) -> Lengths {
        let mut lengths = self.fixture.lengths;
        lengths[HASH_AT] = self.delivery.hash.len();
        lengths[MESSAGE_AT] = self.delivery.bytes.len();
        lengths
    }
}

/// Lengths of records, marks and inquired at which something may begin or end to be there.
type Cuts = [Vec<usize>; 3];

fn near(len: usize) -> [usize; 3] {
    [len.saturating_sub(1), len, len.saturating_add(1)]
}

fn cuts(good: &Good, shows: &Shows) -> Cuts {
    let table = good.ledger.table.len();
    let demanded = good.ledger.demanded.len();
    let inquired = good.ledger.inquired.len();
    let one_hash_less = shows[0].saturating_sub(HASH);
    let records = [0, 1, 63, 64, 65, 262_143, 262_144, 262_145, 262_207]
        .into_iter()
        .chain(near(HASH * demanded))
        .chain([HASH * demanded.saturating_sub(1), one_hash_less]);
    let marks = [0, 4_095, 4_096, 4_097, 8_191]
        .into_iter()
        .chain(near(table))
        .chain(near(DEMANDED_MARKS + demanded));
    let inquired = [0, 1, 4_095].into_iter().chain(near(inquired));
    let short = |i: usize, lens: &mut dyn Iterator<Item = usize>| {
        let all: BTreeSet<usize> = lens.chain(near(shows[i])).collect();
        let short = all.into_iter().filter(|&len| len < ASKED[LEDGER_AT[i]]);
        short.collect()
    };
    [
        short(0, &mut { records }),
        short(1, &mut { marks }),
        short(2, &mut { inquired }),
    ]
}

/// How often each break was there, was cut off, and shows whatever is lent.
#[derive(Default)]
struct Seen {
    breaks: BTreeMap<(&'static str, &'static str), [u64; 3]>,
}

/// Fewer of a break in a state are as good as none.
const LEAST: u64 = 20;

impl Seen {
    fn count(&mut self, name: &'static str, bed: &Bed, shows: &Shows, is_there: bool) {
        let key = (name, row(&bed.good.numbers));
        let seen = self.breaks.entry(key).or_default();
        seen[usize::from(!is_there)] += 1;
        seen[2] += u64::from(*shows == ALWAYS);
    }

    /// Each break in each state where it can be, in a part that is there and in one that is cut off.
    fn must_be_enough(&self) {
        for (name, rows, _) in BREAKS {
            for &row in rows {
                let seen = self.breaks.get(&(name, row)).copied().unwrap_or_default();
                let [there, cut_off, always] = seen;
                let is_good = name == "nothing";
                assert!(is_good || there >= LEAST, "{name} in {row}: {there}");
                let hides = always > 0 || cut_off >= LEAST;
                assert!(hides, "{name} in {row}, cut off: {cut_off}");
            }
        }
    }
}

/// One call on a broken ledger of which so much is lent as `cut` leaves; none if it cannot be broken.
fn one<T>(
    tally: &mut Tally,
    random: &mut Random,
    seen: &mut Seen,
    bed: &mut Bed,
    (i, place): (usize, Place),
    cut: impl FnOnce(&mut Random, &Cuts, &mut Lengths) -> T,
) -> Option<T> {
    let (name, _, breaking) = BREAKS[i];
    let mut site = Site {
        random,
        good: &bed.good,
        fixture: &mut bed.fixture,
        numbers: bed.good.numbers,
        place,
    };
    let shows = breaking(&mut site)?;
    let numbers = site.numbers;
    let mut lengths = bed.lengths();
    let left = cut(random, &cuts(&bed.good, &shows), &mut lengths);
    let call = Call {
        numbers,
        lengths,
        delivery: bed.delivery.clone(),
        kinds: vec![name],
    };
    let step = bed.fixture.step(tally, random, &call, false);

    let is_there = (0..3).all(|i| lengths[LEDGER_AT[i]] >= shows[i]);
    let is_short = (0..12).any(|i| lengths[i] < ASKED[i]);
    seen.count(name, bed, &shows, is_there);
    let told = || format!("{name}, {place:?}, {shows:?}, {lengths:?}: {step:?}");
    match (is_there, is_short) {
        (true, _) => assert!(step.refusal == 1, "{}", told()),
        (_, true) => assert!(step.refusal == 2, "{}", told()),
        _ => assert!(step.refusal != 1 && step.refusal != 2, "{}", told()),
    }
    Some(left)
}

/// All that can be broken; all that is inquired held, so that in 2 DONE went; few; nothing met;
/// nothing demanded; and more demands than elements.
const SMALL: [Parts; 6] = [
    [5, 3, 4, 3],
    [4, 5, 0, 0],
    [2, 1, 1, 1],
    [3, 0, 3, 2],
    [6, 0, 0, 4],
    [1, 30, 20, 0],
];

/// Each slice at each length, with each break at the first and the last place.
fn each_alone(tally: &mut Tally, seen: &mut Seen) {
    let mut random = tally.subject("parts of ledgers, one slice short", 0x290);
    let random = &mut random;
    for (row, parts) in each(&SMALL) {
        let mut bed = Bed::new(random, row, parts);
        for i in 0..BREAKS.len() {
            for place in [Place::First, Place::Last] {
                for slice in 0..3 {
                    at_each_cut(tally, random, seen, &mut bed, (i, place), slice);
                }
            }
        }
        bed.fixture.drop_whole();
    }
}

fn each(shapes: &[Parts]) -> Vec<((u32, u32), Parts)> {
    let with = |row| shapes.iter().map(move |&parts| (row, parts));
    ROWS.into_iter().flat_map(with).collect()
}

fn at_each_cut(
    tally: &mut Tally,
    random: &mut Random,
    seen: &mut Seen,
    bed: &mut Bed,
    broken: (usize, Place),
    slice: usize,
) {
    let mut next = 0;
    loop {
        let cut = |_: &mut Random, cuts: &Cuts, lengths: &mut Lengths| {
            let cuts = &cuts[slice];
            lengths[LEDGER_AT[slice]] = cuts[next.min(cuts.len() - 1)];
            cuts.len()
        };
        match one(tally, random, seen, bed, broken, cut) {
            Some(all) if next + 1 < all => next += 1,
            _ => return,
        }
    }
}

/// Some of the ledger's slices at some of the lengths, and often some of the others short.
fn cut_some(random: &mut Random, cuts: &Cuts, lengths: &mut Lengths) {
    for (cuts, at) in cuts.iter().zip(LEDGER_AT) {
        if !random.once_in(3) {
            lengths[at] = random.pick(cuts);
        }
    }
    if random.once_in(2) {
        cut_others(random, lengths);
    }
}

/// At least one is left of each, so that what is judged of the columns stays.
fn cut_others(random: &mut Random, lengths: &mut Lengths) {
    for at in OTHERS_AT {
        if random.once_in(4) {
            let any = random.between(1, ASKED[at] as u64) as usize;
            lengths[at] = random.pick(&[ASKED[at] - 1, 1, any]).min(lengths[at]);
        }
    }
}

fn together(tally: &mut Tally, seen: &mut Seen) {
    let mut random = tally.subject("parts of ledgers, several slices short", 0x291);
    let random = &mut random;
    for (row, parts) in each(&SMALL) {
        let mut bed = Bed::new(random, row, parts);
        for i in 0..30 * BREAKS.len() {
            let broken = (i % BREAKS.len(), Place::Any);
            one(tally, random, seen, &mut bed, broken, cut_some);
        }
        bed.fixture.drop_whole();
    }
}

/// As many elements, demands and inquired IDs as there can be, so that the rooms end with them.
const LARGE: [Parts; 4] = [
    [4096, 0, 0, 0],
    [0, 2000, 2096, 0],
    [0, 0, 0, 4096],
    [1000, 1500, 1500, 96],
];

fn large(tally: &mut Tally, seen: &mut Seen) {
    let mut random = tally.subject("parts of large ledgers", 0x292);
    let random = &mut random;
    for (at, (row, parts)) in each(&LARGE).into_iter().enumerate() {
        let mut bed = Bed::new(random, row, parts);
        for i in 0..2 * BREAKS.len() {
            let broken = ((at + i) % BREAKS.len(), Place::Last);
            let cut = |random: &mut Random, cuts: &Cuts, lengths: &mut Lengths| match i % 3 {
                0 => cut_some(random, cuts, lengths),
                // The last that is not there, or is: the longest lengths alone.
                _ => {
                    let slice = random.below(3) as usize;
                    let longest = cuts[slice].iter().rev().take(4);
                    let longest: Vec<usize> = longest.copied().collect();
                    lengths[LEDGER_AT[slice]] = random.pick(&longest);
                }
            };
            one(tally, random, seen, &mut bed, broken, cut);
        }
        bed.fixture.drop_whole();
    }
}

/// Any ledgers, mutated in any way or not, and any lengths.
fn any_way(tally: &mut Tally) {
    let mut random = tally.subject("parts of ledgers, anyhow", 0x293);
    let random = &mut random;
    let mut given = [0; 3];
    for i in 0..540 {
        let parts = some_parts(random);
        let mut bed = Bed::new(random, ROWS[i % ROWS.len()], parts);
        for _ in 0..40 {
            let mut numbers = bed.good.numbers;
            let mut kinds = Vec::new();
            for _ in 0..random.pick(&[0, 1, 1, 2, 4]) {
                let (kind, mutation) = random.pick(&ledgers::ALL);
                let changed = mutation(random, &mut bed.fixture, &mut numbers);
                kinds.extend(changed.map(|()| kind));
            }
            let mut lengths = bed.lengths();
            cut_anyhow(random, &bed.good, &mut lengths);
            let call = Call {
                numbers,
                lengths,
                delivery: bed.delivery.clone(),
                kinds,
            };
            let step = bed.fixture.step(tally, random, &call, false);
            given[(step.refusal as usize).min(3) % 3] += 1;
        }
        bed.fixture.drop_whole();
    }
    assert!(given[1] > 5_000 && given[2] > 5_000, "{given:?}");
}

/// Any lengths, often such that a part of the ledger is cut off.
fn cut_anyhow(random: &mut Random, good: &Good, lengths: &mut Lengths) {
    let counted = [
        HASH * (good.ledger.demanded.len() + 1),
        DEMANDED_MARKS + good.ledger.demanded.len() + 1,
        good.ledger.inquired.len() + 1,
    ];
    let cuts = cuts(good, &ALWAYS);
    for i in 0..3 {
        let any = random.below(ASKED[LEDGER_AT[i]] as u64) as usize;
        let of_counted = random.below(counted[i] as u64 + 1) as usize;
        let cut = random.pick(&cuts[i]);
        let of_table = any % (good.ledger.table.len() + 1);
        let all = lengths[LEDGER_AT[i]];
        lengths[LEDGER_AT[i]] = match random.below(8) {
            0 => any,
            1 | 2 => of_counted,
            3 => cut,
            4 => of_table,
            _ => all,
        };
    }
    if random.once_in(3) {
        cut_others(random, lengths);
    }
}
