//! Strata that are not complete: stuck or false in every way, after nothing, something or much is
//! listed.

use crate::chains::{chain, is_long};
use crate::crafted::{on_the_other_side, on_the_same_side};
use crate::estimates::chains::overfull;
use crate::estimates::honest::{three_alike, two_alike};
use crate::estimates::malicious::some_key;
use crate::estimator::{BUCKETS, STRATA};
use crate::filters::{self, End, Filter, MOST_COUNT};
use crate::pool::Pool;
use crate::quick;
use crate::random::Random;
use std::ops::RangeInclusive;
use std::sync::OnceLock;

/// How the reading of such a stratum ends, how many it lists before, and what it may look like.
pub struct Kind {
    name: &'static str,
    pub end: End,
    listed: RangeInclusive<usize>,
    make: fn(&mut Random) -> Filter,
}

impl Kind {
    /// One such stratum. What chance brings is most often one.
    pub fn some(&self, random: &mut Random) -> Filter {
        let found = (0..1_000).find_map(|_| {
            let filter = (self.make)(random);
            let (end, listed) = filters::peel_by(&mut filter.clone(), 0, BUCKETS as usize, false);
            // Two counts in their range have no other difference.
            let in_range = filter.counts.iter().all(|it| it.abs() <= MOST_COUNT);
            let fits = end == self.end && self.listed.contains(&listed.len());
            (in_range && fits).then_some(filter)
        });
        found.unwrap_or_else(|| panic!("no such stratum: {}", self.name))
    }
}

const fn kind(
    name: &'static str,
    end: End,
    listed: RangeInclusive<usize>,
    make: fn(&mut Random) -> Filter,
) -> Kind {
    Kind {
        name,
        end,
        listed,
        make,
    }
}

pub static KINDS: [Kind; 17] = [
    // Stuck with nothing listed.
    kind("an IDSUM alone", End::Stuck, 0..=0, |random| {
        changed(random, |random, filter, at| {
            filter.ids[at] = random.any_length().max(1)
        })
    }),
    kind("a HASHSUM alone", End::Stuck, 0..=0, |random| {
        changed(random, |random, filter, at| {
            filter.hashes[at] = 1 << random.below(32)
        })
    }),
    kind("a COUNT alone", End::Stuck, 0..=0, |random| {
        changed(random, |random, filter, at| {
            filter.counts[at] = random.pick(&[1, -1, 2, -2, MOST_COUNT, -MOST_COUNT])
        })
    }),
    kind("an element out of place", End::Stuck, 0..=0, |random| {
        changed(random, |random, filter, at| {
            filter.put_at(at as u32, random.next(), side(random))
        })
    }),
    kind("an element that counts two", End::Stuck, 0..=0, |random| {
        let count = 2 * side(random);
        with(random, |random, filter| filter.put(some_key(random), count))
    }),
    kind("two in the same places", End::Stuck, 0..=0, |random| {
        let two = random.pick(&crafted().twos);
        let signs = random.pick(&[[1, 1], [-1, -1], [1, -1]]);
        of(&two, &signs)
    }),
    kind("anything in every bucket", End::Stuck, 0..=0, |random| {
        Filter {
            ids: random.numbers(BUCKETS as usize),
            hashes: random.words(BUCKETS as usize),
            counts: (0..BUCKETS)
                .map(|_| random.pick(&[0, 1, -1, 5, MOST_COUNT]))
                .collect(),
        }
    }),
    // Stuck after a list; what sticks is one of the first above.
    kind("one listed, then stuck", End::Stuck, 1..=1, |random| {
        let mut filter = KINDS[random.below(5) as usize].some(random);
        filter.put(some_key(random), side(random));
        filter
    }),
    kind("several listed, then stuck", End::Stuck, 2..=40, |random| {
        let mut filter = KINDS[random.below(6) as usize].some(random);
        several(random, &mut filter);
        filter
    }),
    kind("79 listed, then stuck", End::Stuck, 79..=79, |random| {
        pick(random, &crafted().long)
    }),
    // False. What stands at one or two of its places is listed and comes again.
    kind("at one of its places", End::Repeated, 1..=1, |random| {
        at_places(random, 1)
    }),
    kind("at two of its places", End::Repeated, 1..=1, |random| {
        at_places(random, 2)
    }),
    kind(
        "several listed, then one again",
        End::Repeated,
        2..=40,
        |random| {
            let mut filter = at_places(random, 1);
            several(random, &mut filter);
            filter
        },
    ),
    kind("two and one", End::Repeated, 1..=4, |random| {
        let three = random.pick(&crafted().threes);
        let sign = side(random);
        of(&three, &[sign, sign, -sign])
    }),
    kind("again on the other side", End::Repeated, 2..=9, |random| {
        pick(random, &crafted().other_side)
    }),
    kind("again on the same side", End::Repeated, 2..=9, |random| {
        pick(random, &crafted().same_side)
    }),
    kind("one peel too many", End::TooMany, 79..=79, |random| {
        pick(random, &crafted().too_many)
    }),
];

fn side(random: &mut Random) -> i64 {
    random.pick(&[1, -1])
}

fn with(random: &mut Random, change: impl Fn(&mut Random, &mut Filter)) -> Filter {
    let mut filter = Filter::empty(BUCKETS);
    change(random, &mut filter);
    filter
}

/// One bucket is changed.
fn changed(random: &mut Random, change: impl Fn(&mut Random, &mut Filter, usize)) -> Filter {
    let at = random.below(BUCKETS.into()) as usize;
    with(random, |random, filter| change(random, filter, at))
}

fn of(keys: &[u64], signs: &[i64]) -> Filter {
    let mut filter = Filter::empty(BUCKETS);
    for (&key, &sign) in keys.iter().zip(signs) {
        filter.put(key, sign);
    }
    filter
}

fn several(random: &mut Random, filter: &mut Filter) {
    for _ in 0..random.between(3, 30) {
        filter.put(some_key(random), side(random));
    }
}

/// A key at so many of its places.
fn at_places(random: &mut Random, n: usize) -> Filter {
    let (key, sign) = (some_key(random), side(random));
    let from = random.below(3) as usize;
    let places = quick::places(key, BUCKETS);
    with(random, |_, filter| {
        for i in 0..n {
            filter.put_at(places[(from + i) % 3], key, sign);
        }
    })
}

fn pick(random: &mut Random, from: &[Filter]) -> Filter {
    from[random.below(from.len() as u64) as usize].clone()
}

/// What takes time to find, found once.
struct Crafted {
    twos: Vec<[u64; 2]>,
    threes: Vec<[u64; 3]>,
    other_side: Vec<Filter>,
    same_side: Vec<Filter>,
    long: Vec<Filter>,
    too_many: Vec<Filter>,
}

fn crafted() -> &'static Crafted {
    static CRAFTED: OnceLock<Crafted> = OnceLock::new();
    CRAFTED.get_or_init(craft)
}

fn craft() -> Crafted {
    let mut random = Random::new(0xAF);
    let random = &mut random;
    let pool = Pool::new(random, BUCKETS, 400_000);
    let any_stratum = |i| i % STRATA;
    Crafted {
        twos: (0..64).map(|i| two_alike(random, any_stratum(i))).collect(),
        threes: (0..64)
            .map(|i| three_alike(random, any_stratum(i)))
            .collect(),
        other_side: those(64, || Some(on_the_other_side(random, &pool, &[1, -1]))),
        same_side: those(64, || Some(on_the_same_side(random, &pool, &[1, -1]))),
        long: those(6, || {
            chain(random, &pool, &[1, -1]).filter(|it| is_long(it, false))
        }),
        too_many: those(12, || Some(overfull(random, &pool, 3)).filter(has_too_many)),
    }
}

/// So many of what is found.
fn those(n: usize, mut find: impl FnMut() -> Option<Filter>) -> Vec<Filter> {
    let tried = (0..1_000_000).filter_map(|_| find());
    let found: Vec<Filter> = tried.take(n).collect();
    assert!(found.len() == n, "take another seed");
    found
}

/// One peel more than there are buckets, and nothing would remain.
fn has_too_many(filter: &Filter) -> bool {
    let (end, listed) = filters::peel_by(&mut filter.clone(), 0, 80, false);
    end == End::Complete && listed.len() == 80
}
