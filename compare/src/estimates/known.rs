//! Tests of the estimator by the numbers of the paper: of the model, then of the library.

use super::{build, Whole};
use crate::estimator::{
    self, Answer, Estimate, Estimation, Estimator, Outcome, BUCKETS, PLACES, STRATA,
};
use crate::filters::{End, Filter};
use crate::random::Random;
use crate::sets::table_of;
use crate::{model, Tally};

/// IDs and their strata.
const STRATUM_OF: [(u64, usize); 8] = [
    (1, 0),
    (8, 3),
    (0, 31),
    (u64::MAX, 0),
    (1 << 30, 30),
    (1 << 31, 31),
    (1 << 32, 31),
    (1 << 63, 31),
];

/// A difference, its estimate, its outcome, and the strata that are zero afterwards though
/// something is planted there, from this one on.
struct Case {
    name: &'static str,
    difference: Estimator,
    estimate: Estimate,
    outcome: Outcome,
    zero_from: usize,
}

/// Answers and their numbers for C.
const NUMBERS: [(Answer, [u64; 3]); 5] = [
    (
        Ok((Estimate::Known(48), Outcome::Failing(3, End::Stuck))),
        [0, 1, 48],
    ),
    (Ok((Estimate::Known(0), Outcome::Complete)), [0, 1, 0]),
    (
        Ok((Estimate::Unknown, Outcome::Failing(3, End::Stuck))),
        [0, 0, 0],
    ),
    (Err(1), [1, 0, 0]),
    (Err(2), [2, 0, 0]),
];

const KEY: u64 = 0x0123_4567_89AB_CDEF;

/// Something that is neither pure nor zero.
fn garbage() -> Filter {
    let mut filter = Filter::empty(BUCKETS);
    filter.hashes[11] = 1;
    filter
}

/// The key at one of its three places.
fn lone() -> Filter {
    let mut filter = Filter::empty(BUCKETS);
    let places = model::places(model::crc(KEY), BUCKETS, 3);
    filter.put_at(places[1], KEY, 1);
    filter
}

/// An estimator with so many whole elements in strata, and these in others.
fn planted(elements: &[(usize, u64)], others: &[(usize, Filter)]) -> Estimator {
    let mut difference = Estimator::empty();
    for &(stratum, n) in elements {
        for i in 0..n {
            difference.strata[stratum].put(KEY + i, 1);
        }
    }
    for (stratum, filter) in others {
        difference.strata[*stratum] = filter.clone();
    }
    difference
}

fn cases() -> Vec<Case> {
    let case = |name, difference, estimate, outcome, zero_from| Case {
        name,
        difference,
        estimate,
        outcome,
        zero_from,
    };
    let stuck = |i| Outcome::Failing(i, End::Stuck);
    let repeated = |i| Outcome::Failing(i, End::Repeated);
    let (known, unknown) = (Estimate::Known, Estimate::Unknown);
    vec![
        case(
            "3 listed above, stratum 3 stuck",
            planted(&[(31, 1), (4, 2), (2, 7)], &[(3, garbage())]),
            known(48),
            stuck(3),
            4,
        ),
        case(
            "3 listed above, stratum 3 false",
            planted(&[(31, 1), (4, 2), (2, 7)], &[(3, lone())]),
            known(48),
            repeated(3),
            3,
        ),
        case(
            "a repeat in stratum 20",
            planted(&[(21, 1), (25, 4)], &[(20, lone()), (0, garbage())]),
            known(5 << 21),
            repeated(20),
            20,
        ),
        case(
            "a lone key and nothing else",
            planted(&[], &[(3, lone())]),
            unknown,
            repeated(3),
            0,
        ),
        case(
            "one key in two strata",
            planted(&[(31, 1), (30, 1)], &[]),
            known(2),
            Outcome::Complete,
            0,
        ),
        case(
            "stratum 31 stuck",
            planted(&[(30, 2), (0, 1)], &[(31, garbage())]),
            unknown,
            stuck(31),
            32,
        ),
        case(
            "stratum 31 false",
            planted(&[(30, 2), (0, 1)], &[(31, lone())]),
            unknown,
            repeated(31),
            31,
        ),
        case(
            "nothing above a stuck stratum 0",
            planted(&[], &[(0, garbage())]),
            unknown,
            stuck(0),
            1,
        ),
        case(
            "one above a stuck stratum 0",
            planted(&[(1, 1)], &[(0, garbage())]),
            known(2),
            stuck(0),
            1,
        ),
        case(
            "three above a stuck stratum 30",
            planted(&[(31, 3)], &[(30, garbage())]),
            known(3 << 31),
            stuck(30),
            31,
        ),
        case(
            "nothing",
            Estimator::empty(),
            known(0),
            Outcome::Complete,
            0,
        ),
    ]
}

/// What the case leaves: nothing from that stratum on, all that was planted below.
fn left(case: &Case) -> Estimator {
    let mut left = case.difference.clone();
    left.strata[case.zero_from..].fill(Filter::empty(BUCKETS));
    left
}

fn check(what: &str, right: bool) -> Result<(), String> {
    match right {
        true => Ok(()),
        false => Err(format!("estimator: {what}")),
    }
}

/// Says which value the model gets wrong.
pub fn check_model() -> Result<(), String> {
    check("its places", PLACES == STRATA * BUCKETS as usize)?;
    for (id, stratum) in STRATUM_OF {
        let mut wanted = Estimator::empty();
        wanted.strata[stratum] = Filter::of(&[id], 79, 0);
        check(
            &format!("the stratum of {id:#x}"),
            Estimator::of(&[id]) == wanted,
        )?;
    }
    for (answer, wanted) in NUMBERS {
        let numbers = Estimation::of(answer);
        let numbers = [
            numbers.refusal.into(),
            numbers.known.into(),
            numbers.estimate,
        ];
        check(&format!("the numbers of {answer:?}"), numbers == wanted)?;
    }
    for case in cases() {
        let mut difference = case.difference.clone();
        let read = estimator::read(&mut difference);
        check(case.name, read == (case.estimate, case.outcome))?;
        check(case.name, difference == left(&case))?;
    }
    Ok(())
}

/// The library against the numbers themselves.
pub fn compare(tally: &mut Tally) {
    let mut random = tally.subject("estimator, known values", 0x9F);
    let random = &mut random;
    for (id, stratum) in STRATUM_OF {
        let table = table_of(random, &[id]);
        let columns = Whole::with_room(random);
        let (_, mut built) = build(tally, &table, columns);
        let mut places = model::places(model::crc(id), BUCKETS, 3);
        places.sort_unstable();
        let wanted: Vec<usize> = places.iter().map(|&i| 79 * stratum + i as usize).collect();
        let built = built.lent();
        let used: Vec<usize> = (0..PLACES).filter(|&i| built.counts[i] == 1).collect();
        tally.same(|| format!("the places of {id:#x}"), &wanted, &used);
        for place in wanted {
            let bucket = (built.ids[place], built.hashes[place]);
            let call = || format!("a bucket of {id:#x}");
            tally.same(call, (id, model::crc(id)), bucket);
        }
    }
    for case in cases() {
        one_case(tally, random, &case);
    }
}

/// The difference is planted by the first alone, or both hold something besides.
fn one_case(tally: &mut Tally, random: &mut Random, case: &Case) {
    for more in [&[][..], &[2, 8, 1 << 40]] {
        let besides = Estimator::of(more);
        let first = case.difference.less(&Estimator::empty().less(&besides));
        let mut first = Whole::of(random, &first);
        let mut second = Whole::of(random, &besides);
        let answer = (tally.estimates.library)(first.lent(), second.lent());
        let wanted = Estimation::of(Ok((case.estimate, case.outcome)));
        tally.same(|| String::from(case.name), wanted, answer);
        let found = Estimator::standing_in(&first.lent());
        let call = || format!("what is left: {}", case.name);
        tally.same(call, left(case), found);
    }
}
