//! How often each answer was given in each state and why, and how often it must have been.

use super::memory::{Lent, Numbers, Step};
use super::step::Why;
use crate::library::session as library;
use std::collections::{BTreeMap, BTreeSet};

pub type Rows = &'static [&'static str];

/// The states, the first message in 3 apart; and the numbers that are no state.
pub const ALL: Rows = &["0", "1", "2", "3 first", "3", "5", "6", "7"];
pub const NO_STATES: Rows = &["4", "8", "9", "10", "above", "2^32 - 1"];

pub fn row(numbers: &Numbers) -> &'static str {
    let names = ["0", "1", "2", "3", "4", "5", "6", "7", "8", "9", "10"];
    match (numbers.state, numbers.first) {
        (3, 1) => "3 first",
        (u32::MAX, _) => "2^32 - 1",
        (state, _) => names.get(state as usize).unwrap_or(&"above"),
    }
}

/// Fewer steps of a sort mean that something was left out.
const LEAST_STEPS: [(&str, u64); 8] = [
    ("ends", 1_500),
    ("honest", 20_000),
    ("hostile", 100_000),
    ("ledgers", 20_000),
    ("rooms", 1_000),
    ("short", 60_000),
    ("starts", 500),
    ("states", 12_000),
];

/// An answer given for a reason in a state fewer times than this is as good as untested.
const LEAST: u64 = 5;

/// A step of the library, or of what stands in for it.
pub type LibraryStep = for<'a> fn(Numbers, Lent<'a>) -> Step;

pub struct Counts {
    /// What is being compared.
    pub sort: &'static str,
    /// With what.
    pub library: LibraryStep,
    steps: BTreeMap<&'static str, u64>,
    given: BTreeMap<(u32, Why, &'static str), u64>,
    starts: BTreeMap<(u32, Why), u64>,
    cases: BTreeMap<Case, u64>,
}

/// What came up beside an answer, in some words.
pub type Case = Vec<&'static str>;

impl Default for Counts {
    fn default() -> Counts {
        Counts {
            sort: "",
            library: library::step,
            steps: BTreeMap::new(),
            given: BTreeMap::new(),
            starts: BTreeMap::new(),
            cases: BTreeMap::new(),
        }
    }
}

impl Counts {
    pub fn step(&mut self, numbers: &Numbers, answer: &Step, why: Why) {
        *self.steps.entry(self.sort).or_default() += 1;
        let key = (answer.refusal, why, row(numbers));
        *self.given.entry(key).or_default() += 1;
    }

    pub fn start(&mut self, answer: &Step, why: Why) {
        *self.steps.entry("starts").or_default() += 1;
        *self.starts.entry((answer.refusal, why)).or_default() += 1;
    }

    pub fn case(&mut self, words: &[&'static str]) {
        *self.cases.entry(words.to_vec()).or_default() += 1;
    }

    fn of(&self, refusal: u32, why: Why, row: &'static str) -> u64 {
        self.given.get(&(refusal, why, row)).copied().unwrap_or(0)
    }

    /// Tells the counts, and whether there are enough of each.
    pub fn are_enough(&self) -> bool {
        let mut enough = true;
        for (sort, least) in LEAST_STEPS {
            let steps = self.steps.get(sort).copied().unwrap_or(0);
            println!("{sort}: {steps} steps of sessions");
            enough &= steps >= least;
        }
        for refusal in 0..=10 {
            let of_row = |row| {
                let given = self.given.iter();
                let alike =
                    given.filter(|((number, _, other), _)| (*number, *other) == (refusal, row));
                alike.map(|(_, n)| n).sum::<u64>()
            };
            for rows in [ALL, NO_STATES] {
                let numbers: Vec<u64> = rows.iter().copied().map(of_row).collect();
                println!("answer {refusal} in {rows:?}: {numbers:?}");
            }
        }
        for ((refusal, why), n) in &self.starts {
            println!("answer {refusal} to a start ({why}): {n}");
        }
        for (refusal, why) in STARTS {
            enough &= self.starts.get(&(refusal, why)).copied().unwrap_or(0) >= LEAST;
        }
        let mut least = u64::MAX;
        for (refusal, why, rows) in MUST {
            for row in *rows {
                let n = self.of(*refusal, why, row);
                if n < LEAST {
                    println!("answer {refusal} ({why}) in state {row}: only {n}");
                    enough = false;
                }
                least = least.min(n);
            }
        }
        println!("each answer for each reason, in each state where it can be: at least {least}");
        enough & self.cases_are_enough() & self.nothing_is_new()
    }

    /// Each case must have come up, and no other.
    fn cases_are_enough(&self) -> bool {
        let must: BTreeSet<Case> = CASES.iter().flat_map(|lists| combined(lists)).collect();
        let mut enough = true;
        let mut least = u64::MAX;
        for case in &must {
            let n = self.cases.get(case).copied().unwrap_or(0);
            if n < LEAST {
                println!("case {case:?}: only {n}");
                enough = false;
            }
            least = least.min(n);
        }
        for case in self.cases.keys().filter(|case| !must.contains(*case)) {
            println!("case {case:?}: cannot be");
            enough = false;
        }
        println!("each of {} cases: at least {least}", must.len());
        enough
    }

    /// Whatever was given is one of those listed: what is not may be a mistake of the model.
    pub fn nothing_is_new(&self) -> bool {
        let mut known = true;
        for (refusal, why, row) in self.given.keys() {
            let listed = MUST
                .iter()
                .chain(MAY)
                .any(|(number, name, rows)| number == refusal && name == why && rows.contains(row));
            if !listed {
                println!("answer {refusal} ({why}) in state {row}: cannot be");
                known = false;
            }
        }
        known
    }
}

const STARTS: [(u32, Why); 5] = [
    (0, "started"),
    (1, "table"),
    (2, "marks"),
    (2, "out"),
    (3, "size or salt"),
];

const READING: Rows = &["0", "1", "3 first"];
const TALKING: Rows = &["2", "3 first", "3"];
const LATER: Rows = &["2", "3"];
const RUNNING: Rows = &["0", "1", "2", "3 first", "3", "5"];
pub const UNTOUCHED: Rows = &["0", "1", "3 first"];
pub const TOUCHED: Rows = &["2", "3", "5", "6", "7"];

/// What must have been given: the answer, why, and in which states.
const MUST: &[(u32, Why, Rows)] = &[
    (0, "a slice laid", &["0", "3 first"]),
    (0, "complete, nothing listed", READING),
    (0, "complete, ours alone", READING),
    (0, "complete, theirs alone", READING),
    (0, "complete, both", READING),
    (0, "stuck", READING),
    (0, "inquiry of none held", &["3 first", "3"]),
    (0, "inquiry of some held", &["3 first", "3"]),
    (0, "inquiry of all held", &["3 first", "3"]),
    (0, "offer of none left", TALKING),
    (0, "offer of some left", TALKING),
    (0, "offer of all left", TALKING),
    (0, "demand", LATER),
    (0, "element", &["2", "3", "5"]),
    (0, "element, DONE due", &["2"]),
    (0, "the last element", &["5"]),
    (0, "DONE, a demand unmet", &["3"]),
    (0, "DONE", TALKING),
    (1, "table", ALL),
    (1, "state", NO_STATES),
    (1, "first", &["0", "1", "2", "3", "5", "6", "7"]),
    (1, "done", ALL),
    (1, "demanded", ALL),
    (1, "inquired", ALL),
    (1, "swaps", ALL),
    (1, "size", ALL),
    (1, "salt", ALL),
    (1, "columns", &["1"]),
    (1, "a table's mark", ALL),
    (1, "a record's mark", TOUCHED),
    (1, "records ascend", TOUCHED),
    (1, "inquired ascend", TOUCHED),
    (1, "offered are held", TOUCHED),
    (1, "asked are held", TOUCHED),
    (1, "served were offered", ALL),
    (1, "no ID is shared", TOUCHED),
    (1, "at most 4,096", TOUCHED),
    (1, "nothing is inquired", UNTOUCHED),
    (1, "nothing is asked", UNTOUCHED),
    (1, "nothing is offered", UNTOUCHED),
    (1, "nothing is demanded", UNTOUCHED),
    (1, "DONE has not gone", UNTOUCHED),
    (1, "demands were inquired", &["2"]),
    (1, "DONE went, not all is held", &["2"]),
    (1, "all is held, DONE went not", &["2"]),
    (1, "several clauses", ALL),
    (1, "several clauses", NO_STATES),
    (2, "records", ALL),
    (2, "marks", ALL),
    (2, "inquired", ALL),
    (2, "ids", ALL),
    (2, "hashes", ALL),
    (2, "counts", ALL),
    (2, "ours", ALL),
    (2, "theirs", ALL),
    (2, "hash", ALL),
    (2, "out", ALL),
    (2, "several slices", ALL),
    (4, "malformed", RUNNING),
    (4, "a gap before the slice", &["0", "3 first"]),
    (4, "the first slice again", &["1"]),
    (4, "another size", &["1"]),
    (4, "another salt in a slice", &["1"]),
    (4, "another width", &["1"]),
    (5, "ended", &["6", "7"]),
    (5, "DEMAND out of turn", &["0", "1", "5"]),
    (5, "INQUIRY out of turn", &["0", "1", "2", "5"]),
    (5, "OFFER out of turn", &["0", "1", "5"]),
    (5, "ELEMENT out of turn", &["0", "1"]),
    (5, "DONE out of turn", &["0", "1", "5"]),
    (5, "IBF out of turn", &["2", "3", "5"]),
    (5, "IBF LAST out of turn", &["2", "3", "5"]),
    (5, "DONE too early", &["2"]),
    (6, "repeated", READING),
    (6, "too many peels", &["0", "3 first"]),
    (6, "contradicted", READING),
    (7, "another salt in an inquiry", &["3 first", "3"]),
    (7, "asked before", &["3"]),
    (7, "asked twice in a message", &["3 first", "3"]),
    (7, "not inquired", &["2"]),
    (7, "shared with the table", TALKING),
    (7, "shared with a met one", LATER),
    (7, "shared with a demanded one", LATER),
    (7, "shared in the message", TALKING),
    (7, "never offered", TALKING),
    (7, "demanded before", LATER),
    (7, "demanded twice in a message", LATER),
    (7, "element of the table", &["2", "3 first", "3", "5"]),
    (7, "element met already", &["2", "3", "5"]),
    (7, "element not demanded", &["2", "3 first", "3", "5"]),
    (8, "DONE", TALKING),
    (8, "the last element", &["5"]),
    (9, "a 17th swap, stuck", READING),
    (9, "a 17th swap, false", READING),
    (10, "too many read", READING),
    (10, "too many offered", &["3 first", "3"]),
];

/// What may be given besides.
const MAY: &[(u32, Why, Rows)] = &[(6, "too many peels", &["1"])];

const KINDS: Rows = &[
    "DEMAND", "INQUIRY", "OFFER", "IBF", "ELEMENT", "IBF LAST", "DONE",
];
const BUT_ELEMENT: Rows = &["DEMAND", "INQUIRY", "OFFER", "IBF", "IBF LAST", "DONE"];
const SLICES: Rows = &[
    "records", "marks", "inquired", "ids", "hashes", "counts", "ours", "theirs", "hash", "out",
];
const SUMS: Rows = &["held", "all met", "one bit off", "another"];
const UNMET: Rows = &["a demand unmet", "nothing unmet"];
const WENT: Rows = &["DONE went", "DONE went not"];

/// The cases that must have come up: one word of each list (no_states.rs, ends.rs).
const CASES: &[&[Rows]] = &[
    // No state: the ledger's shape, what comes, and what is lent.
    &[
        NO_STATES,
        ALL,
        KINDS,
        &["well-formed", "malformed"],
        &["enough lent", "a slice short", "nothing lent"],
    ],
    &[NO_STATES, &["short"], SLICES],
    &[NO_STATES, &["a broken ledger"]],
    // DONE, and of what its checksum is.
    &[&["2"], &["DONE before ours"], UNMET, SUMS],
    &[&["2"], &["DONE after ours"], SUMS],
    &[&["3"], &["DONE"], UNMET, SUMS],
    &[&["3 first"], &["DONE"], &["nothing unmet"], SUMS],
    // ELEMENTs in 5, and of what the far checksum is.
    &[&["5"], &["the last ELEMENT"], WENT, SUMS],
    &[&["5"], &["not the last ELEMENT"], WENT, SUMS],
    &[&["5"], &["the far checksum of what is then held"]],
    &[
        &["5"],
        &["ELEMENT not demanded"],
        &["of the table", "met", "near"],
        UNMET,
    ],
    // What else may come in 5, and after the end.
    &[&["5"], BUT_ELEMENT, UNMET],
    &[&["5"], &["malformed"], UNMET],
    &[&["6", "7"], KINDS, UNMET],
    &[&["6", "7"], &["malformed"], UNMET],
    // The ledgers that may stand in 5.
    &[
        &["a ledger in 5"],
        UNMET,
        WENT,
        &["an open inquiry", "no open inquiry"],
        &["a demand not inquired", "demands inquired"],
    ],
    // From 3 through 5 to the end.
    &[
        &["3 to 5"],
        &["one ELEMENT", "several ELEMENTs"],
        &["finished", "aborted"],
    ],
];

/// One word of each list, in all ways.
fn combined(lists: &[Rows]) -> Vec<Case> {
    let mut all = vec![Case::new()];
    for list in lists {
        let longer = |case: &Case| -> Vec<Case> {
            let with = |&word| [&case[..], &[word]].concat();
            list.iter().map(with).collect()
        };
        all = all.iter().flat_map(longer).collect();
    }
    all
}
