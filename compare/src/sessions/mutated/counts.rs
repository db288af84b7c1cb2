//! How many mutated calls were made, of which kind, with which answer and in which state; and how
//! many there must have been.

use super::super::counts::{row, ALL, NO_STATES};
use super::super::memory::{Numbers, Step};
use std::collections::BTreeMap;
use std::time::{Duration, Instant};

/// An answer must come once in so many calls, and so must a state.
const ONCE_IN: u64 = 100_000;

/// A step has no such refusal.
const NONE_OF_A_STEP: usize = 3;

/// So often a line of progress is told.
const TOLD: Duration = Duration::from_secs(10);

pub struct Counts {
    calls: u64,
    /// Those of them that were mutated, and how many of these are asked for.
    mutated: u64,
    asked: u64,
    seed: u64,
    kinds: BTreeMap<&'static str, u64>,
    answers: [u64; 11],
    states: BTreeMap<&'static str, u64>,
    began: Instant,
    told: Instant,
}

impl Counts {
    pub fn new(asked: u64, seed: u64) -> Counts {
        Counts {
            calls: 0,
            mutated: 0,
            asked,
            seed,
            kinds: BTreeMap::new(),
            answers: [0; 11],
            states: BTreeMap::new(),
            began: Instant::now(),
            told: Instant::now(),
        }
    }

    pub fn are_made(&self) -> bool {
        self.mutated >= self.asked
    }

    pub fn call(&mut self, numbers: &Numbers, kinds: &[&'static str], answer: &Step) {
        self.calls += 1;
        self.mutated += u64::from(!kinds.is_empty());
        for kind in if kinds.is_empty() { &["none"] } else { kinds } {
            *self.kinds.entry(kind).or_default() += 1;
        }
        self.answers[answer.refusal as usize] += 1;
        *self.states.entry(row(numbers)).or_default() += 1;
        if self.calls.is_multiple_of(256) && self.told.elapsed() > TOLD {
            self.told = Instant::now();
            let seconds = self.began.elapsed().as_secs();
            let Counts {
                seed,
                mutated,
                asked,
                ..
            } = self;
            eprintln!("seed {seed}: {mutated} of {asked} mutated calls in {seconds} s");
        }
    }

    /// Tells the counts, and whether there are enough of each.
    pub fn are_enough(&self) -> bool {
        let Counts { calls, mutated, .. } = self;
        let seconds = self.began.elapsed().as_secs_f64();
        let rate = *calls as f64 / seconds;
        println!("calls made: {calls}, mutated {mutated}, in {seconds:.1} s, {rate:.0} a second");
        println!("calls by kind of mutation (one that has several counts in each):");
        for (kind, n) in &self.kinds {
            println!("  {kind}: {n}");
        }
        println!("calls by refusal:");
        for (refusal, n) in self.answers.iter().enumerate() {
            println!("  {refusal}: {n}");
        }
        println!("calls by state given:");
        for (state, n) in &self.states {
            println!("  {state}: {n}");
        }
        let mut enough = self.are_made();
        if !enough {
            println!("only {mutated} mutated calls, {} are asked for", self.asked);
        }
        let least = self.asked / ONCE_IN;
        for (refusal, &n) in self.answers.iter().enumerate() {
            if n < least && refusal != NONE_OF_A_STEP {
                println!("refusal {refusal}: only {n} calls, {least} are asked for");
                enough = false;
            }
        }
        for state in ALL.iter().chain(NO_STATES) {
            let n = self.states.get(state).copied().unwrap_or(0);
            if n < least {
                println!("state {state}: only {n} calls, {least} are asked for");
                enough = false;
            }
        }
        enough
    }
}
