//! How often each outcome and each answer came up in estimates, and how often it must have.

use crate::estimator::{Estimate, Estimation, Outcome, STRATA};
use crate::filters::End;
use crate::library::estimator as library;
use crate::model::Columns;

/// Fewer estimates than this (calls that are not refused) mean that something was left out, as do
/// fewer of an outcome: all strata complete, the first failing one stuck, or false; or fewer that
/// fail first at a stratum, be it stuck or false; or fewer of these that are unknown, or known.
const LEAST: usize = 8_000;
const LEAST_OF_AN_OUTCOME: usize = 2_000;
const LEAST_AT_A_STRATUM: usize = 50;
const LEAST_OF_AN_ANSWER: usize = 40;

/// An estimate of the library, or of what stands in for it.
pub type LibraryEstimate = Box<dyn Fn(Columns, Columns) -> Estimation>;

pub struct Counts {
    /// What the model is compared with.
    pub library: LibraryEstimate,
    made: Vec<(Estimate, Outcome)>,
}

impl Default for Counts {
    fn default() -> Counts {
        Counts {
            library: Box::new(library::estimate),
            made: Vec::new(),
        }
    }
}

fn is_stuck(outcome: Outcome) -> bool {
    matches!(outcome, Outcome::Failing(_, End::Stuck))
}

fn fails_at(outcome: Outcome, i: usize) -> bool {
    matches!(outcome, Outcome::Failing(at, _) if at == i)
}

impl Counts {
    pub fn made(&mut self, estimate: Estimate, outcome: Outcome) {
        self.made.push((estimate, outcome));
    }

    fn number(&self, wanted: impl Fn(Estimate, Outcome) -> bool) -> usize {
        let made = self.made.iter();
        made.filter(|&&(estimate, outcome)| wanted(estimate, outcome))
            .count()
    }

    /// Tells the outcomes and the answers, and whether there are enough of each.
    pub fn are_enough(&self) -> bool {
        let outcomes = self.outcomes_are_enough();
        let answers = self.answers_are_enough();
        println!("{} estimates", self.made.len());
        self.made.len() >= LEAST && outcomes && answers
    }

    fn outcomes_are_enough(&self) -> bool {
        let ends = |end| self.number(|_, is| matches!(is, Outcome::Failing(_, it) if it == end));
        let complete = self.number(|_, is| is == Outcome::Complete);
        let [stuck, repeated, too_many] = [End::Stuck, End::Repeated, End::TooMany].map(ends);
        println!("estimates with all strata complete: {complete}");
        println!("estimates that fail first at a stuck stratum: {stuck}");
        println!("at one that repeats an element: {repeated}, that has too many: {too_many}");
        let of_a_stratum = |i| {
            let failing = self.number(|_, is| fails_at(is, i));
            let stuck = self.number(|_, is| fails_at(is, i) && is_stuck(is));
            [stuck, failing - stuck]
        };
        let least = (0..STRATA).flat_map(of_a_stratum).min().unwrap_or(0);
        println!("at each stratum, either stuck or false: at least {least}");
        let kinds = [complete, stuck, repeated + too_many];
        kinds.iter().all(|&n| n >= LEAST_OF_AN_OUTCOME)
            && too_many > 0
            && least >= LEAST_AT_A_STRATUM
    }

    fn answers_are_enough(&self) -> bool {
        let zero = self.number(|estimate, _| estimate == Estimate::Known(0));
        let unknown = self.number(|estimate, _| estimate == Estimate::Unknown);
        println!("estimates that are 0: {zero}, that are unknown: {unknown}");
        let of_a_stratum = |i, unknown| {
            [true, false].map(|stuck| {
                self.number(|estimate, is| {
                    fails_at(is, i)
                        && is_stuck(is) == stuck
                        && (estimate == Estimate::Unknown) == unknown
                })
            })
        };
        let unknown = (0..STRATA).flat_map(|i| of_a_stratum(i, true)).min();
        // Nothing lies above the highest.
        let known = (0..STRATA - 1).flat_map(|i| of_a_stratum(i, false)).min();
        let (unknown, known) = (unknown.unwrap_or(0), known.unwrap_or(0));
        println!("at each, unknown: at least {unknown}; at each but the highest, known: {known}");
        [zero, unknown, known]
            .iter()
            .all(|&n| n >= LEAST_OF_AN_ANSWER)
    }
}
