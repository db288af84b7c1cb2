//! An estimate without a fault, made of parts that a fault can be put into.

use crate::estimator::{self, Estimation, Estimator, BUCKETS, STRATA};
use crate::filters::{self, End, Filter};
use crate::model::Columns;

/// The end of a stratum's reading, and the IDs listed, each with whether it is ours.
pub type Peeled = (End, Vec<(u64, bool)>);

/// What is known of the strata when the answer is given.
pub struct Seen {
    pub first: Estimator,
    pub second: Estimator,
    pub difference: Estimator,
    /// What the readings leave of the difference.
    pub left: Estimator,
    /// How many of ours and of theirs each stratum listed that was read.
    pub listed: [[u64; 2]; STRATA],
    /// The first stratum that is not complete, and its end.
    pub failing: Option<(usize, End)>,
}

impl Seen {
    /// How many a stratum listed.
    pub fn listed_in(&self, i: usize) -> u64 {
        self.listed[i].iter().sum()
    }

    /// How many of ours and of theirs were listed in the strata that are complete.
    pub fn sides(&self) -> [u64; 2] {
        let lowest = self.failing.map_or(0, |(i, _)| i + 1);
        let add = |sum: [u64; 2], one: &[u64; 2]| [sum[0] + one[0], sum[1] + one[1]];
        self.listed[lowest..].iter().fold([0; 2], add)
    }

    pub fn above(&self) -> u64 {
        self.sides().iter().sum()
    }

    pub fn is_unknown(&self) -> bool {
        self.failing.is_some() && self.above() == 0
    }
}

pub const UNKNOWN: Estimation = Estimation {
    refusal: 0,
    known: 0,
    estimate: 0,
};

pub fn known(estimate: u64) -> Estimation {
    Estimation {
        known: 1,
        estimate,
        ..UNKNOWN
    }
}

pub fn refused(refusal: u32) -> Estimation {
    Estimation { refusal, ..UNKNOWN }
}

/// So many listed above stratum i.
pub fn times(above: u64, i: usize) -> u64 {
    above << (i + 1)
}

/// The answer without a fault.
pub fn right(seen: &Seen) -> Estimation {
    match seen.failing {
        Some(_) if seen.above() == 0 => UNKNOWN,
        Some((i, _)) => known(times(seen.above(), i)),
        None => known(seen.above()),
    }
}

pub fn peel(stratum: &mut Filter) -> Peeled {
    filters::peel_by(stratum, 0, BUCKETS as usize, false)
}

type Refuse = dyn Fn(&Columns, &Columns) -> Option<Estimation>;
type Peel = dyn Fn(&mut Filter) -> Peeled;
type Answer = dyn Fn(&Seen) -> Estimation;
type Leave = dyn Fn(&Seen, Columns, Columns);

/// The parts of an estimate; the last one writes to the columns.
pub struct Parts {
    refuse: Box<Refuse>,
    peel: Box<Peel>,
    answer: Box<Answer>,
    leave: Box<Leave>,
}

impl Parts {
    pub fn plain() -> Parts {
        Parts {
            refuse: Box::new(|first, second| estimator::refusal(first, second).map(refused)),
            peel: Box::new(peel),
            answer: Box::new(right),
            leave: Box::new(|seen, first, _| seen.left.whole().lay(first)),
        }
    }

    /// Likewise with another answer.
    pub fn answering(answer: impl Fn(&Seen) -> Estimation + 'static) -> Parts {
        Parts {
            answer: Box::new(answer),
            ..Parts::plain()
        }
    }

    /// With other columns left.
    pub fn leaving(leave: impl Fn(&Seen, Columns, Columns) + 'static) -> Parts {
        Parts {
            leave: Box::new(leave),
            ..Parts::plain()
        }
    }

    /// With another reading of a stratum.
    pub fn peeling(peel: impl Fn(&mut Filter) -> Peeled + 'static) -> Parts {
        Parts {
            peel: Box::new(peel),
            ..Parts::plain()
        }
    }

    /// With other refusals.
    pub fn refusing(refuse: impl Fn(&Columns, &Columns) -> Option<Estimation> + 'static) -> Parts {
        Parts {
            refuse: Box::new(refuse),
            ..Parts::plain()
        }
    }

    pub fn estimate(&self, first: Columns, second: Columns) -> Estimation {
        if let Some(refused) = (self.refuse)(&first, &second) {
            return refused;
        }
        let seen = self.see(
            Estimator::standing_in(&first),
            Estimator::standing_in(&second),
        );
        (self.leave)(&seen, first, second);
        (self.answer)(&seen)
    }

    /// Reads the strata from the highest downwards, up to the first that is not complete.
    fn see(&self, first: Estimator, second: Estimator) -> Seen {
        let difference = first.less(&second);
        let mut seen = Seen {
            left: difference.clone(),
            first,
            second,
            difference,
            listed: [[0; 2]; STRATA],
            failing: None,
        };
        for i in (0..STRATA).rev() {
            let stratum = &mut seen.left.strata[i];
            let (end, listed) = (self.peel)(stratum);
            let ours = listed.iter().filter(|&&(_, ours)| ours).count();
            seen.listed[i] = [ours as u64, (listed.len() - ours) as u64];
            if matches!(end, End::Complete) {
                continue;
            }
            if !matches!(end, End::Stuck) {
                *stratum = Filter::empty(BUCKETS);
            }
            seen.failing = Some((i, end));
            break;
        }
        seen
    }
}
