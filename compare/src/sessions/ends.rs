//! Comparisons of how a session ends: DONE in 2 and in 3, what comes in 5, and what comes after the
//! end. What each step must answer is known without the model.

use super::calls::{Compared, Delivery};
use super::counts::row;
use super::craft::{near, new_hash, one_of, shuffle, Known};
use super::kinds::{malformed, of_kind, KINDS};
use super::ledger::{xor, Hash, Ledger};
use super::ledgers::Good;
use super::memory::{Step, FAR};
use crate::filters::{id_of, HASH};
use crate::messages::layout::{framed, DONE, ELEMENT};
use crate::random::Random;
use crate::{lent, Tally};

pub fn compare(tally: &mut Tally) {
    tally.sessions.sort = "ends";
    let mut random = tally.subject("ends of sessions", 0x2b0);
    let steps = &mut Steps {
        tally,
        random: &mut random,
    };
    for _ in 0..TIMES {
        for of in SUMS {
            steps.done_in_two(of);
            steps.done_in_three(of);
            steps.last_element(of);
            steps.not_the_last_element(of);
        }
        steps.sum_of_what_is_then_held();
        for unmet in [0, 1, 3] {
            steps.element_not_demanded(unmet);
            steps.what_else_may_not_come(unmet);
        }
    }
    steps.ledgers_in_five();
    steps.through_five();
}

/// How often each case is tried.
const TIMES: usize = 8;

/// Of what a checksum is: of what is held, of all once every demand is met, or of something else.
const SUMS: [&str; 4] = ["held", "all met", "one bit off", "another"];

fn all_met(ledger: &Ledger) -> Hash {
    let unmet = ledger.unmet();
    unmet
        .iter()
        .fold(ledger.checksum(), |sum, hash| xor(&sum, hash))
}

fn sum(random: &mut Random, ledger: &Ledger, of: &str) -> Hash {
    let any = random.next();
    match of {
        "held" => ledger.checksum(),
        "all met" => all_met(ledger),
        "one bit off" => near(random, &all_met(ledger)),
        _ => new_hash(random, any),
    }
}

fn done(random: &mut Random, sum: &Hash) -> Delivery {
    Delivery::new(random, framed(DONE, sum))
}

fn told_unmet(good: &Good) -> &'static str {
    match good.ledger.unmet().is_empty() {
        true => "nothing unmet",
        false => "a demand unmet",
    }
}

fn told_done(good: &Good) -> &'static str {
    match good.numbers.done {
        0 => "DONE went not",
        _ => "DONE went",
    }
}

/// Whether an inquired ID is neither held nor demanded, and a demand was not inquired.
fn told_inquired(ledger: &Ledger) -> [&'static str; 2] {
    let demanded: Vec<u64> = ledger.demanded.iter().map(|hash| id_of(hash)).collect();
    let held = ledger.held();
    let is_open = |id: &u64| !held.contains_key(id) && !demanded.contains(id);
    let open = match ledger.inquired.iter().any(is_open) {
        true => "an open inquiry",
        false => "no open inquiry",
    };
    let inquired = match demanded.iter().all(|id| ledger.inquired.contains(id)) {
        true => "demands inquired",
        false => "a demand not inquired",
    };
    [open, inquired]
}

/// The steps, where they are counted and their random numbers.
struct Steps<'a> {
    tally: &'a mut Tally,
    random: &'a mut Random,
}

impl Steps<'_> {
    /// A ledger of good form with so many demands unmet and IDs only inquired.
    fn good(&mut self, row: (u32, u32), unmet: usize, open: usize) -> Good {
        let [table, met] = [0; 2].map(|_| self.random.between(1, 6) as usize);
        Good::new(self.random, row, [table, met, unmet, open])
    }

    fn few(&mut self, least: u64) -> usize {
        self.random.between(least, 4) as usize
    }

    /// One step, with the answer and the state that it must give; it counts as this case.
    fn takes(
        &mut self,
        words: &[&'static str],
        good: &Good,
        delivery: &Delivery,
        wanted: [u32; 2],
    ) -> (Step, Compared) {
        let mut compared = good.compared(self.random);
        let (step, why) = compared.step(self.tally, self.random, good.numbers, delivery);
        let given = [step.refusal, step.next.state];
        assert!(given == wanted, "{words:?} ({why}): {step:?}");
        let case = [&[row(&good.numbers)], words].concat();
        self.tally.sessions.case(&case);
        (step, compared)
    }

    fn done_in_two(&mut self, of: &'static str) {
        let open = self.few(0);
        let [demanding, inquiring] = [[self.few(1), open], [0, self.few(1)]];
        for [unmet, open] in [demanding, inquiring] {
            let early = self.good((2, 0), unmet, open);
            let sum = sum(self.random, &early.ledger, of);
            let words = ["DONE before ours", told_unmet(&early), of];
            let delivery = done(self.random, &sum);
            self.takes(&words, &early, &delivery, [5, 7]);
        }
        let good = self.good((2, 0), 0, 0);
        let sum = sum(self.random, &good.ledger, of);
        let equal = sum == good.ledger.checksum();
        let delivery = done(self.random, &sum);
        let wanted = if equal { [0, 6] } else { [8, 7] };
        let (step, _) = self.takes(&["DONE after ours", of], &good, &delivery, wanted);
        assert!(step.sent == 0 && step.due == 0 && step.next.done == 1);
    }

    fn done_in_three(&mut self, of: &'static str) {
        for first in [0, 1] {
            let open = self.few(0);
            let good = self.good((3, first), 0, open);
            let sum = sum(self.random, &good.ledger, of);
            let equal = sum == good.ledger.checksum();
            let wanted = if equal { [0, 6] } else { [8, 7] };
            self.compares(&["DONE", "nothing unmet", of], &good, (DONE, sum), wanted);
        }
        let [unmet, open] = [self.few(1), self.few(0)];
        let good = self.good((3, 0), unmet, open);
        let sum = sum(self.random, &good.ledger, of);
        let delivery = done(self.random, &sum);
        let words = ["DONE", "a demand unmet", of];
        let (step, mut compared) = self.takes(&words, &good, &delivery, [0, 5]);
        assert!(step.sent == 0 && step.next.done == good.numbers.done);
        assert!(compared.ledger(&step.next) == good.ledger);
        assert!(lent(&mut compared.model.records)[FAR..FAR + HASH] == sum);
    }

    /// A DONE or the last ELEMENT, after which checksums are compared: if they are equal ours goes.
    fn compares(
        &mut self,
        words: &[&'static str],
        good: &Good,
        (kind, hash): (u32, Hash),
        wanted: [u32; 2],
    ) {
        let delivery = match kind {
            ELEMENT => Delivery::element(self.random, &hash),
            _ => done(self.random, &hash),
        };
        let (step, mut compared) = self.takes(words, good, &delivery, wanted);
        if wanted == [0, 6] {
            let ours = framed(DONE, &all_met(&good.ledger));
            assert!(step.next.done == 1 && compared.out(step.sent) == ours);
        } else {
            assert!(step.next.done == good.numbers.done && step.sent == 0);
            assert!(compared.ledger(&step.next) == good.ledger);
        }
    }

    /// In 5, where by the form DONE may have gone or not.
    fn waiting(&mut self, unmet: usize, went: u32, of: &str) -> Good {
        let open = self.few(0);
        let mut good = self.good((5, 0), unmet, open);
        good.numbers.done = went;
        good.far = sum(self.random, &good.ledger, of);
        good
    }

    fn last_element(&mut self, of: &'static str) {
        for went in [0, 1] {
            let good = self.waiting(1, went, of);
            let equal = good.far == all_met(&good.ledger);
            let wanted = if equal { [0, 6] } else { [8, 7] };
            let words = ["the last ELEMENT", told_done(&good), of];
            let last = good.ledger.unmet()[0];
            self.compares(&words, &good, (ELEMENT, last), wanted);
        }
    }

    fn not_the_last_element(&mut self, of: &'static str) {
        for went in [0, 1] {
            let unmet = self.few(2);
            let good = self.waiting(unmet, went, of);
            let words = ["not the last ELEMENT", told_done(&good), of];
            let hash = one_of(self.random, &good.ledger.unmet()).expect("some are unmet");
            self.goes_on(&words, good, hash);
        }
    }

    /// A checksum that would be right if no more were to come.
    fn sum_of_what_is_then_held(&mut self) {
        let unmet = self.few(2);
        let mut good = self.waiting(unmet, 0, "held");
        let hash = one_of(self.random, &good.ledger.unmet()).expect("some are unmet");
        good.far = xor(&good.far, &hash);
        self.goes_on(&["the far checksum of what is then held"], good, hash);
    }

    /// An ELEMENT that is not the last: it is gained, and 5 goes on with the same far checksum.
    fn goes_on(&mut self, words: &[&'static str], mut good: Good, hash: Hash) {
        let delivery = Delivery::element(self.random, &hash);
        let (step, mut compared) = self.takes(words, &good, &delivery, [0, 5]);
        assert!(step.sent == 0 && step.next.done == good.numbers.done);
        good.ledger.gained.insert(hash);
        assert!(compared.ledger(&step.next) == good.ledger);
        assert!(lent(&mut compared.model.records)[FAR..FAR + HASH] == good.far);
    }

    fn element_not_demanded(&mut self, unmet: usize) {
        let good = self.waiting(unmet, 0, "all met");
        let met: Vec<Hash> = good.ledger.gained.iter().copied().collect();
        let met = one_of(self.random, &met).expect("some are met");
        let of_table = one_of(self.random, &good.ledger.table).expect("it has some");
        let to = one_of(self.random, &good.ledger.unmet()).unwrap_or(met);
        let near = near(self.random, &to);
        for (word, hash) in [("of the table", of_table), ("met", met), ("near", near)] {
            let words = ["ELEMENT not demanded", word, told_unmet(&good)];
            let delivery = Delivery::element(self.random, &hash);
            self.takes(&words, &good, &delivery, [7, 7]);
        }
    }

    /// In 5 every kind but ELEMENT, after the end every kind.
    fn what_else_may_not_come(&mut self, unmet: usize) {
        for (state, next) in [(5, 7), (6, 6), (7, 7)] {
            let open = self.few(0);
            let good = self.good((state, 0), unmet, open);
            let known = Known::new(good.numbers, good.ledger.clone());
            for (name, kind) in KINDS {
                let delivery = of_kind(self.random, &known, kind);
                if (state, kind) != (5, ELEMENT) {
                    self.takes(&[name, told_unmet(&good)], &good, &delivery, [5, next]);
                }
                let delivery = malformed(self.random, &delivery);
                let refusal = if state == 5 { 4 } else { 5 };
                let words = ["malformed", told_unmet(&good)];
                self.takes(&words, &good, &delivery, [refusal, next]);
            }
        }
    }

    /// Any that the form allows, whether a session reaches it or not.
    fn ledgers_in_five(&mut self) {
        for i in 0..400 {
            let [unmet, open] = [i % 3, self.random.pick(&[0, 2])];
            let good = self.good((5, 0), unmet, open);
            let delivery = good.message(self.random);
            let mut compared = good.compared(self.random);
            let (step, _) = compared.step(self.tally, self.random, good.numbers, &delivery);
            assert!(matches!(step.refusal, 0 | 4 | 5 | 7 | 8), "{step:?}");
            let (unmet, went) = (told_unmet(&good), told_done(&good));
            let [open, inquired] = told_inquired(&good.ledger);
            let case = ["a ledger in 5", unmet, went, open, inquired];
            self.tally.sessions.case(&case);
        }
    }

    /// From 3 through 5 to the end, with one ELEMENT and with several.
    fn through_five(&mut self) {
        for _ in 0..TIMES {
            for (end, of, wanted) in [
                ("finished", "all met", [0, 6]),
                ("aborted", "one bit off", [8, 7]),
            ] {
                let several = self.few(2);
                for (told, unmet) in [("one ELEMENT", 1), ("several ELEMENTs", several)] {
                    let good = self.good((3, 0), unmet, 0);
                    self.elements_after_done(&good, of, wanted);
                    self.tally.sessions.case(&["3 to 5", told, end]);
                }
            }
        }
    }

    /// DONE with demands unmet, then their ELEMENTs in any order.
    fn elements_after_done(&mut self, good: &Good, of: &str, wanted: [u32; 2]) {
        let sum = sum(self.random, &good.ledger, of);
        let mut deliveries = vec![done(self.random, &sum)];
        let mut elements = good.ledger.unmet();
        shuffle(self.random, &mut elements);
        for hash in &elements {
            deliveries.push(Delivery::element(self.random, hash));
        }
        let mut compared = good.compared(self.random);
        let mut numbers = good.numbers;
        for (i, delivery) in deliveries.iter().enumerate() {
            let (step, _) = compared.step(self.tally, self.random, numbers, delivery);
            let wanted = if i == elements.len() { wanted } else { [0, 5] };
            assert!([step.refusal, step.next.state] == wanted, "{step:?}");
            numbers = step.next;
        }
    }
}
