//! Steps whose answers are worked out by hand from the papers: the model must give them, and so
//! must the library.

use super::calls::{Compared, Delivery};
use super::ledger::{Hash, Ledger};
use super::ledgers::Good;
use super::memory::{Numbers, Step, FAR};
use super::peer::Peer;
use super::step::refused;
use crate::filters::{Filter, HASH};
use crate::messages::layout::{framed, Message, Slice, DONE, IBF};
use crate::messages::writers;
use crate::random::Random;
use crate::{lent, Tally};

pub fn compare(tally: &mut Tally) {
    tally.sessions.sort = "ledgers";
    let mut random = tally.subject("known steps", 0x280);
    let steps = &mut Steps {
        tally,
        random: &mut random,
    };
    steps.nothing_at_all();
    steps.order_of_refusals();
    steps.slices();
    steps.swaps();
    steps.inquiries_and_offers();
    steps.demands_and_elements();
    steps.ends();
    steps.forms();
}

/// The steps, where they are counted and their random numbers.
struct Steps<'a> {
    tally: &'a mut Tally,
    random: &'a mut Random,
}

/// The hash of this ID, with the same byte behind it all along.
fn h(id: u64, behind: u8) -> Hash {
    let mut hash = [behind; HASH];
    hash[..8].copy_from_slice(&id.to_be_bytes());
    hash
}

/// In this state with a table of IDs 1, 2 and 0x80, and nothing else.
fn in_state(state: u32, first: u32) -> Good {
    let ledger = Ledger {
        table: vec![h(1, 7), h(2, 7), h(0x80, 7)],
        ..Ledger::default()
    };
    let numbers = Numbers {
        state,
        first,
        size: 100,
        salt: 4,
        width: 3,
        // Nothing is inquired: in 2 DONE has gone.
        done: u32::from(state == 2),
        ..Numbers::default()
    };
    Good {
        numbers,
        ledger,
        far: [0; HASH],
    }
}

fn with(mut good: Good, change: impl FnOnce(&mut Ledger)) -> Good {
    change(&mut good.ledger);
    good.numbers.demanded = good.ledger.demanded.len() as u32;
    good.numbers.inquired = good.ledger.inquired.len() as u32;
    if good.numbers.state == 2 {
        good.numbers.done = u32::from(good.ledger.all_inquired_are_held());
    }
    good
}

/// Inquired 50 in 2, which is demanded too.
fn wants_50(demanded: bool) -> Good {
    with(in_state(2, 0), |ledger| {
        ledger.inquired = vec![50];
        ledger.demanded = if demanded { vec![h(50, 1)] } else { vec![] };
    })
}

/// The last message of the filter of these IDs.
fn filter(ids: &[u64], size: u32, salt: u32) -> Message {
    let filter = Filter::of(ids, size, salt);
    let slices = writers::slices(&filter.ids, &filter.hashes, &filter.counts, salt);
    slices.into_iter().last().expect("one at least")
}

fn inquiry(ids: &[u64]) -> Message {
    let (salt, ids) = (4, ids.to_vec());
    Message::Inquiry { salt, ids }
}

fn offer(hashes: &[Hash]) -> Message {
    Message::Offer(hashes.concat())
}

fn demand(hashes: &[Hash]) -> Message {
    Message::Demand(hashes.concat())
}

fn done(sum: Hash) -> Message {
    Message::Done(sum.to_vec())
}

/// An ELEMENT goes with the hash, whatever it says.
fn element() -> Message {
    Message::Element(vec![1, 2, 3])
}

impl Steps<'_> {
    /// Takes these bytes, and must answer this refusal and state.
    fn bytes(
        &mut self,
        good: &Good,
        bytes: Vec<u8>,
        hash: &[u8],
        wanted: [u32; 2],
    ) -> (Step, Compared) {
        let mut compared = good.compared(self.random);
        let hash = hash.to_vec();
        let delivery = Delivery { bytes, hash };
        let (step, why) = compared.step(self.tally, self.random, good.numbers, &delivery);
        assert!([step.refusal, step.next.state] == wanted, "{why}: {step:?}");
        (step, compared)
    }

    fn takes(&mut self, good: &Good, message: &Message, wanted: [u32; 2]) -> (Step, Compared) {
        self.bytes(good, message.bytes(), &[9; HASH], wanted)
    }

    fn takes_element(&mut self, good: &Good, hash: Hash, wanted: [u32; 2]) -> (Step, Compared) {
        self.bytes(good, element().bytes(), &hash, wanted)
    }

    /// Two empty tables: 37 buckets are 465 bytes, and both ends send a DONE of zeros.
    fn nothing_at_all(&mut self) {
        let (tally, random) = (&mut *self.tally, &mut *self.random);
        let (mut sender, deliveries) = Peer::sender(tally, random, &[], (37, 63));
        let mut receiver = Peer::receiver(tally, random, &[]);
        assert!(deliveries.len() == 1 && deliveries[0].bytes.len() == 465);
        let step = receiver.take(tally, random, &deliveries[0]);
        let zeros = receiver.outgoing(random, &step);
        assert!(step.next.state == 2 && zeros[0].bytes == framed(DONE, &[0; HASH]));
        let step = sender.take(tally, random, &zeros[0]);
        let zeros = sender.outgoing(random, &step);
        assert!(step.next.state == 6 && zeros[0].bytes == framed(DONE, &[0; HASH]));
        let step = receiver.take(tally, random, &zeros[0]);
        assert!(step.next.state == 6 && step.sent == 0);
        // ID 0 alone, against nothing: it is ours.
        let mut one = Peer::receiver(tally, random, &h(0, 3));
        let step = one.take(tally, random, &deliveries[0]);
        assert!(step.sent == 68 + 68 && step.next.done == 1);
        assert!(lent(&mut one.compared.model.ours)[0] == 0);
    }

    fn order_of_refusals(&mut self) {
        self.bytes(&in_state(6, 0), Vec::new(), &[9; HASH], [5, 6]);
        self.bytes(&in_state(7, 0), vec![1], &[9; HASH], [5, 7]);
        self.bytes(&in_state(0, 0), framed(DONE, &[0; 63]), &[9; HASH], [4, 7]);
        self.bytes(&in_state(2, 0), framed(563, &[0; 64]), &[9; HASH], [4, 7]);
        self.bytes(&in_state(3, 0), Vec::new(), &[9; HASH], [4, 7]);
        // A slice of the wrong type is malformed even where none may come.
        let Message::Slice(slice) = filter(&[1], 37, 0) else {
            unreachable!()
        };
        self.bytes(
            &in_state(2, 0),
            framed(IBF, &slice.body()),
            &[9; HASH],
            [4, 7],
        );
        // The hash is judged whatever comes, after the form and before the end.
        let zeros = done([0; HASH]).bytes();
        self.bytes(&in_state(3, 0), zeros.clone(), &[9; 63], [2, 3]);
        self.bytes(&in_state(6, 0), zeros.clone(), &[9; 63], [2, 6]);
        let mut broken = in_state(7, 0);
        broken.numbers.size = 36;
        self.bytes(&broken, zeros, &[9; 63], [1, 7]);
    }

    fn slices(&mut self) {
        let last = filter(&[], 2521, 4);
        for (state, first, wanted) in [(0, 0, 4), (2, 0, 5), (3, 1, 4), (3, 0, 5), (5, 0, 5)] {
            self.takes(&in_state(state, first), &last, [wanted, 7]);
        }
        // The first message in 3 ends it, though all of it was ignored.
        let (step, mut compared) = self.takes(&in_state(3, 1), &inquiry(&[99, 99]), [0, 3]);
        assert!(step.next.first == 0 && step.sent == 0);
        let delivery = Delivery::new(self.random, filter(&[], 37, 9).bytes());
        let (step, _) = compared.step(self.tally, self.random, step.next, &delivery);
        assert!(step.refusal == 5);
        // A filter need not match anything of ours.
        let (step, _) = self.takes(&in_state(3, 1), &filter(&[1, 2], 37, 9), [0, 2]);
        assert!([step.next.size, step.next.salt, step.next.done] == [37, 9, 1]);
        // In 1 nothing fits that is not the rest, and no width is judged.
        let mut half = in_state(1, 0);
        half.numbers.size = 2521;
        half.numbers.width = 1;
        self.takes(&half, &last, [0, 3]);
        for width in [0, 2, 40] {
            half.numbers.width = width;
            self.takes(&half, &last, [4, 7]);
        }
        self.takes(&in_state(1, 0), &filter(&[], 100, 4), [4, 7]);
        // Columns are judged up to 2,520.
        for (place, wanted) in [(2519, [1, 1]), (2520, [5, 7])] {
            let mut compared = half.compared(self.random);
            compared.change(|memory| lent(&mut memory.counts)[place] = -1);
            let delivery = Delivery::new(self.random, done([0; HASH]).bytes());
            let (step, _) = compared.step(self.tally, self.random, half.numbers, &delivery);
            assert!([step.refusal, step.next.state] == wanted);
        }
    }

    fn swaps(&mut self) {
        // A bucket that no set makes: stuck. One element at one place alone: false.
        let Message::Slice(slice) = filter(&[1, 2, 0x80], 37, 5) else {
            unreachable!()
        };
        let mut stuck = slice.clone();
        stuck.ids[3] ^= 5;
        stuck.counts[3] ^= 1;
        let places = crate::quick::places(7, 37);
        let mut lone = Filter::of(&[], 37, 5);
        lone.put_at(places[0], 7, 1);
        let lone = writers::slices(&lone.ids, &lone.hashes, &lone.counts, 5).remove(0);
        let stuck = Message::Slice(Slice { width: 3, ..stuck });
        for (state, first) in [(0, 0), (3, 1)] {
            let mut good = in_state(state, first);
            for (message, refusal) in [(&stuck, 0), (&lone, 6)] {
                let (step, _) = self.takes(&good, message, [refusal, 3]);
                assert!([step.next.size, step.next.salt, step.next.swaps] == [74, 6, 1]);
                assert!(step.next.first == 1 && step.next.width == 0 && step.sent > 470);
            }
            good.numbers.swaps = 15;
            self.takes(&good, &stuck, [0, 3]);
            good.numbers.swaps = 16;
            for message in [&stuck, &lone] {
                let mut compared = good.compared(self.random);
                compared.change(|memory| {
                    lent(&mut memory.counts).fill(8);
                    lent(&mut memory.ours).fill(8);
                });
                let delivery = Delivery::new(self.random, message.bytes());
                let (step, _) = compared.step(self.tally, self.random, good.numbers, &delivery);
                assert!(step.refusal == 9 && step.sent == 0);
                assert!(
                    step.next
                        == Numbers {
                            state: 7,
                            ..good.numbers
                        }
                );
                assert!(lent(&mut compared.model.counts)[36..38] == [0, 8]);
                assert!(lent(&mut compared.model.ours)[36..38] == [0, 8]);
            }
        }
    }

    fn inquiries_and_offers(&mut self) {
        let three = in_state(3, 0);
        self.takes(&three, &inquiry(&[2, 2]), [7, 7]);
        let (step, mut compared) = self.takes(&three, &inquiry(&[0x80, 5, 1]), [0, 3]);
        assert!(compared.out(step.sent) == offer(&[h(0x80, 7), h(1, 7)]).bytes());
        let other = Message::Inquiry {
            salt: 5,
            ids: vec![99],
        };
        self.takes(&three, &other, [7, 7]);

        let (step, mut compared) = self.takes(&three, &offer(&[h(5, 1), h(5, 1), h(1, 7)]), [0, 3]);
        assert!(compared.out(step.sent) == demand(&[h(5, 1)]).bytes());
        self.takes(&three, &offer(&[h(1, 8)]), [7, 7]);
        self.takes(&three, &offer(&[h(5, 1), h(5, 2)]), [7, 7]);
        self.takes(&wants_50(false), &offer(&[h(50, 1)]), [0, 2]);
        self.takes(&wants_50(false), &offer(&[h(50, 1), h(51, 1)]), [7, 7]);
        self.takes(&wants_50(false), &offer(&[h(50, 1), h(50, 2)]), [7, 7]);
        self.takes(&wants_50(true), &offer(&[h(50, 2)]), [7, 7]);
        self.takes(&wants_50(true), &offer(&[h(50, 1), h(2, 7)]), [0, 2]);
        for (n, wanted) in [(4096, [10, 7]), (4095, [0, 3])] {
            let many = with(in_state(3, 0), |ledger| {
                ledger.table = (0..n).map(|id| h(id, 7)).collect();
            });
            self.takes(&many, &offer(&[h(5000, 1)]), wanted);
            self.takes(&many, &offer(&[h(5000, 1), h(1, 1)]), [7, 7]);
        }
    }

    fn demands_and_elements(&mut self) {
        for state in [2, 3] {
            let offered = with(in_state(state, 0), |ledger| {
                ledger.offered = [h(1, 7), h(2, 7)].into();
            });
            let both = demand(&[h(2, 7), h(1, 7)]);
            let (step, mut compared) = self.takes(&offered, &both, [0, state]);
            assert!([step.due, step.sent] == [2, 0]);
            assert!(compared.out(2 * HASH) == [h(2, 7), h(1, 7)].concat());
            // It is no broken ledger, and not to be demanded once more.
            let delivery = Delivery::new(self.random, demand(&[h(1, 7)]).bytes());
            let (step, _) = compared.step(self.tally, self.random, step.next, &delivery);
            assert!(step.refusal == 7);
            self.takes(&offered, &demand(&[h(1, 7), h(1, 7)]), [7, 7]);
            self.takes(&offered, &demand(&[h(1, 7), h(0x80, 7)]), [7, 7]);
            self.takes_element(&offered, h(1, 7), [7, 7]);
        }
        let (step, _) = self.takes_element(&wants_50(true), h(50, 1), [0, 2]);
        assert!(step.sent == 68 && step.next.done == 1);
        self.takes_element(&wants_50(true), h(50, 2), [7, 7]);
        let two = with(wants_50(true), |ledger| ledger.inquired.push(51));
        let (step, _) = self.takes_element(&two, h(50, 1), [0, 2]);
        assert!(step.sent == 0 && step.next.done == 0);
        let (step, _) = self.takes_element(&demanding(3), h(50, 1), [0, 3]);
        assert!(step.sent == 0);
    }

    fn ends(&mut self) {
        // The XOR of three bytes 7 is 7, and with 1 it is 6; the IDs are 1, 2, 0x80 and 50.
        let (now, then) = (h(0x83, 7), h(0x83 ^ 50, 6));
        self.takes(&wants_50(false), &done(now), [5, 7]);
        let (step, _) = self.takes(&in_state(2, 0), &done(now), [0, 6]);
        assert!(step.sent == 0);
        self.takes(&in_state(2, 0), &done(then), [8, 7]);
        let (step, mut compared) = self.takes(&in_state(3, 1), &done(now), [0, 6]);
        assert!(step.next.done == 1 && compared.out(step.sent) == done(now).bytes());
        self.takes(&in_state(3, 0), &done(then), [8, 7]);
        let (step, mut compared) = self.takes(&demanding(3), &done(then), [0, 5]);
        assert!(step.sent == 0 && step.next.done == 0);
        assert!(lent(&mut compared.model.records)[FAR..FAR + HASH] == then);
        let mut last = demanding(5);
        last.far = then;
        let (step, mut compared) = self.takes_element(&last, h(50, 1), [0, 6]);
        assert!(step.next.done == 1 && compared.out(step.sent) == done(then).bytes());
        last.far = now;
        let (step, mut compared) = self.takes_element(&last, h(50, 1), [8, 7]);
        assert!(compared.ledger(&step.next).gained.is_empty());
    }

    fn forms(&mut self) {
        let zeros = done([0; HASH]);
        // No state: told before what is short, and before what comes is looked at.
        for state in [4, 8, 9, 10, u32::MAX] {
            let (step, _) = self.takes(&in_state(state, 0), &zeros, [1, state]);
            assert!(step == refused(1, in_state(state, 0).numbers));
            self.bytes(&in_state(state, 0), Vec::new(), &[], [1, state]);
            self.takes_element(&demanding(state), h(50, 1), [1, state]);
        }
        // Offered before the first message; a demand or a gain that is in the table.
        let offered = |ledger: &mut Ledger| ledger.offered = [h(1, 7)].into();
        self.takes(&with(in_state(3, 1), offered), &zeros, [1, 3]);
        let demanded = |ledger: &mut Ledger| ledger.demanded = vec![h(1, 7)];
        self.takes(&with(in_state(3, 0), demanded), &zeros, [1, 3]);
        let gained = |ledger: &mut Ledger| {
            ledger.demanded = vec![h(1, 7)];
            ledger.gained = [h(1, 7)].into();
        };
        self.takes(&with(in_state(3, 0), gained), &zeros, [1, 3]);
    }
}

/// In this state with an unmet demand of 50.
fn demanding(state: u32) -> Good {
    with(in_state(state, 0), |ledger| {
        ledger.demanded = vec![h(50, 1)]
    })
}
