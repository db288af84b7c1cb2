//! Peers and pairs of them: what one is to send reaches the other, message by message.

use super::calls::{Compared, Delivery};
use super::ledger::{hashes_of, Hash};
use super::memory::{Numbers, Step};
use crate::filters::HASH;
use crate::messages::layout;
use crate::random::Random;
use crate::sets::table_of;
use crate::Tally;
use std::collections::{BTreeSet, VecDeque};

/// One end: its memory, its numbers, and what is on the way to it.
pub struct Peer {
    pub compared: Compared,
    pub numbers: Numbers,
    pub inbox: VecDeque<Delivery>,
}

impl Peer {
    /// One that waits for a filter.
    pub fn receiver(tally: &mut Tally, random: &mut Random, table: &[u8]) -> Peer {
        let mut compared = Compared::with_room(random, table);
        let start = compared.start_receiver(tally);
        Peer::started(compared, start)
    }

    /// One that sends a filter, and the messages of it.
    pub fn sender(
        tally: &mut Tally,
        random: &mut Random,
        table: &[u8],
        (size, salt): (u32, u32),
    ) -> (Peer, Vec<Delivery>) {
        let mut compared = Compared::with_room(random, table);
        let start = compared.start_sender(tally, size, salt);
        let mut peer = Peer::started(compared, start);
        let deliveries = peer.outgoing(random, &start);
        (peer, deliveries)
    }

    fn started(compared: Compared, start: Step) -> Peer {
        assert!(start.refusal == 0);
        Peer {
            compared,
            numbers: start.next,
            inbox: VecDeque::new(),
        }
    }

    /// Takes a message for good.
    pub fn take(&mut self, tally: &mut Tally, random: &mut Random, delivery: &Delivery) -> Step {
        let (step, _) = self.compared.step(tally, random, self.numbers, delivery);
        self.numbers = step.next;
        step
    }

    /// What is to be sent after a step, one by one: its messages, or an ELEMENT for each bare hash.
    pub fn outgoing(&mut self, random: &mut Random, step: &Step) -> Vec<Delivery> {
        let mut deliveries = Vec::new();
        let bytes = self.compared.out(step.sent);
        let mut at = 0;
        while at < bytes.len() {
            let header = layout::at(&bytes, at);
            assert!(
                header.kind != layout::MALFORMED,
                "what is sent is well laid"
            );
            deliveries.push(Delivery::new(random, bytes[at..header.next].to_vec()));
            at = header.next;
        }
        for hash in hashes_of(&self.compared.out(step.due * HASH)) {
            deliveries.push(Delivery::element(random, &hash));
        }
        deliveries
    }

    pub fn held(&mut self) -> BTreeSet<Hash> {
        let numbers = self.numbers;
        self.compared
            .ledger(&numbers)
            .held()
            .into_values()
            .collect()
    }
}

/// How a pair ended.
#[derive(Clone, Copy, Debug, PartialEq, Eq)]
pub enum PairEnd {
    Finished,
    TooManySwaps,
    TooManyElements,
}

/// Two tables: so many elements are in both, in the sender's alone, in the receiver's alone.
pub struct Tables {
    pub sender: Vec<u8>,
    pub receiver: Vec<u8>,
}

impl Tables {
    pub fn new(random: &mut Random, ids: &[u64], [common, sender]: [usize; 2]) -> Tables {
        let union = hashes_of(&table_of(random, ids));
        let place = |id: &u64| {
            ids.iter()
                .position(|other| other == id)
                .expect("one of them")
        };
        let mut tables = Tables {
            sender: Vec::new(),
            receiver: Vec::new(),
        };
        let mut sorted: Vec<u64> = ids.to_vec();
        sorted.sort_unstable();
        for (id, hash) in sorted.iter().zip(union) {
            let at = place(id);
            if at < common + sender {
                tables.sender.extend(hash);
            }
            if at < common || at >= common + sender {
                tables.receiver.extend(hash);
            }
        }
        tables
    }

    pub fn union(&self) -> BTreeSet<Hash> {
        let all = [hashes_of(&self.sender), hashes_of(&self.receiver)].concat();
        all.into_iter().collect()
    }
}

pub struct Pair {
    pub peers: [Peer; 2],
    union: BTreeSet<Hash>,
}

impl Pair {
    /// The sender is peer 0; its filter is on the way.
    pub fn new(
        tally: &mut Tally,
        random: &mut Random,
        tables: &Tables,
        filter: (u32, u32),
    ) -> Pair {
        let (sender, deliveries) = Peer::sender(tally, random, &tables.sender, filter);
        let mut receiver = Peer::receiver(tally, random, &tables.receiver);
        receiver.inbox.extend(deliveries);
        Pair {
            peers: [sender, receiver],
            union: tables.union(),
        }
    }

    /// Runs to the end. Before each step something else may be tried on the peer whose turn it is.
    pub fn run(
        &mut self,
        tally: &mut Tally,
        random: &mut Random,
        mut before: impl FnMut(&mut Tally, &mut Random, &mut Peer),
    ) -> PairEnd {
        loop {
            let turn = match [0, 1].map(|i| self.peers[i].inbox.is_empty()) {
                [true, true] => break,
                [false, true] => 0,
                [true, false] => 1,
                [false, false] => random.below(2) as usize,
            };
            let peer = &mut self.peers[turn];
            before(tally, random, peer);
            let delivery = peer.inbox.pop_front().expect("not empty");
            let step = peer.take(tally, random, &delivery);
            let deliveries = peer.outgoing(random, &step);
            self.peers[1 - turn].inbox.extend(deliveries);
            match step.refusal {
                0 | 6 => {}
                9 => return PairEnd::TooManySwaps,
                10 if self.union.len() > 4096 => return PairEnd::TooManyElements,
                refusal => panic!("an honest pair ends with refusal {refusal}"),
            }
        }
        for peer in &mut self.peers {
            assert!(
                peer.numbers.state == 6,
                "an honest pair ends in {:?}",
                peer.numbers
            );
            assert!(
                peer.held() == self.union,
                "an honest pair ends with the union"
            );
        }
        PairEnd::Finished
    }
}
