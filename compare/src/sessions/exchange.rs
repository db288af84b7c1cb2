//! The messages that carry no filter: what each asks of the ledger, changes in it, and makes due.

use super::ledger::{hashes_of, Hash, Ledger};
use super::memory::Numbers;
use super::step::{Why, FINISHED};
use crate::filters::{id_of, MOST_HASHES};
use crate::messages::layout::Message;
use crate::messages::writers;
use std::collections::BTreeSet;

/// What a session holds, apart from columns and lists.
pub struct Session {
    pub numbers: Numbers,
    pub ledger: Ledger,
    pub far: Hash,
}

/// Messages to be sent, or hashes of elements to be sent.
pub struct Due {
    pub messages: Vec<Message>,
    pub bare: Vec<Hash>,
    pub why: Why,
}

fn due(messages: Vec<Message>, why: Why) -> Result<Due, (u32, Why)> {
    Ok(Due {
        messages,
        bare: Vec::new(),
        why,
    })
}

impl Session {
    /// Takes one message that may come; a refused one may leave this in any way.
    pub fn take(&mut self, message: Message, hash: Hash) -> Result<Due, (u32, Why)> {
        match message {
            Message::Inquiry { salt, ids } => self.inquiry(salt, &ids),
            Message::Offer(hashes) => self.offer(&hashes_of(&hashes)),
            Message::Demand(hashes) => self.demand(&hashes_of(&hashes)),
            Message::Element(_) => self.element(hash),
            Message::Done(check) => self.done(check.try_into().expect("64 bytes")),
            Message::Slice(_) => unreachable!("slices are taken before"),
        }
    }

    /// IDs held are offered in the order asked, others ignored.
    fn inquiry(&mut self, salt: u32, ids: &[u64]) -> Result<Due, (u32, Why)> {
        if salt != self.numbers.salt {
            return Err((7, "another salt in an inquiry"));
        }
        let held = self.ledger.held();
        let (mut asked, mut offered) = (BTreeSet::new(), Vec::new());
        for id in ids {
            let Some(hash) = held.get(id) else {
                continue;
            };
            if self.ledger.asked.contains(id) {
                return Err((7, "asked before"));
            }
            if !asked.insert(*id) {
                return Err((7, "asked twice in a message"));
            }
            offered.push(*hash);
        }
        self.ledger.asked.extend(asked);
        self.ledger.offered.extend(offered.iter().copied());
        let why = match offered.len() {
            0 => "inquiry of none held",
            n if n < ids.len() => "inquiry of some held",
            _ => "inquiry of all held",
        };
        due(writers::listed(&offered.concat(), Message::Offer), why)
    }

    /// What is not ignored is demanded.
    fn offer(&mut self, hashes: &[Hash]) -> Result<Due, (u32, Why)> {
        let held = self.ledger.held();
        let demanded: BTreeSet<Hash> = self.ledger.demanded.iter().copied().collect();
        let mut left: Vec<Hash> = Vec::new();
        let mut seen = BTreeSet::new();
        for hash in hashes {
            let is_held = held.get(&id_of(hash)) == Some(hash);
            if !is_held && !demanded.contains(hash) && seen.insert(*hash) {
                left.push(*hash);
            }
        }
        let unmet: BTreeSet<u64> = self.ledger.unmet().iter().map(|hash| id_of(hash)).collect();
        let table: BTreeSet<u64> = self.ledger.table.iter().map(|hash| id_of(hash)).collect();
        let inquired: BTreeSet<u64> = self.ledger.inquired.iter().copied().collect();
        let mut ids = BTreeSet::new();
        for id in left.iter().map(|hash| id_of(hash)) {
            if self.numbers.state == 2 && !inquired.contains(&id) {
                return Err((7, "not inquired"));
            }
            if table.contains(&id) {
                return Err((7, "shared with the table"));
            }
            if held.contains_key(&id) {
                return Err((7, "shared with a met one"));
            }
            if unmet.contains(&id) {
                return Err((7, "shared with a demanded one"));
            }
            if !ids.insert(id) {
                return Err((7, "shared in the message"));
            }
        }
        self.ledger.demand(&left);
        if self.ledger.held_and_wanted().len() > MOST_HASHES {
            return Err((10, "too many offered"));
        }
        let why = match left.len() {
            0 => "offer of none left",
            n if n < hashes.len() => "offer of some left",
            _ => "offer of all left",
        };
        due(writers::listed(&left.concat(), Message::Demand), why)
    }

    /// Each hash must have been offered, once each.
    fn demand(&mut self, hashes: &[Hash]) -> Result<Due, (u32, Why)> {
        let mut now = BTreeSet::new();
        for hash in hashes {
            if !self.ledger.offered.contains(hash) {
                return Err((7, "never offered"));
            }
            if self.ledger.served.contains(hash) {
                return Err((7, "demanded before"));
            }
            if !now.insert(*hash) {
                return Err((7, "demanded twice in a message"));
            }
        }
        self.ledger.served.extend(now);
        Ok(Due {
            messages: Vec::new(),
            bare: hashes.to_vec(),
            why: "demand",
        })
    }

    fn our_done(&self) -> Vec<Message> {
        vec![Message::Done(self.ledger.checksum().to_vec())]
    }

    /// Its hash must be demanded and unmet; it is gained.
    fn element(&mut self, hash: Hash) -> Result<Due, (u32, Why)> {
        if !self.ledger.unmet().contains(&hash) {
            let why = match self.ledger.held().get(&id_of(&hash)) == Some(&hash) {
                true if self.ledger.table.contains(&hash) => "element of the table",
                true => "element met already",
                false => "element not demanded",
            };
            return Err((7, why));
        }
        self.ledger.gained.insert(hash);
        let last = self.ledger.unmet().is_empty();
        match self.numbers.state {
            2 if self.ledger.all_inquired_are_held() => {
                self.numbers.done = 1;
                due(self.our_done(), "element, DONE due")
            }
            5 if last => self.compare(self.far, "the last element"),
            _ => due(Vec::new(), "element"),
        }
    }

    /// In 2 it is compared once ours has gone; in 3 once no demand is unmet, and kept till then.
    fn done(&mut self, check: Hash) -> Result<Due, (u32, Why)> {
        match self.numbers.state {
            2 if self.numbers.done == 0 => Err((5, "DONE too early")),
            3 if !self.ledger.unmet().is_empty() => {
                self.far = check;
                self.numbers.state = 5;
                due(Vec::new(), "DONE, a demand unmet")
            }
            _ => self.compare(check, "DONE"),
        }
    }

    /// Equal checksums end the session; from 3 and 5 our DONE goes before.
    fn compare(&mut self, far: Hash, why: Why) -> Result<Due, (u32, Why)> {
        if far != self.ledger.checksum() {
            return Err((8, why));
        }
        let sends = matches!(self.numbers.state, 3 | 5);
        self.numbers.state = FINISHED;
        if !sends {
            return due(Vec::new(), why);
        }
        self.numbers.done = 1;
        due(self.our_done(), why)
    }
}
