//! One call by the model and by the library, each on a memory of its own, all of it compared.

use super::ledger::{Hash, Ledger};
use super::memory::{set, Difference, Memory, Numbers, Rooms, Step};
use super::step::Why;
use super::{starts, step};
use crate::library::session as library;
use crate::messages::layout;
use crate::random::Random;
use crate::{lent, Tally};

/// A message on its way, and the hash that the caller works out where it is an ELEMENT.
#[derive(Clone, Debug, PartialEq)]
pub struct Delivery {
    pub bytes: Vec<u8>,
    pub hash: Vec<u8>,
}

impl Delivery {
    /// A message with any hash beside it.
    pub fn new(random: &mut Random, bytes: Vec<u8>) -> Delivery {
        let len = random.pick(&[64, 64, 64, 64, 65, 80]);
        let hash = random.bytes(len);
        Delivery { bytes, hash }
    }

    /// An ELEMENT of this hash; what it says is not looked at.
    pub fn element(random: &mut Random, hash: &Hash) -> Delivery {
        let len = match random.below(150) {
            0 => layout::MOST_CONTENT,
            _ => random.pick(&[1, 2, 60, 64, 68]),
        };
        let content = random.bytes(len);
        let mut delivery = Delivery::new(random, layout::framed(layout::ELEMENT, &content));
        delivery.hash[..64].copy_from_slice(hash);
        delivery
    }
}

/// The model's memory and the library's side by side, and once more as it was before a trial.
pub struct Compared {
    pub model: Memory,
    library: Memory,
    kept: Option<Memory>,
    kept_is_current: bool,
}

impl Compared {
    pub fn new(memory: Memory) -> Compared {
        Compared {
            library: memory.clone(),
            model: memory,
            kept: None,
            kept_is_current: false,
        }
    }

    pub fn with_room(random: &mut Random, table: &[u8]) -> Compared {
        Compared::new(Memory::with_room(random, table))
    }

    /// What the ledger says.
    pub fn ledger(&mut self, numbers: &Numbers) -> Ledger {
        Ledger::decode(numbers, &self.model.lent())
    }

    /// Changes both alike.
    pub fn change(&mut self, change: impl Fn(&mut Memory)) {
        change(&mut self.model);
        change(&mut self.library);
        self.kept_is_current = false;
    }

    /// The start of what is lent as the outgoing buffer.
    pub fn out(&mut self, len: usize) -> Vec<u8> {
        lent(&mut self.model.out)[..len].to_vec()
    }

    fn lay(&mut self, random: &mut Random, delivery: &Delivery) {
        set(random, &mut self.model.message, &delivery.bytes);
        set(random, &mut self.model.hash, &delivery.hash);
        self.library.message.clone_from(&self.model.message);
        self.library.hash.clone_from(&self.model.hash);
    }

    /// One step, compared.
    pub fn step(
        &mut self,
        tally: &mut Tally,
        random: &mut Random,
        numbers: Numbers,
        delivery: &Delivery,
    ) -> (Step, Why) {
        self.lay(random, delivery);
        self.kept_is_current = false;
        self.compare(tally, numbers)
    }

    /// One step, compared; then both memories are as they were before it.
    pub fn trial(
        &mut self,
        tally: &mut Tally,
        random: &mut Random,
        numbers: Numbers,
        delivery: &Delivery,
    ) -> (Step, Why) {
        if !self.kept_is_current {
            match &mut self.kept {
                Some(kept) => kept.become_copy(&self.model),
                None => self.kept = Some(self.model.clone()),
            }
            self.kept_is_current = true;
        }
        self.lay(random, delivery);
        let (step, why) = self.compare(tally, numbers);
        if matches!(step.refusal, 0 | 6 | 9 | 10) {
            let kept = self.kept.as_ref().expect("kept above");
            self.model.become_copy(kept);
            self.library.become_copy(kept);
        }
        (step, why)
    }

    fn compare(&mut self, tally: &mut Tally, numbers: Numbers) -> (Step, Why) {
        let (model, why) = step::step(numbers, self.model.lent());
        let library = (tally.sessions.library)(numbers, self.library.lent());
        tally.sessions.step(&numbers, &model, why);
        let differences = self.model.differences(&self.library);
        let rooms = self.model.lent().rooms();
        let message = lent(&mut self.model.message);
        let call = || {
            let (short, message) = (told_short(&rooms), told(message));
            format!("step {numbers:?} ({why}), {short}, of {message}")
        };
        same_step(tally, call, (model, why), library, differences);
        (model, why)
    }

    pub fn start_receiver(&mut self, tally: &mut Tally) -> Step {
        let (model, why) = starts::receiver(self.model.lent());
        let library = library::start_receiver(self.library.lent());
        self.started(
            tally,
            || String::from("start_receiver"),
            model,
            library,
            why,
        )
    }

    pub fn start_sender(&mut self, tally: &mut Tally, size: u32, salt: u32) -> Step {
        let (model, why) = starts::sender(size, salt, self.model.lent());
        let library = library::start_sender(size, salt, self.library.lent());
        let call = || format!("start_sender of size {size:#x} at salt {salt:#x}");
        self.started(tally, call, model, library, why)
    }

    fn started(
        &mut self,
        tally: &mut Tally,
        call: impl Fn() -> String,
        model: Step,
        library: Step,
        why: Why,
    ) -> Step {
        tally.sessions.start(&model, why);
        self.kept_is_current = false;
        let bytes = lent(&mut self.model.table).len();
        let call = || format!("{} ({why}), a table of {bytes:#x} bytes", call());
        let differences = self.model.differences(&self.library);
        same(tally, call, model, library, differences);
        model
    }
}

pub fn same(
    tally: &mut Tally,
    call: impl Fn() -> String,
    model: Step,
    library: Step,
    differences: Vec<Difference>,
) {
    let call = || format!("{}; the memories differ at {differences:x?}", call());
    tally.same(call, (model, true), (library, differences.is_empty()));
}

/// Likewise of a step, told as one of its kind where differences are gathered.
pub fn same_step(
    tally: &mut Tally,
    call: impl Fn() -> String,
    (model, why): (Step, Why),
    library: Step,
    differences: Vec<Difference>,
) {
    let kind = || {
        let slices: Vec<&str> = differences.iter().map(|at| at.slice).collect();
        let memory = match slices.is_empty() {
            true => String::from("the same"),
            false => format!("different in {}", slices.join(", ")),
        };
        let [ours, other] = [model.refusal, library.refusal];
        format!("model {ours} ({why}), library {other}, memory {memory}")
    };
    let call = || format!("{}; the memories differ at {differences:x?}", call());
    tally.same_of_kind(kind, call, (model, true), (library, differences.is_empty()));
}

/// The slices that are short, in words.
pub fn told_short(rooms: &Rooms) -> String {
    let short = rooms.iter().filter(|(_, there, asked)| there < asked);
    let words: Vec<String> = short
        .map(|(name, there, asked)| format!("{name} {there} of {asked}"))
        .collect();
    match words.is_empty() {
        true => String::from("nothing short"),
        false => format!("short (decimal): {}", words.join(", ")),
    }
}

/// A message in words.
pub fn told(bytes: &[u8]) -> String {
    let header = layout::read(bytes);
    let len = bytes.len();
    let start = &bytes[..len.min(140)];
    format!("{len:#x} bytes, read as {header:?}, that begin {start:02x?}")
}
