//! Compares the proved library with the model on fixed random inputs: exit 0 means no difference.

mod bits;
mod buckets;
mod building;
mod chains;
mod crafted;
mod differ;
mod estimates;
mod estimator;
mod filters;
mod gathered;
mod honest;
mod known;
mod known_filters;
mod library;
mod looked;
mod malicious;
mod messages;
mod model;
mod numbers;
mod packing;
mod pool;
mod quick;
mod random;
mod reading;
mod refused;
mod sessions;
mod sets;
mod tables;

use filters::End;
use gathered::Gathered;
use random::Random;
use std::fmt::Debug;
use std::process::exit;

/// Fewer comparisons than this mean that something was left out.
const LEAST: u64 = 500_000;

/// As do fewer readings of filters (calls that refusals 1 to 3 do not stop), in all or of an end.
const LEAST_READINGS: u64 = 50_000;
const LEAST_OF_AN_END: u64 = 200;

/// A shown answer is cut to this many characters.
const SHOWN: usize = 1200;

/// Counts the comparisons of each subject and stops the program at the first difference, unless
/// they are being gathered.
pub struct Tally {
    subjects: Vec<(&'static str, u64)>,
    seed: u64,
    ends: Vec<(End, u64)>,
    estimates: estimates::Counts,
    looked: looked::Counts,
    messages: messages::Counts,
    sessions: sessions::Counts,
    gathered: Gathered,
}

impl Tally {
    /// Begins a subject and hands out its random numbers.
    pub fn subject(&mut self, name: &'static str, seed: u64) -> Random {
        // Told as it is done: should the library crash, the subject is the one not told yet.
        self.tell_last();
        self.subjects.push((name, 0));
        self.seed = seed;
        Random::new(seed)
    }

    /// The name of the subject that has begun.
    pub fn subject_name(&self) -> &'static str {
        self.subjects.last().expect("a subject has begun").0
    }

    /// Counts one reading.
    pub fn read(&mut self, end: End) {
        match self.ends.iter_mut().find(|(other, _)| *other == end) {
            Some((_, readings)) => *readings += 1,
            None => self.ends.push((end, 1)),
        }
    }

    fn tell_last(&self) {
        if self.gathered.quiet {
            return;
        }
        if let Some((name, compared)) = self.subjects.last() {
            println!("{name}: {compared} compared");
        }
    }

    fn total(&self) -> u64 {
        self.subjects.iter().map(|(_, compared)| compared).sum()
    }

    /// One comparison. The call is put in words only if the answers differ.
    pub fn same<T: PartialEq + Debug>(
        &mut self,
        call: impl FnOnce() -> String,
        model: T,
        library: T,
    ) {
        self.same_of_kind(String::new, call, model, library);
    }

    /// Likewise; where differences are gathered, this one is counted as one of its kind.
    pub fn same_of_kind<T: PartialEq + Debug>(
        &mut self,
        kind: impl FnOnce() -> String,
        call: impl FnOnce() -> String,
        model: T,
        library: T,
    ) {
        let (name, compared) = self.subjects.last_mut().expect("a subject has begun");
        *compared += 1;
        if model == library {
            return;
        }
        if self.gathered.is_on() && !self.gathered.count(kind()) {
            return;
        }
        let (model, library) = (format!("{model:x?}"), format!("{library:x?}"));
        let from = first_difference(&model, &library);
        println!("{name}: DIFFERENCE");
        println!("  seed    {:#x}, comparison {compared}", self.seed);
        println!("  call    {}", excerpt(&call(), 0));
        println!("  model   {}", excerpt(&model, from));
        println!("  library {}", excerpt(&library, from));
        // Those that are gathered are many, and told again by kind.
        if self.gathered.is_on() {
            return;
        }
        println!(
            "  differ  {} | {}",
            around(&model, from),
            around(&library, from)
        );
        println!("  (hexadecimal; a buffer written to is shown with the {GUARD} before and behind what is lent)");
        exit(1);
    }

    /// Tells the differences gathered, and stops the program if there are any.
    pub fn end_gathering(&mut self) {
        if !self.gathered.end() {
            exit(1);
        }
    }
}

/// What is lent stands between this many that are not, so that writing past the end shows.
pub const GUARD: usize = 8;

/// The part of a whole buffer that is lent.
pub fn lent<T>(whole: &mut [T]) -> &mut [T] {
    let end = whole.len() - GUARD;
    &mut whole[GUARD..end]
}

fn first_difference(a: &str, b: &str) -> usize {
    let pairs = a.bytes().zip(b.bytes());
    pairs.take_while(|(a, b)| a == b).count()
}

/// The text, or a part of it around the position if it is too long to be shown.
fn excerpt(text: &str, around: usize) -> String {
    if text.len() <= SHOWN {
        return String::from(text);
    }
    let from = around.saturating_sub(SHOWN / 2);
    let part: String = text.chars().skip(from).take(SHOWN).collect();
    format!("[from character {from}] {part} [cut]")
}

/// The few characters about the position.
fn around(text: &str, at: usize) -> String {
    text.chars().skip(at.saturating_sub(16)).take(32).collect()
}

fn main() {
    let words: Vec<String> = std::env::args().skip(1).collect();
    let words: Vec<&str> = words.iter().map(String::as_str).collect();
    match words[..] {
        ["mutate", calls, seed] => mutate(calls, seed),
        ["mutate", ..] => usage(),
        ["stand-ins"] => stand_ins(None),
        ["stand-ins", part] => stand_ins(Some(part)),
        ["estimates"] => compare_estimates(),
        ["looked"] => compare_looked(),
        ["sessions", ..] => compare(true),
        _ => compare(false),
    }
}

fn usage() {
    println!(
        "usage: compare [estimates | looked | sessions | stand-ins [PART] | mutate CALLS SEED]"
    );
    exit(1);
}

/// A tally of nothing yet, once the model has been held to what is known.
fn begin() -> Tally {
    let checked = known::check_model()
        .and_then(|()| bits::check_sentence())
        .and_then(|()| known_filters::check_model())
        .and_then(|()| looked::check_model())
        .and_then(|()| estimates::check_model())
        .and_then(|()| messages::check_model());
    if let Err(what) = checked {
        println!("the model itself is wrong: {what}");
        exit(1);
    }
    Tally {
        subjects: Vec::new(),
        seed: 0,
        ends: Vec::new(),
        estimates: estimates::Counts::default(),
        looked: looked::Counts::default(),
        messages: messages::Counts::default(),
        sessions: sessions::Counts::default(),
        gathered: Gathered::default(),
    }
}

/// Makes so many mutated calls of the step; with other seeds they are others.
fn mutate(calls: &str, seed: &str) {
    let (Ok(calls), Ok(seed)) = (calls.parse(), seed.parse()) else {
        return usage();
    };
    let mut tally = begin();
    if !sessions::mutated::compare(&mut tally, calls, seed) {
        println!("more mutated calls are asked for, or more of an answer");
        exit(1);
    }
    println!("{calls} mutated calls of seed {seed}, no difference");
}

/// The stand-ins of a part: whether each fault of theirs is found, and none where there is none.
type AreCaught = fn(fn() -> Tally) -> bool;

const STAND_INS: [(&str, AreCaught); 4] = [
    ("packing", bits::stand_ins::are_caught),
    ("estimates", estimates::stand_ins::are_caught),
    ("looked", looked::stand_ins::are_caught),
    ("sessions", sessions::stand_ins::are_caught),
];

/// Puts stand-ins in the place of the library, each with one fault: the comparison must find it.
/// Those of all parts, or of the one that is named.
fn stand_ins(part: Option<&str>) {
    let is_wanted = |name| part.is_none_or(|part| part == name);
    if !STAND_INS.iter().any(|(name, _)| is_wanted(*name)) {
        return usage();
    }
    let mut caught = true;
    for (_, are_caught) in STAND_INS.iter().filter(|(name, _)| is_wanted(*name)) {
        caught &= are_caught(begin);
    }
    if !caught {
        println!("a stand-in was not caught, or one without a fault was");
        exit(1);
    }
}

/// Compares the estimator alone, which costs little time.
fn compare_estimates() {
    let mut tally = begin();
    estimates::compare(&mut tally);
    tally.tell_last();
    estimates_must_be_enough(&tally);
    println!("{} comparisons, no difference", tally.total());
}

/// Compares what is made for the number of buckets looked at alone, likewise.
fn compare_looked() {
    let mut tally = begin();
    looked::compare(&mut tally);
    tally.tell_last();
    looked_must_be_enough(&tally);
    println!("{} comparisons, no difference", tally.total());
}

/// Compares everything; or the sessions alone, which costs less time.
fn compare(sessions_alone: bool) {
    if !sessions_alone {
        differ::must_be_there();
    }
    let mut tally = begin();
    if !sessions_alone {
        compare_lower_layers(&mut tally);
    }
    sessions::compare(&mut tally);

    tally.tell_last();
    if !sessions_alone {
        lower_layers_must_be_enough(&tally);
    }
    if !tally.sessions.are_enough() {
        println!("more steps of sessions are asked for, or more of an answer");
        exit(1);
    }
    let total = tally.total();
    if total < LEAST && !sessions_alone {
        println!("only {total} comparisons, {LEAST} are asked for");
        exit(1);
    }
    println!("{total} comparisons, no difference");
}

fn compare_lower_layers(tally: &mut Tally) {
    numbers::compare(tally);
    packing::compare(tally);
    reading::compare(tally);
    bits::compare(tally);
    buckets::compare(tally);
    tables::compare(tally);
    building::compare(tally);
    refused::compare(tally);
    honest::compare(tally);
    malicious::compare(tally);
    crafted::compare(tally);
    looked::compare(tally);
    estimates::compare(tally);
    messages::compare(tally);
    differ::compare(tally);
}

fn lower_layers_must_be_enough(tally: &Tally) {
    let readings: u64 = tally.ends.iter().map(|(_, readings)| readings).sum();
    for (end, readings) in &tally.ends {
        println!("readings that end {end:?}: {readings}");
    }
    println!("{readings} readings");
    let seldom = tally.ends.iter().any(|&(_, n)| n < LEAST_OF_AN_END);
    if readings < LEAST_READINGS || tally.ends.len() < 5 || seldom {
        println!("{LEAST_READINGS} readings are asked for, {LEAST_OF_AN_END} of each end");
        exit(1);
    }
    looked_must_be_enough(tally);
    estimates_must_be_enough(tally);
    if !messages::are_enough(&tally.messages) {
        println!("more messages are asked for, or more of a kind or of a refusal");
        exit(1);
    }
}

fn estimates_must_be_enough(tally: &Tally) {
    if !tally.estimates.are_enough() {
        println!("more estimates are asked for, or more of a kind");
        exit(1);
    }
}

fn looked_must_be_enough(tally: &Tally) {
    if !tally.looked.are_enough() {
        println!("more numbers of buckets looked at are asked for, or more of a kind");
        exit(1);
    }
}
