//! Stand-ins for packing, each with one fault: the comparison must find each of them, and none
//! where there is no fault. They are of the five functions (plain.rs has those without a fault);
//! most show in messages too, whose counters they then pack and read (through.rs).

mod counters;
mod packing;
mod plain;
mod reading;
mod refusing;
mod spare;
mod through;
mod unpacking;

use super::{compare_calls, slices, Packer};
use crate::Tally;
use plain::PLAIN;
use through::Through;

/// A stand-in by the name of its fault.
type Fault = (&'static str, Packer);

/// The differences that are found, with what differs in words.
fn found(begin: fn() -> Tally, compare: impl FnOnce(&mut Tally)) -> (u64, String) {
    let mut tally = begin();
    tally.gathered.quiet = true;
    tally.gathered.begin();
    compare(&mut tally);
    (tally.gathered.total(), tally.gathered.by_kind())
}

/// Those that the calls themselves show, and messages too.
fn shown() -> Vec<Fault> {
    let lists = [
        packing::FAULTS,
        reading::FAULTS.as_flattened(),
        unpacking::FAULTS,
        counters::FAULTS,
        spare::FAULTS,
    ];
    lists.concat()
}

/// Those that the calls alone show.
fn below() -> Vec<Fault> {
    let lists = [
        packing::BELOW,
        refusing::BELOW,
        reading::BELOW.as_flattened(),
        unpacking::BELOW,
        counters::BELOW,
        spare::BELOW,
    ];
    lists.concat()
}

/// Tells the differences that the calls show, and whether there are any.
fn differs(begin: fn() -> Tally, (name, packer): Fault) -> bool {
    let (differences, kinds) = found(begin, |tally| compare_calls(tally, &packer));
    println!("{name}: {differences} differences: {kinds}");
    differences > 0
}

/// Likewise those that messages show.
fn differs_in_messages(begin: fn() -> Tally, (name, packer): Fault) -> bool {
    let (differences, kinds) = found(begin, |tally| slices::compare(tally, &Through(packer)));
    println!("{name}, in messages: {differences} differences: {kinds}");
    differences > 0
}

/// Whether each stand-in with a fault is found, and none without.
pub fn are_caught(begin: fn() -> Tally) -> bool {
    let no_fault = ("packing without a fault", PLAIN);
    let mut caught = !differs(begin, no_fault) && !differs_in_messages(begin, no_fault);
    let (shown, below) = (shown(), below());
    for &fault in shown.iter().chain(&below) {
        caught &= differs(begin, fault);
    }
    for &fault in &shown {
        caught &= differs_in_messages(begin, fault);
    }
    let (all, in_messages) = (shown.len() + below.len(), shown.len());
    println!("{all} stand-ins with a fault, {in_messages} of them in messages too");
    caught
}
