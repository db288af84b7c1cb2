//! Sessions: the model of a step and of the starts (step.rs, exchange.rs, starts.rs on form.rs,
//! ledger.rs and memory.rs), the comparisons, and what must have come up in them.

mod broken;
mod calls;
mod counts;
mod craft;
mod ends;
mod exchange;
mod form;
mod honest;
mod hostile;
mod kinds;
mod known;
mod ledger;
mod ledgers;
mod limits;
pub mod memory;
pub mod mutated;
mod no_states;
mod peer;
mod readings;
mod rooms;
mod short;
mod slices;
pub mod stand_ins;
mod starting;
mod starts;
mod step;

pub use counts::Counts;

use crate::Tally;

pub fn compare(tally: &mut Tally) {
    known::compare(tally);
    starting::compare(tally);
    lent_too_little(tally);
    broken::compare(tally);
    ledgers::compare(tally);
    no_states::compare(tally);
    ends::compare(tally);
    limits::compare(tally);
    readings::compare(tally);
    honest::compare(tally);
    hostile::compare(tally);
}

/// Each of these calls stands by itself: all differences are told.
fn lent_too_little(tally: &mut Tally) {
    tally.gathered.begin();
    short::compare(tally);
    rooms::compare(tally);
    tally.end_gathering();
}
