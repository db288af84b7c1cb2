//! The exported functions of the estimator, likewise.

use super::filters::start_mut;
use crate::estimator::Estimation;
use crate::model::Columns;
use std::mem::offset_of;

extern "C" {
    fn tandawire_estimator_build(
        table: *const u8,
        table_len: usize,
        ids: *mut u64,
        ids_len: usize,
        hashes: *mut u32,
        hashes_len: usize,
        counts: *mut i64,
        counts_len: usize,
    ) -> u32;
    fn tandawire_estimate(
        ids: *mut u64,
        ids_len: usize,
        hashes: *mut u32,
        hashes_len: usize,
        counts: *mut i64,
        counts_len: usize,
        ids2: *const u64,
        ids2_len: usize,
        hashes2: *const u32,
        hashes2_len: usize,
        counts2: *const i64,
        counts2_len: usize,
    ) -> TandawireEstimation;
}

#[repr(C)]
struct TandawireEstimation {
    refusal: u32,
    known: u32,
    estimate: u64,
}

// C's struct has 16 bytes and no gap.
const _: () = assert!(
    size_of::<TandawireEstimation>() == 16
        && offset_of!(TandawireEstimation, known) == 4
        && offset_of!(TandawireEstimation, estimate) == 8
);

// Safety, for both below: as in library.rs.
// What is only read is taken as if it might be written to: should it be, it must show.

pub fn build(table: &mut [u8], columns: Columns) -> u32 {
    unsafe {
        tandawire_estimator_build(
            start_mut(table),
            table.len(),
            start_mut(columns.ids),
            columns.ids.len(),
            start_mut(columns.hashes),
            columns.hashes.len(),
            start_mut(columns.counts),
            columns.counts.len(),
        )
    }
}

pub fn estimate(first: Columns, second: Columns) -> Estimation {
    let answer = unsafe {
        tandawire_estimate(
            start_mut(first.ids),
            first.ids.len(),
            start_mut(first.hashes),
            first.hashes.len(),
            start_mut(first.counts),
            first.counts.len(),
            start_mut(second.ids),
            second.ids.len(),
            start_mut(second.hashes),
            second.hashes.len(),
            start_mut(second.counts),
            second.counts.len(),
        )
    };
    Estimation {
        refusal: answer.refusal,
        known: answer.known,
        estimate: answer.estimate,
    }
}
