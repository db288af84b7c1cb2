//! The exported functions of the session, likewise.

use super::filters::start_mut;
use crate::sessions::memory::{Lent, Numbers, Step};

// In the archive `tandawire`. The structs are C's own.
extern "C" {
    fn tandawire_step(
        numbers: Numbers,
        table: *const u8,
        table_len: usize,
        records: *mut u8,
        records_len: usize,
        marks: *mut u8,
        marks_len: usize,
        inquired: *mut u64,
        inquired_len: usize,
        ids: *mut u64,
        ids_len: usize,
        hashes: *mut u32,
        hashes_len: usize,
        counts: *mut i64,
        counts_len: usize,
        ours: *mut u64,
        ours_len: usize,
        theirs: *mut u64,
        theirs_len: usize,
        hash: *const u8,
        hash_len: usize,
        message: *const u8,
        message_len: usize,
        out: *mut u8,
        out_len: usize,
    ) -> Step;
    fn tandawire_start_receiver(
        table: *const u8,
        table_len: usize,
        marks: *mut u8,
        marks_len: usize,
    ) -> Step;
    fn tandawire_start_sender(
        table: *const u8,
        table_len: usize,
        size: u32,
        salt: u32,
        marks: *mut u8,
        marks_len: usize,
        out: *mut u8,
        out_len: usize,
    ) -> Step;
}

// C's structs have 36 and 64 bytes.
const _: () = assert!(size_of::<Numbers>() == 36 && size_of::<Step>() == 64);

// Safety, for all below: as in library.rs.
// What is only read is taken as if it might be written to: should it be, it must show.

pub fn step(numbers: Numbers, lent: Lent) -> Step {
    unsafe {
        tandawire_step(
            numbers,
            start_mut(lent.table),
            lent.table.len(),
            start_mut(lent.records),
            lent.records.len(),
            start_mut(lent.marks),
            lent.marks.len(),
            start_mut(lent.inquired),
            lent.inquired.len(),
            start_mut(lent.ids),
            lent.ids.len(),
            start_mut(lent.hashes),
            lent.hashes.len(),
            start_mut(lent.counts),
            lent.counts.len(),
            start_mut(lent.ours),
            lent.ours.len(),
            start_mut(lent.theirs),
            lent.theirs.len(),
            start_mut(lent.hash),
            lent.hash.len(),
            start_mut(lent.message),
            lent.message.len(),
            start_mut(lent.out),
            lent.out.len(),
        )
    }
}

pub fn start_receiver(lent: Lent) -> Step {
    unsafe {
        tandawire_start_receiver(
            start_mut(lent.table),
            lent.table.len(),
            start_mut(lent.marks),
            lent.marks.len(),
        )
    }
}

pub fn start_sender(size: u32, salt: u32, lent: Lent) -> Step {
    unsafe {
        tandawire_start_sender(
            start_mut(lent.table),
            lent.table.len(),
            size,
            salt,
            start_mut(lent.marks),
            lent.marks.len(),
            start_mut(lent.out),
            lent.out.len(),
        )
    }
}
